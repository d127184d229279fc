"""The bound on the sway that a table leaves: numbers worked out by hand, and poles that
are swung by the table itself."""

import doctest
import math
import random
import sys
import unittest
from decimal import Decimal
from fractions import Fraction
from pathlib import Path

HERE = Path(__file__).resolve().parent
sys.path[:0] = [str(HERE), str(HERE.parent), str(HERE.parents[2] / "tests" / "reference")]

import cases
import misfit
from polgamir import (Axis, Fixed, Job, Moving, Refusal, RestPoint, SwayLeft, Weight, acceleration_changes,
                      misfit_bound,
                      second_sway_bound, sway_bound, sway_left, sways)
from test_reference import axis_of, damping_of


def on_pole(half_period, weight, second=None, target=Fixed(4), acceleration_limit=1, speed_limit=10):
    return Axis(RestPoint(0), speed_limit, acceleration_limit, half_period, Weight(weight), target, second)


def greatest_left(accelerations, half_period, ratio):
    """How far the top of an oscillator is from where it comes to rest, at most, over a period from
    the arrival on: the sum of what each change of acceleration c leaves at a time t after it, c/s
    e^(-dt) (cos wt + d/w sin wt), with s = w**2 + d**2."""
    w, d = math.pi / half_period, -math.log(ratio) / half_period
    changes = [after - before for before, after in zip([0, *accelerations], accelerations)]

    def left(time):
        ages = ((change, time - tick) for tick, change in enumerate(changes) if change)
        return sum(c * math.exp(-d * t) * (math.cos(w * t) + d / w * math.sin(w * t))
                   for c, t in ages) / (w * w + d * d)

    arrival = len(changes) - 1
    return max(abs(left(arrival + 2 * half_period * point / 60)) for point in range(60))


class ByHand(unittest.TestCase):
    def test_changes_are_counted_on_the_grid(self):
        accelerating = Moving(0, 0, -1, 0)
        self.assertEqual(acceleration_changes(on_pole(9, 100)), 4 * 256 + 2)
        self.assertEqual(acceleration_changes(on_pole(9, 100, 3)), 4 * 512 + 2)
        self.assertEqual(acceleration_changes(on_pole(9, 128, target=accelerating)), 5 * 256 + 2)
        self.assertEqual(acceleration_changes(on_pole(9, 100, target=accelerating)), 5 * 65536 + 2)

    def test_the_sway_left_is_rounded_upward(self):
        self.assertEqual(sway_left(on_pole(0, 128), 4, 768, 3), (3078, 3090))
        self.assertEqual(sway_left(on_pole(0, 128), 4, 1, 1), (5, 9))
        self.assertEqual(sway_left(on_pole(0, 128), 4, 0, 5), SwayLeft(exact=0, rounded=20))
        self.assertEqual(sway_left(on_pole(2, 100, 3), 4, 1024, 1), (2050, 2054))

    def test_misfits_are_those_of_the_errors(self):
        third = Fraction(-1, 3)  # a ratio of 2/3 in place of 1 has the weight 102.4 in place of 128
        self.assertEqual(misfit_bound(on_pole(10, 128), 1, 0, 100, 31), 128 * 31)
        self.assertEqual(misfit_bound(on_pole(10, 128), Decimal(-1), 0, 100, 31), 128 * 31)
        self.assertEqual(misfit_bound(on_pole(10, 128), 1.0, third, 100, 31), 128 * 31 + 5120)
        self.assertEqual(misfit_bound(on_pole(10, 128, 7), 1, third, 100, 31), 2 * (128 * 31 + 5120))
        self.assertEqual(misfit_bound(on_pole(10, 100), Fraction(1, 7), 0, 100, 31), -(-156 * 31 // 7))
        self.assertEqual(misfit_bound(on_pole(10, 128), 400, 0, 100, 31), 25600)

    def test_no_bound_without_a_pole(self):
        pole = on_pole(10, 100)
        for wrong, field in [
            (lambda: sway_bound(pole, 60, -10), "half_period_error"),
            (lambda: sway_bound(pole, 60, 503), "half_period_error"),
            (lambda: sway_bound(pole, 60, 0, 0.36), "ratio_error"),
            (lambda: sway_bound(pole, 60, 0, Fraction(-25, 39)), "ratio_error"),
            (lambda: sway_bound(pole, 4097, 0), "arrival"),
            (lambda: second_sway_bound(pole, 60, 0), "axis.second_half_period"),
            (lambda: sway_bound(on_pole(10, 129), 60, 0), "axis.damping.second_weight"),
            (lambda: sway_bound(on_pole(10, 100, acceleration_limit=65537), 60, 0), "axis.acceleration_limit"),
            (lambda: sway_left(pole, 60, -1, 0), "misfit"),
        ]:
            with self.assertRaisesRegex(ValueError, f"^{field}: expected"):
                wrong()
        with self.assertRaisesRegex(TypeError, "^half_period_error: expected a number"):
            sway_bound(pole, 60, "much")
        with self.assertRaisesRegex(TypeError, "^half_period_error: expected a number"):
            sway_bound(pole, 60, math.nan)

    def test_the_documented_example(self):
        tried = doctest.testmod(sways)
        self.assertEqual((tried.failed, tried.attempted > 0), (0, True))


class Measured(unittest.TestCase):
    def test_the_weight_is_that_of_the_reference(self):
        for _, given, weight in [*cases.weights(), *cases.drawn_weights(34, 300)]:
            if weight is None:
                with self.assertRaisesRegex(ValueError, "axis.damping"):
                    sways._weight(damping_of(given))
            else:
                self.assertEqual(sways._weight(damping_of(given)), weight)


class AgainstTheReference(unittest.TestCase):
    """The numbers are the reference's fractions, rounded upward."""

    def test_drawn_axes(self):
        drawn, tried = random.Random(25), 0
        for rows in misfit.drawn_rows(drawn, 70):
            axis, n = axis_of(rows.axis), rows.arrival
            self.assertEqual(acceleration_changes(axis), misfit.most_changes(rows.axis))
            e, g, d = drawn.randint(0, 10**9), drawn.randint(0, 10**6), drawn.randint(0, 10**6)
            self.assertEqual(sway_left(axis, n, e, g), tuple(map(math.ceil, misfit.left(rows.axis, n, e, g))))
            late, more = Fraction(drawn.randint(-99, 99), 30), Fraction(-drawn.randint(0, 99), 400)
            ratio = Fraction(rows.axis.second_weight, 256 - rows.axis.second_weight)
            pole = misfit.Pole(rows.axis.half_period + late, ratio + more)
            if pole.half_period > 0 and pole.ratio > 0:
                self.assertEqual(misfit_bound(axis, late, more, g, d),
                                 math.ceil(misfit.pole_misfit(rows.axis, pole, g, d)))
                self.assertEqual(sway_bound(axis, n, late, more), misfit.pole_left(rows.axis, n, pole))
                tried += 1
            second = misfit.Pole((axis.second_half_period or 0) + late, 1 + more, second=True)
            if axis.second_half_period and second.half_period > 0:
                self.assertEqual(second_sway_bound(axis, n, late, more), misfit.pole_left(rows.axis, n, second))
                tried += 1
        self.assertGreater(tried, 50)


class Poles(unittest.TestCase):
    def test_no_pole_exceeds_the_bound(self):
        drawn, tried = random.Random(34), 0
        for _ in range(120):
            second = drawn.choice([None, drawn.randint(1, 20)])
            target = drawn.choice([Fixed(drawn.randint(-900, 900)),
                                   Moving(drawn.randint(-300, 300), 0, 0 if second else 1, drawn.randint(0, 90))])
            axis = on_pole(drawn.randint(0, 20), drawn.choice([128, drawn.randint(1, 128)]), second, target,
                           drawn.randint(1, 9), drawn.randint(1, 90))
            late, more = Fraction(drawn.randint(-99, 99), 30), Fraction(-drawn.randint(0, 99), 400)
            try:
                plan = Job({0: axis}).plan()
                bounds = [(sway_bound(axis, plan.arrival, late, more), axis.half_period + late,
                           Fraction(axis.damping.second_weight, 256 - axis.damping.second_weight) + more)]
                if second and second + late > 0:
                    bounds.append((second_sway_bound(axis, plan.arrival, late, more), second + late, 1 + more))
            except (Refusal, ValueError):
                continue
            for bound, half_period, ratio in bounds:
                left = greatest_left(plan.accelerations(0).tolist(), float(half_period), float(ratio))
                self.assertLessEqual(left, bound.rounded)
                tried += 1
        self.assertGreater(tried, 50)


if __name__ == "__main__":
    unittest.main()
