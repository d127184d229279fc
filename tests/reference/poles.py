#!/usr/bin/env python3
"""The sway that a table leaves on a pole as it was entered, worked out apart
from the product: the table and its exact blends by `reference.py`, the pole by
Duhamel's integral in fifty decimal digits.

    python3 tests/reference/poles.py

prints for three poles, whose damping no whole weight fits and one of whose half
periods no whole tick, what the table leaves on the pole as entered, what the
rounding of half period, damping and cells leaves by itself, and what the table
leaves on the pole that it is planned for.
bindings/rust/polgamir-cli/tests/poles.rs holds `polgamir report` to them.
"""

from decimal import Decimal, getcontext
from fractions import Fraction
from typing import List

from damping import Peaks, Ratio, single, weight_of
from reference import Axis, RestPoint, blended, finer, plan_axis, reachable, row_cells, weights

getcontext().prec = 50
PI = Decimal('3.14159265358979323846264338327950288419716939937510')
PARTS = 400                     # of a half period, at which the free swing is looked at


def decimal(x: Fraction) -> Decimal:
    return Decimal(x.numerator) / Decimal(x.denominator)


def cosine_sine(x: Decimal):
    """By their series, after halving the angle often enough."""
    halved = x / 64
    cosine, sine, term, n = Decimal(1), Decimal(0), Decimal(1), 0
    while abs(term) > Decimal(10) ** -48 or n < 4:
        n += 1
        term = term * halved / n
        if n % 2:
            sine += term if n % 4 == 1 else -term
        else:
            cosine += term if n % 4 == 0 else -term
    for _ in range(6):
        cosine, sine = cosine * cosine - sine * sine, 2 * sine * cosine
    return cosine, sine


class Pole:
    """An oscillator that swings over in a half period of ticks and whose swing
    shrinks to a ratio in that time."""

    def __init__(self, half_period: Decimal, ratio: Decimal):
        self.half_period = half_period
        self.rate, self.decay = PI / half_period, -ratio.ln() / half_period
        self.stiffness = self.rate ** 2 + self.decay ** 2

    def after(self, time: Decimal) -> Decimal:
        """How far it still is from its new rest, a time after the acceleration
        grew by 1, in parts of the way there."""
        cosine, sine = cosine_sine(self.rate * time)
        return (-self.decay * time).exp() * (cosine + self.decay / self.rate * sine)

    def left(self, accelerations: List[Fraction]) -> Decimal:
        """The greatest distance from rest from the last row on, over a half
        period in small steps; later swings are smaller."""
        changes = [decimal(now - before) for before, now in zip([Fraction(0)] + accelerations, accelerations)]
        last = len(accelerations) - 1
        greatest = Decimal(0)
        # after(t + u) is linear in its values and slopes at t: two sums do for all u.
        value = sum(change * self.after(Decimal(last - k)) for k, change in enumerate(changes) if change)
        quarter = self.half_period / 2
        ahead = sum(change * self.after(last - k + quarter) for k, change in enumerate(changes) if change)
        # Free: e^(-du) (value cos wu + c sin wu), and at u = h/2 the cosine is 0.
        c = ahead * (self.decay * quarter).exp()
        for part in range(PARTS + 1):
            u = self.half_period * part / PARTS
            cosine, sine = cosine_sine(self.rate * u)
            greatest = max(greatest, abs((-self.decay * u).exp() * (value * cosine + c * sine)))
        return greatest / self.stiffness


def told(name: str, damping, ratio: Fraction, half_period: Fraction = Fraction(27)):
    weight = weight_of(damping)
    axis = Axis(RestPoint(420, 0), 25, 3, 27, weight, RestPoint(-437, 0))
    arrival = next(n for n in range(1, 4097) if reachable(axis, n))
    plan = plan_axis(axis, arrival)
    cells = [Fraction(row_cells(axis, plan, k)[2], 256) for k in range(arrival + 1)]
    exact = [Fraction(blended(axis, plan, k)[2], 256 * weights(axis) * finer(axis)) for k in range(arrival + 1)]
    added = [cell - blend for cell, blend in zip(cells, exact)]
    planned_ratio = Fraction(weight, 256 - weight)
    entered, planned = Pole(decimal(half_period), decimal(ratio)), Pole(Decimal(27), decimal(planned_ratio))
    print('%s: weight %d, arrival %d' % (name, weight, arrival))
    for what, pole, accelerations in [
            ('the table, on the pole as entered', entered, cells),
            ('by rounding the half period', Pole(decimal(half_period), decimal(planned_ratio)), exact),
            ('by rounding the damping', Pole(Decimal(27), decimal(ratio)), exact),
            ('by rounding the cells', entered, added),
            ('the table, on the pole that it is planned for', planned, cells),
            ('the exact plan, on that pole', planned, exact)]:
        print('  %-47s %.6f' % (what, pole.left(accelerations)))


if __name__ == '__main__':
    told('peaks 41.5 36.2', Peaks(single(41.5), single(36.2)), Fraction(362, 415))
    told('shrinks 0.98', Ratio(single(0.98)), Fraction(98, 100))
    told('shrinks 0.98, half period 26.75 ticks', Ratio(single(0.98)), Fraction(98, 100), Fraction(107, 4))
