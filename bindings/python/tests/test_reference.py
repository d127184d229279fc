"""The module against the reference of tests/reference, which is written from the definitions and
shares nothing with the library."""

import struct
import sys
import unittest
from pathlib import Path

HERE = Path(__file__).resolve().parent
sys.path[:0] = [str(HERE.parent), str(HERE.parents[2] / "tests" / "reference")]

import backwardcases
import builders
import cases
import convertcases
import damping
import partcases
import raisecases
import reference
import search
import searchcases
import swaycases

import polgamir


def single(bits):
    """The float of a single's bits."""
    return struct.unpack("<f", struct.pack("<I", bits))[0]


def damping_of(weight):
    if isinstance(weight, damping.Ratio):
        return polgamir.Ratio(single(*weight))
    if isinstance(weight, damping.Peaks):
        return polgamir.Peaks(*map(single, weight))
    return polgamir.Weight(weight)


def axis_of(axis):
    moves = isinstance(axis.target, reference.State)
    return polgamir.Axis(polgamir.RestPoint(*axis.start), axis.speed_limit, axis.acceleration_limit, axis.half_period,
                         damping_of(axis.second_weight), (polgamir.Moving if moves else polgamir.Fixed)(*axis.target),
                         axis.second_half_period)


def job_of(case):
    axes = {bit: axis_of(axis) for bit, axis in enumerate(case.axes) if case.mask >> bit & 1}
    windows = case.windows and polgamir.Windows(case.windows.dwell,
                                                [polgamir.Window(*pair) for pair in case.windows.pairs])
    return polgamir.Job(axes, case.asked, windows)


def fields(refusal):
    return reference.Answer(int(refusal.number), refusal.place, refusal.mask, refusal.arrival)


def found(case, backwards=False):
    """The answer and the cells of a case."""
    try:
        if case.words is not None:
            plan = (polgamir.plan_words_backwards if backwards else polgamir.plan_words)(case.words)
        else:
            plan = job_of(case).plan_backwards() if backwards else job_of(case).plan()
    except polgamir.Refusal as refusal:
        return fields(refusal), []
    return (0, 0, plan.mask, plan.arrival), plan.cells.tolist()


def parted(case, rows):
    """The answer, the number of rows and the cells of a part of so many rows at most."""
    one = case.job
    try:
        if one.words is not None:
            part = polgamir.plan_words_part(one.words, case.first, rows)
        else:
            part = job_of(one).part(case.first, rows)
    except polgamir.Refusal as refusal:
        return fields(refusal), 0, []
    ticks = [row.tick for row in part]
    assert ticks == list(range(case.first, case.first + len(part))), ticks
    return (0, 0, part.mask, part.arrival), len(part), part.cells.tolist()


def searched(case):
    """What a search gives, as the reference reports it."""
    one = case.job
    try:
        if one.words is not None:
            report = polgamir.search_words(one.words, case.first, case.budget)
        else:
            report = job_of(one).search(case.first, case.budget)
    except polgamir.Refusal as refusal:
        return fields(refusal)
    if report.arrival is not None:
        return search.Found(report.arrival, report.tried)
    return search.Nothing(report.tried) if report.next is None else search.Spent(report.next, report.tried)


def raises_of(case):
    """The answer and the raises of a case, as the reference gives them."""
    found = polgamir.raises_words(case.words) if case.words is not None else job_of(case).raises()
    letters = {polgamir.Limit.ACCELERATION: "M", polgamir.Limit.SPEED: "L"}
    axes = [(axis, [(letters[raised.limit], raised.by) for raised in raises]) for axis, raises in found.axes.items()]
    refusal = found.refusal
    if refusal is None:
        return (0, 0, 0, found.arrival), axes
    return (int(refusal.number), refusal.place, refusal.mask, refusal.arrival), axes


def tour_of(case):
    def chosen(values):
        return {bit: value for bit, value in enumerate(values) if case.tour.mask >> bit & 1}
    axes = {bit: polgamir.TourAxis(*axis[:4], damping_of(axis.second_weight), axis.second_half_period)
            for bit, axis in chosen(case.tour.axes).items()}
    return polgamir.Tour(axes, [polgamir.Stop(chosen(stop.positions), stop.dwell) for stop in case.tour.stops])


class AgainstTheReference(unittest.TestCase):
    def agree(self, group, backwards=False):
        for case in group.cases:
            if case.words is None and not case.mask < 64:
                continue  # a job has no such axis
            outcome = backwardcases.turned if backwards else builders.outcome
            expected, table = outcome(case, [0] * polgamir.MOST_CELLS)
            answer, cells = found(case, backwards)
            self.assertEqual(answer, tuple(expected), case.name)
            self.assertEqual(cells, table[:len(cells)], case.name)

    def test_drawn_jobs(self):
        self.agree(cases.drawn(seed=71, count=40))

    def test_drawn_windows(self):
        self.agree(cases.drawn_windows(seed=72, count=25))

    def test_drawn_damping(self):
        self.agree(cases.drawn_damping(seed=73, count=25))

    def test_rails(self):
        self.agree(cases.rails())
        self.agree(cases.drawn_rails(seed=75, count=20))

    def test_second_sways(self):
        self.agree(swaycases.sways())
        self.agree(swaycases.drawn_sways(seed=76, count=30))

    def test_raises(self):
        for case in raisecases.raises_cases().cases + raisecases.drawn_raises().cases:
            answer, axes = raisecases.raised(case)
            mask = answer.mask if answer.number else 0  # an accepted job's own is not handed on
            expected = (answer.number, answer.place, mask,
                        answer.arrival), [(axis, list(map(tuple, raises))) for axis, raises in axes]
            self.assertEqual(raises_of(case), expected, case.name)

    def test_backwards(self):
        self.agree(backwardcases.drawn_backwards(seed=75, count=12), backwards=True)

    def test_parts(self):
        for case in partcases.part_cases() + partcases.drawn_parts(seed=77, count=30):
            one = case.job
            if one.words is None and not one.mask < 64:
                continue  # a job has no such axis
            mask = one.words[0] % 64 if one.words else one.mask
            width = 3 * bin(mask).count("1")
            rows = one.lent // width if width else 4
            expected = partcases.parted(case, [0] * (width * rows))
            answer, count, cells = parted(case, rows)
            self.assertEqual((answer, count), (tuple(expected.answer), expected.rows), one.name)
            self.assertEqual(cells, expected.cells[: len(cells)], one.name)
            self.assertEqual(len(cells), width * count if answer[0] == 0 else 0, one.name)

    def test_rows_in_parts(self):
        for case in backwardcases.drawn_backwards(seed=78, count=30).cases:
            if case.words is not None:
                continue
            job = job_of(case)
            try:
                plan = job.plan()
            except polgamir.Refusal as refusal:
                with self.assertRaises(polgamir.Refusal) as caught:
                    next(job.rows_in_parts())
                self.assertEqual(fields(caught.exception), fields(refusal))
                continue
            for rows in (1, 7, 16, 5000):
                self.assertEqual(list(job.rows_in_parts(rows)), list(plan), case.name)
        with self.assertRaisesRegex(ValueError, "rows"):
            next(job.rows_in_parts(0))

    def test_searches(self):
        for case in searchcases.refused() + searchcases.drawn_searches(seed=76, count=16):
            if case.job.words is None and not case.job.mask < 64:
                continue
            self.assertEqual(searched(case), searchcases.searched(case), case.job.name)

    def test_conversions(self):
        for case in convertcases.converted() + convertcases.copied() + convertcases.refused():
            expected, words = convertcases.convert(case.words, [0] * 90)  # the module lends enough words
            try:
                converted = polgamir.convert_words(case.words)
                self.assertEqual((0, list(converted)), (expected.number, words[:expected.place]), case.name)
            except polgamir.Refusal as refusal:
                self.assertEqual((int(refusal.number), refusal.place), (expected.number, expected.place), case.name)

    def test_drawn_tours(self):
        for case in cases.drawn_tours(seed=74, count=30) + swaycases.tours() + swaycases.drawn_sway_tours():
            if len(case.lent) < len(case.tour.stops):
                continue  # the module lends a list that is long enough
            if not 0 < case.tour.mask < 64:
                continue
            try:
                schedule = tour_of(case).schedule()
                answer = (0, schedule.total, list(schedule.arrivals))
            except polgamir.Refusal as refusal:
                answer = (int(refusal.number), refusal.place, refusal.mask)
            if case.answer.number == 0:
                expected = (0, case.answer.total, case.left[:len(case.tour.stops)])
            else:
                expected = (case.answer.number, case.answer.place, case.answer.mask)
            self.assertEqual(answer, expected, case.name)


if __name__ == "__main__":
    unittest.main()
