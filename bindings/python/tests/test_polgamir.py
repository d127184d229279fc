"""Tests of the module: the field cases, refusals, buffers, and every struct,
call and number of the header."""

import doctest
import inspect
import math
import re
import shutil
import subprocess
import sys
import tempfile
import threading
import unittest
import zipfile
from pathlib import Path

HERE = Path(__file__).resolve().parent
sys.path.insert(0, str(HERE.parent))
REPOSITORY = HERE.parents[2]

import polgamir
from polgamir import _loader, _structs, refusals
from polgamir import (Axis, Fixed, Job, Limit, Motion, Moving, Number, Peaks, Ratio, Refusal, RestPoint, Schedule,
                      Searched, Stop, Tour, TourAxis,
                      Weight, Window, Windows)


def field_axis(target, **changes):
    """The axis of the field cases: L = 10, M = 1, h = 0, B = 128, from 0 at rest."""
    said = dict(start=RestPoint(0), speed_limit=10, acceleration_limit=1, half_period=0, damping=Weight(128),
                target=target)
    return Axis(**{**said, **changes})


def to(position, asked=None, **changes):
    return Job({0: field_axis(Fixed(position), **changes)}, asked)


class FieldCases(unittest.TestCase):
    """Tables and refusals of the field cases."""

    def columns(self, job):
        plan = job.plan()
        return plan.arrival, plan.positions(0).tolist(), plan.velocities(0).tolist(), plan.accelerations(0).tolist()

    def refused(self, job):
        with self.assertRaises(Refusal) as caught:
            job.plan()
        refusal = caught.exception
        return int(refusal.number), refusal.place, refusal.mask, refusal.arrival

    def test_a(self):
        self.assertEqual(self.columns(to(5, start=RestPoint(5))), (1, [1280, 1280], [0, 0], [0, 0]))

    def test_b_and_e(self):
        self.assertEqual(self.columns(to(4))[:2], (4, [0, 128, 512, 896, 1024]))
        self.assertEqual(self.refused(to(4, 3)), (8, 0, 1, 0))

    def test_c(self):
        plan = to(1, 4).plan()
        rows = [[0, 0, 86], [43, 86, -1], [129, 85, 0], [214, 85, -85], [256, 0, 0]]
        self.assertEqual(plan.table.tolist(), [[row] for row in rows])
        words = "10000001 20000004 30000000 40000000 5000000A 60000001 70000000 80000080 90000001 A0000000 F0000000"
        self.assertEqual(polgamir.plan_words([int(word, 16) for word in words.split()]), plan)

    def test_d(self):
        expected = (3, [0, 64, 192, 256], [0, 128, 128, 0], [128, 0, -128, 0])
        self.assertEqual(self.columns(to(1, half_period=1)), expected)

    def test_g(self):
        flying = field_axis(Moving(10, 10, 0, 39), start=RestPoint(0, 10), speed_limit=20)
        plan = Job({0: flying, 1: field_axis(Fixed(1))}, 39).plan()
        self.assertEqual((plan.arrival, plan.axes), (39, (0, 1)))

    def test_h(self):
        arrival, _, velocities, _ = self.columns(Job({0: field_axis(Moving(0, 1, 0, 0))}))
        self.assertEqual((arrival, velocities), (3, [0, 256, 384, 256]))

    def test_i_k_l(self):
        with self.assertRaises(Refusal) as caught:
            polgamir.plan_words([])
        self.assertEqual(caught.exception.number, Number.REFUSED_MASK)
        self.assertEqual(self.refused(Job({})), (1, 0, 0, 0))
        self.assertEqual(self.refused(to(1, damping=Weight(129))), (5, 0, 0, 0))
        self.assertEqual(self.refused(to(100_000_000, speed_limit=1)), (9, 0, 1, 0))

    def test_asked_arrivals_past_the_last(self):
        self.assertEqual(self.refused(to(1, 4097)), (3, 1, 0, 0))
        self.assertEqual(to(4, 0).plan(), to(4).plan())

    def test_windows(self):
        touching = Windows(2, [Window(0, 5), Window(5, 9)])
        self.assertEqual(Job({0: field_axis(Fixed(4))}, windows=touching).plan().arrival, 5)
        self.assertEqual(self.refused(Job({0: field_axis(Fixed(4))}, windows=Windows(0, []))), (13, 0, 0, 0))
        self.assertEqual(self.refused(Job({0: field_axis(Fixed(4))}, windows=Windows(0, [Window(0, 1)] * 40))),
                         (13, 32, 0, 0))

    def test_damping(self):
        by_hand = to(9, half_period=3, damping=Weight(85)).plan()
        self.assertEqual(to(9, half_period=3, damping=Ratio(0.5)).plan(), by_hand)
        self.assertEqual(to(9, half_period=3, damping=Peaks(3.0, 1.5)).plan(), by_hand)
        for wrong in (Ratio(math.nan), Ratio(0), Ratio(1.5), Ratio(1e300), Peaks(0.0, 0.0), Peaks(1.0, math.inf)):
            self.assertEqual(self.refused(to(9, damping=wrong)), (12, 0, 0, 0))

    def test_long_positions(self):
        upper, lower = 2**34 - 1, -(2**34)
        for end in (upper, lower):
            self.assertEqual(self.columns(to(end, start=RestPoint(end)))[:2], (1, [256 * end] * 2))
        for past in (upper + 1, lower - 1):
            self.assertEqual(self.refused(to(past)), (6, 0, 0, 0))
        head, tail = [0x10000001, 0x20000000], [0xA0000000, 0xF0000000]
        middle = [0x40000000, 0x5000000A, 0x60000001, 0x70000000, 0x80000080]
        words = head + [0xE0000000, 0x38000000] + middle + [0xE0000000, 0x98000000] + tail
        self.assertEqual(polgamir.plan_words(words).positions(0).tolist(), [256 * 2**27] * 2)
        words[3] -= 1  # this position fits a single word
        with self.assertRaises(Refusal) as caught:
            polgamir.plan_words(words)
        self.assertEqual((caught.exception.number, caught.exception.place), (Number.REFUSED_LONG_POSITION, 2))

    def test_second_sways(self):
        expected = (5, [0, 39, 103, 167, 231, 256], [0, 78, 50, 78, 50, 0], [78, -28, 28, -28, -50, 0])
        self.assertEqual(self.columns(to(1, half_period=1, damping=Weight(100), second_half_period=2)), expected)
        for wrong in (0, 257):
            self.assertEqual(self.refused(to(1, second_half_period=wrong)), (15, 0, 0, 0))
        self.assertEqual(self.refused(Job({2: field_axis(Moving(0, 0, 1, 0), second_half_period=1)})), (16, 2, 0, 0))

    def test_arrival_found(self):
        self.assertEqual(to(4).arrival_found(), 4)
        with self.assertRaises(Refusal):
            to(4, 3).arrival_found()


class RaisedLimits(unittest.TestCase):
    """The least raises of limits: that of case E, and small ones worked out by hand."""

    def raises(self, asked, position, **changes):
        return Job({3: field_axis(Fixed(position), **changes)}, asked).raises()

    def test_raises(self):
        more, faster = Limit.ACCELERATION, Limit.SPEED
        self.assertEqual(self.raises(3, 4).axes, {3: ((more, 1),)})
        self.assertEqual(self.raises(6, 9, speed_limit=2).axes, {3: ((more, 1), (faster, 1))})
        moving = dict(start=RestPoint(0, 2), speed_limit=3)
        found = self.raises(8, 22, **moving)
        self.assertEqual(found.axes, {3: ((faster, 1), (more, 2))})
        self.assertEqual((found.arrival, found.refusal.number, found.refusal.axes), (None, 8, (3,)))
        self.assertEqual(self.raises(3, 4, half_period=3).axes, {3: ()})
        for raised in found.axes[3]:
            self.assertEqual(Job({3: raised.applied(field_axis(Fixed(22), **moving))}, 8).arrival_found(), 8)

    def test_other_answers(self):
        self.assertEqual(self.raises(4, 4), (4, None, {}))
        found = polgamir.raises_words([])
        self.assertEqual((found.arrival, found.refusal.number, found.axes), (None, 1, {}))


class Searches(unittest.TestCase):
    """Reports, numbers tried and refusals of request 2.12; the axis reaches
    tick 4 and every later one."""

    def test_reports(self):
        self.assertEqual(to(4).search(1, 4096), Searched(4, None, 4))
        self.assertEqual(to(4, 4097).search(1, 3), Searched(None, 4, 3))
        self.assertEqual(to(4).search(4, 0), Searched(None, 4, 0))
        self.assertEqual(to(4).search(4097, 2**32 - 1), Searched(None, None, 0))
        self.assertEqual(to(100_000_000, speed_limit=1).search(4096, 1), Searched(None, None, 1))
        fitting = Job({0: field_axis(Fixed(4))}, windows=Windows(0, [Window(7, 9)]))
        self.assertEqual((fitting.search(1, 6), fitting.search(7, 1)), (Searched(None, 7, 6), Searched(7, None, 1)))

    def test_in_parts(self):
        job, first, tried = to(2050, half_period=30), 1, 0
        while first is not None:
            part = job.search(first, 25)
            first, tried = part.next, tried + part.tried
        self.assertEqual((part.arrival, tried), (job.arrival_found(), job.arrival_found()))

    def test_refusals(self):
        words = [0x10000001, 0x20000004, 0x30000000, 0x40000000, 0x5000000A, 0x60000001, 0x70000000, 0x80000080,
                 0x90000001, 0xA0000000,
                 0xF0000000]
        self.assertEqual(polgamir.search_words(words, 1, 9), Searched(2, None, 2))
        for first in (0, 4098):
            for search in (lambda: to(4).search(first, 9), lambda: polgamir.search_words(words, first, 9)):
                with self.assertRaises(Refusal) as caught:
                    search()
                self.assertEqual((caught.exception.number, caught.exception.place), (Number.REFUSED_FIRST_CANDIDATE, 0))
        self.assertRaises(ValueError, to(4).search, -1, 9)
        self.assertRaises(ValueError, to(4).search, 1, 2**32)


class Backwards(unittest.TestCase):
    """Rows from arrival backwards: case C's rows, the last first."""

    ROWS = [[0, 0, 86], [43, 86, -1], [129, 85, 0], [214, 85, -85], [256, 0, 0]]

    def test_rows(self):
        words = [0x10000001, 0x20000004, 0x30000000, 0x40000000, 0x5000000A, 0x60000001, 0x70000000, 0x80000080,
                 0x90000001, 0xA0000000,
                 0xF0000000]
        for plan in (to(1, 4).plan_backwards(), polgamir.plan_words_backwards(words)):
            self.assertEqual((plan.backwards, plan.arrival), (True, 4))
            self.assertEqual(plan.table.tolist(), [[row] for row in reversed(self.ROWS)])
            self.assertEqual(plan.cells.tolist(), [cell for row in reversed(self.ROWS) for cell in row])
            self.assertEqual(plan.positions(0).tolist(), [row[0] for row in self.ROWS])
            self.assertEqual([row.tick for row in plan], [0, 1, 2, 3, 4])
            self.assertEqual(plan[4].motions[0], Motion(256, 0, 0))

    def test_refusals(self):
        with self.assertRaises(Refusal) as caught:
            to(4, 3).plan_backwards()
        self.assertEqual((caught.exception.number, caught.exception.axes), (8, (0,)))
        self.assertRaises(Refusal, polgamir.plan_words_backwards, [])


class Conversions(unittest.TestCase):
    """Case F in words: L = 20, M = 1, from 0 at velocity 10, to a fixed target at 10 with velocity
    10."""

    def words(self, asked):
        return [0x10000001, 0x20000000 + asked, 0x30000000, 0x4000000A, 0x50000014, 0x60000001, 0x70000000, 0x80000080,
                0x9000000A,
                0xA000000A, 0xF0000000]

    def test_case_f(self):
        for asked, number in ((1, 0), (2, 8), (38, 8), (39, 0)):
            converted = polgamir.convert_words(self.words(asked))
            self.assertEqual(list(converted), self.words(asked)[:10] + [0xB0000000, 0xC0000000 + asked, 0xF0000000])
            if number == 0:
                self.assertEqual(polgamir.plan_words(converted).arrival, asked)
            else:
                with self.assertRaises(Refusal) as caught:
                    polgamir.plan_words(converted)
                self.assertEqual(caught.exception.number, number)

    def test_refusals(self):
        with self.assertRaises(Refusal) as caught:
            polgamir.convert_words(self.words(0))
        self.assertEqual((caught.exception.number, caught.exception.place), (Number.REFUSED_FLYING_TARGET, 0))
        self.assertRaises(Refusal, polgamir.plan_words, self.words(39))


class Tours(unittest.TestCase):
    AXIS = TourAxis(start=0, speed_limit=10, acceleration_limit=1, half_period=0, damping=Weight(128))

    def test_schedule_and_legs(self):
        tour = Tour({0: self.AXIS}, [Stop({0: 4}, 5), Stop({0: 4}), Stop({0: 0}, 7)])
        self.assertEqual(tour.schedule(), Schedule((4, 10, 14), 21))
        self.assertEqual([tour.leg(index).plan().arrival for index in range(3)], [4, 1, 4])
        self.assertEqual(tour.leg(2).plan().positions(0).tolist(), [1024, 896, 512, 128, 0])
        self.assertRaises(IndexError, tour.leg, 3)
        self.assertEqual(Tour({}, []).schedule(), Schedule((), 0))

    def test_refusals(self):
        with self.assertRaises(Refusal) as caught:
            Tour({0: self.AXIS}, [Stop({0: 4}), Stop({0: 100_000_000})]).schedule()
        self.assertEqual((caught.exception.number, caught.exception.place, caught.exception.axes), (9, 1, (0,)))
        with self.assertRaises(Refusal) as caught:
            Tour({0: self.AXIS}, [Stop({0: 0})] * 65).schedule()
        self.assertEqual((caught.exception.number, caught.exception.place), (Number.REFUSED_STOPS, 64))
        with self.assertRaises(ValueError):
            Tour({0: self.AXIS}, [Stop({1: 4})]).schedule()


class Tables(unittest.TestCase):
    def setUp(self):
        axes = {1: field_axis(Fixed(30), half_period=3), 4: field_axis(Moving(-9, 1, 0, 2), half_period=2)}
        self.plan = Job(axes).plan()

    def test_rows(self):
        plan = self.plan
        self.assertEqual((plan.axes, plan.mask, len(plan)), ((1, 4), 0b10010, plan.arrival + 1))
        self.assertEqual([row.tick for row in plan], list(range(len(plan))))
        self.assertEqual(plan.motion(1, plan.arrival), Motion(30 * 256, 0, 0))
        self.assertEqual(plan[-1], plan[plan.arrival])
        self.assertRaises(IndexError, plan.__getitem__, len(plan))
        self.assertRaises(KeyError, plan.positions, 0)
        flat = [cell for row in plan for motion in row.motions.values() for cell in motion]
        self.assertEqual(flat, plan.cells.tolist())
        self.assertEqual([row[1][2] for row in plan.table.tolist()], plan.accelerations(4).tolist())

    def test_positions_have_their_ends(self):
        """A head that starts away from its target goes past its start: from velocity -3 by
        one a tick it turns at -4.5."""
        away = Axis(start=RestPoint(0, -3), speed_limit=10, acceleration_limit=1, half_period=0, damping=Weight(128),
                    target=Fixed(1))
        plan = Job({0: away}).plan()
        self.assertEqual(plan.position_range(0), (-9 * 128, 256))
        self.assertEqual(Job({0: away}).plan_backwards().position_range(0), plan.position_range(0))
        self.assertRaises(KeyError, plan.position_range, 1)

    def test_buffers_are_shared_and_read_only(self):
        plan = self.plan
        for buffer in (plan.cells, plan.table, plan.velocities(4)):
            self.assertTrue(buffer.readonly)
            self.assertEqual((buffer.format, buffer.itemsize), ("q", 8))
        self.assertEqual(plan.table.shape, (plan.arrival + 1, 2, 3))

    def test_numpy_reads_without_a_copy(self):
        try:
            import numpy
        except ImportError:
            self.skipTest("numpy is not installed")
        table, velocities = numpy.asarray(self.plan.table), numpy.asarray(self.plan.velocities(4))
        self.assertTrue(numpy.shares_memory(table, velocities))
        self.assertTrue((table[:, 1, 1] == velocities).all())
        self.assertEqual((table.dtype, table.shape), (numpy.int64, self.plan.table.shape))

    def test_units(self):
        self.assertEqual(polgamir.in_units(self.plan.motion(1, self.plan.arrival).position), 30.0)

    def test_threads(self):
        found = []
        job = Job({0: field_axis(Fixed(500), half_period=20), 3: field_axis(Fixed(-77))})
        threads = [threading.Thread(target=lambda: found.append(job.plan())) for _ in range(8)]
        for thread in threads:
            thread.start()
        for thread in threads:
            thread.join()
        self.assertEqual(found, [job.plan()] * 8)


class Inputs(unittest.TestCase):
    """What a field of the header cannot hold is turned down, and never cut to fit."""

    def test_numbers_that_do_not_fit(self):
        for wrong in (to(2**63), to(1, -1), to(1, 2**32), to(1, speed_limit=-1), to(1, half_period=2**32),
                      to(1, damping=Weight(-1))):
            self.assertRaises(ValueError, wrong.plan)
        self.assertRaises(ValueError, Job({6: field_axis(Fixed(1))}).plan)
        self.assertRaises(ValueError, polgamir.plan_words, [2**32])

    def test_other_types(self):
        for wrong in (to(1.5), to(1, speed_limit="10"), to(1, damping=128), Job({0: field_axis(target=1)})):
            self.assertRaises(TypeError, wrong.plan)

    def test_errors_name_the_field(self):
        """Each wrong value, and what the error says before its colon."""
        axis, tour_axis = field_axis(Fixed(1)), TourAxis(0, 10, 1, 0, Weight(128))
        wrong = {
            "axes[0].start.position": to(1, start=RestPoint("0")),
            "axes[0].start": to(1, start=0),
            "axes[0].speed_limit": to(1, speed_limit=2.5),
            "axes[0].half_period": to(1, half_period=None),
            "axes[0].damping": to(1, damping=0.5),
            "axes[0].damping.swing_ratio": to(1, damping=Ratio("0.5")),
            "axes[0].damping.second_peak": to(1, damping=Peaks(1.0, None)),
            "axes[0].second_half_period": to(1, second_half_period="4"),
            "axes[0].target.position": to(1.5),
            "axes[0].target": Job({0: field_axis(target=1)}),
            "axes[3]": Job({3: (0, 1)}),
            "axes": Job([axis]),
            "arrival": to(1, "4"),
            "windows": Job({0: axis}, windows=[Window(0, 4)]),
            "windows.dwell": Job({0: axis}, windows=Windows("2", [Window(0, 4)])),
            "windows.windows[1]": Job({0: axis}, windows=Windows(0, [Window(0, 4), (5, 6)])),
            "windows.windows[0].closing": Job({0: axis}, windows=Windows(0, [Window(0, 4.0)])),
        }
        calls = {name: job.plan for name, job in wrong.items()}
        calls["words[1]"] = lambda: polgamir.plan_words([0x10000001, "2"])
        calls["first"] = lambda: to(1).search("1", 9)
        calls["axes[0].start.velocity"] = to(1, start=RestPoint(0, 0.5)).raises
        calls["axes[2]"] = Tour({2: axis}, []).schedule
        calls["axes[1].start"] = Tour({1: TourAxis(0.5, 10, 1, 0, Weight(128))}, []).schedule
        calls["stops[1]"] = Tour({0: tour_axis}, [Stop({0: 1}), {0: 1}]).schedule
        calls["stops[0].positions[0]"] = Tour({0: tour_axis}, [Stop({0: "1"})]).schedule
        for name, call in calls.items():
            with self.subTest(name), self.assertRaises(TypeError) as caught:
                call()
            self.assertEqual(str(caught.exception).partition(": expected ")[0], name)
        with self.assertRaises(ValueError) as caught:
            to(1, half_period=2**32).plan()
        self.assertEqual(str(caught.exception),
                         "axes[0].half_period: expected a whole number from 0 to 4294967295, found 4294967296")

    def test_refusals_as_text(self):
        with self.assertRaises(Refusal) as caught:
            to(4, 3).plan()
        refusal = caught.exception
        self.assertEqual(refusal.printed_line, "refused 8 place 0 axes 1 arrival 0")
        self.assertEqual(str(refusal), refusal.printed_line + ": " + refusal.text)
        self.assertEqual(refusal.axes, (0,))
        self.assertIn("does not have", Refusal(99).text)


class Header(unittest.TestCase):
    """Everything that include/polgamir.h declares has its place in the module."""

    TYPES = {"uint32_t": "c_uint", "int64_t": "c_long", "uint64_t": "c_ulong", "float": "c_float"}

    @classmethod
    def setUpClass(cls):
        header = (REPOSITORY / "include" / "polgamir.h").read_text()
        cls.header = re.sub(r"/\*.*?\*/", "", header, flags=re.DOTALL)

    def macro(self, name):
        return int(re.search(rf"#define POLGAMIR_{name} (\d+)", self.header).group(1))

    def test_calls(self):
        declared = set(re.findall(r"^\w+ (polgamir_\w+)\(", self.header, flags=re.MULTILINE))
        self.assertEqual(declared, set(_structs.CALLS))

    def test_structs(self):
        structs = dict(re.findall(r"typedef struct (\w+) \{(.*?)\}", self.header, flags=re.DOTALL))
        self.assertEqual(set(structs), set(_structs.STRUCTS))
        for name, body in structs.items():
            fields = re.findall(r"(\w+) (\w+)(?:\[(\w+)\])?;", body)
            expected = [(field, self.type_name(kind, count)) for kind, field, count in fields]
            found = [(field, self.name_of(kind)) for field, kind in _structs.STRUCTS[name]._fields_]
            self.assertEqual(found, expected, name)

    def type_name(self, kind, count):
        name = self.TYPES.get(kind, kind)
        return f"{name}[{self.macro(count[len('POLGAMIR_'):])}]" if count else name

    def name_of(self, kind):
        names = {struct: name for name, struct in _structs.STRUCTS.items()}
        if hasattr(kind, "_length_"):
            return f"{self.name_of(kind._type_)}[{kind._length_}]"
        return names.get(kind, kind.__name__)

    def test_numbers_and_texts(self):
        body = re.search(r"enum polgamir_number \{(.*?)\}", self.header, flags=re.DOTALL).group(1)
        numbers = {name: int(number) for name, number in re.findall(r"POLGAMIR_(\w+) = (\d+)", body)}
        self.assertEqual({number.name: int(number) for number in Number}, numbers)
        self.assertEqual([number.name for number in Number], list(numbers))
        cases = re.findall(r"case POLGAMIR_(\w+):\s*return ((?:\"[^\"]*\"\s*)+);", self.header)
        texts = {Number[name]: "".join(re.findall(r"\"([^\"]*)\"", text)) for name, text in cases}
        self.assertEqual(refusals.TEXTS, texts)

    def test_constants(self):
        constants = {"AXES": polgamir.AXES, "WINDOWS": polgamir.MOST_WINDOWS, "LATEST_ARRIVAL": polgamir.LATEST_ARRIVAL,
                     "FINE_STEPS": polgamir.FINE_STEPS, "MOST_CELLS": polgamir.MOST_CELLS,
                     "MOST_STOPS": polgamir.MOST_STOPS,
                     "LONGEST_DWELL": polgamir.LONGEST_DWELL}
        self.assertEqual({name: self.macro(name) for name in constants}, constants)
        parts = [self.macro(f"VERSION_{part}") for part in ("MAJOR", "MINOR", "PATCH")]
        self.assertEqual(polgamir.__version__, ".".join(map(str, parts)))
        self.assertEqual(polgamir.version(), 1_000_000 * parts[0] + 1_000 * parts[1] + parts[2])


class Module(unittest.TestCase):
    def test_the_documented_examples(self):
        for module in (polgamir, polgamir.jobs, polgamir.tours):
            tried = doctest.testmod(module)
            self.assertEqual((tried.failed, tried.attempted > 0), (0, True), module.__name__)

    def test_everything_public_is_documented(self):
        for name in polgamir.__all__:
            value = getattr(polgamir, name)
            if isinstance(value, type) or inspect.isfunction(value):
                self.assertTrue(value.__doc__, name)

    def said(self, **variables):
        """What a program prints that asks for the library's version, with these variables."""
        code = ("import polgamir\ntry:\n    print(polgamir.version())\n"
                "except polgamir.LibraryError as error:\n    print(error)")
        run = subprocess.run([sys.executable, "-c", code], cwd=HERE.parent, env=variables, capture_output=True,
                             text=True, check=True)
        return run.stdout

    def test_a_library_that_is_not_there(self):
        for variables in ({"POLGAMIR_LIB_DIR": "/no/such/folder"}, {"POLGAMIR_LIBRARY": "/no/such/file.so"}):
            self.assertIn("run `tools/library`", self.said(**variables))
            self.assertIn("/no/such/", self.said(**variables))

    def test_the_named_library_is_taken(self):
        """A library of another version, and one that does not say its version,
        are named with what is wrong."""
        compiler = shutil.which("cc")
        if not compiler:
            self.skipTest("there is no C compiler")
        with tempfile.TemporaryDirectory() as folder:
            for source, wanted in (("unsigned polgamir_version(void) { return 3001004; }", "3.1.4"),
                                   ("int other;", "no polgamir library")):
                file = Path(folder) / "libother.so"
                subprocess.run([compiler, "-shared", "-fPIC", "-x", "c", "-o", str(file), "-"], input=source, text=True,
                               check=True)
                said = self.said(POLGAMIR_LIBRARY=str(file), POLGAMIR_LIB_DIR="/no/such/folder")
                self.assertIn(str(file), said)
                self.assertIn(wanted, said)
                self.assertIn(polgamir.__version__, said)
            patched = (polgamir.version() // 1_000 * 1_000) + 999
            subprocess.run([compiler, "-shared", "-fPIC", "-x", "c", "-o", str(file), "-"], check=True, text=True,
                           input=f"unsigned polgamir_version(void) {{ return {patched}; }}")
            # the version itself would do
            self.assertIn("has no polgamir_plan_words", self.said(POLGAMIR_LIBRARY=str(file)))
            file = Path(folder) / "renamed.so"
            shutil.copy(_loader.library_file(), file)
            self.assertEqual(self.said(POLGAMIR_LIBRARY=str(file)), f"{polgamir.version()}\n")

    def test_the_repository_s_library_is_found(self):
        built = REPOSITORY / "target" / "lib" / "libpolgamir.so"
        if not built.is_file():
            self.skipTest(f"{built} is not built")
        self.assertEqual(self.said(), f"{polgamir.version()}\n")

    def test_the_wheel(self):
        """The wheel has the package and the library, is the same each time, and
        plans where it is unpacked."""
        sys.path.insert(0, str(HERE.parent / "build_backend"))
        import polgamir_wheel

        code = ("import polgamir as p; a = p.Axis(p.RestPoint(0), 10, 1, 1, p.Weight(128), p.Fixed(1)); "
                "print(p.__file__, p._loader.library_file(), p.Job({0: a}).plan().positions(0).tolist())")
        with tempfile.TemporaryDirectory() as folder:
            names = []
            for part in ("one", "two"):
                (Path(folder) / part).mkdir()
                names.append(polgamir_wheel.build_wheel(str(Path(folder) / part)))
            one, two = Path(folder) / "one" / names[0], Path(folder) / "two" / names[1]
            self.assertEqual((names[0], one.read_bytes()), (names[1], two.read_bytes()))
            site = Path(folder) / "site"
            with zipfile.ZipFile(one) as archive:
                archive.extractall(site)
                record = archive.read(f"polgamir-{polgamir.__version__}.dist-info/RECORD").decode()
                listed = {line.split(",")[0] for line in record.split()}
                self.assertEqual(listed, set(archive.namelist()))
            sources = {f"polgamir/{file.name}"
                       for file in (HERE.parent / "polgamir").glob("*.py")} | {"polgamir/py.typed"}
            self.assertLessEqual(sources, listed)
            run = subprocess.run([sys.executable, "-c", code], cwd=site, env={}, capture_output=True, text=True,
                                 check=True)
            package = site.resolve() / "polgamir"
            self.assertEqual(run.stdout, f"{package / '__init__.py'} {package / 'libpolgamir.so'} [0, 64, 192, 256]\n")

    def test_the_example_draws_or_prints(self):
        with tempfile.TemporaryDirectory() as folder:
            file = Path(folder) / "table.png"
            run = subprocess.run([sys.executable, str(HERE.parent / "examples" / "draw_table.py"), str(file)],
                                 capture_output=True, text=True)
            self.assertEqual((run.returncode, run.stderr), (0, ""))
            self.assertTrue(run.stdout.startswith("arrival 110"), run.stdout)
            self.assertTrue(file.exists() or "nothing is drawn" in run.stdout)


if __name__ == "__main__":
    unittest.main()
