#!/usr/bin/env python3
"""Writes the cases of the program `fieldcases`, with what the reference expects
of each, as its input and its expected output. README.md describes a case.

    python3 tests/reference/make_fieldcases.py
    python3 tests/reference/make_fieldcases.py --check
    python3 tests/reference/make_fieldcases.py --list

The first writes crates/fieldcases/stdin and stdout, the second says whether
these are what it would write, the third prints each case with its name.
"""

import os
import struct
import sys
from typing import List, NamedTuple, Tuple

import backwardcases
import cases
import convertcases
import partcases
import raisecases
import searchcases
from builders import UNTOUCHED, Case, axis, by_words, job, outcome, sum_of, to
from reference import Answer, decode
from search import Found, Spent
from spelledcases import in_values, in_words
from swaycases import ROWS
from tour import Stop, Tour, TourAxis, plan_tour

CRATE = os.path.join(os.path.dirname(os.path.abspath(__file__)), '../../crates/fieldcases')
BUFFER = 8192                   # the cells of the program's buffer
LIST = 13                       # the words that it lends to a conversion


class CallCase(NamedTuple):
    name: str
    call: str
    words: List[int]
    lent: int                   # cells
    first: int = 0              # of a search the first candidate, of a part the first row, of a tour the dwell
    second: int = 0             # of a search the budget, of a tour the position of its first stop


# --- What is expected ------------------------------------------------------

def shown(answer: Answer, beside: List[int], cells: List[int]) -> str:
    """The line of an outcome, with the sum over the whole buffer."""
    total = sum_of(cells + [UNTOUCHED] * (BUFFER - len(cells)))
    return ' '.join('%x' % number for number in [*answer[:4], *beside, total])


def planned(case: CallCase, one: Case) -> str:
    answer, cells = outcome(one, [UNTOUCHED] * case.lent)
    return shown(answer, [], cells)


def planned_values(case: CallCase, one: Case) -> str:
    return planned(case, in_values(one))


def backwards(case: CallCase, one: Case) -> str:
    answer, cells = backwardcases.turned(one, [UNTOUCHED] * case.lent)
    return shown(answer, [], cells)


def part(case: CallCase, one: Case) -> str:
    part = partcases.parted(partcases.PartCase(one, case.first), [UNTOUCHED] * case.lent)
    return shown(part.answer, [part.rows], part.cells)


def raises(_: CallCase, one: Case) -> str:
    """Beside the answer two raises of axis 0, each its limit and its amount."""
    answer, axes = raisecases.raised(one)
    raised = [number for x in axes if x.bit == 0 for limit, amount in x.raises
              for number in (1 if limit == 'M' else 2, amount)]
    return shown(answer, (raised + [0, 0, 0, 0])[:4], [])


def search(case: CallCase, one: Case) -> str:
    """Beside the answer the report, its tick, and the candidates tried. What the method
    leaves free is the job's mask, and as arrival the tick found or 0."""
    report = searchcases.searched(searchcases.SearchCase(one, case.first, case.second))
    if isinstance(report, Answer):
        return shown(report, [0, 0, 0], [])
    kind = 1 if isinstance(report, Found) else 2 if isinstance(report, Spent) else 0
    tick = report[0] if kind else 0
    answer = Answer(0, mask=decode(case.words).mask, arrival=tick if kind == 1 else 0)
    return shown(answer, [kind, tick, report.tried], [])


def convert(case: CallCase, _: Case) -> str:
    """Beside the answer the words that are lent. What the method leaves free is 0."""
    one = convertcases.case(case.name, case.words, LIST)
    answer = Answer(one.answer.number, one.answer.place, one.answer.mask or 0, one.answer.arrival or 0)
    return shown(answer, one.left, [])


def tour(case: CallCase, _: Case) -> str:
    """Of axis 0 of case B from 0 to a position, and back. Beside the answer the total and both
    arrivals. What the method leaves free is 0, but for the mask."""
    alone = decode(case.words)
    one = alone.axes[0]
    shared = TourAxis(one.start.position, *one[1:5], one.second_half_period)
    stops = [Stop([position, 0, 0, 0, 0, 0], dwell) for position, dwell in ((case.second, case.first), (0, 0))]
    answer, arrivals = plan_tour(Tour(alone.mask, [shared] * 6, stops), [0, 0])
    mask = alone.mask if answer.number == 0 else answer.mask
    full = Answer(answer.number, answer.place or 0, mask, answer.arrival or 0)
    return shown(full, [answer.total or 0, *arrivals], [])


# By their place the numbers by which the program knows them.
CALLS = {'plan': planned, 'back': backwards, 'from': part, 'raises': raises, 'search': search, 'convert': convert,
         'plan by values': planned_values, 'tour': tour}


def expected(case: CallCase) -> str:
    return CALLS[case.call](case, by_words(case.name, case.words, case.lent))


# --- The cases -------------------------------------------------------------

B, C, E = job('B', [to(4)]), job('C', [to(1)], asked=4), job('E', [to(4)], asked=3)
J = C._replace(name='J, 14 cells')
H = job('H', [axis(target=(0, 1, 0, 0))])
K = job('K', [axis(second_weight=129)])
L = job('L', [to(100000000, speed_limit=1)])
DAMPED = job('an accelerating target, damped', [cases.CHASED])
JOINTED = job('rows of both blends', [ROWS])
SIX = job('six axes, both kinds', cases.SIX_MOVING)
FLYING = job('F asked 2', [cases.F], asked=2)
SHORT = job('F jointed, a word short', [cases.F._replace(second_half_period=3)], asked=2)
EQUAL = job('equal raises', [to(9, speed_limit=2)], asked=6)

# Jobs with cells that are lent and the numbers that a call takes. The vectors have the calls for
# these from typed values, but for the plans.
PLANS = [(K, 24), (L, 24), (B, 24), (C, 15), (J, 14), (E, 24), (H, 24), (DAMPED, 60), (JOINTED, 60), (SIX, 8192)]
BACKWARDS = [(C, 15), (J, 14), (K, 24), (DAMPED, 60), (SIX, 8192)]
PARTS = [(C, 6, 2), (C, 24, 5), (L, 24, 0), (SIX, 90, 3)]
RAISES = [(E, 0), (B, 0), (K, 0), (EQUAL, 0)]
SEARCHES = [(B, 0, 1, 3), (B, 0, 1, 4), (L, 0, 1, 4096), (K, 0, 1, 1)]
CONVERSIONS = [(FLYING, 0), (SHORT, 0), (B, 0), (K, 0)]
TOURS = [(B, 0, 3, 4), (B, 0, 4097, 4), (B, 0, 0, 0), (B, 0, 0, 100000000)]


def of(call: str, *chosen) -> List[CallCase]:
    return [CallCase(' '.join([call, one.name, *map(str, numbers)]), call, one.words, *numbers)
            for one, *numbers in chosen]


def more_plans() -> List[Tuple[Case, int]]:
    """Every other field case, with as many cells as it needs."""
    have = [one.words for one, _ in PLANS]
    spelled = [in_words(one) for one in cases.field().cases]
    return [(one, one.lent) for one in spelled if one.words is not None and one.words not in have]


def all_cases() -> List[CallCase]:
    """The field cases that are not proved, K and L, and a few of every call."""
    plans = PLANS + more_plans()
    meant = [(one, lent) for one, lent in plans if in_values(one).words is None]
    return (of('plan', *plans) + of('plan by values', *meant) + of('back', *BACKWARDS) + of('from', *PARTS)
            + of('raises', *RAISES) + of('search', *SEARCHES) + of('convert', *CONVERSIONS) + of('tour', *TOURS)
            + [CallCase(call + ' no words', call, [], 20) for call in list(CALLS)[:6]])


# --- The two files ---------------------------------------------------------

def numbers_of(case: CallCase) -> List[int]:
    return [list(CALLS).index(case.call), case.lent, case.first, case.second, len(case.words), *case.words]


def both_files() -> Tuple[bytes, bytes]:
    """The program's input and its output."""
    chosen = all_cases()
    numbers = [number for case in chosen for number in numbers_of(case)]
    lines = [expected(case) + '\n' for case in chosen]
    return struct.pack('<%dI' % len(numbers), *numbers), ''.join(lines).encode()


def is_stored() -> bool:
    def stored(name: str) -> bytes:
        with open(os.path.join(CRATE, name), 'rb') as kept:
            return kept.read()
    return (stored('stdin'), stored('stdout')) == both_files()


def main(words: List[str]) -> int:
    if words == ['--check']:
        same = is_stored()
        print('as stored' if same else 'not as stored')
        return 0 if same else 1
    if words == ['--list']:
        for case in all_cases():
            print(case.name, '|', ' '.join('%X' % number for number in numbers_of(case)), '|', expected(case))
        return 0
    if words:
        print(__doc__)
        return 2
    for name, text in zip(('stdin', 'stdout'), both_files()):
        with open(os.path.join(CRATE, name), 'wb') as out:
            out.write(text)
    return 0


if __name__ == '__main__':
    sys.exit(main(sys.argv[1:]))
