"""The cases of rows in parts."""

import random
from typing import List, NamedTuple

import backwardcases
from builders import MOST, Case, by_words, job, to, typed
from cases import CHASED, CORRECTED, LARGE, LARGE_CORRECTED, SIX_FIXED, SIX_MOVING
from dampingcases import peaks, ratio
from parts import Part, part_typed, part_words
from railcases import LANDS_FAR
from swaycases import ROWS, SIX as SIX_JOINTED, TO_2, jointed
from windowcases import windowed


class PartCase(NamedTuple):
    job: Case                   # its lent cells are those of the part
    first: int


def parted(case: PartCase, lent: List[int]) -> Part:
    """What the reference answers."""
    one = case.job
    if one.words is not None:
        return part_words(one.words, case.first, lent)
    return part_typed(one.mask, one.asked, one.axes, case.first, lent, one.windows)


def all_of(one: Case, *pairs) -> List[PartCase]:
    """The same job with several pairs of a first row and a number of lent cells."""
    return [PartCase(one._replace(name='%s, row %d, %d cells' % (one.name, first, cells), lent=cells), first)
            for first, cells in pairs]


def ends() -> List[PartCase]:
    """First rows and lengths at their ends."""
    return (
        all_of(job('C', [to(1)], asked=4), (0, 15), (0, 14), (0, 16), (0, 3), (0, 2), (0, 0), (1, 12), (1, 11), (2, 6),
               (3, 40),
               (4, 3), (4, 2), (4, 9), (5, 9), (5, 0), (6, 9), (MOST, 9), (MOST - 1, 9))
        + all_of(typed('A by values', [to(5, start=(5, 0))]), (0, 6), (1, 6), (2, 6))
        + all_of(typed('six axes, fixed', SIX_FIXED), (0, 288), (7, 288), (7, 17), (7, 18), (7, 19), (30, 36))
        + all_of(typed('six axes asked 4096', SIX_FIXED, asked=4096), (0, 18), (2048, 288), (4096, 288), (4095, 288),
                 (4097, 288)))


def grids() -> List[PartCase]:
    """A part from the middle on each grid, for each kind of target and of damping."""
    return (
        all_of(typed('six axes, both kinds', SIX_MOVING, asked=120), (0, 36), (55, 288), (119, 90))
        + all_of(typed('six axes, jointed', SIX_JOINTED), (3, 288), (20, 288))
        + all_of(typed('accelerating, damped', [CORRECTED]), (1, 9), (4, 9))
        + all_of(typed('cruise and remainder on 1/65,536', [CHASED], asked=6), (2, 9), (5, 9))
        + all_of(typed('rows of both blends', [ROWS]), (1, 9), (3, 9))
        + all_of(typed('half periods 2 and 3', [TO_2]), (1, 9), (6, 9))
        + all_of(typed('every grid in one job', [jointed(2, 9), CORRECTED, to(9)]), (2, 27), (9, 90))
        + all_of(typed('a ratio', [to(9, half_period=3, second_weight=ratio(0.5))]), (2, 9), (8, 9))
        + all_of(typed('peaks', [to(300, half_period=9, second_weight=peaks(97, 31))]), (20, 30))
        + all_of(typed('starts moving', [to(11, start=(3, 2), half_period=3)]), (1, 9), (2, 9), (5, 30))
        + all_of(typed('the largest numbers', [LARGE], asked=600), (0, 30), (299, 30), (599, 30))
        + all_of(typed('the largest numbers, corrected', [LARGE_CORRECTED]), (1, 30), (100, 30))
        + all_of(typed('the largest numbers on the rail', [LANDS_FAR]), (1, 30), (50, 30))
        + all_of(windowed('in a window', [(6, 9)]), (3, 12)))


def refused() -> List[PartCase]:
    """Planning's refusals before 10, whatever the first row and the table."""
    return [pair for one in backwardcases.refused() if not one.name.startswith('10')
            for pair in all_of(one, (0, 24), (MOST, 0))]


def part_cases() -> List[PartCase]:
    return ends() + grids() + refused()


def drawn_parts(seed: int = 303, count: int = 60) -> List[PartCase]:
    """Random jobs of every grid, with random first rows and tables, some past row N."""
    rng = random.Random(seed)
    cases = []
    for one in backwardcases.drawn_backwards(seed, count).cases:
        first = rng.choice([0, 1, rng.randint(0, 60), rng.randint(0, 200), rng.choice([4096, 4097, MOST])])
        cells = rng.choice([rng.randint(0, 20), rng.randint(0, 300), rng.randint(0, 900)])
        cases.append(PartCase(one._replace(name=one.name.replace('backwards', 'part'), lent=cells), first))
    return cases
