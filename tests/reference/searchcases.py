"""The cases of planning between servo turns (request 2.12)."""

import random
from typing import List, NamedTuple

from builders import MOST, Case, axis, by_words, job, to, typed, words_of
from dampingcases import random_damping, ratio
from railcases import HIGH, along, random_offset
from search import Report, search_typed, search_words
from swaycases import damaged_13, jointed, random_jointed
from windowcases import GONE, random_windows, row, windowed


class SearchCase(NamedTuple):
    job: Case                   # its lent cells do not matter
    first: int
    budget: int


def searched(case: SearchCase) -> Report:
    """What the reference reports."""
    one = case.job
    if one.words is not None:
        return search_words(one.words, case.first, case.budget)
    return search_typed(one.mask, one.asked, one.axes, case.first, case.budget, one.windows)


def all_of(one: Case, *ranges) -> List[SearchCase]:
    """The same job with several pairs of a first candidate and a budget."""
    return [SearchCase(one._replace(name='%s, from %d, budget %d' % (one.name, *pair)), *pair) for pair in ranges]


NEVER = to(100000000, speed_limit=1)
LAST = to(4095, speed_limit=1)          # reaches 4,096 only


def reports() -> List[SearchCase]:
    return (
        all_of(typed('B', [to(4)]), (1, 4096), (1, 4), (1, 3), (1, 0), (2, 3), (3, 1), (4, 1), (4, 0), (5, 1),
               (4095, 1),
               (4096, 1), (4096, 0), (4097, 0), (4097, 1), (4097, MOST), (1, MOST), (4, MOST), (0, 0), (0, 9),
               (4098, 0), (4098, 9),
               (MOST, 0), (MOST, MOST))
        + all_of(job('B by words', [to(4)]), (1, 4096), (1, 3), (4, 0), (4097, 5), (0, 5), (4098, 5), (MOST, MOST))
        + all_of(typed('nothing reached', [NEVER]), (1, 4095), (1, 4096), (1, 4097), (1, MOST), (2, 4094), (2, 4095),
                 (4095, 1),
                 (4095, 2), (4096, 1), (4096, 0), (4096, 2), (4096, MOST), (4097, 0), (4097, 1), (100, 0), (100, 50))
        + all_of(typed('the last tick', [LAST]), (1, 4095), (1, 4096), (1, MOST), (4096, 0), (4096, 1), (4095, 1),
                 (4095, 2), (4097, 1))
        + all_of(typed('reached at 4 and 5 only', [GONE]), (1, 3), (1, 9), (4, 1), (5, 1), (6, 1), (6, 4090), (6, 4091),
                 (5, 0))
        + all_of(typed('two axes that meet', [GONE, to(4)]), (1, 9), (5, 9), (6, 9))
        + all_of(typed('two axes that never meet', [GONE, to(9)]), (1, 4096), (1, 9), (1, MOST))
        + all_of(typed('a joint', [jointed(2, half_period=1, second_weight=100)]), (1, 4), (1, 5), (5, 1))
        + all_of(typed('far along the rail', [to(HIGH, start=(HIGH - 4, 0))]), (1, 4), (1, 3))
        + all_of(typed('measured', [to(9, half_period=3, second_weight=ratio(0.5))]), (1, 8), (1, 9), (9, 1))
        + all_of(job('six axes by words', [to(4), to(9), to(1), jointed(3, 2), GONE._replace(speed_limit=90), to(-30)]),
                 (1, 20), (1, 10), (7, 40)))


def windows() -> List[SearchCase]:
    """Candidates outside windows count as tried."""
    return (
        all_of(windowed('a later window', [(0, 4), (9, 12)], 1), (1, 8), (1, 9), (9, 1), (11, 1), (11, 4086),
               (12, 4085), (12, 9), (4096, 1))
        + all_of(windowed('a wide window', [(0, MOST)], 4096), (1, 4), (1, 3), (4096, 1), (9, 1))
        + all_of(windowed('touching windows', [(0, 5), (5, 9)], 2), (1, 9), (4, 1), (5, 1), (7, 1), (8, 1))
        + all_of(windowed('open from 4,096 on', [(4096, MOST)]), (1, 4096), (1, 4095), (4096, 1), (4097, 1))
        + all_of(windowed('open from 4,097 on', [(4097, MOST)]), (1, 4096), (1, 4095))
        + all_of(windowed('32 windows', row(32, first=1)), (1, 9), (4, 1), (5, 1), (70, 4)))


def refused() -> List[SearchCase]:
    turning = axis(second_half_period=1, target=(0, 0, 1, 0))
    w = words_of([to(4)])
    bad = [typed('1', {}), by_words('1 by words', []), by_words('2', w[:-1]), by_words('2, a word left over', w + [0]),
           by_words('14', w[:2] + [0xE0000000] + w[2:]), typed('4', {3: to(4, speed_limit=0)}),
           typed('12', {3: to(4, second_weight=ratio(0))}), typed('5', {3: to(4, half_period=257)}),
           typed('15', {3: jointed(0)}),
           typed('6', {3: to(4, start=(0, 11))}), typed('16', {3: turning}), typed('17', {3: axis(target=(4, 1))}),
           job('17 by words', [to(4), axis(target=(4, 1))], asked=9), windowed('13, an empty list', []),
           windowed('13, a long dwell', [(0, 9)], 4097),
           windowed('13, the second window', [(0, 5), (4, 9)])]
    cases = [pair for one in bad for pair in all_of(one, (1, 9), (0, 9))]
    return (cases
            + all_of(typed('asked 4,097 is read as 0', [to(4)], asked=4097), (1, 9), (0, 9))
            + all_of(typed('asked 3 is read as 0', [to(4)], asked=3), (1, 9), (1, 3))
            + all_of(job('asked 4,097 by words', [to(4)], asked=4097), (1, 9), (4098, 9))
            + all_of(windowed('asked outside its window', [(6, 9)], asked=4), (1, 9)))


def searches() -> List[SearchCase]:
    return reports() + windows() + refused()


# --- Random ones -----------------------------------------------------------

def drawn_searches(seed: int = 212, count: int = 60) -> List[SearchCase]:
    """Random jobs, by words, some damaged, and by typed values, most with windows."""
    rng = random.Random(seed)
    cases = []
    for k in range(count):
        axes = {bit: random_jointed(rng) for bit in sorted(rng.sample(range(6), rng.choice([1, 1, 2])))}
        axes = {bit: one if rng.randrange(4) else along(one, random_offset(rng)) for bit, one in axes.items()}
        asked, name = rng.choice([0, 0, 9, 4097]), 'drawn search %d' % k
        if k % 2:
            words = words_of(axes, asked)
            one = by_words(name, damaged_13(rng, words) if k % 8 == 7 else words)
        else:
            if rng.randrange(4) == 0:
                axes = {bit: one._replace(second_weight=random_damping(rng)) for bit, one in axes.items()}
            one = typed(name, axes, asked)._replace(windows=random_windows(rng) if rng.randrange(3) else None)
        first = rng.choice([1, 1, rng.randint(1, 60), rng.randint(4080, 4098), rng.choice([0, 4097, 4098, MOST])])
        budget = rng.choice([rng.randint(0, 90), 4096, MOST, rng.randint(0, 5), rng.randint(0, MOST)])
        cases.append(SearchCase(one, first, budget))
    return cases
