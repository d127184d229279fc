"""The cases of rows from arrival backwards (request 2.13)."""

from typing import List

from backwards import backwards_typed, backwards_words
from builders import Case, Group, axis, by_words, job, to, typed, words_of
from cases import CHASED, CORRECTED, F, LARGE, LARGE_CORRECTED, SIX_FIXED, SIX_MOVING
from converter import converted_axis
from dampingcases import peaks, ratio
from railcases import HIGH, LANDS_FAR, LOW
from reference import Outcome, State
from swaycases import FAST, ROWS, SIX as SIX_JOINTED, TO_2, drawn_jobs, jointed
from windowcases import windowed


def turned(case: Case, lent: List[int]) -> Outcome:
    """What the reference answers, and the lent cells as the call leaves them."""
    if case.words is not None:
        return backwards_words(case.words, lent)
    return backwards_typed(case.mask, case.asked, case.axes, lent, case.windows)


def field() -> List[Case]:
    return [
        job('A', [to(5, start=(5, 0))]), job('B', [to(4)]), job('C', [to(1)], asked=4),
        job('D', [to(1, half_period=1)]),
        job('E', [to(4)], asked=3), job('F', [F]), job('F asked 1', [converted_axis(F, 1)], asked=1),
        job('F asked 39', [converted_axis(F, 39)], asked=39, lent=120),
        job('G asked 39', [converted_axis(F, 39), to(1)], asked=39, lent=250),
        job('H', [axis(target=(0, 1, 0, 0))]), by_words('I, no words', []), by_words('I, mask 64', [0x10000040]),
        by_words('I, mask 63', [0x1000003F]), job('J, 14 cells', [to(1)], asked=4, lent=14),
        job('J, 15 cells', [to(1)], asked=4, lent=15),
        job('J, 16 cells', [to(1)], asked=4, lent=16), typed('C by values', [to(1)], asked=4, lent=15),
        job('K', [axis(second_weight=129)]), job('L', [to(100000000, speed_limit=1)]),
        job('D asked 54', [to(1, half_period=1)], asked=54, lent=165), typed('C the other way', [to(-1)], asked=4),
    ]


def tables() -> List[Case]:
    return [
        typed('half units', [axis(target=(0, 0, 1, 0))]),
        typed('starts moving', [axis(start=(3, 2), half_period=3, target=(11, 2, 0, 4))], lent=30),
        typed('a target before its tick', [axis(target=(10, 1, 0, 10))]),
        typed('six axes, fixed', SIX_FIXED, lent=8192), job('six axes, fixed, by words', SIX_FIXED, lent=8192),
        typed('six axes, both kinds', SIX_MOVING, asked=120, lent=2178),
        typed('six axes, jointed', SIX_JOINTED, lent=8192),
        typed('six axes asked 4096', SIX_FIXED, asked=4096, lent=73746),
        typed('six axes asked 4096, a cell short', SIX_FIXED, asked=4096, lent=73745),
        job('mask 42', {1: SIX_FIXED[1], 3: SIX_MOVING[2], 5: SIX_FIXED[2]}, lent=4000),
        typed('accelerating', [axis(acceleration_limit=2, half_period=5, speed_limit=40, target=(3, 1, 1, 4))],
              lent=180),
        typed('accelerating, damped', [CORRECTED], lent=21),
        typed('cruise and remainder on 1/65,536', [CHASED], asked=6, lent=21),
        typed('from target tick 20', [axis(half_period=2, second_weight=100, target=(0, 0, 1, 20))], asked=20, lent=63),
        typed('rows of both blends', [ROWS], lent=18), typed('half periods 2 and 3', [TO_2], lent=40),
        typed('on 1/512', [jointed(1)], asked=5, lent=18),
        typed('every grid in one job', [jointed(2, 9), CORRECTED, to(9)], lent=400),
        typed('a ratio', [to(9, half_period=3, second_weight=ratio(0.5))], lent=60),
        typed('peaks', [to(300, half_period=9, second_weight=peaks(97, 31))], lent=300),
        typed('the largest numbers', [LARGE], asked=600, lent=8192),
        typed('the largest numbers, corrected', [LARGE_CORRECTED], lent=8192),
        typed('the largest numbers on the rail', [LANDS_FAR], lent=8192),
        typed('the largest numbers, jointed', [FAST._replace(start=FAST.start._replace(position=LOW, velocity=1048576),
                                                              target=State(LOW, -1048576, 0, 1100))], lent=8192),
        typed('a far target tick',
              [axis(speed_limit=1048576, acceleration_limit=65536, start=(HIGH, 0), half_period=256, second_weight=64,
                                         target=(HIGH, 300, 250, 4096))], lent=8192),
        typed('the longest search', [to(4095, speed_limit=1)], lent=12291),
        windowed('in a window', [(6, 9)]), windowed('just enough cells', [(6, 9)], lent=21),
        windowed('a cell short', [(6, 9)], lent=20),
    ]


def refused() -> List[Case]:
    w = words_of([to(4)])
    return [
        typed('1', {}), by_words('2', w[:-1]), by_words('14', w[:2] + [0xE0000000] + w[2:]),
        typed('3', [to(4)], asked=4097),
        typed('4', {3: to(4, speed_limit=0)}), typed('12', {3: to(4, second_weight=ratio(0))}),
        typed('5', {3: to(4, half_period=257)}),
        typed('15', {3: jointed(0)}), typed('6', {3: to(4, start=(0, 11))}),
        typed('16', {3: axis(second_half_period=1, target=(0, 0, 1, 0))}),
        typed('17', {3: axis(target=(4, 1))}), windowed('13', []), windowed('8 with mask 0', [(6, 7)], asked=4),
        typed('8', [to(4), to(1), to(-9)], asked=3), typed('9', [to(4), to(100000000, speed_limit=1)]),
        typed('9 with mask 0', [axis(target=(0, 0, 1, 0)), to(1000)]), typed('10 with no cell', [to(4)], lent=0),
        typed('10 for six axes', SIX_FIXED, asked=200, lent=3617),
    ]


def backward_cases() -> Group:
    return Group('backwards', 'Rows from arrival backwards.', field() + tables() + refused())


# --- Random ones -----------------------------------------------------------

def drawn_backwards(seed: int = 213, count: int = 50) -> Group:
    """Random jobs of every grid."""
    return Group('drawn backwards', 'Random jobs, rows from arrival backwards.',
                 drawn_jobs('drawn backwards', [1, 1, 2, 3], seed, count))
