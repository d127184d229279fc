"""The cases of laser windows (request 2.5): planning jobs by typed values."""

import random
from typing import List, Optional

from builders import MOST, Case, Group, axis, random_axis, to, typed
from dampingcases import random_damping, ratio
from reference import Windows

# reaches 4 and 5 and nothing after them
GONE = axis(speed_limit=12, acceleration_limit=10, half_period=2, second_weight=64, target=(3, 1, 2, 0))
FAR = to(100000000, speed_limit=1)


def windowed(name: str, pairs, dwell: int = 0, axes=None, asked: int = 0, lent: int = 40) -> Case:
    """Field case B, whose least arrival is 4, or other axes, with windows."""
    return typed(name, axes or [to(4)], asked, lent)._replace(windows=Windows(list(pairs), dwell))


def row(count: int, width: int = 1, gap: int = 1, first: int = 0) -> List:
    """Windows in a row, each as wide as the others."""
    return [(first + k * (width + gap), first + k * (width + gap) + width) for k in range(count)]


# --- Arrivals in windows ---------------------------------------------------

def found() -> List[Case]:
    return [
        windowed('one window from the start', [(0, 5)]),
        windowed('it opens at the arrival', [(4, 5)]),
        windowed('it opens after the arrival', [(6, 9)]),
        windowed('it closes at the arrival', [(0, 4)]),
        windowed('it closes at the arrival, another opens there', [(0, 4), (4, 5)]),
        windowed('the dwell ends at the closing', [(0, 6)], 2),
        windowed('the dwell ends after the closing', [(0, 6)], 3),
        windowed('the dwell fits the next one', [(0, 6), (9, 20)], 3),
        windowed('touching windows do not join', [(0, 5), (5, 9)], 2),
        windowed('a dwell as wide as its window', [(0, 4), (5, 8)], 3),
        windowed('a dwell wider than each window', row(5, 3, 2), 4),
        windowed('a dwell of 4,096', [(0, 4100)], 4096),
        windowed('a dwell of 4,096, one tick short', [(0, 4099)], 4096),
        windowed('a dwell of 4,096, in the second window', [(0, 20), (30, 5000)], 4096, lent=100),
        windowed('open from 4,096 on', [(4096, MOST)], 4096, lent=12291),
        windowed('open from 4,097 on', [(4097, MOST)]),
        windowed('open only at 4,096', [(4096, 4097)], lent=12291),
        windowed('open at the last ticks of all', [(MOST - 1, MOST)]),
        windowed('the widest window', [(0, MOST)], 4096),
        windowed('open at 0 only', [(0, 1)]),
        windowed('32 windows', row(32)),
        windowed('32 windows, only the last is wide enough', row(31) + [(70, 80)], 9, lent=300),
        windowed('reach is not a threshold', [(2, 4), (30, 50)], axes=[GONE], lent=120),
        windowed('reach is not a threshold, its last tick', [(2, 4), (5, 50)], axes=[GONE], lent=120),
        windowed('the least common arrival in a window', [(1, 3), (5, 45)], axes=[GONE, to(1)], lent=250),
        windowed('a measured axis', [(0, 6), (11, 12)], axes=[to(9, half_period=2, second_weight=ratio(0.5))]),
        windowed('a moving target', [(5, 7)], 1, axes=[axis(target=(0, 1, 0, 0))]),
        windowed('an accelerating target on a damped pole', [(0, 4), (5, 9)], 2, lent=60, axes=[GONE]),
        windowed('10 for an arrival in a window', [(6, 9)], lent=20),
        windowed('just enough cells for it', [(6, 9)], lent=21),
    ]


def asked() -> List[Case]:
    return [
        windowed('asked in a window', [(4, 6)], 2, asked=4),
        windowed('asked at its closing', [(4, 6)], asked=6),
        windowed('asked before its opening', [(5, 9)], asked=4),
        windowed('asked with a dwell that is too long', [(4, 6)], 2, asked=5),
        windowed('asked in the second window', [(0, 4), (6, 9)], 1, asked=8),
        windowed('asked between two windows', [(0, 4), (6, 9)], asked=5),
        windowed('8 names axes first', [(7, 9)], asked=3),
        windowed('8 names axes, in a window', [(3, 9)], asked=3),
        windowed('8 with mask 0', [(7, 9)], asked=4),
        windowed('8 names one of two axes', [(7, 9)], axes=[to(4), to(9)], asked=4),
        windowed('asked 4,096', [(4000, MOST)], 4096, asked=4096, lent=12291),
    ]


def none_found() -> List[Case]:
    return [
        windowed('9 with mask 0', [(1, 2)]),
        windowed('9 names axes without the windows', [(1, 2)], axes=[to(4), FAR]),
        windowed('9 names axes, in an open window', [(0, MOST)], axes=[FAR, to(4), FAR]),
        windowed('9 where two axes never meet in a window', [(1, 5)], axes=[GONE, to(6)]),
    ]


# --- Refusal 13 and its order ----------------------------------------------

def refused() -> List[Case]:
    return [
        windowed('13, an empty list', []),
        windowed('13, an empty list before a long dwell', [], 4097),
        windowed('13, 33 windows', row(33)),
        windowed('13, 33 windows before a bad one', [(5, 2)] + row(32, first=9)),
        windowed('13, 40 windows', row(40)),
        windowed('13, a dwell of 4,097', [(0, 9)], 4097),
        windowed('13, a dwell of 4,294,967,295', [(0, 9)], MOST),
        windowed('13, a long dwell before a bad window', [(5, 2)], 4097),
        windowed('13, closing at its opening', [(0, 2), (4, 4)]),
        windowed('13, closing at its opening, first', [(0, 0), (4, 5)]),
        windowed('13, closing before its opening', [(0, 2), (5, 4)]),
        windowed('13, opening before the last one closes', [(0, 5), (4, 9)]),
        windowed('13, the same window twice', [(3, 5), (3, 5)]),
        windowed('13, the first of two faults: order', [(0, 5), (4, 9), (9, 9)]),
        windowed('13, the first of two faults: width', [(0, 5), (6, 6), (4, 9)]),
        windowed('13, the last of 32', row(31) + [(90, 90)]),
        windowed('13, a good one after a bad one', [(9, 2), (3, 5)]),
        windowed('13, a bad one after the arrival', [(0, 9), (20, 15)]),
        windowed('13, at the ends of the type', [(MOST, 0)]),
        windowed('13, 4,294,967,295 twice', [(MOST, MOST)]),
        windowed('13 before 8', [], asked=3),
        windowed('13 before 9', [], axes=[FAR]),
        windowed('13 before 10', [], lent=0),
        windowed('3 before 13', [], asked=4097),
        windowed('4 before 13', [], axes=[axis(speed_limit=0)]),
        windowed('12 before 13', [], axes=[axis(second_weight=ratio(0))]),
        windowed('5 before 13', [], axes=[axis(half_period=257)]),
        windowed('6 before 13', [], axes=[axis(start=(0, 11))]),
        windowed('17 before 13', [], axes=[axis(target=(0, 1))]),
        windowed('1 before 13', [])._replace(mask=0),
    ]


def windows() -> Group:
    return Group('windows', 'Laser windows.', found() + asked() + none_found() + refused())


# --- Random ones -----------------------------------------------------------

def random_windows(rng: random.Random) -> Optional[Windows]:
    """None, or windows; some are out of order, too many or none."""
    if rng.randrange(4) == 0:
        return None
    spread = rng.choice([60, 400, 5000, MOST])
    ends = sorted(rng.randint(0, spread) for _ in range(2 * rng.choice([1, 2, 5, rng.randint(0, 34)])))
    ends[:1] = [min(end, rng.randint(0, 90)) for end in ends[:1]]
    if rng.randrange(8) == 0:
        rng.shuffle(ends)
    pairs = [(a, b) for a, b in zip(ends[::2], ends[1::2]) if a < b or rng.randrange(8) == 0]
    return Windows(pairs, rng.choice([0, 0, 1, 2, rng.randint(0, 60), rng.randint(4090, 4098)]))


def drawn_windows(seed: int = 25, count: int = 20) -> Group:
    """Random jobs, most with windows and some with measured damping."""
    rng = random.Random(seed)
    cases = []
    for k in range(count):
        axes = {bit: random_axis(rng) for bit in sorted(rng.sample(range(6), rng.choice([1, 1, 2, 3])))}
        for bit, one in axes.items():
            if rng.randrange(5) == 0:
                axes[bit] = one._replace(second_weight=random_damping(rng))
        case = typed('drawn windows %d' % k, axes, rng.choice([0, 0, 0, 0, rng.randint(40, 120)]), lent=8192)
        cases.append(case._replace(windows=random_windows(rng)))
    return Group('drawn windows', 'Random jobs with laser windows.', cases)
