"""What cases are made of: axes, planning cases and groups.

A planning case is a name, an input (job words, or a mask, an asked arrival, six
typed axes and perhaps windows) and a number of lent cells. What is expected of
it is never written here: the reference computes it.
"""

import random
from typing import List, NamedTuple, Optional

from reference import Axis, Job, Outcome, RestPoint, State, Windows, encode, plan_typed, plan_words

LOWEST, HIGHEST = -2 ** 63, 2 ** 63 - 1     # the ends of a 64-bit signed number
MOST = 2 ** 32 - 1                          # the end of a 32-bit unsigned one
UNTOUCHED = -1234567890123                  # what each lent cell holds before a call
PRIME = 2 ** 31 - 1

REST = RestPoint(0, 0)
UNSET = Axis(REST, 0, 0, 0, 0, REST)        # a typed axis off the mask
DEFAULT = Axis(REST, 10, 1, 0, 128, REST)   # 'unless said' of the field cases


class Case(NamedTuple):
    name: str
    words: Optional[List[int]]  # or, where None:
    mask: int
    asked: int
    axes: List[Axis]            # six
    lent: int
    windows: Optional[Windows] = None


def outcome(case: Case, lent: List[int]) -> Outcome:
    """What the reference answers, and the lent cells as the call leaves them."""
    if case.words is not None:
        return plan_words(case.words, lent)
    return plan_typed(case.mask, case.asked, case.axes, lent, case.windows)


def sum_of(cells: List[int]) -> int:
    """31 times the sum so far, and twice the cell's size, one more below 0."""
    total = 0
    for x in cells:
        total = (31 * total + 2 * (abs(x) % PRIME) + (x < 0)) % PRIME
    return total


class Group(NamedTuple):
    name: str
    about: str                  # a sentence that stands above its cases
    cases: List[Case]


def axis(**changes) -> Axis:
    """The default axis, changed: start=(p, v), target=(p, v) or (p, v, a, t)."""
    if 'start' in changes:
        changes['start'] = RestPoint(*changes['start'])
    if 'target' in changes:
        target = changes['target']
        changes['target'] = RestPoint(*target) if len(target) == 2 else State(*target)
    return DEFAULT._replace(**changes)


def to(position: int, **changes) -> Axis:
    return axis(target=(position, 0), **changes)


def by_words(name: str, words: List[int], lent: int = 24) -> Case:
    return Case(name, words, 0, 0, [UNSET] * 6, lent)


def by_values(name: str, mask: int, asked: int, axes: List[Axis], lent: int = 24) -> Case:
    return Case(name, None, mask, asked, axes, lent)


def placed(axes) -> dict:
    """Axes by bit: a list stands at bits 0, 1, .."""
    return axes if isinstance(axes, dict) else dict(enumerate(axes))


def mask_of(axes: dict) -> int:
    return sum(1 << bit for bit in axes)


def words_of(axes, asked: int = 0) -> List[int]:
    axes = placed(axes)
    return encode(Job(mask_of(axes), asked, axes))


def job(name: str, axes, asked: int = 0, lent: int = 24) -> Case:
    """A job by its words."""
    return by_words(name, words_of(axes, asked), lent)


def typed(name: str, axes, asked: int = 0, lent: int = 24, others: Axis = UNSET) -> Case:
    """A job by typed values; `others` stands on the bits off the mask."""
    axes = placed(axes)
    return by_values(name, mask_of(axes), asked,
                     [axes.get(bit, others) for bit in range(6)], lent)


def random_axis(rng: random.Random) -> Axis:
    """Of any kind; some with a fixed target that flies, which is refused."""
    speed = rng.choice([rng.randint(1, 30), rng.randint(1, 4000)])
    acceleration = rng.choice([rng.randint(1, 6), rng.randint(1, 300)])
    velocity = rng.randint(-speed, speed)
    half = rng.choice([0, 0, 1, 2, 3, rng.randint(0, 40)])
    weight = rng.choice([128, rng.randint(1, 128)])
    kind = rng.randint(0, 2)
    target = (rng.randint(-900, 900), velocity if kind or rng.randrange(9) == 0 else 0)
    if kind:
        a = rng.randint(-acceleration, acceleration) // 4 if kind == 2 else 0
        target += (a, rng.randint(-9, 40))
    start = (rng.randint(-900, 900), rng.choice([0, rng.randint(-speed, speed)]))
    return axis(start=start, speed_limit=speed, acceleration_limit=acceleration,
                half_period=half, second_weight=weight, target=target)
