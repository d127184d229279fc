"""The cases of the converter of flying fixed targets (request 2.11)."""

import random
from typing import List, NamedTuple

from builders import axis, random_axis, to, words_of
from cases import F, damaged
from converter import convert
from railcases import HIGH, PAST, along, random_offset
from reference import Answer, Axis, RestPoint, word
from swaycases import damaged_13, jointed

FILL = 0xDEADBEEF               # each lent word before the call


class ConvertCase(NamedTuple):
    name: str
    words: List[int]
    lent: int
    answer: Answer              # the reference's; None where the method leaves it free
    left: List[int]             # the lent words as the call leaves them


def case(name: str, words: List[int], lent: int = 90) -> ConvertCase:
    return ConvertCase(name, words, lent, *convert(words, [FILL] * lent))


def of(name: str, axes, asked: int = 0, lent: int = 90) -> ConvertCase:
    return case(name, words_of(axes, asked), lent)


FLYING = axis(start=(3, 1), target=(9, 2))
SIX = [axis(start=((-1) ** bit * (PAST + 1), 1), half_period=bit, second_half_period=bit + 1,
            target=((-1) ** bit * (PAST + 9), bit - 8)) for bit in range(6)]


def converted() -> List[ConvertCase]:
    field = [of('F asked %d' % n, [F], n) for n in (1, 2, 38, 39)]
    return field + [
        of('G asked 39', [F, to(1)], 39),
        of('F asked 2, 13 lent', [F], 2, lent=13), of('F asked 2, 12 lent', [F], 2, lent=12),
        of('F asked 2, 14 lent', [F], 2, lent=14), of('F asked 2, none lent', [F], 2, lent=0),
        of('asked 4,096', [FLYING], 4096),
        of('a velocity below 0', [FLYING._replace(target=FLYING.target._replace(velocity=-10))], 7),
        of('the largest velocity', [axis(speed_limit=1048576, target=(5, 1048576))], 7),
        of('reach is not checked', [axis(target=(900, 1))], 1),
        of('a half period longer than the arrival', [axis(half_period=200, target=(9, 1))], 7),
        of('one of three axes', [to(4), FLYING, axis(target=(0, 1, 0, 0))], 20),
        of('mask 42', {1: FLYING, 3: to(4), 5: F}, 20),
        of('with a joint', [FLYING._replace(second_half_period=7)], 20),
        of('far along the rail', [along(FLYING, HIGH - 9)], 20),
        of('a long target position only', [axis(target=(PAST, 1))], 20),
        of('six flying axes, long and jointed', SIX, 300), of('six flying axes, 81 lent', SIX, 300, lent=81),
        of('six flying axes, 80 lent', SIX, 300, lent=80),
    ]


def copied() -> List[ConvertCase]:
    moving = axis(half_period=2, second_weight=77, target=(50, -3, 1, 10))
    return [
        of('at rest, the least arrival', [to(4)]), of('at rest, asked', [to(1)], 4),
        of('at rest, 11 lent', [to(1)], 4, lent=11), of('at rest, 10 lent', [to(1)], 4, lent=10),
        of('at rest, from a moving start', [to(4, start=(0, 9))], 30),
        of('moving, the least arrival', [moving]), of('moving, asked', [moving], 30),
        of('moving, 13 lent', [moving], 30, lent=13), of('moving, 12 lent', [moving], 30, lent=12),
        of('moving at velocity 0', [axis(target=(5, 0, 0, 0))]),
        of('out of reach', [to(100000000, speed_limit=1)]), of('out of reach, asked', [to(4)], 3),
        of('both kinds, six axes', [to(4), moving, jointed(3, 9), along(to(1), PAST), along(moving, -HIGH), to(1)]),
    ]


def refused() -> List[ConvertCase]:
    w = words_of([FLYING], 20)
    turning = axis(second_half_period=1, target=(0, 0, 1, 0))
    return [
        of('17, the least arrival', [FLYING]), of('17 of axis 1', [to(4), FLYING]),
        of('17 of the first of two', {2: FLYING, 5: FLYING}),
        of('17 before 10', [FLYING], lent=0),
        case('1, no words', []), case('1, mask 0', [word(1, 0)] + w[1:]), case('1, mask 64', [word(1, 64)] + w[1:]),
        case('2, the end lacking', w[:-1]), case('2, a word left over', w + [0]),
        case('2, kind 12 without 11', w[:10] + [word(12, 3)] + w[10:]),
        case('14', w[:2] + [word(14, 0)] + w[2:]),
        case('14 before 3', words_of([FLYING], 4097)[:2] + [word(14, 0)] + words_of([FLYING], 4097)[2:]),
        of('3', [FLYING], 4097), of('3 before 4', [to(1, speed_limit=0)], 4097),
        of('4', {1: to(1, speed_limit=0)}, 4),
        of('4, acceleration limit 65,537', {1: to(1, acceleration_limit=65537)}, 4),
        of('5', {2: to(1, half_period=257)}, 4), of('5, weight 129', {2: to(1, second_weight=129)}, 4),
        of('15', {3: jointed(0)}, 4), of('15, 257', {3: jointed(257)}, 4),
        of('5 before 15', [jointed(0), to(1, half_period=257)], 4),
        of('6, the flying one', {4: axis(target=(0, 11))}, 4), of('6 before 17', [FLYING, axis(target=(0, 11))]),
        of('6, target acceleration', {4: axis(target=(0, 0, 2, 0))}, 4),
        of('15 before 6', [axis(target=(0, 11)), jointed(0)], 4),
        of('16', {5: turning}, 4), of('16 before 17', [FLYING, turning]),
        of('6 before 16', [turning, axis(target=(0, 11))], 4),
        of('16 before 10', [turning], 4, lent=0), of('4 before 10', [to(1, speed_limit=0)], 4, lent=0),
    ]


def conversions() -> List[ConvertCase]:
    return converted() + copied() + refused()


# --- Random ones -----------------------------------------------------------

def random_old_axis(rng: random.Random) -> Axis:
    """A random axis, most with a fixed target that flies."""
    one = random_axis(rng)
    if rng.randrange(3):
        one = one._replace(target=RestPoint(*one.target[:2]))
    if rng.randrange(3) == 0:
        one = one._replace(second_half_period=rng.randint(1, 40))
    return one if rng.randrange(4) else along(one, random_offset(rng))


def drawn_conversions(seed: int = 211, count: int = 40) -> List[ConvertCase]:
    rng = random.Random(seed)
    cases = []
    for k in range(count):
        axes = {bit: random_old_axis(rng) for bit in sorted(rng.sample(range(6), rng.choice([1, 1, 2, 3])))}
        words = words_of(axes, rng.choice([0, rng.randint(1, 200), rng.randint(1, 4096)]))
        if k % 4 == 3:
            words = rng.choice([damaged, damaged_13])(rng, words)
        cases.append(case('drawn conversion %d' % k, words, rng.choice([90, 90, rng.randint(0, 50)])))
    return cases
