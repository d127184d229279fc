"""The cases that are run against the reference, in groups. What is expected of
a case is never written here: the reference computes it.
"""

import random
from typing import List

from builders import (HIGHEST, LOWEST, MOST, Case, Group, axis, by_values, by_words, job, mask_of, placed,
                      random_axis, to, typed, words_of)
from converter import converted_axis
from dampingcases import damping, drawn_damping, drawn_weights, weights
from railcases import HIGH, LOW, drawn_rails, rails
from reference import Axis, RestPoint, State
from tourcases import drawn_tours, tours
from windowcases import drawn_windows, windows


# --- Field cases and traps -------------------------------------------------

F = axis(speed_limit=20, start=(0, 10), target=(10, 10))
F_TO_30 = F._replace(target=RestPoint(30, 10))


def met(name: str, flying: Axis, asked: int, lent: int = 24) -> Case:
    """A flying fixed target as the converter has it (request 2.11)."""
    return job('%s asked %d' % (name, asked), [converted_axis(flying, asked)], asked, lent)


def field() -> Group:
    cases = [
        job('A', [to(5, start=(5, 0))]),
        job('B', [to(4)]),
        job('C', [to(1)], asked=4),
        job('D', [to(1, half_period=1)]),
        job('E', [to(4)], asked=3),
        job('F', [F]),
        job('F asked 39, not converted', [F], asked=39, lent=120),
        met('F', F, 1),
        met('F', F, 2),
        met('F', F, 20),
        met('F', F, 37),
        met('F', F, 38),
        met('F', F, 39, lent=120),
        job('G, axis 1 alone', {1: to(1)}),
        job('G', [F, to(1)], lent=250),
        job('G asked 39', [converted_axis(F, 39), to(1)], asked=39, lent=250),
        job('H', [axis(target=(0, 1, 0, 0))]),
        by_words('I, no words', []),
        by_words('I, mask 64', [0x10000040]),
        by_words('I, mask 63', [0x1000003F]),
        job('J, 14 cells', [to(1)], asked=4, lent=14),
        job('J, 15 cells', [to(1)], asked=4, lent=15),
        job('K', [axis(second_weight=129)]),
        typed('K by values', [axis(second_weight=129)]),
        job('L', [to(100000000, speed_limit=1)]),
        typed('L by values', [to(100000000, speed_limit=1)]),
        typed('F to 30 by values', [F_TO_30]),
        met('F to 30', F_TO_30, 3),
        met('F to 30', F_TO_30, 4),
        met('F to 30', F_TO_30, 36),
        met('F to 30', F_TO_30, 37, lent=120),
        job('D asked 54', [to(1, half_period=1)], asked=54, lent=165),
        typed('D asked 54 by values', [to(1, half_period=1)], asked=54, lent=170),
    ]
    return Group('field', 'The field cases of the method and the numbers of its traps.', cases)


# --- Readings --------------------------------------------------------------

CHASING = axis(acceleration_limit=2, half_period=1, target=(0, 0, 1, 0))
HOSTILE = Axis(RestPoint(LOWEST, HIGHEST), MOST, 0, MOST, MOST,
               State(HIGHEST, LOWEST, LOWEST, HIGHEST))


def readings() -> Group:
    c = words_of([to(1)], asked=4)
    cases = [
        typed('the place is the bit', {2: axis(speed_limit=0)}),
        job('the place is the bit, by words', {2: axis(speed_limit=0)}),
        typed('refusal 10 names no axes', [to(1)], asked=4, lent=14),
        typed('asked 4097', [to(1)], asked=4097),
        typed('axes off the mask are not looked at', {3: to(4)}, others=HOSTILE),
        typed('a target before its tick', [axis(target=(10, 1, 0, 10))]),
        by_words('a word of kind 0 first', [0] + c[1:]),
        by_words('a word of kind 0 later', c[:5] + [0]),
        by_words('a word of kind 0 left over', c + [0]),
        by_words('a wrong end, and words left over', c[:-1] + [0xF0000001, 0xF0000000]),
        typed('speed at arrival is for 8, not 6',
              [axis(half_period=4, acceleration_limit=3, target=(0, 9, 1, 0))], asked=10),
        typed('speed at the planned landing', [CHASING], asked=10),
        typed('speed up to the arrival', [CHASING._replace(speed_limit=5)], asked=6),
        typed('one axis fails', [converted_axis(F, 2), to(1)], asked=2),
        typed('nothing moves, half period 1', [to(5, start=(5, 0), half_period=1)]),
        typed('nothing moves, half period 4', [to(5, start=(5, 0), half_period=4)]),
        typed('a fixed target that flies', {3: axis(start=(0, 1), half_period=4, target=(8, 1))}),
        typed('a fixed target that flies, converted', [axis(start=(0, 1), half_period=4, target=(8, 1, 0, 7))],
              asked=7),
        typed('half units', [axis(target=(0, 0, 1, 0))]),
        typed('halves away from zero, below it', [to(-1)], asked=4),
        typed('4 before 5', [axis(half_period=300), axis(speed_limit=0)]),
        by_words('2 before 3', words_of([to(1)], asked=5000)[:-1]),
        typed('refusal 9 with no axes', [axis(target=(0, 0, 1, 0)), to(1000)]),
        typed('refusal 9 with one of two axes', [to(5000, speed_limit=1), to(3)]),
        typed('the planned end velocity has a term of its own',
              [axis(half_period=6, acceleration_limit=4, target=(5, -2, 1, 3))], lent=90),
        typed('one tick to land', [axis(start=(3, 2), half_period=3, target=(11, 2, 0, 4))]),
    ]
    return Group('readings', 'Places of the method that are easily misread.', cases)


# --- Accepted jobs ---------------------------------------------------------

SIX_FIXED = [to(4), to(-7, half_period=1), to(30, half_period=5, second_weight=1),
             to(-20, start=(9, 3), half_period=17, second_weight=127),
             to(1000, speed_limit=200, acceleration_limit=9, half_period=64, second_weight=100),
             to(6, start=(-5, -2))]

SIX_MOVING = [axis(target=(0, 1, 0, 0)),
              axis(half_period=2, second_weight=77, target=(50, -3, 0, 10)),
              axis(speed_limit=900, acceleration_limit=20, half_period=3, target=(-8, 1, 2, 4)),
              axis(speed_limit=900, acceleration_limit=30, target=(5, 0, -3, -6)),
              axis(start=(1, 9), half_period=31, second_weight=2, target=(-1, 4, 0, -100)),
              axis(start=(1, -9), speed_limit=9, half_period=12, target=(7, 8, 0, 60))]

LARGE = Axis(RestPoint(-134217728, -1048576), 1048576, 65536, 256, 128,
             State(134217727, 1048576, 0, 600))

# Accelerating targets on damped poles: the grid of 1/65,536 unit
CORRECTED = axis(acceleration_limit=2, half_period=3, second_weight=100, target=(0, 0, 1, 0))
CHASED = axis(speed_limit=100, acceleration_limit=10, half_period=2, second_weight=64, target=(3, 1, 2, 0))
LARGE_CORRECTED = LARGE._replace(second_weight=127, target=State(134217727, -1048576, 4096, 400))

LONG = to(-12345, half_period=9, second_weight=51)


def half_periods() -> List[Case]:
    cases = []
    for h, b in ((1, 128), (2, 1), (7, 64), (64, 127), (255, 128), (256, 1), (256, 128)):
        one = axis(start=(2, 1), half_period=h, second_weight=b, target=(40, -3, 0, h + 20))
        cases.append(typed('half period %d, weight %d' % (h, b), [one],
                           lent=3 * (h + 100)))
    return cases


def lent_cells() -> List[Case]:
    """Tables of exactly 8,190 cells for 1, 2, 3, 5 and 6 axes, and their edges."""
    cases = []
    for count in (1, 2, 3, 5, 6):
        asked = 8190 // (3 * count) - 1
        axes = [LONG if bit == 0 and count == 1 else SIX_FIXED[bit] for bit in range(count)]
        for lent in (8189, 8190, 8191, 8192) if count in (1, 6) else (8190,):
            cases.append(job('mask %d to %d, %d cells' % (mask_of(placed(axes)), asked, lent),
                             axes, asked=asked, lent=lent))
    cases.append(job('mask 1 to 2730, 8192 cells', [LONG], asked=2730, lent=8192))
    return cases


def accepted() -> Group:
    cases = [
        job('six axes, fixed', SIX_FIXED, lent=8192),
        typed('six axes, fixed, by values', SIX_FIXED, lent=2000),
        job('six axes, both kinds', SIX_MOVING, lent=8192),
        typed('six axes, both kinds, by values', SIX_MOVING, asked=120, lent=2178),
        typed('six axes, both kinds, one too late', SIX_MOVING, asked=100, lent=2178),
        job('mask 42', {1: SIX_FIXED[1], 3: SIX_MOVING[2], 5: SIX_FIXED[2]}, lent=4000),
        typed('mask 33', {0: SIX_MOVING[4], 5: SIX_MOVING[5]}, lent=4000, others=HOSTILE),
        job('mask 32', {5: to(-250, half_period=3, second_weight=90)}, lent=400),
        typed('the largest numbers', [LARGE], asked=600, lent=8192),
        typed('the largest numbers, the other way',
              [LARGE._replace(start=RestPoint(134217727, 1048576),
                              target=State(-134217728, -1048576, 0, 600))], asked=600, lent=8192),
        typed('the largest numbers, damped', [LARGE._replace(second_weight=1)], asked=600, lent=8192),
        typed('the largest numbers, the least arrival', [LARGE], lent=8192),
        typed('a far target tick', [axis(speed_limit=1048576, acceleration_limit=65536,
                                         half_period=256, target=(134217727, 300, 250, 4096))],
              lent=8192),
        typed('a target tick far back', [axis(speed_limit=1048576, acceleration_limit=65536,
                                              target=(0, -20000, 10, -4096))], lent=8192),
        typed('the longest search', [to(4095, speed_limit=1)], lent=12291),
        typed('one tick too far', [to(4096, speed_limit=1)], lent=12291),
        typed('one axis asked 4096', [LONG], asked=4096, lent=12291),
        typed('one axis asked 4096, a cell short', [LONG], asked=4096, lent=12290),
        typed('six axes asked 4096', SIX_FIXED, asked=4096, lent=73746),
        typed('six axes asked 4096, a cell short', SIX_FIXED, asked=4096, lent=73745),
        typed('six axes asked 4096, more cells', SIX_FIXED, asked=4096, lent=73760),
    ]
    return Group('accepted', 'Accepted jobs of every kind, and the edges of the lent cells.',
                 cases + half_periods() + lent_cells())


def corrected() -> Group:
    cases = [
        typed('accelerating, damped', [CORRECTED], lent=21),
        typed('accelerating, damped, the other way', [CORRECTED._replace(target=State(0, 0, -1, 0))], lent=21),
        job('accelerating, damped, by words', [CORRECTED], asked=6, lent=21),
        typed('accelerating, damped, one too early', [CORRECTED], asked=5, lent=21),
        typed('cruise and remainder on the grid', [CHASED], asked=6, lent=21),
        typed('from target tick 20', [axis(half_period=2, second_weight=100, target=(0, 0, 1, 20))], asked=20, lent=63),
        job('a job with both grids', [CORRECTED, to(9), axis(acceleration_limit=3, half_period=2, second_weight=1,
                                                              target=(4, 1, -2, 3))], lent=400),
        typed('the largest numbers, accelerating, damped', [LARGE_CORRECTED], lent=8192),
        typed('the largest numbers, least weight',
              [LARGE_CORRECTED._replace(second_weight=1, start=RestPoint(134217727, 1048576),
                                        target=State(-134217728, 1048576, -4096, 400))], lent=8192),
        typed('the largest gain', [axis(speed_limit=1048576, acceleration_limit=65536, half_period=256,
                                        second_weight=64, target=(0, 0, 4000, 300))], lent=8192),
        typed('the largest gain, the other way', [axis(speed_limit=1048576, acceleration_limit=65536, half_period=256,
                                                       second_weight=64, target=(0, 0, -4000, 300))], lent=8192),
        typed('the largest acceleration', [axis(speed_limit=1048576, acceleration_limit=65536, half_period=3,
                                                second_weight=77, target=(900000, -300000, 65536, 0))], lent=300),
        typed('a far target tick, damped', [axis(speed_limit=1048576, acceleration_limit=65536, half_period=256,
                                                 second_weight=64, target=(134217727, 300, 250, 4096))], lent=8192),
        typed('out of reach at every tick', [axis(half_period=256, second_weight=1, target=(0, 0, 1, 0))]),
        typed('a cell short', [CHASED], asked=6, lent=20),
        typed('a grid for each axis',
              {0: to(4), 1: CHASED, 4: CHASED._replace(second_weight=128), 5: CHASED._replace(half_period=0)},
              lent=300),
    ]
    speed = CHASED._replace(speed_limit=12)
    cases += [typed('planned speed, asked %d' % n, [speed], asked=n, lent=40) for n in range(2, 9)]
    for b in (1, 2, 63, 127):
        for h in (1, 17, 256):
            one = axis(start=(5, -9), speed_limit=30000, acceleration_limit=900, half_period=h, second_weight=b,
                       target=(-77, 40, 60, 9))
            cases.append(typed('accelerating, half period %d, weight %d' % (h, b), [one], lent=3 * (h + 90)))
    return Group('corrected', 'Accelerating targets on damped poles.', cases)


# --- Refusals by words -----------------------------------------------------

def cuts() -> List[Case]:
    """A job of two axes, fixed and moving, cut at every length."""
    whole = words_of([to(1), axis(target=(0, 1, 0, 0))])
    return [by_words('two axes, %d of %d words' % (n, len(whole)), whole[:n])
            for n in range(len(whole) + 1)]


def wrong_kinds() -> List[Case]:
    """Case C with the kind of one word changed, at every place."""
    c = words_of([to(1)], asked=4)
    cases = []
    for k, word in enumerate(c):
        kind = (0, 13, 14, 15, 2)[k % 5] if k < 10 else 11
        changed = c[:k] + [kind << 28 | word & 0x0FFFFFFF] + c[k + 1:]
        cases.append(by_words('C with kind %d at word %d' % (kind, k), changed))
    return cases


def layouts() -> List[Case]:
    c = words_of([to(1)], asked=4)
    moving = words_of([axis(target=(0, 1, 0, 0))])
    six = words_of([axis(target=(bit, 1, 0, bit)) for bit in range(6)])
    return [
        by_words('mask 0', [0x10000000] + c[1:]),
        by_words('mask 268435455', [0x1FFFFFFF] + c[1:]),
        by_words('a second axis is lacking', [0x10000003] + c[1:]),
        by_words('a second axis is too much', [0x10000001] + words_of([to(1), to(1)])[1:]),
        by_words('an end payload', c[:-1] + [0xF0000010]),
        by_words('an end twice', c + [0xF0000000]),
        by_words('a target tick without acceleration', moving[:10] + moving[11:]),
        by_words('an acceleration without target tick', moving[:11] + moving[12:]),
        by_words('an acceleration twice', moving[:11] + moving[10:]),
        by_words('six moving axes', six, lent=8192),
        by_words('six moving axes, the end lacking', six[:-1]),
        by_words('six moving axes, a word left over', six + [0xF0000000]),
    ]


def values_by_words() -> List[Case]:
    return [
        job('asked 4096', [to(1)], asked=4096),
        job('asked 268435455', [to(1)], asked=268435455),
        job('speed limit 0', [axis(speed_limit=0)]),
        job('speed limit 1048577', {1: axis(speed_limit=1048577)}),
        job('acceleration limit 0', {5: axis(acceleration_limit=0)}),
        job('acceleration limit 65537', [axis(), axis(acceleration_limit=65537)]),
        job('half period 257', [axis(half_period=257)]),
        job('weight 0, half period 0', {4: axis(second_weight=0)}),
        job('start velocity 11', [axis(start=(0, 11))]),
        job('start velocity -134217728', [axis(start=(0, -134217728))]),
        job('target velocity -11', {3: axis(target=(0, -11))}),
        job('target acceleration 2', {2: axis(target=(0, 0, 2, 0))}),
        job('target tick -4097', {2: axis(target=(0, 0, 0, -4097))}),
        job('target tick -4096', [axis(target=(0, 0, 0, -4096))]),
        job('an accelerating target on a damped pole',
            {4: axis(half_period=1, second_weight=127, target=(0, 0, 1, 0))}),
        job('a fixed target that flies', {1: to(4), 3: axis(target=(4, 2))}),
        job('two of three axes fail', [to(4), to(1), to(-9)], asked=3),
        job('none is reached', {0: to(1), 5: to(-134217728, speed_limit=1)}),
        job('a cell short', [to(4), to(1)], lent=29),
        job('no cell', [to(1)], lent=0),
    ]


def refused_words() -> Group:
    return Group('words', 'Refusals by words: cut, damaged and out of range.',
                 cuts() + wrong_kinds() + layouts() + values_by_words())


# --- Refusals by typed values ----------------------------------------------

SLOW = to(134217727, speed_limit=1)


def refused_values() -> Group:
    worst = axis(start=(0, 21), speed_limit=20, half_period=300, target=(0, 0, 1, 0))
    cases = [
        typed('1 before 3', {}, asked=4097),
        typed('3 before 4', [axis(speed_limit=0)], asked=4097),
        typed('asked 4096', [to(1)], asked=4096),
        typed('asked 4294967295', [to(1)], asked=MOST),
        typed('speed limit 0', {5: axis(speed_limit=0)}),
        typed('speed limit 1048576', [axis(speed_limit=1048576)]),
        typed('speed limit 1048577', [axis(), axis(speed_limit=1048577)]),
        typed('acceleration limit 0', [axis(acceleration_limit=0)]),
        typed('acceleration limit 65536', [axis(acceleration_limit=65536)]),
        typed('acceleration limit 65537', {1: axis(), 4: axis(acceleration_limit=65537)}),
        typed('half period 257', {3: axis(half_period=257)}),
        typed('weight 0', [axis(half_period=5, second_weight=0)]),
        typed('weight 0, half period 0', [axis(second_weight=0)]),
        typed('weight 129, half period 0', {2: axis(second_weight=129)}),
        typed('5 before 6', [worst, axis(half_period=0, second_weight=0)]),
        typed('start velocity at the limit', [axis(start=(0, 10))], lent=78),
        typed('start velocity above it', [axis(start=(0, 11))]),
        typed('start velocity below it', {1: axis(start=(0, -11))}),
        typed('target velocity above it', [axis(target=(0, 11))]),
        typed('moving target velocity below it', {4: axis(target=(0, -11, 0, 0))}),
        typed('target acceleration above its limit', {2: axis(target=(0, 0, 2, 0))}),
        typed('target acceleration below it', {2: axis(target=(0, 0, -2, 0))}),
        typed('target tick 4096', [axis(target=(0, 0, 0, 4096))]),
        typed('target tick 4097', [axis(target=(0, 0, 0, 4097))]),
        typed('target tick -4097', {5: axis(target=(0, 0, 0, -4097))}),
        typed('start position 134217728', [axis(start=(134217728, 0))]),
        typed('start position past the upper end', [axis(start=(HIGH + 1, 0))]),
        typed('start position past the lower end', {1: axis(start=(LOW - 1, 0))}),
        typed('target position 134217728', [to(134217728)]),
        typed('target position past the upper end', [to(HIGH + 1)]),
        typed('moving target position past the lower end', {3: axis(target=(LOW - 1, 0, 0, 0))}),
        typed('17, a fixed target that flies', {3: axis(target=(0, 1)), 4: axis(target=(0, -1))}),
        typed('17 of the second axis, backwards', [to(4), axis(target=(0, -10))]),
        typed('17 where it stands', [axis(start=(5, 1), target=(5, 1))], asked=1),
        typed('6 over all axes before 17', [axis(target=(0, 1)), axis(start=(0, 11))]),
        typed('6 of a fixed target before 17', [axis(target=(0, 11))]),
        typed('17 before 8', [axis(target=(900, 1))], asked=1),
        typed('17 before 9', [to(100000000, speed_limit=1), axis(target=(0, 1))]),
        typed('17 before 10', [axis(target=(0, 1))], lent=0),
        typed('17 off the mask is not looked at', {2: to(4)}, others=axis(target=(0, 1))),
        typed('6 beside an accelerating target, damped',
              [axis(half_period=1, second_weight=1, target=(0, 0, 1, 0)), axis(start=(0, 11))]),
        typed('an accelerating target, no half period',
              [axis(second_weight=1, target=(0, 0, 1, 0))]),
        typed('a target of constant speed, damped',
              [axis(half_period=2, second_weight=1, target=(0, 1, 0, 0))], lent=60),
        typed('8 for each of six', [SLOW] * 6, asked=4096),
        typed('8 for every other', [to(4), SLOW, to(4), SLOW, to(4), SLOW], asked=4),
        typed('8 up to the half period', [axis(half_period=9)], asked=9),
        typed('asked just above the half period', [axis(half_period=9)], asked=10, lent=33),
        typed('9 for each of six', [SLOW] * 6),
        typed('9 for every other', [to(4), SLOW, to(4), SLOW, to(4), SLOW]),
        typed('10 for six axes', SIX_FIXED, asked=200, lent=3617),
        typed('10 with no cell', [axis()], lent=0),
        typed('10 with one cell', [axis()], lent=1),
    ]
    return Group('values', 'Refusals by typed values, and the edges of each range.', cases)


# --- Hostile typed values --------------------------------------------------

def extremes() -> List[Case]:
    """Each field at the ends of its type, the others as in the default."""
    fixed, moving = axis(), axis(target=(0, 0, 0, 0))
    cases = []
    for value in (LOWEST, HIGHEST):
        for what, one in (
                ('start position', fixed._replace(start=RestPoint(value, 0))),
                ('start velocity', fixed._replace(start=RestPoint(0, value))),
                ('target position', fixed._replace(target=RestPoint(value, 0))),
                ('target velocity', fixed._replace(target=RestPoint(0, value))),
                ('moving position', moving._replace(target=State(value, 0, 0, 0))),
                ('moving velocity', moving._replace(target=State(0, value, 0, 0))),
                ('moving acceleration', moving._replace(target=State(0, 0, value, 0))),
                ('moving tick', moving._replace(target=State(0, 0, 0, value)))):
            cases.append(typed('%s %d' % (what, value), [one]))
    for field_name in ('speed_limit', 'acceleration_limit', 'half_period', 'second_weight'):
        changed = fixed._replace(**{field_name: MOST})
        cases.append(typed('%s %d' % (field_name.replace('_', ' '), MOST), {4: changed}))
    return cases


def hostile() -> Group:
    masks = [0] + [1 << k for k in range(7)] + [63, 65, 1 << 31, MOST - 63, MOST]
    everywhere = Axis(RestPoint(LOWEST, LOWEST), MOST, MOST, MOST, MOST,
                      State(LOWEST, LOWEST, LOWEST, LOWEST))
    allowed = everywhere._replace(speed_limit=1048576, acceleration_limit=65536,
                                  half_period=256, second_weight=128)
    cases = [by_values('mask %d' % mask, mask, 0, [to(bit) for bit in range(6)], lent=120)
             for mask in masks]
    cases += extremes()
    cases += [
        by_values('every field at its end', MOST, MOST, [everywhere] * 6),
        by_values('every field at its end, mask 63', 63, 0, [everywhere] * 6),
        by_values('every signed field at its least', 63, 0, [allowed] * 6),
        by_values('every signed field at its greatest', 63, 4096,
                  [allowed._replace(start=RestPoint(HIGHEST, HIGHEST),
                                    target=State(HIGHEST, HIGHEST, HIGHEST, HIGHEST))] * 6),
        by_values('one good axis among hostile ones', 16, 0,
                  [HOSTILE, HOSTILE, HOSTILE, HOSTILE, to(4), HOSTILE]),
    ]
    return Group('hostile', 'Typed values at the ends of their types, and every mask bit.', cases)


# --- Random jobs -----------------------------------------------------------

def damaged(rng: random.Random, words: List[int]) -> List[int]:
    """The words cut, or with a bit turned, a word dropped or one left over."""
    k = rng.randrange(len(words))
    return rng.choice([words[:k], words[:k] + [words[k] ^ 1 << rng.randrange(32)] + words[k + 1:],
                       words[:k] + words[k + 1:], words + [rng.getrandbits(32)]])


def drawn(seed: int = 20, count: int = 20) -> Group:
    rng = random.Random(seed)
    cases = []
    for k in range(count):
        bits = sorted(rng.sample(range(6), rng.choice([1, 1, 2, 3, 6])))
        axes = {bit: random_axis(rng) for bit in bits}
        asked = rng.choice([0, 0, 0, rng.randint(40, 120)])
        if k % 2:
            words = words_of(axes, asked)
            words = damaged(rng, words) if k % 8 == 7 else words
            cases.append(by_words('drawn %d' % k, words, lent=8192))
        else:
            cases.append(typed('drawn %d' % k, axes, asked, lent=8192))
    return Group('drawn', 'Random jobs, by words, some damaged, and by typed values.', cases)


def mirrors() -> Group:
    """Jobs and their mirrors. Rule 5 is not mirrored: where a remainder is left,
    a mirrored job has another list."""
    def mirror(one: Axis) -> Axis:
        p, v, *rest = one.target
        target = State(-p, -v, -rest[0], rest[1]) if rest else RestPoint(-p, -v)
        return one._replace(start=RestPoint(*(-x for x in one.start)), target=target)

    chosen = (('to 4', to(4), 0), ('to 1, asked 4', to(1), 4), ('half units', axis(target=(0, 0, 1, 0)), 0),
              ('half fine steps', to(1, half_period=1), 54),
              ('half period 7, weight 1', to(9, half_period=7, second_weight=1), 0),
              ('half period 3, weight 64', axis(start=(2, 1), half_period=3, second_weight=64, target=(40, -3, 0, 23)),
               0),
              ('weight 127', axis(start=(-2, 3), half_period=2, second_weight=127, target=(5, 1, 0, 2)), 0),
              ('accelerating, half period 5',
               axis(acceleration_limit=2, half_period=5, speed_limit=40, target=(3, 1, 1, 4)), 0),
              ('accelerating, damped', CHASED, 6))
    cases = []
    for name, one, asked in chosen:
        cases += [typed(name + ', right', [one], asked, lent=180),
                  typed(name + ', left', [mirror(one)], asked, lent=180)]
    return Group('mirrors', 'Right and left: halves go away from zero.', cases)
