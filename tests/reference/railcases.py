"""The cases of positions past 28 bits (request 2.8): words of kind 14, and the
same positions by typed values."""

import random
from typing import List, Tuple

from builders import Case, Group, axis, by_words, job, random_axis, to, typed, words_of
from reference import Axis, RestPoint, State, word

PAST = 1 << 27                              # the least position past a single word
LOW, HIGH = -(1 << 34), (1 << 34) - 1       # the ends of the rail
FAR_OFF = HIGH - 1000


def along(one: Axis, offset: int) -> Axis:
    """The axis with its start and its target moved along the rail."""
    return one._replace(start=one.start._replace(position=one.start.position + offset),
                        target=one.target._replace(position=one.target.position + offset))


def spelled(start: Tuple[int, int], target: Tuple[int, int], asked: int = 0) -> List[int]:
    """The words of the default axis with both positions as high and low payload."""
    words = words_of([axis()], asked)
    return (words[:2] + [word(14, start[0]), word(3, start[1])] + words[3:8]
            + [word(14, target[0]), word(9, target[1])] + words[9:])


# --- Words of kind 14 ------------------------------------------------------

PAYLOAD_PAIRS = ((0, PAST), (0, PAST - 1), (-1, PAST - 1), (-1, PAST), (0, 0), (-1, 2 * PAST - 1), (1, 0),
                 (-2, 2 * PAST - 1),
                 (63, 2 * PAST - 1), (64, 0), (-64, 0), (-65, 0), (-65, 2 * PAST - 1), (63, 0), (PAST - 1, 0),
                 (-PAST, 0))


def payloads() -> List[Case]:
    """Both ends of every range, at the start and at the target."""
    cases = [by_words('kind 14, %d then %d' % pair, spelled(pair, pair)) for pair in PAYLOAD_PAIRS]
    good = (1, 5)
    for pair in ((0, PAST - 1), (-1, PAST), (64, 0), (-65, 0)):
        cases += [by_words('kind 14, %d then %d, at the target only' % pair, spelled(good, pair)),
                  by_words('kind 14, %d then %d, at the start only' % pair, spelled(pair, good))]
    return cases


def layouts() -> List[Case]:
    c = words_of([to(1)], asked=4)
    both = spelled((1, 0), (1, 1), asked=4)
    bad = word(14, 0)
    cases = [
        by_words('C far along the rail', both),
        by_words('kind 14 at the target only, out of reach', c[:8] + [word(14, 1)] + c[8:]),
        by_words('kind 14 twice', both[:3] + both[2:]),
        by_words('kind 14 and no position', both[:3] + both[4:]),
        by_words('kind 14 at the end', c[:-1] + [word(14, 1)] + c[-1:]),
        by_words('kind 14 after the end', c + [word(14, 1)]),
        by_words('kind 14 first', [word(14, 1)] + c),
        by_words('2 before 14', both[:2] + [bad] + both[3:] + [0]),
        by_words('2 before 14, at the next word', c[:2] + [bad, word(9, 0)] + c[3:]),
        by_words('14 before 3', spelled((0, 5), (0, 5), asked=4097)),
        by_words('14 before 4', both[:5] + [word(5, 0)] + both[6:9] + [bad] + both[10:]),
        by_words('14 before 9', spelled((63, 0), (64, 0))),
        job('one of two axes past a word', [to(1), along(to(1), PAST)]),
    ]
    two = words_of([along(to(1), PAST), along(to(1), 2 * PAST)])
    cases.append(by_words('14 twice in the second axis', two[:12] + [word(14, 64)] + two[13:19] + [bad] + two[20:]))
    cases += [by_words('kind 14 before kind %d' % kind, c[:kind - 1] + [word(14, 1)] + c[kind - 1:])
              for kind in (2, 4, 5, 6, 7, 8, 10)]
    cases += [by_words('far along the rail, %d of %d words' % (n, len(both)), both[:n]) for n in (2, 3, 4, 9, 10)]
    return cases


def six_moving() -> List[Case]:
    """Six moving axes, all positions past a word."""
    six = [along(axis(target=(bit, 1, 0, bit)), (-1) ** bit * (PAST + 9 * bit)) for bit in range(6)]
    words = words_of(six)
    return [by_words('six moving axes past a word', words, lent=8192),
            by_words('six moving axes past a word, the end lacking', words[:-1]),
            by_words('six moving axes past a word, a word left over', words + [0])]


# --- Tables ----------------------------------------------------------------

FAST = axis(speed_limit=1048576, acceleration_limit=65536)
LANDS_FAR = FAST._replace(start=RestPoint(HIGH, -1048576), half_period=256,
                          target=State(HIGH - 1000000000, 1048576, 0, 1200))
CORRECTED = FAST._replace(half_period=256, second_weight=64)


def tables() -> List[Case]:
    return [
        job('at the upper end of the rail', [to(HIGH, start=(HIGH - 4, 0))]),
        job('at the lower end of the rail', [to(LOW, start=(LOW + 4, 0))]),
        typed('at the upper end, by values', [to(HIGH, start=(HIGH - 4, 0))]),
        typed('at the lower end, by values', [to(LOW, start=(LOW + 4, 0))]),
        typed('over the end of a word', [to(PAST + 2, start=(PAST - 2, 0), half_period=3, second_weight=90)], lent=60),
        job('over the end of a word, back', [to(-PAST + 1, start=(-PAST - 3, 0), half_period=2)], lent=60),
        job('both ends', [to(HIGH, start=(HIGH - 4, 0)), to(LOW, start=(LOW + 4, 0))], lent=40),
        typed('past the end on the way', [axis(start=(HIGH, 10), target=(HIGH, 0))], lent=150),
        typed('past the lower end on the way', [axis(start=(LOW, -10), target=(LOW, 0))], lent=150),
        typed('as far as 4,096 ticks go',
              [to(LOW + 4000000000, start=(LOW, 0), speed_limit=1048576, acceleration_limit=65536)],
              lent=12291),
        typed('farther than 4,096 ticks go', [to(HIGH, start=(LOW, 0), speed_limit=1048576, acceleration_limit=65536)]),
        typed('the whole rail, asked 4,096', [FAST._replace(start=RestPoint(HIGH, 0), target=RestPoint(LOW, 0))],
              asked=4096),
        typed('the largest numbers on the rail', [LANDS_FAR], lent=8192),
        typed('the largest numbers on the rail, the other way',
              [LANDS_FAR._replace(start=RestPoint(LOW, 1048576), target=State(LOW + 1000000000, -1048576, 0, 1200))],
              lent=8192),
        typed('a far target tick on the rail',
              [CORRECTED._replace(start=RestPoint(HIGH, 0), target=State(HIGH, 300, 250, 4096))],
              lent=8192),
        typed('a corrected target on the rail',
              [CORRECTED._replace(start=RestPoint(LOW, 0), target=State(LOW, 0, 4000, 300))],
              lent=8192),
        typed('a corrected target on the rail, the other way',
              [CORRECTED._replace(start=RestPoint(HIGH, 0), target=State(HIGH, 0, -4000, 300))], lent=8192),
    ]


def out_of_range() -> List[Case]:
    """Typed positions at both ends of their range and one past them."""
    cases = []
    for name, inside, outside in (('upper', HIGH, HIGH + 1), ('lower', LOW, LOW - 1)):
        cases += [
            typed('start at the %s end' % name, {1: to(inside, start=(inside, 0))}),
            typed('start past the %s end' % name, {1: to(inside, start=(outside, 0))}),
            typed('target past the %s end' % name, {2: to(outside, start=(inside, 0))}),
            typed('moving target at the %s end' % name, {2: axis(start=(inside, 0), target=(inside, 0, 0, 0))}),
            typed('moving target past the %s end' % name, {2: axis(start=(inside, 0), target=(outside, 0, 0, 0))}),
        ]
    return cases


def rails() -> Group:
    return Group('rails', 'Positions past 28 bits.', payloads() + layouts() + six_moving() + tables() + out_of_range())


# --- Random ones -----------------------------------------------------------

def random_offset(rng: random.Random) -> int:
    """Near an end of a word or of the rail, or anywhere on it."""
    return rng.choice([PAST, -PAST, LOW + 900, FAR_OFF, rng.randint(LOW + 900, FAR_OFF)])


def damaged(rng: random.Random, words: List[int]) -> List[int]:
    """A word of kind 14 somewhere, or the payload of one changed."""
    places = [k for k, x in enumerate(words) if x >> 28 == 14]
    high = rng.choice([0, -1, 1, 63, 64, -64, -65, rng.randint(-PAST, PAST - 1)])
    if places and rng.randrange(3):
        k = rng.choice(places)
        return words[:k] + [word(14, high)] + words[k + 1:]
    k = rng.choice([2, 8, rng.randrange(len(words) + 1)])
    return words[:k] + [word(14, high)] + words[k:]


def drawn_rails(seed: int = 28, count: int = 20) -> Group:
    """Random jobs, most axes far along the rail, some damaged."""
    rng = random.Random(seed)
    cases = []
    for k in range(count):
        axes = {bit: random_axis(rng) for bit in sorted(rng.sample(range(6), rng.choice([1, 1, 2, 3])))}
        axes = {bit: along(one, random_offset(rng)) if rng.randrange(4) else one for bit, one in axes.items()}
        asked = rng.choice([0, 0, 0, rng.randint(40, 120)])
        if k % 3 == 2:
            cases.append(typed('drawn rail %d' % k, axes, asked, lent=8192))
        else:
            words = words_of(axes, asked)
            cases.append(by_words('drawn rail %d' % k, damaged(rng, words) if k % 3 else words, lent=8192))
    return Group('drawn rails', 'Random jobs far along the rail, by words, some damaged, and by typed values.', cases)
