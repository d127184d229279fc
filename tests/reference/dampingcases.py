"""The cases of damping as measured (request 2.3): weights, and planning jobs."""

import functools
import random
from fractions import Fraction
from typing import List, NamedTuple, Optional

from builders import Case, Group, axis, random_axis, to, typed
from damping import (INFINITY, NAN, ONE, SIGN, Damping, Peaks, Ratio, quotient, rounded, single, size_of,
                     weight_of)

LEAST, LEAST_NORMAL, GREATEST = 1, 0x00800000, INFINITY - 1
QUIET, SIGNALLING = NAN, INFINITY + 1


class WeightCase(NamedTuple):
    name: str
    damping: Damping
    weight: Optional[int]       # the reference's; None: refused with 12


def ratio(number: float) -> Ratio:
    return Ratio(single(number))


def peaks(first: float, second: float) -> Peaks:
    return Peaks(single(first), single(second))


def weighed(name: str, damping: Damping) -> WeightCase:
    return WeightCase(name, damping, weight_of(damping))


# --- Weights ---------------------------------------------------------------

@functools.lru_cache(maxsize=None)
def edge(weight: int) -> int:
    """The bits of the least ratio with at least this weight: a weight never
    falls as the ratio rises."""
    below, above = 0, ONE
    while above - below > 1:
        middle = (below + above) // 2
        if weight_of(Ratio(middle)) >= weight:
            above = middle
        else:
            below = middle
    return above


def weight_edges() -> List[WeightCase]:
    """Both sides of the edge of every weight, by ratio and by peaks."""
    cases = []
    for b in range(2, 129):
        at = edge(b)
        cases += [weighed('weight %d, its least ratio' % b, Ratio(at)),
                  weighed('weight %d, one step below' % b, Ratio(at - 1))]
        first = single(100 + 7 * b / 3)
        second = rounded(size_of(at) * size_of(first))
        while quotient(second, first) >= at:
            second -= 1
        cases += [weighed('peaks just below weight %d' % b, Peaks(first, second)),
                  weighed('peaks at weight %d' % b, Peaks(first, second + 1))]
    return cases


def exact_weight(first: int, second: int) -> int:
    return max([b for b in range(1, 129) if b * first <= second * (256 - b)], default=1)


def telling_peaks(most: int = 256) -> List[WeightCase]:
    """Whole peaks for which an exact quotient and product give another weight."""
    cases = []
    for first in range(1, most):
        for second in range(1, first + 1):
            b = exact_weight(first, second)
            # the weights differ only where the exact one is at or just below an edge
            if any(x * (first + second) == 256 * second for x in (b, b + 1)):
                if weight_of(peaks(first, second)) != b:
                    cases.append(weighed('whole peaks %d, %d' % (first, second), peaks(first, second)))
    return cases


SPECIAL = (('0', 0), ('-0', SIGN), ('the least single', LEAST), ('minus the least single', SIGN | LEAST),
           ('the greatest subnormal', LEAST_NORMAL - 1), ('the least normal', LEAST_NORMAL),
           ('1', ONE), ('just above 1', ONE + 1), ('just below 1', ONE - 1), ('-1', SIGN | ONE),
           ('the greatest single', GREATEST), ('infinity', INFINITY), ('minus infinity', SIGN | INFINITY),
           ('a quiet NaN', QUIET), ('a signalling NaN', SIGNALLING), ('a NaN below 0', SIGN | QUIET),
           ('every bit', 0xFFFFFFFF))


def special_weights() -> List[WeightCase]:
    cases = [weighed('ratio: ' + name, Ratio(bits)) for name, bits in SPECIAL]
    return cases + [weighed('peaks: %s, then %s' % (a, b), Peaks(x, y)) for a, x in SPECIAL for b, y in SPECIAL]


def named_weights() -> List[WeightCase]:
    return [
        weighed('ratio 0.5', ratio(0.5)), weighed('ratio 0.999', ratio(0.999)),
        weighed('ratio 2/254', ratio(0.007874015718698502)), weighed('ratio 1/255', ratio(1 / 255)),
        weighed('peaks 97, 31', peaks(97, 31)), weighed('peaks 155, 101', peaks(155, 101)),
        weighed('peaks 201, 55', peaks(201, 55)),
        weighed('peaks with fractions', peaks(474.5794677734375, 211.8179473876953)),
        weighed('peaks 1e38, 1e-38', peaks(1e38, 1e-38)), weighed('peaks 1e-45, 1e-45', peaks(1e-45, 1e-45)),
        weighed('peaks 3, 3', peaks(3, 3)), weighed('peaks 3, 4', peaks(3, 4)),
        weighed('peaks -3, -2', peaks(-3, -2)), weighed('peaks 3, -2', peaks(3, -2)),
        weighed('neighbours above 1', Peaks(ONE + 1, ONE)),
        weighed('neighbours, the second larger', Peaks(ONE, ONE + 1)),
        weighed('the greatest neighbours', Peaks(GREATEST, GREATEST - 1)),
        weighed('the greatest neighbours, the second larger', Peaks(GREATEST - 1, GREATEST)),
        weighed('a quotient of half the least single', Peaks(single(2), LEAST)),
        weighed('a quotient above half the least single', Peaks(single(4), 3)),
        weighed('a quotient of one and a half least singles', Peaks(single(2), 3)),
        weighed('a subnormal quotient', Peaks(single(1e20), single(1e-20))),
    ]


def weights() -> List[WeightCase]:
    return named_weights() + special_weights() + weight_edges() + telling_peaks()


# --- Planning jobs ---------------------------------------------------------

def on(damping, position: int = 9, **changes):
    return to(position, second_weight=damping, **changes)


SIX = [on(ratio(1)), on(ratio(0.5), half_period=3), on(peaks(97, 31), -7, half_period=5),
       on(90, half_period=2), on(peaks(1e-45, 1e-45), half_period=8), on(Ratio(LEAST), 20, half_period=1)]


def refused_jobs() -> List[Case]:
    bad = ratio(0)
    return [
        typed('12 where the half period is 0', [on(bad)]),
        typed('12 over all axes before 5', [on(128, half_period=257), on(bad)]),
        typed('5 after 12', [on(ratio(0.5), half_period=257), on(peaks(2, 1))]),
        typed('4 over all axes before 12', [on(bad), on(128, speed_limit=0)]),
        typed('3 before 12', [on(bad)], asked=4097),
        typed('1 before 12', {}, asked=4097),
        typed('12 before 6', [on(128, start=(0, 11)), on(bad, start=(0, 11))]),
        typed('12 before 8', [on(bad)], asked=1),
        typed('12 before 9', [on(bad, 100000000, speed_limit=1)]),
        typed('12 before 10', [on(bad)], lent=0),
        typed('the first of two bad axes', {1: on(bad), 4: on(bad)}),
        typed('12 of axis 5', {0: on(ratio(1)), 5: on(peaks(0, 0))}),
        typed('a bad axis off the mask', {2: to(4)}, others=on(Peaks(NAN, NAN))),
        typed('10 for a measured axis', [on(ratio(0.5))], lent=20),
        typed('8 for a measured axis', [on(ratio(0.5), half_period=4)], asked=4),
        typed('9 for a measured axis', [on(ratio(0.5), 100000000, speed_limit=1)]),
    ] + [typed('ratio %s' % name, {3: on(Ratio(bits))}) for name, bits in SPECIAL if weight_of(Ratio(bits)) is None]


def accepted_jobs() -> List[Case]:
    cases = [
        typed('six axes', SIX, lent=900),
        typed('six axes, asked', SIX, asked=60, lent=1098),
        typed('a measured accelerating target, ratio 1',
              [axis(half_period=1, acceleration_limit=2, second_weight=ratio(1), target=(0, 0, 1, 0))], lent=60),
        typed('a measured accelerating target, not quite 1',
              [axis(half_period=1, acceleration_limit=2, second_weight=ratio(0.999), target=(0, 0, 1, 0))], lent=60),
        typed('a measured accelerating target, peaks 97, 31',
              [axis(speed_limit=900, acceleration_limit=90, half_period=9, second_weight=peaks(97, 31),
                    target=(7, 30, -20, 4))],
              lent=90),
        typed('a measured accelerating target, no half period',
              [axis(second_weight=ratio(0.25), target=(0, 0, 1, 0))]),
        typed('a measured moving target',
              [axis(half_period=6, second_weight=peaks(155, 101), target=(8, -2, 0, 3))], lent=150),
    ]
    for b in (2, 61, 85, 100, 127, 128):
        for bits in (edge(b), edge(b) - 1):
            one = on(Ratio(bits), 30, half_period=4, start=(-3, 2))
            cases.append(typed('weight %d of ratio bits %d' % (weight_of(Ratio(bits)), bits), [one], lent=90))
    for first, second in ((97, 31), (155, 101), (201, 55), (474.5794677734375, 211.8179473876953)):
        cases.append(typed('a job with peaks %s, %s' % (first, second),
                           [on(peaks(first, second), 300, half_period=9)], lent=300))
    return cases


def damping() -> Group:
    return Group('damping', 'Damping as measured, by ratio and by peaks.', refused_jobs() + accepted_jobs())


def by_a_job(case: WeightCase) -> Case:
    """A job whose table is another one for every weight."""
    one = to(1000, speed_limit=2000, acceleration_limit=1000, half_period=1, second_weight=case.damping)
    return typed(case.name, [one], asked=3, lent=15)


# --- Random ones -----------------------------------------------------------

def random_damping(rng: random.Random) -> Damping:
    """Mostly good: near the edge of a weight, of a size like those written
    down, of any size; some with any bits."""
    def beside(bits: int) -> int:
        return max(1, bits + rng.choice([-2, -1, 0, 1, 2]))

    first = rng.choice([single(rng.uniform(0.1, 900)), rng.randrange(1, INFINITY), single(rng.randint(1, 400))])
    way = rng.randrange(6)
    if way == 0:
        return Ratio(beside(edge(rng.randint(2, 128))))
    if way == 1:
        return ratio(rng.uniform(0, 1))
    if way == 2:
        return Peaks(first, beside(rounded(size_of(edge(rng.randint(2, 128))) * size_of(first))))
    if way == 3:
        return Peaks(first, rounded(size_of(first) * Fraction(rng.random())))
    if way == 4:
        return peaks(*sorted((rng.randint(1, 400), rng.randint(1, 400)), reverse=True))
    return rng.choice([Ratio(rng.getrandbits(32)), Peaks(rng.getrandbits(32), rng.getrandbits(32))])


def drawn_weights(seed: int = 23, count: int = 100) -> List[WeightCase]:
    rng = random.Random(seed)
    return [weighed('drawn weight %d' % k, random_damping(rng)) for k in range(count)]


def drawn_damping(seed: int = 23, count: int = 20) -> Group:
    """Random jobs, about half of their axes with measured damping."""
    rng = random.Random(seed)
    cases = []
    for k in range(count):
        axes = {bit: random_axis(rng) for bit in sorted(rng.sample(range(6), rng.choice([1, 1, 2, 3, 6])))}
        for bit, one in axes.items():
            if rng.randrange(2):
                axes[bit] = one._replace(second_weight=random_damping(rng))
        cases.append(typed('drawn damping %d' % k, axes, rng.choice([0, 0, 0, 0, 90]), lent=8192))
    return Group('drawn damping', 'Random jobs with measured damping.', cases)
