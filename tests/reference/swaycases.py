"""The cases of poles with a second sway (request 2.9)."""

import random
from typing import List

from builders import MOST, Case, Group, axis, by_words, job, random_axis, to, typed, words_of
from dampingcases import peaks, random_damping, ratio
from railcases import HIGH, LOW, PAST, along, damaged, random_offset
from reference import Axis, RestPoint, State, word
from tourcases import BASE, TourCase, case, random_tour, single, several, stop
from windowcases import random_windows, windowed


def jointed(second: int, position: int = 1, **changes) -> Axis:
    """The default axis with a second half period, to a position."""
    return to(position, second_half_period=second, **changes)


ROWS = jointed(2, half_period=1, second_weight=100)
TO_2 = jointed(3, 2, half_period=2, second_weight=100)
FAST = axis(speed_limit=1048576, acceleration_limit=65536, half_period=256, second_half_period=256)
SIX = [jointed(1, 4), jointed(2, -7, half_period=1), jointed(5, 30, half_period=5, second_weight=1),
       axis(start=(9, 3), half_period=17, second_weight=127, second_half_period=9, target=(-20, -1, 0, 30)),
       jointed(64, 1000, speed_limit=200, acceleration_limit=9, half_period=64, second_weight=100),
       axis(start=(-5, -2), target=(6, 2, 0, -3))]


# --- Words -----------------------------------------------------------------

def layouts() -> List[Case]:
    """Words of kind 13, where they may stand and where not."""
    w = words_of([TO_2])
    plain = words_of([to(2)])
    far = words_of([along(TO_2, PAST)])     # kinds 14 3 4 5 6 7 8 13 14 9 10 from word 2 on
    moving = words_of([axis(second_half_period=4, target=(0, 1, 0, 0))])
    cases = [
        by_words('kind 13 after kind 8', w, lent=40),
        by_words('kinds 13 and 14 between 8 and 9', far, lent=40),
        by_words('kind 14 before kind 13', far[:9] + [far[10], far[9]] + far[11:]),
        by_words('kind 13 twice', w[:9] + w[8:]),
        by_words('kind 13 twice, kind 14 after it', far[:10] + far[9:]),
        by_words('kind 13 at the end', plain[:-1] + [word(13, 3)] + plain[-1:]),
        by_words('kind 13 after the end', plain + [word(13, 3)]),
        by_words('kind 13 before kind 11', moving[:8] + moving[9:11] + [moving[8]] + moving[11:]),
        by_words('kind 13 and a moving target', moving, lent=60),
        by_words('words end after kind 13', w[:9]),
        by_words('words end before kind 13', w[:8]),
        by_words('2 before 15', w[:8] + [word(13, 0)] + w[9:] + [0]),
        by_words('14 before 15', far[:2] + [word(14, 64)] + far[3:9] + [word(13, 0)] + far[10:]),
    ]
    return cases + [by_words('kind 13 before kind %d' % kind, plain[:kind - 1] + [word(13, 3)] + plain[kind - 1:])
                    for kind in (2, 3, 4, 5, 6, 7, 8, 10)]


def longest() -> List[Case]:
    """The longest job: six moving axes with a second half period each, all
    positions past a word."""
    words = words_of([along(axis(second_half_period=bit + 1, target=(bit, 1, 0, bit)), (-1) ** bit * (PAST + 9 * bit))
                      for bit in range(6)])
    return [by_words('the longest job', words, lent=8192), by_words('the longest job, the end lacking', words[:-1]),
            by_words('the longest job, a word left over', words + [0])]


def payloads() -> List[Case]:
    w = words_of([TO_2])
    return [by_words('second half period %d' % n, w[:8] + [word(13, n)] + w[9:], lent=900)
            for n in (0, 1, 255, 256, 257, 1 << 27, (1 << 28) - 1)]


# --- Refusals by typed values ----------------------------------------------

def refused() -> List[Case]:
    bad, turning = jointed(0), axis(second_half_period=1, target=(0, 0, 1, 0))
    cases = [typed('15, second half period %d' % n, {3: jointed(n)}) for n in (0, 257, MOST)]
    return cases + [
        typed('second half period 1', {3: jointed(1)}, lent=40),
        typed('second half period 256', {3: jointed(256)}, lent=900),
        typed('15 where h is 0 and the weight 128', [bad]),
        typed('15 of the first of two', {1: bad, 4: bad}),
        typed('5 over all axes before 15', [bad, axis(half_period=257)]),
        typed('5 before 15 of one axis', [jointed(0, half_period=257)]),
        typed('12 before 15', [bad, axis(second_weight=ratio(0))]),
        typed('15 over all axes before 6', [axis(start=(0, 11)), bad]),
        typed('15 before 16', [turning, bad]),
        typed('15 and an accelerating target', [turning._replace(second_half_period=0)]),
        typed('4 before 15', [bad, axis(speed_limit=0)]),
        typed('3 before 15', [bad], asked=4097),
        typed('16 where h is 0', {2: turning}),
        typed('16 where the weight is 128', {2: turning._replace(half_period=3, acceleration_limit=4)}),
        typed('16 on a damped pole', {5: turning._replace(half_period=3, second_weight=77, acceleration_limit=4)}),
        typed('16 of the first of two', {1: turning, 4: turning}),
        typed('6 over all axes before 16', [turning, axis(start=(0, 11))]),
        typed('6 before 16 of one axis', [axis(second_half_period=1, target=(0, 0, 2, 0))]),
        typed('16 over all axes before 17', [axis(target=(0, 1)), turning]),
        typed('17 of a jointed axis', {4: axis(second_half_period=2, target=(0, 1))}),
        typed('16 before 8', [turning], asked=1),
        typed('16 before 9', [turning, to(100000000, speed_limit=1)]),
        typed('16 before 10', [turning], lent=0),
        typed('a moving target of acceleration 0', [turning._replace(target=State(0, 1, 0, 0))], lent=60),
        typed('an accelerating axis beside a jointed one', [jointed(3), axis(target=(0, 0, 1, 0))], lent=60),
        typed('an axis off the mask with 0', {2: jointed(2)}, lent=60, others=bad),
        windowed('16 before 13', [], axes=[turning]),
        windowed('15 before 13', [], axes=[bad]),
    ]


# --- Tables ----------------------------------------------------------------

def arrivals() -> List[Case]:
    """Arrival must exceed h + h2."""
    still = to(5, start=(5, 0), half_period=4, second_half_period=3)
    return [
        typed('nothing moves', [still]),
        typed('asked h + h2', [still], asked=7),
        typed('asked h + h2 + 1', [still], asked=8, lent=27),
        typed('asked h + h2 + 1, a cell short', [still], asked=8, lent=26),
        typed('8 for one of two', [still, to(4)], asked=7),
        typed('9 for a jointed axis', [jointed(256, 3600, speed_limit=1, half_period=256)]),
        typed('the last tick, with both delays', [jointed(256, 3583, speed_limit=1, half_period=256)], lent=12291),
        typed('one tick too far, with both delays', [jointed(256, 3584, speed_limit=1, half_period=256)], lent=12291),
        typed('asked 4,096', [jointed(256, 3583, speed_limit=1, half_period=256)], asked=4096, lent=12291),
        windowed('in a window', [(0, 5), (7, 12)], 3, axes=[ROWS], lent=60),
        windowed('8 with mask 0', [(0, 5), (7, 12)], 3, axes=[ROWS], asked=5, lent=60),
        windowed('9 with mask 0', [(0, 5)], axes=[ROWS], lent=60),
    ]


def tables() -> List[Case]:
    cases = [
        typed('rows of both blends', [ROWS], lent=18),
        typed('to 2, half periods 2 and 3', [TO_2], lent=40),
        typed('C with a second half period of 1, asked 5', [jointed(1)], asked=5, lent=18),
        typed('C with a second half period of 1, the other way', [jointed(1, -1)], asked=5, lent=18),
        typed('starts and lands moving',
              [axis(start=(3, 2), half_period=3, second_half_period=2, target=(13, 2, 0, 6))], lent=60),
        typed('a moving target far back', [axis(start=(3, -2), half_period=3, second_weight=9, second_half_period=8,
                                                target=(-7, 3, 0, -50))], lent=300),
        typed('a target before its tick', [axis(second_half_period=3, target=(10, 1, 0, 10))], lent=60),
        typed('the same rate twice', [jointed(4, 9, half_period=4)], lent=90),
        typed('the same rate twice, damped', [jointed(4, 9, half_period=4, second_weight=80)], lent=90),
        typed('a ratio and a second half period', [jointed(3, 9, half_period=2, second_weight=ratio(0.5))], lent=90),
        typed('peaks and a second half period', [jointed(3, 9, half_period=2, second_weight=peaks(97, 31))], lent=90),
        typed('six axes', SIX, lent=8192), job('six axes by words', SIX, lent=8192),
        typed('every grid in one job',
              [jointed(2, 9), axis(acceleration_limit=2, half_period=3, second_weight=100, target=(0, 0, 1, 0)),
                                        to(9)], lent=400),
        typed('the largest numbers',
              [FAST._replace(start=RestPoint(-PAST, -1048576), target=State(PAST - 1, 1048576, 0, 900))],
              lent=8192),
        typed('the largest numbers, the other way, damped',
              [FAST._replace(start=RestPoint(PAST - 1, 1048576), second_weight=1,
                             target=State(-PAST, -1048576, 0, 900))], lent=8192),
        typed('the upper end of the rail',
              [FAST._replace(start=RestPoint(HIGH, -1048576), target=State(HIGH, 1048576, 0, 1100))],
              lent=8192),
        typed('the lower end of the rail',
              [FAST._replace(start=RestPoint(LOW, 1048576), target=State(LOW, -1048576, 0, 1100))],
              lent=8192),
    ]
    for h, b, h2 in ((0, 128, 1), (0, 1, 7), (1, 128, 1), (2, 1, 3), (7, 64, 2), (64, 127, 255), (255, 128, 64),
                     (256, 1, 256), (256, 128, 1), (1, 128, 256)):
        one = axis(start=(2, 1), half_period=h, second_weight=b, second_half_period=h2, target=(40, -3, 0, h + h2 + 20))
        cases.append(typed('half periods %d and %d, weight %d' % (h, h2, b), [one], lent=3 * (h + h2 + 100)))
    return cases


def tours() -> List[TourCase]:
    out = [stop(4, 3), stop(0, 5)]
    return [
        single('out and back with a joint', out, half_period=1, second_weight=100, second_half_period=2),
        single('a leg of no way', [stop(0), stop(0, 2)], half_period=5, second_half_period=3),
        several('one of two axes has a joint', [BASE, BASE._replace(second_half_period=9)],
                [stop([4, 9], 3), stop([0, 1])]),
        single('15 of a leg', out, second_half_period=0),
        single('15 of a leg, 257', out, second_half_period=257),
        several('15: the place is the stop', {4: BASE._replace(second_half_period=0)}, out),
        several('5 over all axes before 15', [BASE._replace(second_half_period=0), BASE._replace(half_period=257)],
                out),
        single('15 before 6', [stop(HIGH + 1)], second_half_period=0),
        several('0 off the mask', {2: BASE}, [stop([0, 0, 4])], other=BASE._replace(second_half_period=0)),
        single('9 of a leg', [stop(1), stop(4000, 1)], speed_limit=1, half_period=200, second_half_period=200),
    ]


def words_cases() -> Group:
    """Jobs by words."""
    return Group('sways', 'A second half period by words of kind 13.',
                 layouts() + payloads() + longest() + [job('rows of both blends, by words', [ROWS], lent=18)])


def sways() -> Group:
    return Group('sways by values', 'Poles with a second sway.', refused() + arrivals() + tables())


# --- Random ones -----------------------------------------------------------

def random_jointed(rng: random.Random) -> Axis:
    """A random axis, most with a second half period and no acceleration."""
    one = random_axis(rng)
    if rng.randrange(5) == 0:
        return one
    if isinstance(one.target, State) and rng.randrange(8):
        one = one._replace(target=one.target._replace(acceleration=0))
    return one._replace(second_half_period=rng.choice([1, 2, 3, rng.randint(1, 40), rng.choice([0, 255, 256, 257])]))


def drawn_sways(seed: int = 29, count: int = 60) -> Group:
    return Group('drawn sways', 'Random jobs with second half periods.',
                 drawn_jobs('drawn sway', [1, 1, 1, 2, 3], seed, count))


def drawn_jobs(called: str, widths: List[int], seed: int, count: int) -> List[Case]:
    """Random jobs, most axes with a second half period; by words, some damaged,
    and by typed values, some measured, some with windows. The number of axes of
    each is one of `widths`."""
    rng = random.Random(seed)
    cases = []
    for k in range(count):
        axes = {bit: random_jointed(rng) for bit in sorted(rng.sample(range(6), rng.choice(widths)))}
        axes = {bit: one if rng.randrange(4) else along(one, random_offset(rng)) for bit, one in axes.items()}
        asked, name = rng.choice([0, 0, 0, rng.randint(40, 120)]), '%s %d' % (called, k)
        if k % 2:
            words = words_of(axes, asked)
            cases.append(by_words(name, damaged_13(rng, words) if k % 8 == 7 else words, lent=8192))
            continue
        if rng.randrange(3) == 0:
            axes = {bit: one._replace(second_weight=random_damping(rng)) for bit, one in axes.items()}
        windows = random_windows(rng) if rng.randrange(3) == 0 else None
        cases.append(typed(name, axes, asked, lent=8192)._replace(windows=windows))
    return cases


def damaged_13(rng: random.Random, words: List[int]) -> List[int]:
    """A word of kind 13 somewhere, or the payload of one changed, or as for kind 14."""
    places = [k for k, x in enumerate(words) if x >> 28 == 13]
    length = rng.choice([0, 1, 256, 257, rng.randrange(1 << 28)])
    way = rng.randrange(3)
    if way == 0:
        return damaged(rng, words)
    k = rng.choice(places) if way == 1 and places else rng.choice([8, rng.randrange(len(words) + 1)])
    return words[:k] + [word(13, length)] + words[k + (way == 1 and bool(places)):]


def drawn_sway_tours(seed: int = 29, count: int = 12) -> List[TourCase]:
    rng = random.Random(seed)
    cases = []
    for k in range(count):
        tour = random_tour(rng)
        axes = [one._replace(second_half_period=rng.choice([None, 1, 2, rng.randint(1, 40),
                                                            rng.choice([0, 255, 256, 257])]))
                for one in tour.axes]
        cases.append(case('drawn jointed tour %d' % k, tour._replace(axes=axes), len(tour.stops) + rng.randint(0, 2)))
    return cases
