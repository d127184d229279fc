"""The cases of the tour (request 2.1)."""

import random
from typing import List, NamedTuple

from builders import HIGHEST, LOWEST, MOST
from dampingcases import peaks, random_damping, ratio
from railcases import HIGH, LOW
from tour import Stop, Tour, TourAnswer, TourAxis, plan_tour

BASE = TourAxis(0, 10, 1, 0, 128)           # the field cases' axis, from 0
UNSET = TourAxis(0, 0, 0, 0, 0)             # an axis off the mask
HOSTILE = TourAxis(LOWEST, MOST, 0, MOST, MOST)
FAR = 100000000
FILL = 987654321                            # each entry of the list before a call


class TourCase(NamedTuple):
    name: str
    tour: Tour
    lent: List[int]             # the list before the call
    answer: TourAnswer          # the reference's; None where the method leaves it free
    left: List[int]             # the list as the call leaves it


def case(name: str, tour: Tour, lent: int = 3) -> TourCase:
    cells = [FILL] * lent
    return TourCase(name, tour, cells, *plan_tour(tour, cells))


def six(values, other):
    """Values by bit, or a list from bit 0 on, as a list of six."""
    by_bit = values if isinstance(values, dict) else dict(enumerate(values))
    return [by_bit.get(bit, other) for bit in range(6)]


def stop(position, dwell: int = 0) -> Stop:
    """A stop by its position on axis 0, or by its positions by bit."""
    return Stop(six([position] if isinstance(position, int) else position, 0), dwell)


def single(name: str, stops: List[Stop], lent: int = 3, mask: int = 1, **changes) -> TourCase:
    """A tour of axis 0, the base axis changed."""
    return case(name, Tour(mask, six([BASE._replace(**changes)], UNSET), stops), lent)


def several(name: str, axes, stops: List[Stop], lent: int = 8, other: TourAxis = UNSET) -> TourCase:
    by_bit = axes if isinstance(axes, dict) else dict(enumerate(axes))
    return case(name, Tour(sum(1 << bit for bit in by_bit), six(by_bit, other), stops), lent)


# --- Accepted --------------------------------------------------------------

SIX = [BASE, BASE._replace(start=-9, half_period=3), BASE._replace(half_period=7, second_weight=1),
       BASE._replace(speed_limit=1048576, acceleration_limit=65536, half_period=256),
       BASE._replace(start=134217727, speed_limit=90000, acceleration_limit=800),
       BASE._replace(start=-4, speed_limit=2, second_weight=77)]


def accepted() -> List[TourCase]:
    zigzag = [stop(3 * (k % 5) - k, k % 4) for k in range(64)]
    plot = [stop([4, 0, 9, -50000000, 134000000, 1], 3), stop([-4, 9, 9, 134217727, 134217727, -9]),
            stop([-4, 9, 9, 134217727, 134217727, -9], 4096), stop([0, 0, 0, 0, 120000000, 0], 1)]
    return [
        single('out and back', [stop(4, 3), stop(0, 5)]),
        single('a leg of no way', [stop(4, 5), stop(4), stop(0, 7)]),
        single('a leg of no way, half period 5', [stop(0), stop(0, 2)], half_period=5),
        single('the first leg from its start', [stop(4)], start=-8),
        single('the list just long enough', [stop(4), stop(0)], lent=2),
        single('a list of 70', [stop(4), stop(0)], lent=70),
        single('the dwell at its end', [stop(4, 4096), stop(0, 4096)]),
        single('64 stops', zigzag, lent=64),
        single('64 stops, a list of 65', zigzag, lent=65, half_period=2, second_weight=90),
        single('from end to end of a word', [stop(134217727), stop(-134217728)], start=-134217728,
               speed_limit=1048576, acceleration_limit=65536),
        single('at the ends of the rail', [stop(HIGH - 4000000000, 4), stop(HIGH)], start=HIGH,
               speed_limit=1048576, acceleration_limit=65536),
        single('at the lower end of the rail', [stop(LOW + 4), stop(LOW)], start=LOW),
        single('a leg as long as can be', [stop(4095, 1), stop(0)], speed_limit=1),
        several('six axes', SIX, plot),
        single('a ratio of 0.5', [stop(9, 1), stop(0)], half_period=3, second_weight=ratio(0.5)),
        single('peaks 97, 31', [stop(9, 1), stop(0)], half_period=3, second_weight=peaks(97, 31)),
        several('mask 42', {1: BASE, 3: SIX[3], 5: SIX[5]}, plot, other=HOSTILE),
        several('positions off the mask are not looked at', {2: BASE},
                [stop([HIGHEST, LOWEST, 4, HIGHEST, LOWEST, HIGHEST], 1), stop([2 ** 40, 0, 1])],
                other=HOSTILE),
    ]


# --- No stops, and refusals ------------------------------------------------

def none_and_11() -> List[TourCase]:
    worst = Tour(99, [HOSTILE] * 6, [])
    return [
        case('no stops, mask 99, an empty list', worst, lent=0),
        case('no stops, mask 99', worst),
        case('no stops, mask 0', worst._replace(mask=0)),
        single('no stops', []),
        single('65 stops', [stop(4)] * 65, lent=65),
        single('65 stops, the first with a dwell of 4,097', [stop(4, 4097)] + [stop(4)] * 64),
        single('65 stops, mask 0', [stop(4)] * 65, mask=0),
        single('64 stops, the last with a dwell of 4,097', [stop(0)] * 63 + [stop(0, 4097)], lent=64),
        single('a dwell of 4,097', [stop(4), stop(0, 4097), stop(4, 5000)]),
        single('a dwell of 4,294,967,295', [stop(4), stop(0, MOST)]),
        single('11 before 1', [stop(4, 4097)], mask=0),
        single('11 before 4', [stop(4, 4097)], speed_limit=0),
        single('11 before 9', [stop(FAR), stop(0, 4097)], speed_limit=1),
        single('11 before 10', [stop(4), stop(0, 4097)], lent=0),
    ]


def refused_legs() -> List[TourCase]:
    return [
        single('mask 0', [stop(4)], mask=0),
        single('mask 64', [stop(4)], mask=64),
        several('4: the place is the stop', {2: BASE._replace(speed_limit=0)}, [stop([0, 0, 4])]),
        several('5: the place is the stop', {4: BASE._replace(half_period=257)}, [stop(4), stop(4)]),
        single('weight 0', [stop(4)], second_weight=0),
        single('weight 129', [stop(4)], second_weight=129),
        single('12: a ratio of 0', [stop(4)], second_weight=ratio(0)),
        several('12 before 5 over all axes', [BASE._replace(half_period=257), BASE._replace(second_weight=ratio(2))],
                [stop(4)]),
        single('acceleration limit 65,537', [stop(4)], acceleration_limit=65537),
        single('half period 256', [stop(4)], half_period=256),
        single('6 at the start', [stop(4)], start=HIGH + 1),
        single('6 at the first stop', [stop(LOW - 1), stop(4)]),
        single('9 from one end of the rail to the other', [stop(LOW)], start=HIGH, speed_limit=1048576,
               acceleration_limit=65536),
        single('6 at the second stop', [stop(4), stop(2 ** 40)]),
        single('9 at the first of two bad stops', [stop(FAR), stop(2 ** 40)], speed_limit=1),
        single('6 before 9 at one stop', [stop(2 ** 40)], speed_limit=1),
        single('9 at the second stop', [stop(4), stop(FAR)], speed_limit=1, lent=1),
        single('one tick too far', [stop(1), stop(4097), stop(0)], speed_limit=1),
        several('9 names the axes that reach none', [BASE, BASE._replace(speed_limit=1), BASE],
                [stop([1, 2, 3]), stop([4, FAR, 1])]),
        several('4 before 5 over all axes', [BASE._replace(half_period=257), BASE._replace(speed_limit=0)],
                [stop(4)]),
        single('10, an empty list', [stop(4)], lent=0),
        single('10, one short', [stop(4), stop(0), stop(4)], lent=2),
        single('10 for 64 stops', [stop(0)] * 64, lent=63),
    ]


def tours() -> List[TourCase]:
    return accepted() + none_and_11() + refused_legs()


# --- Random tours ----------------------------------------------------------

def random_tour_axis(rng: random.Random, offset: int) -> TourAxis:
    return TourAxis(offset + rng.randint(-90, 90), rng.randint(1, 60), rng.randint(1, 9),
                    rng.choice([0, 0, 1, 2, rng.randint(0, 40)]),
                    rng.choice([128, rng.randint(1, 128), ratio(rng.uniform(0.01, 1))]))


def random_tour(rng: random.Random) -> Tour:
    mask = rng.choice([1, 1, 2, 5, 63, rng.randint(1, 63)])
    spread = rng.choice([20, 200])
    offset = rng.choice([0, 0, HIGH - 300, LOW + 300])
    stops = [Stop([offset + rng.randint(-spread, spread) for _ in range(6)], rng.choice([0, 1, rng.randint(0, 90)]))
             for _ in range(rng.choice([1, 2, 3, rng.randint(0, 9)]))]
    return Tour(mask, [random_tour_axis(rng, offset) for _ in range(6)], stops)


def damaged(rng: random.Random, tour: Tour) -> Tour:
    """One field out of its range, or at its end."""
    axes, stops = list(tour.axes), list(tour.stops)
    bit = rng.randrange(6)
    field, value = rng.choice([
        ('start', HIGH + rng.randint(0, 1)), ('speed_limit', rng.choice([0, 1])),
        ('acceleration_limit', 65536 + rng.randint(0, 1)), ('half_period', 256 + rng.randint(0, 1)),
        ('second_weight', rng.choice([0, 1, 128, 129, random_damping(rng)]))])
    axes[bit] = axes[bit]._replace(**{field: value})
    if stops and rng.randrange(2):
        k = rng.randrange(len(stops))
        positions = list(stops[k].positions)
        positions[bit] = rng.choice([HIGH + 1, LOW - 1, HIGH, 50000])
        stops[k] = Stop(positions, rng.choice([stops[k].dwell, 4096, 4097]))
        axes = list(tour.axes)
    return Tour(rng.choice([tour.mask, tour.mask, tour.mask, rng.randint(0, 70)]), axes, stops)


def drawn_tours(seed: int = 21, count: int = 20) -> List[TourCase]:
    """Random tours, each third damaged, each seventh with a list that may be short."""
    rng = random.Random(seed)
    cases = []
    for k in range(count):
        tour = random_tour(rng)
        tour = damaged(rng, tour) if k % 3 == 2 else tour
        lent = rng.randint(0, len(tour.stops)) if k % 7 == 6 else len(tour.stops) + rng.randint(0, 2)
        cases.append(case('drawn tour %d' % k, tour, lent))
    return cases
