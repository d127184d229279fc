"""The reference against the method: `python3 reference.py --selftest`.

The method's field cases, traps, settled readings and ranges as numbers; the
planning functions against their definitions, by trying every list; demand 3 of
the method over random jobs; and the calls beside planning, each against the
single jobs that it stands for.
"""

import itertools
import random
import sys
from fractions import Fraction

import backwardcases
import backwards
import convertcases
import damping
import dampingcases
import misfit
import partcases
import parts
import railcases
import raisecases
import raises
import reference as ref
import swaycases
import tourcases
from builders import DEFAULT, UNSET, axis, mask_of, outcome, placed, random_axis, to
from cases import CHASING, F, F_TO_30
from converter import convert, converted, converted_axis as met
from reference import Answer
from search import Found, Nothing, Spent, search_typed, search_words
from tour import Tour, TourAnswer
from tourcases import BASE, random_tour, single, stop


def plan(axes, asked=0, lent=8192):
    """The outcome for axes given as a list (bits from 0 on) or by bit. It is
    computed from words and from typed values, which must agree."""
    by_bit = placed(axes)
    mask = mask_of(by_bit)
    typed = typed_plan(by_bit, asked, lent)
    words = ref.plan_words(ref.encode(ref.Job(mask, asked, by_bit)), [7] * lent)
    same('words and typed values', words, typed)
    same('the cells lent', len(typed[1]), lent)
    return typed


def typed_plan(axes, asked=0, lent=8192, windows=None):
    """The outcome from typed values alone."""
    by_bit = placed(axes)
    return ref.plan_typed(mask_of(by_bit), asked, [by_bit.get(i, UNSET) for i in range(6)], [7] * lent, windows)


def same(what, found, expected):
    if found != expected:
        raise AssertionError('%s: found %r, expected %r' % (what, found, expected))


def column(outcome, index, axes=1):
    """One cell of each row: 0, 1, 2 for position, velocity, acceleration."""
    answer, cells = outcome
    width = 3 * axes
    return cells[index:width * (answer.arrival + 1):width]


def arrives(what, outcome, arrival):
    same(what, (outcome[0].number, outcome[0].arrival), (0, arrival))
    return outcome


def refuses(what, outcome, number, place=0, mask=0, arrival=0):
    same(what, outcome[0], Answer(number, place, mask, arrival))
    same(what + ', cells', outcome[1], [7] * len(outcome[1]))


# --- The method's numbers ---------------------------------------------------

C_WORDS = [0x10000001, 0x20000004, 0x30000000, 0x40000000, 0x5000000A, 0x60000001,
           0x70000000, 0x80000080, 0x90000001, 0xA0000000, 0xF0000000]

C_TEXT = """arrival 4
0 0 0 86
1 43 86 -1
2 129 85 0
3 214 85 -85
4 256 0 0
"""


def bytes_of(words):
    return b''.join(word.to_bytes(4, 'little') for word in words)


def field_cases():
    a = arrives('A', plan([to(5, start=(5, 0))]), 1)
    same('A rows', a[1][:7], [1280, 0, 0, 1280, 0, 0, 7])
    b = arrives('B', plan([to(4)]), 4)
    same('B positions', column(b, 0), [0, 128, 512, 896, 1024])
    same('C words', ref.encode(ref.Job(1, 4, {0: to(1)})), C_WORDS)
    same('C text', ref.table_program(bytes_of(C_WORDS)), C_TEXT)
    d = arrives('D', plan([to(1, half_period=1)]), 3)
    same('D positions', column(d, 0), [0, 64, 192, 256])
    same('D velocities', column(d, 1), [0, 128, 128, 0])
    same('D accelerations', column(d, 2), [128, 0, -128, 0])
    refuses('E', plan([to(4)], asked=3), 8, mask=1)
    same('E text', ref.printed(*plan([to(4)], asked=3)),
         'refused 8 place 0 axes 1 arrival 0\n')
    refuses('F', plan([F]), 17)
    arrives('F asked 1', plan([met(F, 1)], asked=1), 1)
    for asked in range(2, 39):
        refuses('F asked %d' % asked, plan([met(F, asked)], asked=asked), 8, mask=1)
    arrives('F asked 39', plan([met(F, 39)], asked=39), 39)
    arrives('G axis 1', plan([to(1)]), 2)
    refuses('G', plan([F, to(1)]), 17)
    for asked in range(1, 39):
        refuses('G asked %d' % asked, plan([met(F, asked), to(1)], asked=asked), 8, mask=2 if asked == 1 else 1)
    arrives('G asked 39', plan([met(F, 39), to(1)], asked=39), 39)
    h = arrives('H', plan([axis(target=(0, 1, 0, 0))]), 3)
    same('H velocities', column(h, 1), [0, 256, 384, 256])
    refuses('I, no words', ref.plan_words([], []), 1)
    refuses('I, mask 64', ref.plan_words([0x10000040], []), 1)
    refuses('I, mask 63', ref.plan_words([0x1000003F], []), 2, place=1)
    refuses('J', plan([to(1)], asked=4, lent=14), 10, arrival=4)
    arrives('J with 15 cells', plan([to(1)], asked=4, lent=15), 4)
    refuses('K', plan([axis(second_weight=129)]), 5)
    refuses('L', plan([to(100000000, speed_limit=1)]), 9, mask=1)


def traps():
    same('F by halving', next(n for n in range(2, 4097) if ref.reachable(met(F, n), n)), 39)
    same('F to 30', next(n for n in range(1, 4097) if ref.reachable(met(F_TO_30, n), n)), 3)
    same('F to 30 by doubling', next(n for n in range(4, 4097) if ref.reachable(met(F_TO_30, n), n)), 37)
    rounding = arrives('target 1', plan([to(1, half_period=1)], asked=54), 54)
    same('target 1, position in row 1', rounding[1][3], 1)


def settled_readings():
    refuses('1', plan({2: axis(speed_limit=0)}), 4, place=2)
    refuses('2', plan([to(1)], asked=4, lent=14), 10, arrival=4)
    refuses('3', ref.plan_typed(1, 4097, [DEFAULT] * 6, [7]), 3, place=1)
    arrives('5', plan([axis(target=(10, 1, 0, 10))]), 3)
    refuses('6, first', ref.plan_words(ref.words_of_bytes(b'\x10'), []), 1)
    for rest in range(1, 4):
        data = bytes_of(C_WORDS[:5]) + b'\xf0' * rest
        refuses('6, later', ref.plan_words(ref.words_of_bytes(data), []), 2, place=5)
        data = bytes_of(C_WORDS) + b'\xf0' * rest
        refuses('6, left over', ref.plan_words(ref.words_of_bytes(data), []), 2, place=11)
    refuses('7', ref.plan_words(C_WORDS[:-1] + [0xF0000001, 0xF0000000], []), 2, place=10)
    refuses('14', plan([CHASING], asked=10), 8, mask=1)
    refuses('15', plan([met(F, 2), to(1)], asked=2), 8, mask=1)
    arrives('16', plan([to(5, start=(5, 0), half_period=1)]), 2)
    flying = axis(start=(0, 1), half_period=4, target=(8, 1))
    same('17', [n for n in range(1, 8) if ref.reachable(met(flying, n), n)], [7])
    halves = arrives('18', plan([axis(target=(0, 0, 1, 0))]), 1)
    same('18 rows', halves[1][:6], [0, 0, 256, 128, 256, 256])
    below = arrives('19', plan([to(-1)], asked=4), 4)
    same('19 positions', column(below, 0), [0, -43, -128, -213, -256])
    same('19 velocities', column(below, 1), [0, -85, -85, -86, 0])
    refuses('21', plan([axis(half_period=300), axis(speed_limit=0)]), 4, place=1)
    refuses('22', plan([axis(target=(0, 0, 1, 0)), to(1000)]), 9)
    same('25', ref.chosen_velocities(ref.planned_ends(to(0), 1)), [0, 0])


def ranges():
    """The last value of each range passes its check, and the next is refused."""
    low, high = -17179869184, 17179869183
    for number, inside, outside in (
            (4, axis(speed_limit=1), axis(speed_limit=0)),
            (4, axis(speed_limit=1048576), axis(speed_limit=1048577)),
            (4, axis(acceleration_limit=1), axis(acceleration_limit=0)),
            (4, axis(acceleration_limit=65536), axis(acceleration_limit=65537)),
            (5, axis(half_period=256), axis(half_period=257)),
            (5, axis(second_weight=1), axis(second_weight=0)),
            (5, axis(second_weight=128), axis(second_weight=129)),
            (6, axis(start=(0, 10)), axis(start=(0, 11))),
            (6, axis(start=(0, -10)), axis(start=(0, -11))),
            (6, axis(target=(0, 10)), axis(target=(0, 11))),
            (6, axis(target=(0, -10, 0, 0)), axis(target=(0, -11, 0, 0))),
            (6, axis(target=(0, 0, 1, 0)), axis(target=(0, 0, 2, 0))),
            (6, axis(target=(0, 0, -1, 0)), axis(target=(0, 0, -2, 0))),
            (6, axis(target=(0, 0, 0, 4096)), axis(target=(0, 0, 0, 4097))),
            (6, axis(target=(0, 0, 0, -4096)), axis(target=(0, 0, 0, -4097))),
            (6, axis(start=(low, 0)), axis(start=(low - 1, 0))),
            (6, axis(start=(high, 0)), axis(start=(high + 1, 0))),
            (6, to(low), to(low - 1)), (6, to(high), to(high + 1)),
            (6, axis(target=(low, 0, 0, 0)), axis(target=(low - 1, 0, 0, 0))),
            (6, axis(target=(high, 0, 0, 0)), axis(target=(high + 1, 0, 0, 0)))):
        passed = ref.plan_typed(1, 0, [inside] * 6, [])[0]
        assert passed.number in (8, 9, 10, 17), 'inside its range: %r' % (inside,)
        refuses('range', ref.plan_typed(4, 0, [outside] * 6, [7]), number, place=2)


# --- The planning functions against their definitions ----------------------

def every_list(start, end, limit, step, ticks):
    """Every list of whole velocities that rule 4 admits, whatever its sum."""
    for inner in itertools.product(range(-limit, limit + 1), repeat=ticks - 1):
        whole = [start, *inner, end]
        if all(abs(y - x) <= step for x, y in zip(whole, whole[1:])):
            yield inner


def definitions(rng, count=120):
    """`list_exists` and `chosen_velocities` over small numbers, by trial."""
    for _ in range(count):
        limit, step, ticks = rng.randint(1, 4), rng.randint(1, 3), rng.randint(1, 5)
        start, end = rng.randint(-limit, limit), rng.randint(-limit, limit)
        sums = {sum(inner) for inner in every_list(start, end, limit, step, ticks)}
        for wanted in range(-limit * ticks - 1, limit * ticks + 2):
            found = ref.list_exists(start, end, limit, step, ticks, 2 * wanted)
            same('a list exists', found, wanted in sums)
            odd = ref.list_exists(start, end, limit, step, ticks, 2 * wanted + 1)
            same('no list has half a step', odd, False)
            if found:
                chosen_is_by_rule_5(start, end, limit, step, ticks, wanted)


def chosen_is_by_rule_5(start, end, limit, step, ticks, wanted):
    e = ref.Ends(ticks, 0, start, 2 * wanted + start + end, end, 0, limit, step)
    between = ref.envelopes(e)

    def brought(c):
        return [sorted((low, c, high))[1] for low, high in between]

    cruise = max(c for c in range(-limit, limit + 1) if sum(brought(c)) <= wanted)
    expected, raised = brought(cruise), brought(cruise + 1)
    rising = [i for i in range(ticks - 1) if raised[i] > expected[i]]
    for i in rising[:wanted - sum(expected)]:
        expected[i] += 1
    same('rule 5', ref.chosen_velocities(e), [start, *expected, end])


# --- Demand 3 over random jobs ---------------------------------------------

def swing_list(rng, h, b, last):
    """g(0) to g(last) with A g(i + h) + B g(i) = 0, whole numbers."""
    first = [rng.randint(-3, 3) for _ in range(h)]
    blocks = last // h
    return [first[i % h] * (-b) ** (i // h) * (256 - b) ** (blocks - i // h)
            for i in range(last + 1)]


def sway(accelerations, g, m):
    changes = [y - x for x, y in zip([0, *accelerations], accelerations)]
    return sum(change * g[m - k] for k, change in enumerate(changes))


def demand_3(rng, one, n, cells):
    """The claim of demand 3 for one axis, given its cells row by row."""
    target, (twice_y, velocity) = one.target, ref.target_at(one, n, n)
    a = ref.acceleration_of(target)
    same('last row', cells[n], [Fraction(256 * twice_y, 2), 256 * velocity, 256 * a])
    for (p, v, acc), (p1, v1, _) in zip(cells, cells[1:]):
        assert abs(Fraction(2 * p + 2 * v + acc, 2) - p1) <= Fraction(3, 2), 'carried position'
        assert abs(v + acc - v1) <= Fraction(3, 2), 'carried velocity'
    for _, v, acc in cells:
        assert abs(v) <= 256 * one.speed_limit, 'velocity cell'
        assert abs(acc) <= 256 * one.acceleration_limit, 'acceleration cell'
    planned, m = ref.plan_axis(one, n), n + rng.randint(0, 5)
    exact = [ref.blended(one, planned, k)[2] for k in range(n + 1)]
    for h, b in rates(one):
        g = swing_list(rng, h, b, m)
        same('sway before rounding', sway(exact, g, m), 0)
        left = sway([row[2] for row in cells], g, m)
        assert abs(left) <= n * max(map(abs, g)), 'sway as rounded'


def rates(one):
    """Half period and second weight of each rate at which the pole swings."""
    return ([(one.half_period, one.second_weight)] * (one.half_period >= 1)
            + [(one.second_half_period, 128)] * (one.second_half_period is not None))


def negated(planned):
    e = planned.ends
    ends = e._replace(start_position=-e.start_position, start_velocity=-e.start_velocity,
                      end_position=-e.end_position, end_velocity=-e.end_velocity,
                      end_acceleration=-e.end_acceleration)
    return ref.Planned(ends, [-v for v in planned.velocities], [-q for q in planned.positions])


def on_the_target(one, n):
    """Rule 3 by its aim: the exact blend is on the target at N, and it starts on
    the start; in fractions of a unit, whatever the grid is."""
    planned = ref.plan_axis(one, n)
    grid = Fraction(1, 256 * ref.weights(one) * ref.finer(one))
    twice_y, y_velocity = ref.target_at(one, n, n)
    p, v, a = (x * grid for x in ref.blended(one, planned, n))
    same('the exact landing', (p, v, a), (twice_y, y_velocity, ref.acceleration_of(one.target)))
    p, v, _ = (x * grid for x in ref.blended(one, planned, 0))
    same('the exact start', (p / 2, v), one.start)


def mirrored(one, n, cells):
    """Request 2.4: negating a planned motion negates every cell."""
    planned = negated(ref.plan_axis(one, n))
    same('mirrored', [ref.row_cells(one, planned, k) for k in range(n + 1)],
         [[-x for x in row] for row in cells])


def claims(rng, one, n, cells):
    """All that is claimed of an accepted axis, given its cells row by row."""
    demand_3(rng, one, n, cells)
    on_the_target(one, n)
    mirrored(one, n, cells)


def accepted_alone(rng, one):
    """Whether the job of one axis is accepted; all that is claimed of it then holds."""
    answer, cells = plan([one])
    if answer.number != 0:
        return False
    claims(rng, one, answer.arrival, [cells[3 * k:3 * k + 3] for k in range(answer.arrival + 1)])
    return True


def rounding(most=12):
    """Every small quotient: the nearest whole number, and at a half the larger size."""
    for denominator in range(1, most):
        for numerator in range(-3 * most, 3 * most):
            exact = Fraction(numerator, denominator)
            nearest = min(range(-3 * most, 3 * most + 1), key=lambda x: (abs(x - exact), -abs(x)))
            same('rounding', ref.nearest(numerator, denominator), nearest)


def random_jobs(rng, count=80):
    accepted = 0
    for _ in range(count):
        bits = sorted(rng.sample(range(6), rng.choice([1, 1, 2, 3, 6])))
        axes = {bit: random_axis(rng) for bit in bits}
        answer, cells = plan(axes, asked=rng.choice([0, 0, rng.randint(40, 120)]))
        if answer.number != 0:
            continue
        accepted += 1
        width = 3 * len(bits)
        same('cells after the last row', set(cells[width * (answer.arrival + 1):]) - {7}, set())
        for rank, bit in enumerate(bits):
            rows = [cells[k * width + 3 * rank:k * width + 3 * rank + 3]
                    for k in range(answer.arrival + 1)]
            claims(rng, axes[bit], answer.arrival, rows)
    assert accepted > count // 4, 'too few jobs were accepted to say anything'


# --- A tour of stops (request 2.1) -----------------------------------------

def tour_gives(what, case, arrivals, total):
    same(what, (case.answer.number, case.answer.total), (0, total))
    same(what + ', list', case.left, arrivals + case.lent[len(arrivals):])


def tour_refuses(what, case, number, place, mask=0, arrival=0):
    same(what, case.answer, TourAnswer(number, place, mask, arrival))
    same(what + ', list', case.left, case.lent)


def tour_readings():
    tour_gives('no stops', tourcases.case('', Tour(99, [BASE] * 6, []), lent=0), [], 0)
    tour_refuses('11 before the mask', single('', [stop(4, 4097)], mask=0), 11, 0)
    tour_refuses('the mask', single('', [stop(4)], mask=0), 1, 0)
    tour_refuses('the place is the stop', tourcases.several(
        '', {2: BASE._replace(speed_limit=0)}, [stop(4)]), 4, 0)
    far = [stop(100000000), stop(2 ** 40)]
    tour_refuses('one leg after the other', single('', far, speed_limit=1), 9, 0, mask=1)
    far = [stop(4), stop(100000000)]
    tour_refuses('legs before the list', single('', far, lent=1, speed_limit=1), 9, 1, mask=1)
    tour_gives('out and back', single('', [stop(4, 3), stop(0, 5)]), [4, 11], 16)
    tour_gives('a leg of no way', single('', [stop(4, 5), stop(4), stop(0, 7)]), [4, 10, 14], 21)
    tour_gives('no way, half period 5', single('', [stop(0, 1)], half_period=5), [6], 7)
    tour_refuses('a short list', single('', [stop(4), stop(0)], lent=1), 10, 2)
    tour_refuses('65 stops', single('', [stop(4, 4097)] * 65, lent=65), 11, 64)
    tour_refuses('the first long dwell', single('', [stop(4), stop(0, 4097), stop(4, 4097)]), 11, 1)
    tour_gives('64 stops of a dwell of 4,096', single('', [stop(0, 4096)] * 64, lent=64),
               [4097 * k + 1 for k in range(64)], 4097 * 64)


def legs_are_single_jobs(rng, count=40):
    """Every leg by a call for its table, the times added up here."""
    for _ in range(count):
        tour = random_tour(rng)
        here, clock, arrivals = [one.start for one in tour.axes], 0, []
        for positions, dwell in tour.stops:
            axes = [ref.Axis(ref.RestPoint(here[i], 0), *tour.axes[i][1:5], ref.RestPoint(positions[i], 0),
                             tour.axes[i][5])
                    for i in range(6)]
            answer, _ = ref.plan_typed(tour.mask, 0, axes, [7] * 73746)
            same('a leg of a random tour', answer.number, 0)
            arrivals.append(clock + answer.arrival)
            here, clock = positions, arrivals[-1] + dwell
        tour_gives('a random tour', tourcases.case('', tour, len(arrivals) + 1), arrivals, clock)


# --- Damping as measured (request 2.3) -------------------------------------

def rounding_to_single(rng, count=4000):
    """Against the machine's rounding of a double to a single, and division:
    the single nearest to a double's quotient is that of the exact quotient,
    where it is not subnormal."""
    for _ in range(count):
        number = rng.uniform(1, 2) * 2.0 ** rng.randint(-152, 126)
        same('rounded', damping.rounded(Fraction(number)), damping.single(number))
        second, first = (rng.uniform(1, 1000) for _ in range(2))
        second, first = (Fraction(damping.size_of(damping.single(x))) for x in (second, first))
        same('quotient', damping.quotient(damping.rounded(second), damping.rounded(first)),
             damping.single(float(second) / float(first)))
    for bits in range(1, 300):      # ties, between subnormals
        tie = damping.size_of(bits) + damping.size_of(1) / 2
        same('tie to even', damping.rounded(tie), bits + bits % 2)
        same('below a tie', damping.rounded(tie - Fraction(1, 10 ** 60)), bits)


def damping_readings():
    weight, ratio, peaks = damping.weight_of, dampingcases.ratio, dampingcases.peaks
    for entered, expected in (
            (ratio(1), 128), (ratio(0.5), 85), (peaks(97, 31), 61), (peaks(155, 101), 100), (peaks(201, 55), 55),
            (peaks(474.5794677734375, 211.8179473876953), 78), (ratio(0.007874015718698502), 2),
            (ratio(0.999), 127), (peaks(1e-45, 1e-45), 128), (ratio(1e-45), 1), (peaks(1e38, 1e-38), None),
            (ratio(float('nan')), None), (ratio(float('inf')), None), (ratio(0), None), (ratio(-0.0), None),
            (ratio(1.0000001), None), (ratio(-0.5), None), (peaks(-2, -1), None), (peaks(-0.0, 1), None),
            (peaks(float('inf'), 1), None), (peaks(float('nan'), 1), None), (peaks(1, float('nan')), None),
            (peaks(float('inf'), float('inf')), None), (peaks(1, 2), None), (peaks(1, 0), None)):
        same('weight of %r' % (entered,), weight(entered), expected)
    bad = ratio(0)
    refuses('12 where h is 0', typed_plan([axis(second_weight=bad)]), 12)
    refuses('12 before 5', typed_plan([axis(half_period=257), axis(second_weight=bad)]), 12, place=1)
    refuses('4 before 12', typed_plan([axis(second_weight=bad), axis(speed_limit=0)]), 4, place=1)


def weights_by_hand(rng, count=30):
    """Every weight has two neighbouring ratios at its edge; a table is that of
    the same job with the weight by hand."""
    for b in range(2, 129):
        at = dampingcases.edge(b)
        same('an edge', [damping.weight_of(damping.Ratio(x)) for x in (at - 1, at)], [b - 1, b])
    jobs = [dampingcases.by_a_job(dampingcases.WeightCase('', b, b)) for b in range(1, 129)]
    same('a table for each weight', len({str(outcome(job, [0] * job.lent)) for job in jobs}), 128)
    for _ in range(count):
        entered = dampingcases.random_damping(rng)
        b = damping.weight_of(entered)
        if b is not None:
            one = to(rng.randint(-50, 50), half_period=rng.randint(0, 9), second_weight=entered)
            same('by hand', typed_plan([one]), typed_plan([one._replace(second_weight=b)]))


# --- Laser windows (request 2.5) -------------------------------------------

def window_readings():
    def through(pairs, dwell=0, axes=(to(4),), asked=0):
        return typed_plan(list(axes), asked, windows=ref.Windows(list(pairs), dwell))

    far = to(100000000, speed_limit=1)
    refuses('an empty list', through([]), 13, place=0)
    refuses('33 windows', through([(2 * k, 2 * k + 1) for k in range(33)]), 13, place=32)
    arrives('32 windows', through([(2 * k, 2 * k + 1) for k in range(32)]), 4)
    refuses('a long dwell first', through([(5, 2)], 4097), 13, place=32)
    refuses('a bad window', through([(0, 3), (5, 5)]), 13, place=1)
    refuses('an early one', through([(0, 3), (2, 5)]), 13, place=1)
    arrives('windows do not join', through([(0, 5), (5, 9)], 2), 5)
    refuses('the closing tick', through([(0, 4)]), 9)
    arrives('the dwell up to the closing', through([(0, 6)], 2), 4)
    refuses('8 names axes first', through([(7, 9)], asked=3), 8, mask=1)
    refuses('8 with mask 0', through([(7, 9)], asked=4), 8)
    refuses('9 with mask 0', through([(1, 2)]), 9)
    refuses('9 without the windows', through([(1, 2)], axes=(to(4), far)), 9, mask=2)
    refuses('13 before 8', through([], asked=3), 13)
    refuses('3 before 13', through([], asked=4097), 3, place=1)


def ticks_of(pair, dwell):
    """The arrivals that a window holds, as a set: those from which every tick
    up to the end of the dwell is in it, the closing itself only as that end."""
    opening, closing = pair
    return {n for n in range(opening, closing) if n + dwell <= closing}


def windows_by_trial(rng, count=60):
    """The least common arrival among those of the windows, one by one."""
    for _ in range(count):
        axes = [met(random_axis(rng), 40) for _ in range(rng.choice([1, 2]))]
        ends = sorted(rng.sample(range(200), 2 * rng.randint(1, 6)))
        pairs, dwell = list(zip(ends[::2], ends[1::2])), rng.choice([0, 0, 1, 5, 20])
        held = sorted(set().union(*(ticks_of(pair, dwell) for pair in pairs)))
        least = next((n for n in held if typed_plan(axes, asked=n)[0].number == 0 and n > 0), None)
        answer = typed_plan(axes, windows=ref.Windows(pairs, dwell))
        if least is None:
            same('nothing in the windows', answer[0].number, 9)
        else:
            same('the least in the windows', answer, typed_plan(axes, asked=least))


# --- Accelerating targets on damped poles (request 2.6) --------------------

def corrected_readings():
    chased = axis(speed_limit=100, acceleration_limit=10, half_period=2, second_weight=64, target=(3, 1, 2, 0))
    same('on the grid', arrives('chased', plan([chased], asked=6), 6)[1][2], 1408)
    rows = arrives('from 20', plan([axis(half_period=2, second_weight=100, target=(0, 0, 1, 20))], asked=20), 20)[1]
    same('rows 0 to 2', rows[:9], [0, 0, 11, 5, 11, 0, 16, 11, 7])
    same('rows 18 to 20', rows[54:63], [148, -183, 127, 28, -56, 56, 0, 0, 256])
    slow = chased._replace(speed_limit=12)
    same('planned speed', [n for n in range(1, 4097) if ref.reachable(slow, n)], [4, 5])
    same('grids', [ref.finer(one) for one in (
        chased, chased._replace(second_weight=128), chased._replace(half_period=0),
        chased._replace(target=ref.State(3, 1, 0, 0)),
        to(4, half_period=2, second_weight=64))], [256, 1, 1, 1, 1])


def corrected_axes(rng, count=60):
    """Axes on the finer grid, alone and with large numbers."""
    accepted = 0
    while accepted < count:
        one = random_axis(rng)
        if accepted % 2:
            a = rng.choice([-1, 1]) * rng.randint(1, 900)
            one = one._replace(half_period=rng.randint(1, 256), second_weight=rng.randint(1, 127), speed_limit=1000000,
                               acceleration_limit=60000,
                               target=ref.State(rng.randint(-9999, 9999), 7, a, rng.randint(0, 300)))
        if not ref.is_corrected(one):
            continue
        accepted += accepted_alone(rng, one)


# --- Positions past 28 bits (request 2.8) ----------------------------------

def rail_readings():
    """The words of the default axis with a start and a target as high and low payload."""
    def read(start, target=(1, 0), asked=0):
        return ref.plan_words(railcases.spelled(start, target, asked), [7] * 24)

    past = 2 ** 27
    for pair in (0, past), (-1, past - 1), (63, 2 * past - 1), (-64, 0), (1, 0):
        arrives('kind 14 of %d, %d' % pair, read(pair, pair), 1)
        same('its cells', read(pair, pair)[1][:3], [256 * (2 * past * pair[0] + pair[1]), 0, 0])
    for pair in (0, past - 1), (-1, past), (64, 0), (-65, 0), (0, 0), (-1, 2 * past - 1):
        refuses('kind 14 of %d, %d' % pair, read(pair, pair), 14, place=2)
        refuses('at the target, %d, %d' % pair, read((1, 0), pair), 14, place=9)
        refuses('14 before 3', read(pair, pair, asked=4097), 14, place=2)
    words = railcases.spelled((64, 0), (64, 0))
    refuses('2 before 14', ref.plan_words(words + [0], [7]), 2, place=13)
    refuses('a wrong word after kind 14', ref.plan_words(words[:3] + words[4:], [7]), 2, place=3)
    refuses('kind 14 at the last', ref.plan_words(words[:3], [7]), 2, place=3)
    words = railcases.six_moving()[0].words
    same('six moving axes', len(words), 75)
    text = ref.table_program(bytes_of(words))
    assert text.startswith('arrival '), 'the table program reads 300 bytes'
    same('512 bytes are read', ref.table_program(bytes_of(C_WORDS) + bytes(600)),
         'refused 2 place 11 axes 0 arrival 0\n')


def one_spelling(rng, count=3000):
    """Every position of the rail has one spelling, and every accepted spelling
    is that one."""
    for _ in range(count):
        high = rng.choice([-66, -65, -64, -2, -1, 0, 1, 63, 64])
        low = rng.choice([0, 1, 2 ** 27 - 1, 2 ** 27, 2 ** 28 - 1, rng.randrange(2 ** 28)])
        words = railcases.spelled((high, low), (high, low))
        position = high * 2 ** 28 + low
        own = ref.encode(ref.Job(1, 0, {0: to(position, start=(position, 0))}))
        accepted = ref.plan_words(words, [7] * 6)[0].number == 0
        same('one spelling', accepted, words == own and -2 ** 34 <= position < 2 ** 34)
        if -2 ** 34 <= position < 2 ** 34:
            same('read back', ref.decode(own).axes[0].start.position, position)


def along_the_rail(rng, count=40):
    """Moving start and target along the rail moves every exact position as far,
    and nothing else."""
    for _ in range(count):
        one, offset = random_axis(rng), railcases.random_offset(rng)
        moved = railcases.along(one, offset)
        answer, cells = plan([moved])
        same('the same answer', answer, plan([one])[0])
        if answer.number == 0:
            n, far = answer.arrival, 2 * 256 * ref.weights(one) * ref.finer(one) * offset
            here, there = ref.plan_axis(one, n), ref.plan_axis(moved, n)
            for k in range(n + 1):
                p, v, a = ref.blended(one, here, k)
                same('moved', ref.blended(moved, there, k), (p + far, v, a))
            demand_3(rng, moved, n, [cells[3 * k:3 * k + 3] for k in range(n + 1)])
            on_the_target(moved, n)


# --- Poles with a second sway (request 2.9) --------------------------------

def sway_readings():
    rows = arrives('half periods 1 and 2', plan([swaycases.ROWS]), 5)[1]
    same('its rows', rows[:18], [0, 0, 78, 39, 78, -28, 103, 50, 28, 167, 78, -28, 231, 50, -50, 256, 0, 0])
    rows = arrives('half periods 2 and 3', plan([swaycases.TO_2]), 8)
    same('its positions', column(rows, 0), [0, 39, 117, 181, 270, 373, 437, 487, 512])
    same('its words', ref.encode(ref.Job(1, 0, {0: swaycases.TO_2}))[8], 0xD0000003)
    rows = arrives('on 1/512', plan([to(1, second_half_period=1)], asked=5), 5)[1]
    same('row 1', rows[3:6], [21, 43, 43])
    for h2 in (0, 257):
        refuses('15', plan({2: to(1, second_half_period=h2)}), 15, place=2)
    for h2 in (1, 256):
        arrives('h2 at its end', plan([to(1, second_half_period=h2)]), 2 + h2)
    turning = axis(second_half_period=1, target=(0, 0, 1, 0))
    refuses('16 where h is 0', plan({1: turning}), 16, place=1)
    refuses('16 where B is 128', plan({1: turning._replace(half_period=2)}), 16, place=1)
    refuses('15 before 16', plan([turning, to(1, second_half_period=0)]), 15, place=1)
    refuses('5 before 15', plan([to(1, second_half_period=0), axis(half_period=257)]), 5, place=1)
    refuses('15 before 6', plan([axis(start=(0, 11)), to(1, second_half_period=0)]), 15, place=1)
    refuses('6 before 16', plan([turning, axis(start=(0, 11))]), 6, place=1)
    still = to(5, start=(5, 0), half_period=4, second_half_period=3)
    refuses('N is above h + h2', plan([still], asked=7), 8, mask=1)
    arrives('just above h + h2', plan([still]), 8)
    same('grids', [ref.finer(one) for one in (still, still._replace(half_period=0), still._replace(second_weight=1))],
         [2, 2, 2])
    words = swaycases.longest()[0].words
    same('the longest job', (len(words), len(bytes_of(words))), (81, 324))
    assert ref.table_program(bytes_of(words)).startswith('arrival '), 'the table program reads 324 bytes'


def jointed_axes(rng, count=80):
    """Axes with a second half period, alone: demand 3 with lists of either rate."""
    accepted = 0
    while accepted < count:
        one = swaycases.random_jointed(rng)
        if accepted % 2:
            one = railcases.along(one, railcases.random_offset(rng))
        if one.second_half_period is None:
            continue
        accepted += accepted_alone(rng, one)


def second_blend_is_a_mean(rng, count=20):
    """Both blends by their definition, in fractions of a fine step: the mean of
    the first blend at k and at k - h2."""
    for _ in range(count):
        one = swaycases.jointed(rng.randint(1, 9), rng.randint(-40, 40), half_period=rng.randint(0, 5),
                                second_weight=rng.randint(1, 128))
        n = plan([one])[0].arrival
        planned = ref.plan_axis(one, n)

        def once(k):
            return [Fraction((256 - one.second_weight) * x + one.second_weight * y, 256 * 2)
                    for x, y in zip(planned.at(k), planned.at(k - one.half_period))]

        for k in range(n + 1):
            p, v, a = ((x + y) / 2 for x, y in zip(once(k), once(k - one.second_half_period)))
            same('both blends', ref.row_cells(one, planned, k),
                 [ref.nearest(x.numerator, x.denominator) for x in (p / 2, v, a)])


# --- The smallest change that makes it (request 2.10) ----------------------

def raises_by(axes, asked=0, windows=None):
    """The answer and the raises by bit, each as limit and amount; by words too
    where there are no windows."""
    by_bit = placed(axes)
    six = [by_bit.get(i, UNSET) for i in range(6)]
    answer, named = raises.raises_typed(mask_of(by_bit), asked, six, windows)
    if windows is None:
        same('raises by words', raises.raises_words(ref.encode(ref.Job(mask_of(by_bit), asked, by_bit))),
             (answer, named))
    return answer, {one.bit: [tuple(x) for x in one.raises] for one in named}


def raises_readings():
    e = Answer(8, mask=1)
    same('E', raises_by([to(4)], 3), (e, {0: [('M', 1)]}))
    same('equal', raises_by([to(9, speed_limit=2)], 6), (e, {0: [('M', 1), ('L', 1)]}))
    same('L first', raises_by([to(22, speed_limit=3, start=(0, 2))], 8), (e, {0: [('L', 1), ('M', 2)]}))
    same('no raise', raises_by([to(4, half_period=3)], 3), (e, {0: []}))
    same('no window', raises_by([to(4)], 3, ref.Windows([(6, 7)], 0)), (e, {0: [('M', 1)]}))
    same('8 with mask 0', raises_by([to(4)], 4, ref.Windows([(6, 7)], 0)), (Answer(8), {}))
    same('accepted', raises_by([to(4)], 4), (Answer(0, mask=1, arrival=4), {}))
    same('9', raises_by([to(100000000, speed_limit=1)]), (Answer(9, mask=1), {}))
    same('lowest first', list(raises_by([to(4), to(1), to(9)], 3)[1]), [0, 2])
    same('up to the end', raises_by([to(65536, speed_limit=1048576)], 2)[1], {0: [('M', 65535)]})
    same('past the end', raises_by([to(65537, speed_limit=1048576)], 2)[1], {0: []})


def raises_by_trial(rng, count=60):
    """Enough, and one less is not: every raise in turn, where the numbers are small."""
    met = 0
    for _ in range(count):
        one, asked = raisecases.small_axis(rng), rng.randint(2, 12)
        if ref.reachable(one, asked):
            continue
        for limit, name in (('M', 'acceleration_limit'), ('L', 'speed_limit')):
            now = getattr(one, name)
            least = next((r for r in range(1, 200) if ref.reachable(one._replace(**{name: now + r}), asked)), None)
            same('by trial', raises.least_raise(one, limit, asked), least)
            met += least is not None
    assert met > 10, 'too few raises to say anything'
    for _ in range(count):          # of any size, and the planning answer throughout
        axes, asked = [swaycases.random_jointed(rng)], rng.randint(1, 60)
        answer, named = raises_by(axes, asked)
        planned = plan(axes, asked, lent=73746)[0]
        same('the planning answer', answer, planned)
        for bit, found in named.items():
            for limit, amount in found:
                now = axes[bit].acceleration_limit if limit == 'M' else axes[bit].speed_limit
                same('enough, and one less is not', [ref.reachable(raises.with_limit(axes[bit], limit, now + r), asked)
                                                     for r in (amount - 1, amount)], [False, True])


# --- Flying fixed targets go (request 2.11) --------------------------------

def flying_readings():
    fill = [7] * 20
    f = ref.encode(ref.Job(1, 2, {0: F}))
    answer, left = convert(f, fill[:13])
    same('F asked 2', (answer.number, answer.place, left), (0, 13, f[:10] + [0xB0000000, 0xC0000002] + f[10:]))
    refuses('F asked 2, 12 lent', convert(f, fill[:12]), 10, place=13)
    same('later words stay', convert(f, fill)[1][13:], fill[13:])
    refuses('17 in the converter', convert(ref.encode(ref.Job(3, 0, {0: to(1), 1: F})), fill), 17, place=1)
    refuses('17 in planning', plan({2: F}), 17, place=2)
    refuses('17 in planning, asked', plan({2: F}, asked=39), 17, place=2)
    same('17 in raises', raises_by([to(4), axis(target=(900, 1))], 3), (Answer(17, place=1), {}))
    refuses('6 before 17', plan([axis(target=(0, 1)), axis(start=(0, 11))]), 6, place=1)
    refuses('16 before 17', plan([axis(target=(0, 1)), axis(second_half_period=1, target=(0, 0, 1, 0))]), 16, place=1)
    bad = ref.Windows([], 0)
    refuses('17 before 13', typed_plan([axis(target=(0, 1))], windows=bad), 17)
    for words in C_WORDS, ref.encode(ref.Job(1, 0, {0: axis(target=(0, 1, 0, 0))})):
        answer, left = convert(words, fill)
        same('copied', (answer.number, left[:answer.place]), (0, words))


def copied_with_two_words(words, asked):
    """The words with two more after kind 10 of each flying fixed target."""
    out = []
    for word, after in zip(words, words[1:] + [0]):
        out.append(word)
        if word >> 28 == 10 and word % 2 ** 28 != 0 and after >> 28 != 11:
            out += [0xB0000000, 0xC0000000 + asked]
    return out


def by_the_old_rules(job, lent):
    """What planning gave when a fixed target could fly."""
    def call():
        values = ref.checked_values(job)
        n = ref.arrival_of(values)
        ref.check_cells(values, n, len(lent))
        cells = ref.table_cells(values, n)
        return Answer(0, mask=job.mask, arrival=n), cells + lent[len(cells):]
    return ref.refusing(call, lent)


def conversions_give_equal_tables(rng, count=60):
    met_tables = 0
    for _ in range(count):
        axes = {bit: convertcases.random_old_axis(rng) for bit in rng.sample(range(6), rng.choice([1, 2]))}
        asked, lent = rng.choice([0, rng.randint(10, 200)]), [7] * 1500
        old = ref.Job(mask_of(axes), asked, dict(sorted(axes.items())))
        words = ref.encode(old)
        answer, left = convert(words, [7] * 90)
        if answer.number != 0:
            same('refused as in planning', answer,
                 by_the_old_rules(old, lent)[0] if answer.number != 17 else plan(axes, asked)[0])
            continue
        new = left[:answer.place]
        same('copied, with two words', new, copied_with_two_words(words, asked))
        same('converted', ref.decode(new), converted(old))
        same('twice is once', convert(new, [7] * 90), (answer, left))
        same('equal tables', ref.plan_words(new, lent), by_the_old_rules(old, lent))
        met_tables += new != words and ref.plan_words(new, lent)[0].number == 0
    assert met_tables > 5, 'too few tables to say anything'


# --- Planning between servo turns (request 2.12) ---------------------------

def search_by(axes, first, budget, windows=None, asked=0):
    """The report; by words too where there are no windows."""
    by_bit = placed(axes)
    report = search_typed(mask_of(by_bit), asked, [by_bit.get(i, UNSET) for i in range(6)], first, budget, windows)
    if windows is None:
        words = ref.encode(ref.Job(mask_of(by_bit), asked, by_bit))
        same('a search by words', search_words(words, first, budget), report)
    return report


def search_readings():
    never = [to(100000000, speed_limit=1)]
    same('the budget just covers the rest', search_by(never, 4096, 1), Nothing(1))
    same('budget 0', search_by(never, 4096, 0), Spent(4096, 0))
    same('no candidate', search_by(never, 4097, 5), Nothing(0))
    same('no candidate, budget 0', search_by(never, 4097, 0), Nothing(0))
    same('one is left', search_by(never, 1, 4095), Spent(4096, 4095))
    same('all', search_by(never, 1, 4096), Nothing(4096))
    same('33 bits', search_by(never, 4096, 2 ** 32 - 1), Nothing(1))
    for first in (0, 4098, 2 ** 32 - 1):
        same('18', search_by(never, first, 0), Answer(18))
    same('B', search_by([to(4)], 1, 4), Found(4, 4))
    same('B from 3', search_by([to(4)], 3, 9), Found(4, 2))
    same('B from 9', search_by([to(4)], 9, 1), Found(9, 1))
    same('B spent', search_by([to(4)], 1, 3), Spent(4, 3))
    same('asked is read as 0', search_by([to(4)], 1, 9, asked=4097), Found(4, 4))
    late, empty = ref.Windows([(6, 9)], 0), ref.Windows([], 0)
    same('outside windows counts', search_by([to(4)], 1, 9, late), Found(6, 6))
    same('after the windows', search_by([to(4)], 9, 3, late), Spent(12, 3))
    same('13 before 18', search_by([to(4)], 0, 1, empty), Answer(13))
    same('17 before 18', search_by([axis(target=(0, 1))], 0, 1), Answer(17))


def continued(axes, first, budget, windows):
    """Turn after turn until the search ends: its tick or None, all candidates
    tried, and the turns."""
    tried, turns = 0, 0
    while True:
        report = search_by(axes, first, budget, windows)
        tried, turns = tried + report.tried, turns + 1
        if not isinstance(report, Spent):
            return getattr(report, 'tick', None), tried, turns
        first = report.following


def searches_go_on(rng, count=40):
    """The undivided search against planning, and divided ones against it."""
    for k in range(count):
        axes = [met(random_axis(rng), 40) for _ in range(rng.choice([1, 2]))]
        ends = sorted(rng.sample(range(900), 2 * rng.randint(1, 6)))
        windows = ref.Windows(list(zip(ends[::2], ends[1::2])), rng.choice([0, 5])) if k % 3 == 0 else None
        whole, planned = search_by(axes, 1, 4096, windows), typed_plan(axes, lent=73746, windows=windows)[0]
        if isinstance(whole, Found):
            same('planned', planned, Answer(0, mask=planned.mask, arrival=whole.tick))
        else:
            same('planned', (whole, planned.number), (Nothing(4096), 9))
        first = rng.choice([1, 1, rng.randint(1, 4097)])
        undivided = continued(axes, first, 2 ** 32 - 1, windows)
        budget = rng.choice([rng.randint(50, 900), 4096, max(1, undivided[1] // 7)])
        divided = continued(axes, first, budget, windows)
        same('the same end', divided[:2], undivided[:2])
        assert divided[2] <= 4096, 'it ends within 4,096 calls'
    same('in turns of one', continued([to(100)], 1, 1, None), (20, 20, 20))


# --- Rows from arrival backwards (request 2.13) ----------------------------

def backward_readings():
    def turned(words, lent):
        return backwards.backwards_words(words, [7] * lent)

    rows = [[256, 0, 0], [214, 85, -85], [129, 85, 0], [43, 86, -1], [0, 0, 86]]
    for lent in (15, 40):
        answer, cells = turned(C_WORDS, lent)
        same('C backwards', (answer, cells), (Answer(0, mask=1, arrival=4), sum(rows, []) + [7] * (lent - 15)))
    refuses('J backwards', turned(C_WORDS, 14), 10, arrival=4)
    refuses('I backwards', turned([], 14), 1)


def rows_are_turned(rng, count=60):
    """The same answer as forwards, and its rows in turned order; demand 3 by tick."""
    cases = backwardcases.backward_cases().cases + backwardcases.drawn_backwards(rng.randrange(1000), count).cases
    for case in cases:
        lent = [7] * case.lent
        answer, cells = backwardcases.turned(case, lent)
        forward, ahead = outcome(case, lent)
        same('the same answer', answer, forward)
        written = 3 * bin(answer.mask).count('1') * (answer.arrival + 1) if answer.number == 0 else 0
        same('cells after the last row', cells[written:], lent[written:])
        if written:
            width = written // (answer.arrival + 1)
            rows = [cells[i:i + width] for i in range(0, written, width)]
            same('turned', rows[::-1], [ahead[i:i + width] for i in range(0, written, width)])
            if width == 3 and answer.arrival < 200:
                one = ref.weighed(case.axes[answer.mask.bit_length() - 1]) if case.words is None else next(
                    iter(ref.decode(case.words).axes.values()))
                demand_3(rng, one, answer.arrival, rows[::-1])


# --- Rows in parts ---------------------------------------------------------

def part_readings():
    def part(first, lent):
        return parts.part_words(C_WORDS, first, [7] * lent)

    rows = [[0, 0, 86], [43, 86, -1], [129, 85, 0], [214, 85, -85], [256, 0, 0]]
    answer = Answer(0, mask=1, arrival=4)
    for first in range(7):
        for lent in range(20):
            want = rows[first:first + lent // 3]
            cells = sum(want, [])
            same('a part of C', part(first, lent), (answer, len(want), cells + [7] * (lent - len(cells))))


def parts_make_the_table(rng, count=60):
    """However rows 0 to N are cut, the parts put together are the table."""
    for case in backwardcases.drawn_backwards(rng.randrange(1000), count).cases:
        lent = [7] * case.lent
        answer, cells = outcome(case, lent)
        if answer.number:
            continue
        width, first, joined = 3 * bin(answer.mask).count('1'), 0, []
        while first <= answer.arrival:
            room = rng.randint(width, 20 * width)
            part = partcases.parted(partcases.PartCase(case, first), [7] * room)
            same('the same answer', part.answer, answer)
            joined += part.cells[:width * part.rows]
            first += part.rows
        same('put together', joined + lent[len(joined):], cells)


def main():
    rng = random.Random(1)
    field_cases()
    traps()
    settled_readings()
    ranges()
    definitions(rng)
    rounding()
    random_jobs(rng)
    tour_readings()
    legs_are_single_jobs(rng)
    rounding_to_single(rng)
    damping_readings()
    weights_by_hand(rng)
    window_readings()
    windows_by_trial(rng)
    corrected_readings()
    corrected_axes(rng)
    rail_readings()
    one_spelling(rng)
    along_the_rail(rng)
    sway_readings()
    jointed_axes(rng)
    second_blend_is_a_mean(rng)
    raises_readings()
    raises_by_trial(rng)
    flying_readings()
    conversions_give_equal_tables(rng)
    search_readings()
    searches_go_on(rng)
    backward_readings()
    rows_are_turned(rng)
    part_readings()
    parts_make_the_table(rng)
    misfit.checks(rng)
    print('reference: field cases, traps, settled readings, ranges, definitions, rounding, demand 3, tours, damping,',
          'windows, accelerating targets on damped poles, positions past 28 bits, a second sway, raises,',
          'the converter, the search, rows backwards, rows in parts, poles that fit only nearly: ok')
    return 0


if __name__ == '__main__':
    sys.exit(main())
