"""What a sway leaves that fits the pole's numbers only nearly (docs/METHOD.md, 5.5),
in exact fractions: misfits, what the planned acceleration changes, the bounds.

It is written from the method. `checks(rng)` holds the bounds against lists and
axes, by trying every leg of small numbers and by drawing; the self-test calls it.
"""

import itertools
import random
from fractions import Fraction
from math import ceil
from typing import List, NamedTuple, Optional, Tuple

import reference as ref
import swaycases
from builders import random_axis


def changes(accelerations: List[int]) -> List[int]:
    """Each acceleration less the one before, which is 0 before row 0."""
    return [after - before for before, after in zip([0, *accelerations], accelerations)]


def sway(accelerations: List[int], w: List[int], m: int) -> int:
    """The sway left at tick m."""
    return sum(change * w[m - k] for k, change in enumerate(changes(accelerations)))


def misfit(one: ref.Axis, w: List[int], i: int) -> int:
    """A w(i + h) + B w(i), and with a second half period that at i + h2 more."""
    def once(j: int) -> int:
        return (256 - one.second_weight) * w[j + one.half_period] + one.second_weight * w[j]
    return once(i) if one.second_half_period is None else once(i + one.second_half_period) + once(i)


def greatest_misfit(one: ref.Axis, w: List[int], m: int, n: int) -> int:
    """E of the list's entries m - N to m."""
    return max(abs(misfit(one, w, i)) for i in range(m - n, m - ref.delay(one) + 1))


def most_changes(one: ref.Axis) -> int:
    """4 mu + |alpha| + 2, in grid steps."""
    steps = 256 * ref.finer(one)
    return 4 * steps * one.acceleration_limit + steps * abs(ref.acceleration_of(one.target)) + 2


class Left(NamedTuple):
    """A bound on the sway left, in fine steps: before rounding, and as rounded."""
    exact: Fraction
    rounded: Fraction


def left(one: ref.Axis, n: int, e: Fraction, g: Fraction) -> Left:
    """V E over the divisor, and N G more."""
    exact = Fraction(most_changes(one) * e, ref.weights(one) * ref.finer(one))
    return Left(exact, exact + n * g)


class Pole(NamedTuple):
    """One rate of a pole as it is: its half period in ticks and its swing ratio."""
    half_period: Fraction
    ratio: Fraction
    second: bool = False


def pole_misfit(one: ref.Axis, pole: Pole, g: Fraction, d: Fraction) -> Fraction:
    """E of any sway of the pole with entries up to g, and up to d apart within a tick."""
    a, b, h, others = (1, 1, one.second_half_period, 256) if pole.second else (
        256 - one.second_weight, one.second_weight, one.half_period, ref.weights(one) // 256)
    weight = (a + b) * pole.ratio / (1 + pole.ratio)
    fitted = 2 * abs(weight - b) * g + a * abs(pole.half_period - h) * d
    return others * min(fitted, (a + b) * g)


def pole_left(one: ref.Axis, n: int, pole: Pole) -> Tuple[int, int]:
    """The bound on how far the top of a pole is from its rest, in fine steps: G is (p / pi)^2
    and D p / pi, with 106/333 for 1 / pi; rounded upward."""
    d = pole.half_period * Fraction(106, 333)
    bound = left(one, n, pole_misfit(one, pole, d * d, d), d * d)
    return ceil(bound.exact), ceil(bound.rounded)


# --- Every leg of small numbers --------------------------------------------

def legs(step: int, most_limit: int, most_ticks: int):
    """Every leg that rule 4 admits, as its ends."""
    for limit, ticks in itertools.product(range(1, most_limit + 1), range(1, most_ticks + 1)):
        for start, end in itertools.product(range(-limit, limit + 1), repeat=2):
            for wanted in range(-limit * (ticks - 1), limit * (ticks - 1) + 1):
                if ref.list_exists(start, end, limit, step, ticks, 2 * wanted):
                    yield ref.Ends(ticks, 0, start, 2 * wanted + start + end, end, 0, limit, step)


def every_leg_changes_little(most_step: int = 3, most_limit: int = 5, most_ticks: int = 5) -> None:
    """At most 4 mu + |alpha| + 2 for every alpha; and for every mu some leg has that much."""
    for step in range(1, most_step + 1):
        over = set()
        for e in legs(step, most_limit, most_ticks):
            velocities = ref.chosen_velocities(e)
            planned = [after - before for before, after in zip(velocities, velocities[1:])]
            for end in range(-step, step + 1):
                over.add(sum(map(abs, changes([*planned, end]))) - 4 * step - abs(end))
        assert max(over) == 2, (step, max(over))


# --- Drawn axes and lists --------------------------------------------------

class Rows(NamedTuple):
    """The accelerations of an axis that arrives: planned ones up to the landing,
    exact blends and cells by row."""
    axis: ref.Axis
    arrival: int
    planned: List[int]
    exact: List[int]
    cells: List[int]


def rows_of(one: ref.Axis) -> Optional[Rows]:
    """The least arrival's, up to tick 90; none where the axis is refused."""
    if ref.plan_typed(1, 0, [one], [])[0].number != 10:
        return None
    n = next((n for n in range(1, 91) if ref.reachable(one, n)), None)
    if n is None:
        return None
    planned = ref.plan_axis(one, n)
    landing = range(planned.ends.ticks + 1)
    exact = [ref.blended(one, planned, k)[2] for k in range(n + 1)]
    cells = [ref.row_cells(one, planned, k)[2] for k in range(n + 1)]
    return Rows(one, n, [planned.at(k)[2] for k in landing], exact, cells)


def drawn_rows(rng: random.Random, count: int) -> List[Rows]:
    """Axes of every grid; every third has no blend."""
    found: List[Rows] = []
    while len(found) < count:
        one = rng.choice([random_axis, swaycases.random_jointed])(rng)
        if len(found) % 3 == 0:
            one = one._replace(half_period=0, second_half_period=None)
        rows = rows_of(one)
        found += [rows] if rows else []
    return found


def held(rows: Rows, w: List[int], m: int, e: Fraction, g: Fraction) -> None:
    """No sway of the list exceeds the bound for E and G."""
    bound = left(rows.axis, rows.arrival, e, g)
    divisor = ref.weights(rows.axis) * ref.finer(rows.axis)
    assert abs(Fraction(sway(rows.exact, w, m), divisor)) <= bound.exact, 'sway before rounding'
    assert abs(sway(rows.cells, w, m)) <= bound.rounded, 'sway as rounded'


def lists_are_held(rng: random.Random, count: int = 150) -> None:
    """Drawn lists; only the entries from m - N on count. With no blend the list of the signs of the
    planned changes leaves just what they change in all, and some axes change as much as any may."""
    sharp = 0
    for rows in drawn_rows(rng, count):
        one, n = rows.axis, rows.arrival
        m = n + rng.choice([0, rng.randint(0, 30)])
        size = rng.choice([1, 9, 1000])
        w = [rng.randint(-size, size) for _ in range(m + 1)]
        w[:m - n] = [10**9] * (m - n)
        held(rows, w, m, greatest_misfit(one, w, m, n), max(map(abs, w[m - n:])))
        if ref.delay(one) == 0:
            total = sum(map(abs, changes(rows.planned)))
            signs = [1 if change >= 0 else -1 for change in changes(rows.planned)][::-1]
            held(rows, signs, n, 256, 1)
            assert sway(rows.exact, signs, n) == 256 * total, 'all of the changes'
            sharp += total == most_changes(one)
    assert sharp > 0, 'no axis without a blend attains the bound'


def pole_list(rng: random.Random, turn: int, before: int, after: int, last: int) -> List[int]:
    """u(0) to u(last) with before u(i + turn) + after u(i) = 0."""
    first, blocks = [rng.randint(-9, 9) for _ in range(turn)], last // turn
    return [first[i % turn] * (-after) ** (i // turn) * before ** (blocks - i // turn) for i in range(last + 1)]


def poles_are_held(rng: random.Random, count: int = 150) -> None:
    """Lists with several entries to a tick that fit another half period and
    another ratio, of either rate."""
    for rows in drawn_rows(rng, count):
        one, n = rows.axis, rows.arrival
        second = one.second_half_period is not None and rng.random() < 0.5
        h = one.second_half_period if second else one.half_period
        parts = rng.choice([1, 1, 2, 3, 7])
        turn = max(1, parts * h + rng.randint(-2 * parts, 2 * parts))
        after, before = sorted([rng.randint(1, 9), rng.randint(1, 9)])
        m = n + rng.randint(0, 3)
        u = pole_list(rng, turn, before, after, parts * m + turn)
        g = max(map(abs, u))
        d = parts * max((abs(y - x) for x, y in zip(u, u[1:])), default=0)
        pole = Pole(Fraction(turn, parts), Fraction(after, before), second)
        w = u[::parts][:m + 1]
        e = pole_misfit(one, pole, g, d)
        assert greatest_misfit(one, w, m, n) <= e, 'misfit of a pole'
        held(rows, w, m, e, g)


def checks(rng: random.Random) -> None:
    every_leg_changes_little()
    lists_are_held(rng)
    poles_are_held(rng)
