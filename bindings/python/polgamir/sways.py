"""What a table can leave of a sway on a pole that is not quite as entered: the proved bound, as a
number.

The theorems are `sway-most` and `measured-most` (docs/METHOD.md, 5.5). Everything is worked
out in whole numbers and exact fractions, and a number that is handed out is rounded upward. An
error is the true number less the entered one. It may be a whole number, a `Fraction`, a `Decimal`
or a float, which is taken for exactly the number that it is.
"""

from __future__ import annotations

import math
from ctypes import c_float
from decimal import Decimal
from fractions import Fraction
from typing import NamedTuple, Tuple, Union

from ._fields import checked_axis
from ._numbers import whole
from .axes import Axis, Damping, Moving, Peaks, Weight
from .constants import FINE_STEPS, LATEST_ARRIVAL

Error = Union[int, float, Fraction, Decimal]
"""How far a true number is from the entered one."""

_BY_PI = Fraction(106, 333)
"""A little more than 1/pi."""


class SwayLeft(NamedTuple):
    """What a table can leave of a sway at most.

    exact     by the exact blend, before the cells are rounded
    rounded   by the cells of the table, whose rounding can push the pole too

    From `sway_bound` it is in fine steps: so far is the top of the pole from where it comes to
    rest, at any time from the arrival on. From `sway_left` it is in fine steps per tick squared
    times the unit of the list's entries.
    """

    exact: int
    rounded: int


class _Rate(NamedTuple):
    """One of the blends of an axis, and what the weights of the other one add up to, 1 where there
    is no other."""

    first_weight: int
    second_weight: int
    half_period: int
    others: int


class _Pole(NamedTuple):
    """A pole as it swings in truth."""

    half_period: Fraction
    half_period_error: Fraction
    weight_error: Fraction
    """By how much the second weight of the true ratio, which need not be whole, differs from the
    entered one."""


def _single(value: float) -> float:
    """A number rounded to single precision."""
    return c_float(value).value


def _weight(damping: Damping) -> int:
    """The second weight: the one given, or that of the measured ratio by the planner's own rule."""
    if isinstance(damping, Weight):
        return damping.second_weight
    if isinstance(damping, Peaks):
        first, second = _single(damping.first_peak), _single(damping.second_peak)
        ratio = _single(second / first) if first > 0 else 0.0
    else:
        ratio = _single(damping.swing_ratio)
    if not 0 < ratio <= 1:
        raise ValueError("axis.damping: expected a ratio above 0 and at most 1")
    return next((weight for weight in range(128, 0, -1) if weight <= _single(ratio * (256 - weight))), 1)


def _second_weight(axis: Axis) -> int:
    """The second weight of an axis whose numbers are in their ranges."""
    checked_axis(axis)
    whole(axis.acceleration_limit, 1, 65_536, "axis.acceleration_limit")
    whole(axis.half_period, 0, 256, "axis.half_period")
    if axis.second_half_period is not None:
        whole(axis.second_half_period, 1, 256, "axis.second_half_period")
    if isinstance(axis.target, Moving):
        limit = axis.acceleration_limit
        whole(axis.target.acceleration, -limit, limit, "axis.target.acceleration")
    return whole(_weight(axis.damping), 1, 128, "axis.damping.second_weight")


def _changes(axis: Axis) -> Tuple[int, int]:
    """W of `acceleration_changes`, and what a blended acceleration is divided by to give fine
    steps."""
    damped = _second_weight(axis) != 128 and axis.half_period > 0
    target = abs(axis.target.acceleration) if isinstance(axis.target, Moving) else 0
    finer, weights = 1, 256
    if axis.second_half_period is not None:
        finer, weights = 2, 512
    elif damped and target:
        finer = 256
    return finer * FINE_STEPS * (4 * axis.acceleration_limit + target) + 2, finer * weights


def _first_rate(axis: Axis) -> _Rate:
    weight = _second_weight(axis)
    return _Rate(256 - weight, weight, axis.half_period, 1 if axis.second_half_period is None else 2)


def _second_rate(axis: Axis) -> _Rate:
    _second_weight(axis)
    if axis.second_half_period is None:
        raise ValueError("axis.second_half_period: expected one, found none")
    return _Rate(1, 1, axis.second_half_period, 256)


def _fraction(error: Error, name: str) -> Fraction:
    try:
        return Fraction(error)
    except (TypeError, ValueError, OverflowError):
        raise TypeError(f"{name}: expected a number, found {error!r}") from None


def _pole(rate: _Rate, half_period_error: Error, ratio_error: Error) -> _Pole:
    late = _fraction(half_period_error, "half_period_error")
    half_period = rate.half_period + late
    if not 0 < half_period <= 512:
        raise ValueError(
            f"half_period_error: expected a true half period above 0 and at most 512 ticks, found {half_period}")
    ratio = Fraction(rate.second_weight, rate.first_weight) + _fraction(ratio_error, "ratio_error")
    if not 0 < ratio <= 1:
        raise ValueError(f"ratio_error: expected a true swing ratio above 0 and at most 1, found {ratio}")
    weight = (rate.first_weight + rate.second_weight) * ratio / (1 + ratio)
    return _Pole(half_period, abs(late), abs(weight - rate.second_weight))


def _misfit(rate: _Rate, pole: _Pole, size: Fraction, difference: Fraction) -> Fraction:
    """The greatest misfit of a sway of the pole with no entry above a size and no neighbours
    further apart."""
    misfit = 2 * pole.weight_error * size + rate.first_weight * pole.half_period_error * difference
    return rate.others * min(misfit, (rate.first_weight + rate.second_weight) * size)


def _left(axis: Axis, arrival: int, misfit: Fraction, size: Fraction) -> SwayLeft:
    most, divisor = _changes(axis)
    exact = Fraction(most, divisor) * misfit
    rows = whole(arrival, 1, LATEST_ARRIVAL, "arrival")
    return SwayLeft(math.ceil(exact), math.ceil(exact + rows * size))


def _pole_left(axis: Axis, rate: _Rate, arrival: int, pole: _Pole) -> SwayLeft:
    """What is left of the swing of an oscillator, whose size is (p/pi)**2 and whose difference
    p/pi."""
    difference = pole.half_period * _BY_PI
    size = difference * difference
    return _left(axis, arrival, _misfit(rate, pole, size, difference), size)


def acceleration_changes(axis: Axis) -> int:
    """W, the most that the planned accelerations of an axis change in all, from tick 0 to the
    landing.

    axis   the `Axis`

    It is 4 m + |a| + 2 steps of the axis's grid, where m is the acceleration limit and a the
    target's acceleration in these steps. The grid is 1/256 unit; 1/512 with a second half period;
    1/65,536 for an accelerating target on a damped pole.

    Raises a ValueError for a number out of its range.
    """
    return _changes(axis)[0]


def sway_left(axis: Axis, arrival: int, misfit: int, size: int) -> SwayLeft:
    """What an accepted table leaves at most of a sway of your own. Gives a `SwayLeft`.

    axis      the `Axis`
    arrival   of its table, N
    misfit    E: no misfit of the sway is above it in size
    size      G: no entry of the sway is above it in size

    A sway is any list of whole numbers w(0), w(1), ..: w(i) is how the pole stands i ticks after
    its top was pushed, in any unit. What is left at a tick m from the arrival on is the sum of each
    change of acceleration at a row k times w(m - k). The list's misfit at i is A w(i + h) + B w(i),
    and with a second half period h2 that at i + h2 plus that at i. It is 0 where the list fits the
    pole as entered. The misfits and entries that count are those of w(m - N) to w(m).

    Raises a ValueError for a number out of its range.
    """
    given = whole(misfit, 0, 2**64 - 1, "misfit"), whole(size, 0, 2**64 - 1, "size")
    return _left(axis, arrival, Fraction(given[0]), Fraction(given[1]))


def misfit_bound(axis: Axis, half_period_error: Error, ratio_error: Error, size: int, difference: int) -> int:
    """E, the greatest misfit of a sway on a pole that was measured wrongly.

    axis                the `Axis`, with half period h and weights A and B as entered
    half_period_error   the true half period p less h, in ticks
    ratio_error         the true swing ratio less the entered one
    size                G: no entry of the sway is above it in size
    difference          D: no two neighbours are further apart

    E is 2 |b - B| G + A |p - h| D, but never more than 256 G; twice that with a second half period.
    Here b is the weight of the true ratio, which need not be whole.

    Raises a ValueError for a number out of its range.
    """
    rate = _first_rate(axis)
    given = whole(size, 0, 2**64 - 1, "size"), whole(difference, 0, 2**64 - 1, "difference")
    return math.ceil(_misfit(rate, _pole(rate, half_period_error, ratio_error), *map(Fraction, given)))


def sway_bound(axis: Axis, arrival: int, half_period_error: Error, ratio_error: Error = 0) -> SwayLeft:
    """What a pole that was measured wrongly sways at most after the arrival. Gives a `SwayLeft`, in
    fine steps: so far is the top of the pole from where it comes to rest, for every table of the
    axis.

    axis                the `Axis`, as entered
    arrival             of its table
    half_period_error   the true half period less the entered one, in ticks
    ratio_error         the true swing ratio less the entered one

        >>> from polgamir import Axis, Fixed, RestPoint, Weight, sway_bound
        >>> pan = Axis(start=RestPoint(0), target=Fixed(300), speed_limit=10, acceleration_limit=1,
        ...            half_period=10, damping=Weight(128))
        >>> sway_bound(pan, 60, 0.5).exact  # swings over in 10 1/2 ticks, and not in 10: 3.35 units
        858

    The pole is a damped oscillator of one rate, at rest before row 0, and the acceleration of a row
    holds until the next row. A push of 1 unit per tick squared then swings its top by at most G =
    (p/pi)**2 units, and by at most D = p/pi units from tick to tick, p being the true half period.
    The bound is `sway_left` of the `misfit_bound` for this G and this D, with 106/333, which is a
    little above it, for 1/pi. It is linear in a small error, and it holds for every leg: most leave
    much less.

    Raises a ValueError for a number out of its range.
    """
    rate = _first_rate(axis)
    return _pole_left(axis, rate, arrival, _pole(rate, half_period_error, ratio_error))


def second_sway_bound(axis: Axis, arrival: int, half_period_error: Error, ratio_error: Error = 0) -> SwayLeft:
    """As `sway_bound`, of the second rate of a pole that swings at two. Gives a `SwayLeft`.

    The second swing is entered as undamped: its ratio is 1, and an error of it is not above 0.
    """
    rate = _second_rate(axis)
    return _pole_left(axis, rate, arrival, _pole(rate, half_period_error, ratio_error))
