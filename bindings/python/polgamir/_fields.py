"""Values of the API as structs of the header. A value of a wrong type, or one that its field cannot
hold, is an error that names the field, as `axes[0].target.position`."""

from __future__ import annotations

import ctypes
from typing import TYPE_CHECKING, Sequence, Tuple, Union

from . import _structs
from ._numbers import mask_of, real, signed, unsigned, whole
from .axes import Axis, Damping, Fixed, Moving, Peaks, Ratio, RestPoint, Weight, Window, Windows

if TYPE_CHECKING:
    from .jobs import Job
    from .tours import Tour, TourAxis


def _expect(value: object, kinds: Union[type, Tuple[type, ...]], wanted: str, name: str) -> None:
    if not isinstance(value, kinds):
        raise TypeError(f"{name}: expected {wanted}, found {value!r}")


def _set_damping(fields: Union[_structs.Axis, _structs.Limits], damping: Damping, name: str) -> None:
    _expect(damping, (Weight, Ratio, Peaks), "a Weight, a Ratio or Peaks", name)
    if isinstance(damping, Weight):
        fields.damping_kind, fields.second_weight = 0, unsigned(damping.second_weight, f"{name}.second_weight")
    elif isinstance(damping, Ratio):
        fields.damping_kind, fields.swing_ratio = 1, real(damping.swing_ratio, f"{name}.swing_ratio")
    else:
        fields.damping_kind, fields.first_peak = 2, real(damping.first_peak, f"{name}.first_peak")
        fields.second_peak = real(damping.second_peak, f"{name}.second_peak")


def _set_limits(fields: Union[_structs.Axis, _structs.Limits], axis: Union[Axis, TourAxis], name: str) -> None:
    fields.speed_limit = unsigned(axis.speed_limit, f"{name}.speed_limit")
    fields.acceleration_limit = unsigned(axis.acceleration_limit, f"{name}.acceleration_limit")
    fields.half_period = unsigned(axis.half_period, f"{name}.half_period")
    _set_damping(fields, axis.damping, f"{name}.damping")
    if axis.second_half_period is not None:
        fields.second_sway_given = 1
        fields.second_half_period = unsigned(axis.second_half_period, f"{name}.second_half_period")


def _set_axis(fields: _structs.Axis, axis: Axis, name: str) -> None:
    _expect(axis, Axis, "an Axis", name)
    start, target = axis.start, axis.target
    _expect(start, RestPoint, "a RestPoint", f"{name}.start")
    fields.start_position = signed(start.position, f"{name}.start.position")
    fields.start_velocity = signed(start.velocity, f"{name}.start.velocity")
    _expect(target, (Fixed, Moving), "Fixed or Moving", f"{name}.target")
    fields.target_position = signed(target.position, f"{name}.target.position")
    fields.target_velocity = signed(target.velocity, f"{name}.target.velocity")
    if isinstance(target, Moving):
        fields.target_kind = 1
        fields.target_acceleration = signed(target.acceleration, f"{name}.target.acceleration")
        fields.target_tick = signed(target.tick, f"{name}.target.tick")
    _set_limits(fields, axis, name)


def checked_axis(axis: Axis) -> None:
    """An axis on its own: an error names what is of a wrong type, or outside what its field can
    hold."""
    _set_axis(_structs.Axis(), axis, "axis")


def _set_windows(fields: _structs.Windows, windows: Windows) -> None:
    _expect(windows, Windows, "Windows or None", "windows")
    _expect(windows.windows, Sequence, "a sequence of windows", "windows.windows")
    fields.given = 1
    fields.dwell = unsigned(windows.dwell, "windows.dwell")
    fields.count = len(windows.windows)
    for index, (place, window) in enumerate(zip(fields.list, windows.windows)):
        name = f"windows.windows[{index}]"
        _expect(window, Window, "a Window", name)
        place.opening = unsigned(window.opening, f"{name}.opening")
        place.closing = unsigned(window.closing, f"{name}.closing")


def job_of(job: Job) -> _structs.Job:
    """A job."""
    asked = 0 if job.arrival is None else job.arrival
    fields = _structs.Job(mask=mask_of(job.axes), asked=unsigned(asked, "arrival"))
    for number, axis in job.axes.items():
        _set_axis(fields.axes[number], axis, f"axes[{number}]")
    if job.windows is not None:
        _set_windows(fields.windows, job.windows)
    return fields


def tour_of(tour: Tour) -> _structs.Tour:
    """A tour without its stops."""
    from .tours import TourAxis

    fields = _structs.Tour(mask=mask_of(tour.axes))
    for number, axis in tour.axes.items():
        name = f"axes[{number}]"
        _expect(axis, TourAxis, "a TourAxis", name)
        fields.start[number] = signed(axis.start, f"{name}.start")
        _set_limits(fields.limits[number], axis, name)
    return fields


def stop_of(tour: Tour, index: int) -> _structs.Stop:
    """A stop of a tour."""
    from .tours import Stop

    stop, name = tour.stops[index], f"stops[{index}]"
    _expect(stop, Stop, "a Stop", name)
    fields = _structs.Stop(dwell=unsigned(stop.dwell, f"{name}.dwell"))
    if set(stop.positions) != set(tour.axes):
        wanted, found = sorted(tour.axes), sorted(stop.positions)
        raise ValueError(f"{name}.positions: expected a position for each axis of the tour, {wanted}, found {found}")
    for number, position in stop.positions.items():
        fields.positions[number] = signed(position, f"{name}.positions[{number}]")
    return fields


def words_of(words: Sequence[int]) -> ctypes.Array[ctypes.c_uint32]:
    """Job words."""
    given = (unsigned(word, f"words[{index}]") for index, word in enumerate(words))
    return (ctypes.c_uint32 * len(words))(*given)


def candidates(first: int, budget: int) -> Tuple[int, int]:
    """The first candidate of a search, and its budget."""
    return whole(first, 0, 2**32 - 1, "first"), whole(budget, 0, 2**32 - 1, "budget")


def part_of(first: int, rows: int) -> Tuple[int, int]:
    """The first row of a part, and how many rows it may have."""
    return whole(first, 0, 2**32 - 1, "first"), whole(rows, 0, 2**32 - 1, "rows")
