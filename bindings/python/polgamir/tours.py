"""Tours: stops that the head goes to one after the other, resting at each."""

from __future__ import annotations

import ctypes
import operator
from dataclasses import dataclass
from typing import Mapping, NamedTuple, Optional, Sequence, Tuple

from . import _structs
from ._answers import refusal_of
from ._fields import stop_of, tour_of
from ._loader import library
from ._numbers import mask_of
from .axes import Axis, Damping, Fixed, RestPoint
from .jobs import Job
from .refusals import Number


@dataclass(frozen=True)
class TourAxis:
    """An axis of a tour.

    start   where it starts, at rest, in units

    speed_limit, acceleration_limit, half_period, damping and second_half_period are as in `Axis`,
    and the same for all legs.
    """

    start: int
    speed_limit: int
    acceleration_limit: int
    half_period: int
    damping: Damping
    second_half_period: Optional[int] = None


@dataclass(frozen=True)
class Stop:
    """A stop of a tour.

    positions   where each axis rests, by its number, in units
    dwell       for how many ticks, 0 to 4,096
    """

    positions: Mapping[int, int]
    dwell: int = 0


class Schedule(NamedTuple):
    """When a tour is where.

    arrivals   at each stop, in ticks from the tour's start
    total      the last arrival plus its dwell
    """

    arrivals: Tuple[int, ...]
    total: int


@dataclass(frozen=True)
class Tour:
    """Stops one after the other, each leg from rest to rest and as early as it can be.

    axes    each `TourAxis` by its number, 0 to 5
    stops   at most 64, each a `Stop`

        >>> from polgamir import Stop, Tour, TourAxis, Weight
        >>> pan = TourAxis(start=0, speed_limit=10, acceleration_limit=1, half_period=0, damping=Weight(128))
        >>> Tour({0: pan}, [Stop({0: 6}, dwell=5), Stop({0: -2})]).schedule()
        Schedule(arrivals=(5, 16), total=16)
    """

    axes: Mapping[int, TourAxis]
    stops: Sequence[Stop]

    @property
    def mask(self) -> int:
        """Bit i is set where axis i takes part."""
        return mask_of(self.axes)

    def schedule(self) -> Schedule:
        """Plans the tour. Gives its `Schedule`.

        Raises a `Refusal` whose place is the stop, never with 10.
        """
        given = tour_of(self)
        count = len(self.stops)
        stops = (_structs.Stop * count)(*(stop_of(self, index) for index in range(count)))
        arrivals = (ctypes.c_uint32 * count)()
        answer = library().polgamir_plan_tour(given, stops, count, arrivals, count)
        if answer.number != Number.ACCEPTED:
            raise refusal_of(answer)
        return Schedule(tuple(arrivals), answer.total)

    def leg(self, index: int) -> Job:
        """The `Job` of the leg to a stop: its plan is the leg's table.

        index   of the stop, from 0

        Raises an IndexError where there is none.
        """
        index = range(len(self.stops))[operator.index(index)]
        axes = {}
        for number, axis in self.axes.items():
            start = self.stops[index - 1].positions[number] if index else axis.start
            target = Fixed(self.stops[index].positions[number])
            limits = (axis.speed_limit, axis.acceleration_limit, axis.half_period, axis.damping)
            axes[number] = Axis(RestPoint(start), *limits, target, axis.second_half_period)
        return Job(axes)
