"""What to raise where an asked arrival is turned down with 8."""

from __future__ import annotations

import enum
from dataclasses import replace
from typing import Mapping, NamedTuple, Optional, Tuple

from .axes import Axis
from .refusals import Refusal


class Limit(enum.IntEnum):
    """A limit of an axis."""

    ACCELERATION = 1
    SPEED = 2


class Raise(NamedTuple):
    """A raise of one limit, the other staying as it is.

    limit   which `Limit`
    by      what is added to it, at least 1
    """

    limit: Limit
    by: int

    def applied(self, axis: Axis) -> Axis:
        """The axis with its limit raised."""
        if self.limit == Limit.ACCELERATION:
            return replace(axis, acceleration_limit=axis.acceleration_limit + self.by)
        return replace(axis, speed_limit=axis.speed_limit + self.by)


class Raises(NamedTuple):
    """What to raise so that each axis can make the asked arrival.

    arrival   of the job, None where it is refused
    refusal   why it is refused, never with 10; None where it is not
    axes      where the refusal is 8: each `Raise` of the axes that it names, by their numbers

    A raise is the least of its limit alone for which the axis can arrive: it is enough, and one
    less is not. The smaller stands first, that of the acceleration limit if both are equal. A limit
    of which no value is enough has none.
    """

    arrival: Optional[int]
    refusal: Optional[Refusal]
    axes: Mapping[int, Tuple[Raise, ...]]
