"""What a job is made of: starts, targets, damping, axes and windows."""

from __future__ import annotations

from dataclasses import dataclass
from typing import Optional, Sequence, Union


@dataclass(frozen=True)
class RestPoint:
    """Where an axis starts.

    position   in units
    velocity   in units per tick; 0 is at rest
    """

    position: int
    velocity: int = 0


@dataclass(frozen=True)
class Fixed:
    """A target to come to rest at, whenever that is.

    position   in units
    velocity   0; the planner refuses any other with 17
    """

    position: int
    velocity: int = 0


@dataclass(frozen=True)
class Moving:
    """A target that moves by itself, whenever the head arrives.

    position       where it is at `tick`, in units
    velocity       how fast it moves then, in units per tick
    acceleration   steady, in units per tick squared
    tick           -4,096 to 4,096; the head starts at tick 0
    """

    position: int
    velocity: int
    acceleration: int
    tick: int


Target = Union[Fixed, Moving]
"""What an axis is to land on."""


@dataclass(frozen=True)
class Weight:
    """Damping as the second weight of the blend.

    second_weight   B, 1 to 128: each swing is B / (256 - B) of the one before, so that 128 is a
                    pole whose swing does not shrink
    """

    second_weight: int


@dataclass(frozen=True)
class Ratio:
    """Damping as measured, as the ratio of two swings.

    swing_ratio   a swing divided by the one half a period before it, above 0 and at most 1, read in
                  single precision
    """

    swing_ratio: float


@dataclass(frozen=True)
class Peaks:
    """Damping as measured, as two peaks half a period apart, read in single precision.

    first_peak    above 0
    second_peak   also counted positive
    """

    first_peak: float
    second_peak: float


Damping = Union[Weight, Ratio, Peaks]
"""How far a swing of the pole shrinks in half a period."""


@dataclass(frozen=True)
class Axis:
    """One axis of a job.

    start                a `RestPoint`
    speed_limit          1 to 1,048,576 units per tick
    acceleration_limit   1 to 65,536 units per tick squared
    half_period          half the period of the pole's sway, 0 to 256 ticks; 0 plans without a blend
    damping              a `Weight`, a `Ratio` or `Peaks`
    target               `Fixed` or `Moving`
    second_half_period   of a pole with a joint: half the period of its second sway, 1 to 256 ticks,
                         taken as undamped; None where the pole swings at one rate

    No limit is filled in: one that nobody entered would be a guess.
    """

    start: RestPoint
    speed_limit: int
    acceleration_limit: int
    half_period: int
    damping: Damping
    target: Target
    second_half_period: Optional[int] = None


@dataclass(frozen=True)
class Window:
    """Ticks in which the head may arrive.

    opening, closing   arrival N fits if opening <= N < closing and N + dwell <= closing
    """

    opening: int
    closing: int


@dataclass(frozen=True)
class Windows:
    """The windows of a job: it arrives in one, or is refused.

    dwell     how long the head stays from its arrival on, 0 to 4,096 ticks
    windows   1 to 32, in the order of their ticks
    """

    dwell: int
    windows: Sequence[Window]
