"""A tour of stops (request 2.1), leg by leg from `reference`.

A field that the method leaves free is None: place, mask and arrival of an
accepted tour, and the total of a refused one.
"""

from typing import List, NamedTuple, Optional, Tuple, Union

from damping import Damping
from reference import Answer, Axis, Refused, RestPoint, arrival_of, checked, typed_job

MOST_STOPS = 64
MOST_DWELL = 4096


class TourAxis(NamedTuple):
    """What is common to all legs of an axis, and where the first one starts."""
    start: int
    speed_limit: int            # L
    acceleration_limit: int     # M
    half_period: int            # h
    second_weight: Union[int, Damping]  # B, or what was measured
    second_half_period: Optional[int] = None


class Stop(NamedTuple):
    positions: List[int]        # six; those off the mask are never looked at
    dwell: int


class Tour(NamedTuple):
    mask: int
    axes: List[TourAxis]        # six
    stops: List[Stop]


class TourAnswer(NamedTuple):
    number: int
    place: Optional[int] = None
    mask: Optional[int] = None
    arrival: Optional[int] = None
    total: Optional[int] = None


def refused(answer: Answer, place: int) -> TourAnswer:
    return TourAnswer(answer.number, place, answer.mask, answer.arrival)


def breaks_11(stops: List[Stop]) -> Optional[int]:
    """The place of refusal 11, or None."""
    if len(stops) > MOST_STOPS:
        return MOST_STOPS
    return next((i for i, stop in enumerate(stops) if stop.dwell > MOST_DWELL), None)


def leg_axes(tour: Tour, leg: int) -> List[Axis]:
    """The axes of a leg's single typed job: from rest where the last leg ended
    to rest at the stop."""
    def of(bit: int, shared: TourAxis) -> Axis:
        start = tour.stops[leg - 1].positions[bit] if leg else shared.start
        return Axis(RestPoint(start, 0), *shared[1:5],
                    RestPoint(tour.stops[leg].positions[bit], 0), shared.second_half_period)
    return [of(bit, shared) for bit, shared in enumerate(tour.axes)]


def leg_arrival(tour: Tour, leg: int) -> int:
    """What the leg's single typed job would get; it seeks its least arrival."""
    return arrival_of(checked(typed_job(tour.mask, 0, leg_axes(tour, leg))))


def plan_tour(tour: Tour, lent: List[int]) -> Tuple[TourAnswer, List[int]]:
    """The answer, and the lent list of arrivals as the call leaves it."""
    untouched = list(lent)
    if not tour.stops:
        return TourAnswer(0, total=0), untouched
    place = breaks_11(tour.stops)
    if place is not None:
        return refused(Answer(11), place), untouched
    arrivals, clock = [], 0     # the clock: when the next leg starts
    for leg, stop in enumerate(tour.stops):
        try:
            arrivals.append(clock + leg_arrival(tour, leg))
        except Refused as met:
            return refused(met.answer, leg), untouched
        clock = arrivals[-1] + stop.dwell
    if len(lent) < len(arrivals):
        return refused(Answer(10), len(arrivals)), untouched
    return TourAnswer(0, total=clock), arrivals + untouched[len(arrivals):]
