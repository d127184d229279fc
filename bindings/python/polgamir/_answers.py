"""What the library's calls give back, as values of the API."""

from __future__ import annotations

import array
import ctypes
from typing import Callable, Union

from . import _structs
from ._numbers import axes_of, cells_needed
from .plans import Part, Plan
from .raises import Limit, Raise, Raises
from .refusals import Number, Refusal
from .searches import Searched


def refusal_of(answer: Union[_structs.Answer, _structs.PartAnswer, _structs.TourAnswer,
                             _structs.SearchAnswer]) -> Refusal:
    """The refusal that an answer is."""
    return Refusal(answer.number, answer.place, answer.mask, answer.arrival)


def planned(room: int, call: Callable[..., _structs.Answer], backwards: bool = False) -> Plan:
    """The plan of a call with lent cells, of which those that it wrote are kept."""
    cells = array.array("q", bytes(8 * room))
    answer = call((ctypes.c_int64 * room).from_buffer(cells), room)
    if answer.number != Number.ACCEPTED:
        raise refusal_of(answer)
    return Plan(answer.arrival, answer.mask, cells[: cells_needed(answer.mask, answer.arrival)], backwards)


def parted(first: int, room: int, call: Callable[..., _structs.PartAnswer]) -> Part:
    """The part of a call with lent cells, of which those that it wrote are kept."""
    cells = array.array("q", bytes(8 * room))
    answer = call((ctypes.c_int64 * room).from_buffer(cells), room)
    if answer.number != Number.ACCEPTED:
        raise refusal_of(answer)
    written = 3 * len(axes_of(answer.mask)) * answer.rows
    return Part(answer.arrival, answer.mask, first, answer.rows, cells[:written])


def raises_of(raises: _structs.Raises) -> Raises:
    """What a call for raises gave."""
    answer = raises.answer
    if answer.number == Number.ACCEPTED:
        return Raises(answer.arrival, None, {})
    named = axes_of(answer.mask) if answer.number == Number.REFUSED_NOT_REACHABLE else ()
    axes = {}
    for number in named:
        pair = (raises.axes[number].first, raises.axes[number].second)
        axes[number] = tuple(Raise(Limit(raised.limit), raised.by) for raised in pair if raised.limit)
    return Raises(None, refusal_of(answer), axes)


def searched(answer: _structs.SearchAnswer) -> Searched:
    """What a search gives, of an answer that is no refusal."""
    if answer.number != Number.ACCEPTED:
        raise refusal_of(answer)
    found, spent = answer.report == _structs.FOUND, answer.report == _structs.SPENT
    return Searched(answer.arrival if found else None, answer.next if spent else None, answer.tried)
