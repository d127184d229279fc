"""Refusals: why a job or a tour has no plan."""

from __future__ import annotations

import enum
from typing import Dict, Tuple

from ._numbers import axes_of


class Number(enum.IntEnum):
    """The numbers that a call returns, in checking order; 7 is not used.

    `Refusal.text` says each in words. The whole list, with what place and axes mean:
    docs/METHOD.md, 7.2.
    """

    ACCEPTED = 0
    REFUSED_STOPS = 11
    REFUSED_MASK = 1
    REFUSED_WORDS = 2
    REFUSED_LONG_POSITION = 14
    REFUSED_ASKED_ARRIVAL = 3
    REFUSED_LIMITS = 4
    REFUSED_DAMPING = 12
    REFUSED_BLEND = 5
    REFUSED_SECOND_HALF_PERIOD = 15
    REFUSED_START_OR_TARGET = 6
    REFUSED_ACCELERATION = 16
    REFUSED_FLYING_TARGET = 17
    REFUSED_WINDOWS = 13
    REFUSED_FIRST_CANDIDATE = 18
    REFUSED_NOT_REACHABLE = 8
    REFUSED_NO_COMMON_ARRIVAL = 9
    REFUSED_TABLE_TOO_SHORT = 10


TEXTS: Dict[int, str] = {
    Number.ACCEPTED: "the job is accepted",
    Number.REFUSED_STOPS: "a tour has more than 64 stops, or a dwell above 4096",
    Number.REFUSED_MASK: "the mask names no axis, or one above 5",
    Number.REFUSED_WORDS: "a word is of a wrong kind, lacking or left over",
    Number.REFUSED_LONG_POSITION: "a kind 14 payload is not -64 to 63, or its position fits a single word",
    Number.REFUSED_ASKED_ARRIVAL: "the asked arrival is above 4096",
    Number.REFUSED_LIMITS: "the speed limit is not 1 to 1048576, or the acceleration limit is not 1 to 65536",
    Number.REFUSED_DAMPING: (
        "the first peak is not above zero, or the swing ratio is not a number above 0 and at most 1"
    ),
    Number.REFUSED_BLEND: "the half period is not 0 to 256, or the second weight is not 1 to 128",
    Number.REFUSED_SECOND_HALF_PERIOD: "the second half period is not 1 to 256",
    Number.REFUSED_START_OR_TARGET: (
        "a velocity is above the speed limit, the target acceleration is above the acceleration limit, "
        "the target tick is more than 4096 ticks from tick 0, or a position is not -17179869184 to 17179869183"
    ),
    Number.REFUSED_ACCELERATION: "the target accelerates on an axis with a second half period",
    Number.REFUSED_FLYING_TARGET: "a fixed target has a velocity that is not 0",
    Number.REFUSED_WINDOWS: (
        "windows are lacking, more than 32, out of order or closed at once, or the dwell is above 4096"
    ),
    Number.REFUSED_FIRST_CANDIDATE: "the first candidate of a search is 0 or above 4097",
    Number.REFUSED_NOT_REACHABLE: "not every axis can arrive at the asked tick, or it fits no window",
    Number.REFUSED_NO_COMMON_ARRIVAL: "no tick from 1 to 4096 suits every axis and fits a window where some are given",
    Number.REFUSED_TABLE_TOO_SHORT: (
        "the table is too short for rows 0 to the arrival, the list for a tour's stops, "
        "or the words for the converter"
    ),
}
"""What a number says, as `polgamir_refusal_text` of the header."""


class Refusal(Exception):
    """Why a job or a tour has no plan.

    number    a `Number`
    place     what it names: an axis, a window, a stop, or the index of a word
    mask      the axes that it names, bit i for axis i
    arrival   the arrival that it names

    What a refusal does not name is 0.
    """

    def __init__(self, number: int, place: int = 0, mask: int = 0, arrival: int = 0) -> None:
        super().__init__(number, place, mask, arrival)
        self.number: int = Number(number) if number in TEXTS else number
        self.place = place
        self.mask = mask
        self.arrival = arrival

    @property
    def axes(self) -> Tuple[int, ...]:
        """The axes named, lowest first."""
        return axes_of(self.mask)

    @property
    def text(self) -> str:
        """What the number says, in words."""
        return TEXTS.get(self.number, "a number that this module does not have")

    @property
    def printed_line(self) -> str:
        """The line that the table program prints."""
        return f"refused {int(self.number)} place {self.place} axes {self.mask} arrival {self.arrival}"

    def __str__(self) -> str:
        return f"{self.printed_line}: {self.text}"
