"""Searches for an arrival in parts, between servo turns."""

from __future__ import annotations

from typing import NamedTuple, Optional


class Searched(NamedTuple):
    """What a search gives.

    arrival   the tick found: the least from the first candidate on that suits every axis and fits a
              window where there are some; else None
    next      where the budget is spent, the candidate to go on with; else None
    tried     how many candidates were tried

    Where there is neither, no tick does and no candidate is left.
    """

    arrival: Optional[int]
    next: Optional[int]
    tried: int
