"""Jobs: up to six axes that arrive together."""

from __future__ import annotations

from dataclasses import dataclass, replace
from typing import Iterator, Mapping, Optional

from . import _structs
from ._answers import parted, planned, raises_of, refusal_of, searched
from ._fields import candidates, job_of, part_of
from ._loader import library
from ._numbers import cells_needed, mask_of
from .axes import Axis, Windows
from .constants import LATEST_ARRIVAL
from .plans import Part, Plan, Row
from .raises import Raises
from .refusals import Number
from .searches import Searched


def _room(given: _structs.Job) -> int:
    """Cells enough for whatever the job's arrival is."""
    return cells_needed(given.mask, min(given.asked or LATEST_ARRIVAL, LATEST_ARRIVAL))


@dataclass(frozen=True)
class Job:
    """Up to six axes that arrive together.

    axes      each `Axis` by its number, 0 to 5
    arrival   the tick to arrive at, 1 to 4,096; None, or 0, is the least that suits every axis
    windows   the `Windows` in which to arrive; None for a job without

        >>> from polgamir import Axis, Fixed, Job, RestPoint, Weight
        >>> pan = Axis(start=RestPoint(0), target=Fixed(4), speed_limit=10, acceleration_limit=1,
        ...            half_period=0, damping=Weight(128))
        >>> Job({0: pan}).plan()
        <polgamir.Plan: axes [0], arrival 4>
    """

    axes: Mapping[int, Axis]
    arrival: Optional[int] = None
    windows: Optional[Windows] = None

    @property
    def mask(self) -> int:
        """Bit i is set where axis i takes part."""
        return mask_of(self.axes)

    def plan(self) -> Plan:
        """Plans the job. Gives a `Plan` with a table of its own.

        Raises a `Refusal`, never with 10.
        """
        given = job_of(self)
        return planned(_room(given), lambda table, cells: library().polgamir_plan_job(given, table, cells))

    def plan_backwards(self) -> Plan:
        """Plans the job. Gives a `Plan` whose table has the row of the arrival first and row 0
        last.

        Raises a `Refusal`, never with 10.
        """
        given = job_of(self)
        call = library().polgamir_plan_job_backwards
        return planned(_room(given), lambda table, cells: call(given, table, cells), backwards=True)

    def part(self, first: int, rows: int) -> Part:
        """Plans some rows of the job's table. Gives a `Part`.

        first   the tick of the first row; no row before it is worked out
        rows    how many at most; the row of the arrival is the last

        Raises a `Refusal`, never with 10.
        """
        first, rows = part_of(first, rows)
        given = job_of(self)
        room = 3 * len(self.axes) * min(rows, LATEST_ARRIVAL + 1)
        return parted(first, room, lambda table, cells: library().polgamir_plan_job_part(given, first, table, cells))

    def rows_in_parts(self, rows: int = 16) -> Iterator[Row]:
        """Walks the rows of ticks 0 to arrival, and holds only some of them. Gives each `Row`.

        rows   how many are planned at a time

        Raises a `Refusal`, never with 10.
        """
        if part_of(0, rows)[1] == 0:
            raise ValueError("rows: a part of no rows does not go on")
        job, first = self, 0
        while True:
            part = job.part(first, rows)
            yield from part
            first += len(part)
            if first > part.arrival:
                return
            job = replace(job, arrival=part.arrival)  # so that no later part searches again

    def arrival_found(self) -> int:
        """The arrival in ticks, without a table.

        Raises a `Refusal`, never with 10.
        """
        answer = library().polgamir_plan_job(job_of(self), None, 0)
        if answer.number != Number.REFUSED_TABLE_TOO_SHORT:
            raise refusal_of(answer)
        return answer.arrival

    def raises(self) -> Raises:
        """What to raise where the asked arrival is turned down with 8. Gives `Raises`.

        Raises no `Refusal`: the answer has it. No window is heeded.
        """
        return raises_of(library().polgamir_raises_job(job_of(self)))

    def search(self, first: int, budget: int) -> Searched:
        """Looks for the arrival, a few candidates a call. Gives a `Searched`.

        first    the first candidate: 1, then `next` of the last answer
        budget   how many candidates at most

        Go on as long as there is a next candidate: this ends in the tick, or in none, of one
        undivided search. A job that asks for the tick found is accepted. The job's own arrival is
        not looked at.

        Raises a `Refusal`, never with 3, 8, 9 or 10.
        """
        return searched(library().polgamir_search_job(job_of(self), *candidates(first, budget)))
