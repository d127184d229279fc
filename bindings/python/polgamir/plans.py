"""Tables: the plan of an accepted job, its rows and motions."""

from __future__ import annotations

import array
import operator
from typing import Dict, Iterator, NamedTuple, Tuple

from ._numbers import axes_of


class Motion(NamedTuple):
    """The motion of an axis at a tick, in fine steps of 1/256 unit.

    position, velocity, acceleration   the acceleration holds until the next tick
    """

    position: int
    velocity: int
    acceleration: int


class Row(NamedTuple):
    """The row of a tick.

    tick      0 to arrival
    motions   each `Motion` by the axis's number, lowest first
    """

    tick: int
    motions: Dict[int, Motion]


def _row(tick: int, axes: Tuple[int, ...], cells: "array.array[int]") -> Row:
    return Row(tick, {axis: Motion(*cells[3 * rank : 3 * rank + 3]) for rank, axis in enumerate(axes)})


class _Rows:
    """Rows of an accepted job: all of them in a `Plan`, some in a `Part`."""

    __slots__ = ("_arrival", "_mask", "_cells")

    def __init__(self, arrival: int, mask: int, cells: "array.array[int]") -> None:
        self._arrival = arrival
        self._mask = mask
        self._cells = cells

    @property
    def arrival(self) -> int:
        """The tick at which every axis is on its target, the last of the whole table."""
        return self._arrival

    @property
    def mask(self) -> int:
        """Bit i is set where axis i takes part."""
        return self._mask

    @property
    def axes(self) -> Tuple[int, ...]:
        """The axes that take part, lowest first."""
        return axes_of(self._mask)

    @property
    def cells(self) -> memoryview:
        """The cells one after the other, row by row: a read-only buffer of 64-bit whole numbers, no
        copy."""
        return memoryview(self._cells).toreadonly()


class Plan(_Rows):
    """An accepted job: its arrival, and its table of rows 0 to arrival.

    `for row in plan` walks the rows, `plan[tick]` is one, `len(plan)` is their count. Where the
    plan is `backwards`, its cells begin with the row of the arrival; what is asked by tick stays by
    tick.
    """

    __slots__ = ("_backwards",)

    def __init__(self, arrival: int, mask: int, cells: "array.array[int]", backwards: bool = False) -> None:
        super().__init__(arrival, mask, cells)
        self._backwards = backwards

    @property
    def table(self) -> memoryview:
        """The cells with the shape (arrival + 1, axes, 3): a read-only buffer, which
        `numpy.asarray` takes without a copy."""
        return self.cells.cast("B").cast("q", shape=[self._arrival + 1, len(self.axes), 3])

    @property
    def backwards(self) -> bool:
        """Whether the row of the arrival stands first in `cells` and `table`, and row 0 last."""
        return self._backwards

    def positions(self, axis: int) -> memoryview:
        """The positions of an axis by tick, in fine steps: a read-only buffer, no copy.

        Raises a KeyError for an axis that takes no part.
        """
        return self._column(axis, 0)

    def velocities(self, axis: int) -> memoryview:
        """The velocities of an axis by tick, in fine steps per tick: as `positions`."""
        return self._column(axis, 1)

    def accelerations(self, axis: int) -> memoryview:
        """The accelerations of an axis by tick, in fine steps per tick squared: as `positions`."""
        return self._column(axis, 2)

    def position_range(self, axis: int) -> Tuple[int, int]:
        """The least and the greatest position of an axis among the rows, in fine steps.

        End stops are not planned for: hold these against them. A head that turns back between two
        rows goes past them by at most an eighth of the row's acceleration.

        Raises a KeyError for an axis that takes no part.
        """
        positions = self.positions(axis).tolist()
        return min(positions), max(positions)

    def motion(self, axis: int, tick: int) -> Motion:
        """The `Motion` of an axis at a tick, 0 to arrival.

        Raises an IndexError or a KeyError where there is none.
        """
        return self[tick].motions[axis]

    def _column(self, axis: int, quantity: int) -> memoryview:
        if axis not in self.axes:
            raise KeyError(axis)
        column = self.cells[3 * self.axes.index(axis) + quantity :: 3 * len(self.axes)]
        return column[::-1] if self._backwards else column

    def __len__(self) -> int:
        return self._arrival + 1

    def __getitem__(self, tick: int) -> Row:
        tick = range(len(self))[operator.index(tick)]
        width = 3 * len(self.axes)
        place = self._arrival - tick if self._backwards else tick
        cells = self._cells[width * place : width * (place + 1)]
        return _row(tick, self.axes, cells)

    def __iter__(self) -> Iterator[Row]:
        return (self[tick] for tick in range(len(self)))

    def __eq__(self, other: object) -> bool:
        if not isinstance(other, Plan):
            return NotImplemented
        return (self._mask, self._cells, self._backwards) == (other._mask, other._cells, other._backwards)

    __hash__ = None  # type: ignore[assignment]

    def __repr__(self) -> str:
        return f"<polgamir.Plan: axes {list(self.axes)}, arrival {self._arrival}>"


class Part(_Rows):
    """Some rows of an accepted job, from a first one on: those of its whole table.

    `for row in part` walks them, `len(part)` is their count, which is 0 past the arrival.
    """

    __slots__ = ("_first", "_rows")

    def __init__(self, arrival: int, mask: int, first: int, rows: int, cells: "array.array[int]") -> None:
        super().__init__(arrival, mask, cells)
        self._first = first
        self._rows = rows

    @property
    def first(self) -> int:
        """The tick of the first row."""
        return self._first

    def __len__(self) -> int:
        return self._rows

    def __iter__(self) -> Iterator[Row]:
        width = 3 * len(self.axes)
        for place in range(self._rows):
            yield _row(self._first + place, self.axes, self._cells[width * place : width * (place + 1)])

    def __repr__(self) -> str:
        rows = f"{self._rows} rows from {self._first} of arrival {self._arrival}"
        return f"<polgamir.Part: axes {list(self.axes)}, {rows}>"
