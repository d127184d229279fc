"""Numbers on their way to the library: each is checked against what its field of the header can
hold, and an error names the field. The planner judges the rest."""

from __future__ import annotations

import operator
from typing import Mapping, Tuple

from .constants import AXES


def whole(value: object, least: int, greatest: int, name: str) -> int:
    """A whole number that its field can hold."""
    try:
        number = operator.index(value)  # type: ignore[arg-type]
    except TypeError:
        raise TypeError(f"{name}: expected a whole number, found {value!r}") from None
    if not least <= number <= greatest:
        raise ValueError(f"{name}: expected a whole number from {least} to {greatest}, found {number}")
    return number


def unsigned(value: object, name: str) -> int:
    """A number of 32 bits."""
    return whole(value, 0, 2**32 - 1, name)


def signed(value: object, name: str) -> int:
    """A number of 64 bits."""
    return whole(value, -(2**63), 2**63 - 1, name)


def real(value: object, name: str) -> float:
    """A number that need not be whole."""
    if not hasattr(type(value), "__float__") and not hasattr(type(value), "__index__"):
        raise TypeError(f"{name}: expected a number, found {value!r}")
    try:
        return float(value)  # type: ignore[arg-type]
    except OverflowError:
        raise ValueError(f"{name}: expected a number in the range of a float, found {value!r}") from None


def axes_of(mask: int) -> Tuple[int, ...]:
    """The axes that a mask names, lowest first."""
    return tuple(axis for axis in range(AXES) if mask >> axis & 1)


def mask_of(axes: Mapping[int, object]) -> int:
    """The mask of axes by their numbers."""
    if not isinstance(axes, Mapping):
        raise TypeError(f"axes: expected a mapping from numbers to axes, found {axes!r}")
    return sum(1 << whole(axis, 0, AXES - 1, "axes: the number of an axis") for axis in axes)


def cells_needed(mask: int, arrival: int) -> int:
    """The cells of a table with rows 0 to an arrival."""
    return 3 * len(axes_of(mask)) * (arrival + 1)
