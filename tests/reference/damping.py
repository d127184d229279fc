"""Damping as measured (request 2.3), in single-precision numbers.

A single is given by its 32 bits. Its division and product are those of the
exact values, as fractions, rounded once to the nearest single, ties to even.
"""

import struct
from fractions import Fraction
from typing import NamedTuple, Optional, Union

SIGN = 0x80000000
INFINITY = 0x7F800000
NAN = 0x7FC00000
ONE = 0x3F800000


class Ratio(NamedTuple):
    ratio: int                  # the bits of a single


class Peaks(NamedTuple):
    first: int
    second: int


Damping = Union[Ratio, Peaks]


def single(number: float) -> int:
    """The bits of the single nearest to a number."""
    return int.from_bytes(struct.pack('<f', number), 'little')


def size_bits(bits: int) -> int:
    return bits & ~SIGN


def is_nan(bits: int) -> bool:
    return size_bits(bits) > INFINITY


def is_infinite(bits: int) -> bool:
    return size_bits(bits) == INFINITY


def size_of(bits: int) -> Fraction:
    """The exact size of a finite single."""
    exponent, fraction = size_bits(bits) >> 23, bits & 0x7FFFFF
    significand = fraction + (1 << 23 if exponent else 0)
    return significand * Fraction(2) ** (max(exponent, 1) - 150)


def rounded(x: Fraction) -> int:
    """The bits of the single nearest to x, 0 or above, ties to even.

    From one single to the next the bits count up by one, also from the largest
    subnormal on, over each power of two, and up to infinity.
    """
    if x == 0:
        return 0
    power = x.numerator.bit_length() - x.denominator.bit_length()
    if x < Fraction(2) ** power:
        power -= 1
    unit = max(power - 23, -149)                    # the spacing of singles at x is 2^unit
    steps = round(x / Fraction(2) ** unit)          # to the nearest whole number, ties to even
    return min((unit + 149 << 23) + steps, INFINITY)


def is_above_zero(bits: int) -> bool:
    return 0 < bits <= INFINITY


def quotient(second: int, first: int) -> int:
    """second divided by first, where first is above zero."""
    sign = second & SIGN
    if is_nan(second) or is_infinite(second) and is_infinite(first):
        return NAN
    if is_infinite(second):
        return sign | INFINITY
    return sign | (0 if is_infinite(first) else rounded(size_of(second) / size_of(first)))


def ratio_of(damping: Damping) -> Optional[int]:
    """The ratio, or None where a first peak is not above zero."""
    if isinstance(damping, Ratio):
        return damping.ratio
    return quotient(damping.second, damping.first) if is_above_zero(damping.first) else None


def allows(ratio: int, weight: int) -> bool:
    """B is at most the once-rounded product of the ratio and 256 - B."""
    return weight <= size_of(rounded(size_of(ratio) * (256 - weight)))


def weight_of(damping: Damping) -> Optional[int]:
    """The second weight, or None where the measurement is refused with 12."""
    ratio = ratio_of(damping)
    if ratio is None or not 0 < ratio <= ONE:       # so no NaN, no sign, no infinity
        return None
    return next((b for b in range(128, 0, -1) if allows(ratio, b)), 1)
