#!/usr/bin/env python3
"""What the program `engines` is to print: reach, cruise and remainder of the
legs that it draws, from rules 4 and 5 of docs/METHOD.md. Both of its engines must
give the same line.

    python3 tests/reference/engines.py > crates/engines/stdout
"""

from typing import NamedTuple, Tuple

from reference import Ends, envelopes, list_exists, twice_required_sum

LEGS = 4000
PRIME = 2147483647              # 2^31 - 1


def drawn(leg: int, salt: int, bound: int) -> int:
    return (8 * leg + salt + 1) * 48271 % PRIME * 69621 % PRIME % bound


def drawn_signed(leg: int, salt: int, size: int) -> int:
    return drawn(leg, salt, 2 * size + 1) - size


def ends_of(leg: int) -> Ends:
    """The leg as a motion from position 0, in half steps."""
    limit = 1 + drawn(leg, 0, 3000)
    start, end = drawn_signed(leg, 1, limit), drawn_signed(leg, 2, limit)
    step, ticks = 1 + drawn(leg, 3, 100), 1 + drawn(leg, 4, 60)
    displacement = start + end + 2 * drawn_signed(leg, 5, limit * ticks) + (leg % 7 == 0)
    return Ends(ticks, 0, start, displacement, end, 0, limit, step)


def exists(e: Ends) -> bool:
    return list_exists(e.start_velocity, e.end_velocity, e.limit, e.step, e.ticks, twice_required_sum(e))


class Chosen(NamedTuple):
    cruise: int
    remainder: int


def chosen(e: Ends) -> Chosen:
    """Rule 5: the largest cruise whose sum does not exceed the required one, by
    halves, since the sum never falls as the cruise rises; and what it leaves."""
    between, required = envelopes(e), twice_required_sum(e) // 2

    def sum_at(cruise: int) -> int:
        return sum(min(max(cruise, low), high) for low, high in between)

    cruise, above = -e.limit, e.limit + 1
    while above - cruise > 1:
        middle = (cruise + above) // 2
        if sum_at(middle) <= required:
            cruise = middle
        else:
            above = middle
    return Chosen(cruise, required - sum_at(cruise))


def answered() -> Tuple[int, int]:
    """How many legs can be made, and the sum over all answers: at each number 31
    times the sum so far, twice its size, and one more below 0."""
    made, total = 0, 0
    for leg in range(LEGS):
        e = ends_of(leg)
        answer = chosen(e) if exists(e) else (-1,)
        made += len(answer) == 2
        for x in answer:
            total = (31 * total + 2 * (abs(x) % PRIME) + (x < 0)) % PRIME
    return made, total


def printed() -> str:
    made, total = answered()
    return ''.join('by %s: %d of %d legs can be made, sum %d\n' % (engine, made, LEGS, total)
                   for engine in ('ticks', 'areas'))


if __name__ == '__main__':
    print(printed(), end='')
