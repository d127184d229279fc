"""Calls that take a job as 32-bit words."""

from __future__ import annotations

import ctypes
from typing import Sequence, Tuple

from ._answers import parted, planned, raises_of, refusal_of, searched
from ._fields import candidates, part_of, words_of
from ._loader import library
from ._numbers import axes_of
from .constants import AXES, LATEST_ARRIVAL, MOST_CELLS
from .plans import Part, Plan
from .raises import Raises
from .refusals import Number
from .searches import Searched


def plan_words(words: Sequence[int]) -> Plan:
    """Plans the job that words hold. Gives a `Plan` with a table of its own.

    words   32-bit words, as docs/METHOD.md, section 6, has them

    Raises a `Refusal`, never with 10.
    """
    given = words_of(words)
    return planned(MOST_CELLS, lambda table, cells: library().polgamir_plan_words(given, len(given), table, cells))


def plan_words_backwards(words: Sequence[int]) -> Plan:
    """Plans the job that words hold. Gives a `Plan` whose table has the row of the arrival first.

    words   as of `plan_words`

    Raises a `Refusal`, never with 10.
    """
    given = words_of(words)
    call = library().polgamir_plan_words_backwards
    return planned(MOST_CELLS, lambda table, cells: call(given, len(given), table, cells), backwards=True)


def plan_words_part(words: Sequence[int], first: int, rows: int) -> Part:
    """Plans some rows of the job that words hold. Gives a `Part`.

    words         as of `plan_words`
    first, rows   as of `Job.part`

    Raises a `Refusal`, never with 10.
    """
    first, rows = part_of(first, rows)
    given = words_of(words)
    axes = len(axes_of(given[0] & 0x3F)) if len(given) else 0  # as the mask word says, where it is one
    room = 3 * axes * min(rows, LATEST_ARRIVAL + 1)
    return parted(first, room,
                  lambda table, cells: library().polgamir_plan_words_part(given, len(given), first, table, cells))


def raises_words(words: Sequence[int]) -> Raises:
    """What to raise where the arrival that words ask for is turned down with 8. Gives `Raises`.

    words   as of `plan_words`
    """
    given = words_of(words)
    return raises_of(library().polgamir_raises_words(given, len(given)))


def convert_words(words: Sequence[int]) -> Tuple[int, ...]:
    """Turns the words of an old job, whose fixed targets may have a velocity, into words that can
    be planned. Gives the words, with a moving target for each of those.

    words   of a job with an asked arrival; any job without such targets is copied

    Raises a `Refusal`.
    """
    given = words_of(words)
    lent = (ctypes.c_uint32 * (len(given) + 2 * AXES))()
    answer = library().polgamir_convert(given, len(given), lent, len(lent))
    if answer.number != Number.ACCEPTED:
        raise refusal_of(answer)
    return tuple(lent[: answer.place])


def search_words(words: Sequence[int], first: int, budget: int) -> Searched:
    """Looks for the arrival of the job that words hold, a few candidates a call. Gives a
    `Searched`.

    words           as of `plan_words`
    first, budget   as of `Job.search`

    Raises a `Refusal`, never with 3, 8, 9 or 10.
    """
    given = words_of(words)
    return searched(library().polgamir_search_words(given, len(given), *candidates(first, budget)))
