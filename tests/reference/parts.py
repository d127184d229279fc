"""Rows in parts: as many whole rows as the lent table holds, from a first row
on, up to row N. The answer is planning's before refusal 10, which never comes.
Past row N nothing is written, and a refused call writes nothing."""

from typing import List, NamedTuple, Optional

from reference import (Answer, Axis, Job, Refused, Windows, arrival_of, checked, decode, plan_axis, row_cells,
                       typed_job)


class Part(NamedTuple):
    answer: Answer
    rows: int                   # how many were written
    cells: List[int]            # the lent cells as the call leaves them


def part_of(job: Job, first: int, lent: List[int]) -> Part:
    """A job that passed 1, 2 and 14."""
    job = checked(job)
    arrival = arrival_of(job)
    axes = [axis for _, axis in sorted(job.axes.items())]
    plans = [plan_axis(axis, arrival) for axis in axes]
    held = len(lent) // (3 * len(axes))
    ticks = range(first, arrival + 1)[:held]
    written = [cell for k in ticks for axis, planned in zip(axes, plans) for cell in row_cells(axis, planned, k)]
    return Part(Answer(0, mask=job.mask, arrival=arrival), len(ticks), written + lent[len(written):])


def refusing(call, lent: List[int]) -> Part:
    try:
        return call()
    except Refused as refused:
        return Part(refused.answer, 0, list(lent))


def part_words(words: List[int], first: int, lent: List[int]) -> Part:
    return refusing(lambda: part_of(decode(words), first, lent), lent)


def part_typed(mask: int, asked: int, axes: List[Axis], first: int, lent: List[int],
               windows: Optional[Windows] = None) -> Part:
    return refusing(lambda: part_of(typed_job(mask, asked, axes, windows), first, lent), lent)
