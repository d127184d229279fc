"""Planning between servo turns (request 2.12): a search with a first candidate
tick and a budget of candidates.

What the method leaves free is not reported: the tick where there is none, and
mask and arrival of a search that is not refused.
"""

from typing import List, NamedTuple, Optional, Union

from reference import LAST_TICK, Answer, Axis, Job, Refused, Windows, checked, decode, fits, reachable, typed_job


class Found(NamedTuple):
    tick: int
    tried: int


class Nothing(NamedTuple):
    """No candidate is left."""
    tried: int


class Spent(NamedTuple):
    following: int              # the next candidate
    tried: int


Report = Union[Found, Nothing, Spent, Answer]   # an answer is a refusal


def is_common(job: Job, tick: int) -> bool:
    return fits(job, tick) and all(reachable(axis, tick) for axis in job.axes.values())


def search_of(job: Job, first: int, budget: int) -> Report:
    """A job that passed 1, 2 and 14. Its asked arrival is read as 0."""
    job = checked(job._replace(asked=0))
    if not 1 <= first <= LAST_TICK + 1:
        raise Refused(Answer(18))
    end = min(first + budget, LAST_TICK + 1)
    for tick in range(first, end):
        if is_common(job, tick):
            return Found(tick, tick - first + 1)
    return Spent(end, budget) if end <= LAST_TICK else Nothing(LAST_TICK + 1 - first)


def refusing(call) -> Report:
    try:
        return call()
    except Refused as refused:
        return refused.answer


def search_words(words: List[int], first: int, budget: int) -> Report:
    return refusing(lambda: search_of(decode(words), first, budget))


def search_typed(mask: int, asked: int, axes: List[Axis], first: int, budget: int,
                 windows: Optional[Windows] = None) -> Report:
    return refusing(lambda: search_of(typed_job(mask, asked, axes, windows), first, budget))
