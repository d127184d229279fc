"""The smallest change that makes it (request 2.10).

For each axis that refusal 8 names: the least raise of M alone and the least
raise of L alone, within their ranges, for which the axis can arrive.
"""

from typing import List, NamedTuple, Optional, Tuple

from reference import Answer, Axis, Job, Refused, Windows, arrival_of, checked, decode, reachable, typed_job

MOST_SPEED = 1048576
MOST_ACCELERATION = 65536


class Raise(NamedTuple):
    limit: str                  # 'M' or 'L'
    amount: int                 # what is added


class AxisRaises(NamedTuple):
    bit: int
    raises: List[Raise]         # the smaller first, M first if equal


Raises = Tuple[Answer, List[AxisRaises]]


def with_limit(axis: Axis, limit: str, value: int) -> Axis:
    return axis._replace(acceleration_limit=value) if limit == 'M' else axis._replace(speed_limit=value)


def least_raise(axis: Axis, limit: str, asked: int) -> Optional[int]:
    """For an axis that cannot arrive. A list within a limit is within a larger
    one, so an axis that can arrive can with every larger limit: the least one
    is found by halves."""
    low, high = ((axis.acceleration_limit, MOST_ACCELERATION) if limit == 'M'
                 else (axis.speed_limit, MOST_SPEED))
    entered = low
    if not reachable(with_limit(axis, limit, high), asked):
        return None
    while high - low > 1:       # too low, and enough
        middle = (low + high) // 2
        if reachable(with_limit(axis, limit, middle), asked):
            high = middle
        else:
            low = middle
    return high - entered


def axis_raises(axis: Axis, asked: int) -> List[Raise]:
    found = [Raise(limit, amount) for limit in 'ML'
             for amount in [least_raise(axis, limit, asked)] if amount is not None]
    return sorted(found, key=lambda one: one.amount)    # M stays first if equal


def raises_of(job: Job) -> Raises:
    """A job that passed 1, 2 and 14."""
    job = checked(job)
    try:
        return Answer(0, mask=job.mask, arrival=arrival_of(job)), []
    except Refused as refused:
        answer = refused.answer
    if answer.number != 8:
        return answer, []
    named = [(bit, axis) for bit, axis in sorted(job.axes.items()) if answer.mask >> bit & 1]
    return answer, [AxisRaises(bit, axis_raises(axis, job.asked)) for bit, axis in named]


def refusing(call) -> Raises:
    try:
        return call()
    except Refused as refused:
        return refused.answer, []


def raises_words(words: List[int]) -> Raises:
    return refusing(lambda: raises_of(decode(words)))


def raises_typed(mask: int, asked: int, axes: List[Axis], windows: Optional[Windows] = None) -> Raises:
    return refusing(lambda: raises_of(typed_job(mask, asked, axes, windows)))
