"""Flying fixed targets go (request 2.11): the converter from job words to lent
words, for jobs from the time when a fixed target could have a velocity.

A field that the method leaves free is None: mask and arrival of a conversion.
"""

from typing import List, Tuple

from reference import (Answer, Axis, Job, Refused, State, breaks_17, check_flying, checked_values, decode,
                       encode, refusing)


def converted_axis(axis: Axis, asked: int) -> Axis:
    """A flying fixed target becomes a moving one of acceleration 0 at the asked
    arrival; every other target stays."""
    return axis._replace(target=State(*axis.target, 0, asked)) if breaks_17(axis) else axis


def converted(job: Job) -> Job:
    return job._replace(axes={bit: converted_axis(axis, job.asked) for bit, axis in job.axes.items()})


def convert_checked(words: List[int], lent: List[int]) -> Tuple[Answer, List[int]]:
    """It checks as planning does through 17, and then only its lent words. A
    flying target is refused only where the least arrival is sought. A job that
    passes has one spelling, so to encode it copies what is unchanged."""
    job = decode(words)
    checked_values(job)
    if job.asked == 0:
        check_flying(job)
    written = encode(converted(job))
    if len(lent) < len(written):
        raise Refused(Answer(10, place=len(written)))
    return Answer(0, place=len(written), mask=None, arrival=None), written + lent[len(written):]


def convert(words: List[int], lent: List[int]) -> Tuple[Answer, List[int]]:
    """The answer, and the lent words as the call leaves them."""
    return refusing(lambda: convert_checked(words, lent), lent)
