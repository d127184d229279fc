"""Jobs in their other spelling: by words what the other files give by typed
values, where words can spell it, and by typed values what they give by words.
And the searches in brackets of docs/DECISIONS.md.
"""

from typing import List

from builders import Case, axis, by_words, job, to, typed
from reference import Job, Refused, decode, encode
from searchcases import SearchCase, all_of
from windowcases import windowed


def in_words(case: Case) -> Case:
    """By words, where these give the same job; windows and measured damping stay typed."""
    if case.words is not None or case.windows is not None:
        return case
    axes = {bit: one for bit, one in enumerate(case.axes) if case.mask >> bit & 1}
    meant = Job(case.mask, case.asked, axes)
    if not all(isinstance(one.second_weight, int) for one in axes.values()):
        return case
    try:
        words = encode(meant)
        return by_words(case.name, words, case.lent) if decode(words) == meant else case
    except Refused:
        return case


def in_values(case: Case) -> Case:
    """By the typed values that its words stand for, where they stand for a job."""
    if case.words is None:
        return case
    try:
        meant = decode(case.words)
    except Refused:
        return case
    return typed(case.name, meant.axes, meant.asked, case.lent)


def other_spelling(case: Case) -> Case:
    return in_words(case) if case.words is None else in_values(case)


def respelled(cases: List[Case]) -> List[Case]:
    """Those that have another spelling, in it."""
    pairs = [(case, other_spelling(case)) for case in cases]
    return [other for case, other in pairs if other is not case]


def bracketed() -> List[SearchCase]:
    return (all_of(job('asked 5,000 is read as 0', [to(4)], asked=5000), (1, 9))
            + all_of(windowed('a window from 7 to 9', [(7, 9)]), (1, 6), (1, 7))
            + all_of(job('reached at 9, 10 and 11 only', [axis(target=(8, -1, 1, 0))]),
                     (1, 8), (1, 9), (11, 1), (12, 4085))
            + all_of(windowed('two windows far apart', [(4, 5), (2000, 3000)]), (1, 4096), (5, 1995), (5, 1996)))
