"""Rows from arrival backwards (request 2.13): row N first and row 0 last, each
laid out as before, the position sums taken from the landing end."""

from typing import List, Optional

from reference import (Axis, Job, Outcome, Planned, Windows, chosen_velocities, decode, plan_job, planned_ends,
                       refusing, row_cells, typed_job)


def plan_from_landing(axis: Axis, arrival: int) -> Planned:
    """Rule 1 the other way: a tick takes off the sum of its two end velocities."""
    e = planned_ends(axis, arrival)
    velocities = chosen_velocities(e)
    positions = [e.end_position]
    for before, after in reversed(list(zip(velocities, velocities[1:]))):
        positions.append(positions[-1] - before - after)
    assert positions[-1] == e.start_position, 'rule 2: the plan comes from its start'
    return Planned(e, velocities, positions[::-1])


def backward_cells(job: Job, arrival: int) -> List[int]:
    """Rows N to 0; in a row the axes ascend."""
    plans = [(axis, plan_from_landing(axis, arrival)) for _, axis in sorted(job.axes.items())]
    return [cell for k in range(arrival, -1, -1) for axis, planned in plans
            for cell in row_cells(axis, planned, k)]


def backwards_words(words: List[int], lent: List[int]) -> Outcome:
    return refusing(lambda: plan_job(decode(words), lent, backward_cells), lent)


def backwards_typed(mask: int, asked: int, axes: List[Axis], lent: List[int],
                    windows: Optional[Windows] = None) -> Outcome:
    return refusing(lambda: plan_job(typed_job(mask, asked, axes, windows), lent, backward_cells), lent)
