"""Motion tables for a scanner head on a swaying pole, planned by a proved library.

A `Job` says for each axis where it starts, what it is to land on, its limits, and the half period
and damping of the pole under it. `Job.plan` gives a `Plan`: a table of position, velocity and
acceleration, a row a tick. Every axis lands exactly on its target, all at one tick, and the pole
stands still. A job that cannot be planned raises a `Refusal`, which says why.

    >>> from polgamir import Axis, Fixed, Job, Ratio, Refusal, RestPoint
    >>> pan = Axis(start=RestPoint(0), target=Fixed(6), speed_limit=10, acceleration_limit=1,
    ...            half_period=3, damping=Ratio(0.5))
    >>> plan = Job({0: pan}).plan()
    >>> plan.arrival
    8
    >>> plan.positions(0).tolist()  # in fine steps, 1/256 unit
    [0, 86, 342, 684, 983, 1196, 1366, 1494, 1536]
    >>> try:
    ...     Job({0: pan}, arrival=5).plan()
    ... except Refusal as refusal:
    ...     print(int(refusal.number), refusal.axes, refusal.text)
    8 (0,) not every axis can arrive at the asked tick, or it fits no window

By subject; `help(polgamir.Job)` and so on say more:

    a job       Job of Axis: start RestPoint, target Fixed or Moving, damping Weight, Ratio or Peaks
                Windows of Window: when it may arrive
    its table   Job.plan, Job.plan_backwards: a Plan, with Row and Motion
                Job.part, Job.rows_in_parts: some rows at a time
    arrival     Job.arrival_found; Job.search: a few candidates a call, a Searched
    refused     Refusal with a Number; Job.raises: what to raise, Raises of Raise of a Limit
    a tour      Tour of TourAxis and Stop: its Schedule
    sway        sway_bound, second_sway_bound: the most that a pole measured wrongly leaves
                sway_left, misfit_bound, acceleration_changes: for a sway of your own; SwayLeft
    job words   plan_words, plan_words_backwards, plan_words_part, raises_words, search_words,
                convert_words

Units: time is a whole number of ticks. Inputs are whole units, units per tick and units per tick
squared. Cells are whole fine steps, 1/256 unit: `in_units` turns them back.

A value of a wrong type is a TypeError, and a number that its field cannot hold a ValueError. Both
name the field. Every other wrong job is the planner's to refuse.

The library is `libpolgamir.so` for x86-64 Linux. A wheel brings it. The variable POLGAMIR_LIBRARY
names another file. In the repository `tools/library` proves and builds it. A `LibraryError` says
that none was found, or one of another version. Calls have no state and release the interpreter's
lock: any number of threads may plan at the same time.

What is proved, and the method: docs/BUYERS.md and docs/METHOD.md.
"""

from ._loader import LibraryError, version
from ._version import __version__
from .axes import Axis, Damping, Fixed, Moving, Peaks, Ratio, RestPoint, Target, Weight, Window, Windows
from .constants import (AXES, FINE_STEPS, LATEST_ARRIVAL, LONGEST_DWELL, MOST_CELLS, MOST_STOPS, MOST_WINDOWS,
                        in_units)
from .jobs import Job
from .plans import Motion, Part, Plan, Row
from .raises import Limit, Raise, Raises
from .refusals import Number, Refusal
from .searches import Searched
from .sways import SwayLeft, acceleration_changes, misfit_bound, second_sway_bound, sway_bound, sway_left
from .tours import Schedule, Stop, Tour, TourAxis
from .words import convert_words, plan_words, plan_words_backwards, plan_words_part, raises_words, search_words

__all__ = [
    "AXES", "FINE_STEPS", "LATEST_ARRIVAL", "LONGEST_DWELL", "MOST_CELLS", "MOST_STOPS", "MOST_WINDOWS",
    "Axis", "Damping", "Fixed", "Job", "LibraryError", "Limit", "Motion", "Moving", "Number", "Part", "Peaks", "Plan",
    "Raise", "Raises", "Ratio", "Refusal", "RestPoint", "Row", "Schedule", "Searched", "Stop", "SwayLeft", "Target",
    "Tour", "TourAxis", "Weight", "Window", "Windows", "__version__", "acceleration_changes", "convert_words",
    "in_units",
    "misfit_bound", "plan_words", "plan_words_backwards", "plan_words_part", "raises_words", "search_words",
    "second_sway_bound", "sway_bound", "sway_left", "version",
]
