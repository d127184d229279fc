"""The numbers that hold for every job, as include/polgamir.h has them."""

AXES = 6
"""A job has at most this many axes, numbered from 0."""

MOST_WINDOWS = 32
"""A job brings at most this many windows."""

LATEST_ARRIVAL = 4096
"""The latest arrival."""

FINE_STEPS = 256
"""The fine steps of a unit."""

MOST_CELLS = 3 * AXES * (LATEST_ARRIVAL + 1)
"""The cells of the largest table."""

MOST_STOPS = 64
"""A tour has at most this many stops."""

LONGEST_DWELL = 4096
"""The longest dwell, in ticks."""


def in_units(fine_steps: int) -> float:
    """Fine steps as units; exact for every cell of a table."""
    return fine_steps / FINE_STEPS
