#!/usr/bin/env python3
"""Plans pan and tilt from one stem to the next and draws the table:
draw_table.py FILE.png (or .svg, .pdf).

It draws with matplotlib where that is installed; without it, it prints the arrival and the rows.
"""

import sys
from pathlib import Path

sys.path.insert(0, str(Path(__file__).resolve().parents[1]))

from polgamir import FINE_STEPS, Axis, Fixed, Job, Ratio, Refusal, RestPoint

AXES = {
    0: ("pan", Axis(start=RestPoint(-350), speed_limit=40, acceleration_limit=2, half_period=30, damping=Ratio(0.8),
                    target=Fixed(2050))),
    1: ("tilt", Axis(start=RestPoint(420), speed_limit=25, acceleration_limit=1, half_period=27, damping=Ratio(0.75),
                     target=Fixed(-430))),
}


def draw(plan, file):
    """Draws position, velocity and acceleration of each axis, in units."""
    import matplotlib

    matplotlib.use("Agg")
    import matplotlib.pyplot as pyplot
    import numpy

    table = numpy.asarray(plan.table) / FINE_STEPS  # the table itself is read without a copy
    ticks = numpy.arange(len(plan))
    quantities = ("position, units", "velocity, units/tick", "acceleration, units/tick²")
    figure, panels = pyplot.subplots(3, len(plan.axes), sharex=True, squeeze=False, figsize=(10, 7),
                                     layout="constrained")
    for column, axis in enumerate(plan.axes):
        name, entered = AXES[axis]
        limits = (None, entered.speed_limit, entered.acceleration_limit)
        for row, (quantity, limit) in enumerate(zip(quantities, limits)):
            panel = panels[row][column]
            panel.plot(ticks, table[:, column, row], drawstyle="steps-post" if row == 2 else "default")
            for bound in (-limit, limit) if limit else ():
                panel.axhline(bound, linestyle=":", color="grey")
            panel.set_ylabel(quantity)
            panel.grid(alpha=0.3)
        panels[0][column].set_title(name)
        panels[2][column].set_xlabel("tick")
    figure.suptitle(f"arrival at tick {plan.arrival}")
    figure.savefig(file, dpi=120)


def main():
    if len(sys.argv) != 2:
        sys.exit(f"usage: {sys.argv[0]} FILE.png")
    try:
        plan = Job({number: axis for number, (_, axis) in AXES.items()}).plan()
    except Refusal as refusal:
        sys.exit(str(refusal))
    try:
        draw(plan, sys.argv[1])
        print(f"arrival {plan.arrival}, drawn in {sys.argv[1]}")
    except ImportError as error:
        print(f"arrival {plan.arrival}; nothing is drawn ({error})")
        for row in plan:
            print(row.tick, *(cell for motion in row.motions.values() for cell in motion))


if __name__ == "__main__":
    main()
