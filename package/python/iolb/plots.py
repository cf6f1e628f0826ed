"""Plots of a bound and of schedules' loads, for notebooks, by matplotlib."""

import os


def drawn(made, memories, schedules, axes, sizes):
    """Draws a bound over numbers of words, with the ground below it that no execution reaches, and schedules' loads beside it."""
    if axes is None:
        import matplotlib.pyplot

        axes = matplotlib.pyplot.figure().add_subplot()
    bound = [row["bound"] for row in made.bound.table(memories, sizes)]
    axes.plot(memories, bound, color="#222222", linewidth=2.4, label="bound: no execution loads less")
    axes.fill_between(memories, bound, color="#e8e8e8")
    rows = made.compared(schedules, memories, sizes) if schedules else []
    for name in dict.fromkeys(row["schedule"] for row in rows):
        played = [(row["S"], row["loads"]) for row in rows if row["schedule"] == name and row["loads"] is not None]
        axes.plot(*zip(*played), marker="o", markersize=3, label=os.path.splitext(os.path.basename(name))[0])
    axes.set_xscale("log", base=2)
    axes.set_yscale("log", base=2)
    axes.set_xlabel("S, words of fast memory")
    axes.set_ylabel("words loaded")
    axes.set_title(", ".join("%s = %d" % it for it in sizes.items()))
    axes.legend()
    return axes
