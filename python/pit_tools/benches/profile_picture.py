"""The picture of performance profiles."""
from __future__ import annotations

import numpy as np
from matplotlib.figure import Figure

from pit_tools.surveys.pictures import figure


def profile_picture(profiles: dict[str, np.ndarray], instances: int) -> Figure:
    """Returns for each solver the share of all instances that it solves within a multiple of the
    fewest seconds of any solver."""
    drawn = figure(7, 4.5)
    axes = drawn.add_subplot()
    most = max((ratios[-1] for ratios in profiles.values() if len(ratios)), default=1.0)
    end = max(2.0, most * 1.1)
    for solver, ratios in profiles.items():
        shares = np.arange(len(ratios) + 1) / max(1, instances)
        axes.step(np.concatenate([[1.0], ratios, [end]]), np.append(shares, shares[-1]),
                  where="post", label=solver)
    axes.set_xscale("log", base=2)
    axes.set_xlim(1, end)
    axes.set_ylim(0, 1.02)
    axes.set_xlabel("multiple of the fewest seconds of any solver")
    axes.set_ylabel("share of instances solved best")
    axes.set_title(f"performance profiles of {instances} instances", loc="left", fontsize=10)
    axes.grid(alpha=0.3)
    axes.legend(fontsize=8, loc="lower right", frameon=False)
    return drawn
