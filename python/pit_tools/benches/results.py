"""The results of a bench's solvers: a table, and performance profiles."""
from __future__ import annotations

from typing import Any, Optional, Sequence

import numpy as np
import pandas as pd

#: The columns of the table. `gap` is how far the worth is below the bound, and `best` whether the
#: run ended by itself and nothing better is known.
COLUMNS = ("name", "solver", "ended", "schedule", "worth", "bound", "bound_of", "gap", "best",
           "seconds", "cpu_seconds", "megabytes", "host", "message")


#: The form of numbers in the text: values to cents, gaps to six decimals.
FORMS = {"worth": "{:.2f}", "bound": "{:.2f}", "gap": "{:.6f}", "seconds": "{:.3f}",
         "cpu_seconds": "{:.3f}", "megabytes": "{:.1f}"}


def table_of(names: Sequence[str], solvers: Sequence[str],
             cells: dict[tuple[str, str], dict[str, Any]], ratio: float) -> pd.DataFrame:
    """Returns a row for each instance and solver that has been run, in these orders, from cells of
    (solver, name); a bound has no solver. A schedule within `ratio` of the best worth is best
    too."""
    rows = []
    for name in names:
        bound = cells.get(("", name), {})
        found = [cells[solver, name] for solver in solvers if (solver, name) in cells]
        known = [one["worth"] for one in found if one["schedule"] == "feasible"]
        for solver in solvers:
            one = cells.get((solver, name))
            if one is not None:
                rows.append({"name": name, "solver": solver, **bound, **one,
                             "gap": _gap(one, bound.get("bound")),
                             "best": _is_best(one, max(known, default=0.0), ratio)})
    return pd.DataFrame(rows, columns=list(COLUMNS)).astype(
        dict.fromkeys(FORMS, float)).astype({"best": bool})


def _gap(one: dict[str, Any], bound: Optional[float]) -> Optional[float]:
    if bound is None or one["schedule"] != "feasible":
        return None
    # Sums of floats may be off by their last places.
    return max(0.0, bound - one["worth"]) / max(1e-9, abs(bound))


def _is_best(one: dict[str, Any], best: float, ratio: float) -> bool:
    return (one["ended"] == "status 0" and one["schedule"] == "feasible"
            and one["worth"] >= best - ratio * max(1e-9, abs(best)))


def shown(table: pd.DataFrame) -> pd.DataFrame:
    """The table as its text has it, with empty cells."""
    text = table.copy()
    for name, form in FORMS.items():
        text[name] = ["" if pd.isna(value) else form.format(value) for value in table[name]]
    text["best"] = np.where(table["best"], "yes", "no")
    return text.fillna("")


def profile_of(table: pd.DataFrame) -> dict[str, np.ndarray]:
    """The performance profiles (Dolan and More 2002): for each solver how many times the
    smallest seconds of any solver it took, rising, of each instance for which its schedule is
    best."""
    best = table[table["best"]]
    seconds = best["seconds"].clip(lower=1e-3)
    least = seconds.groupby(best["name"]).transform("min")
    ratios = seconds / least
    return {solver: np.sort(ratios[best["solver"] == solver].to_numpy())
            for solver in dict.fromkeys(table["solver"])}


def summary(table: pd.DataFrame) -> list[str]:
    """A line on each solver."""
    lines = []
    for solver in dict.fromkeys(table["solver"]):
        of_it = table[table["solver"] == solver]
        feasible = int((of_it["schedule"] == "feasible").sum())
        lines.append(f"{solver}: {feasible} of {len(of_it)} feasible, {int(of_it['best'].sum())} "
                     f"best, {of_it['seconds'].sum():.1f} s")
    return lines
