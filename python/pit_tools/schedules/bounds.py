"""Bounds of an instance: upper bounds of the worth of pits and schedules."""
from __future__ import annotations

from typing import Any, Iterator, Optional

import numpy as np

from pit_tools import progress
from pit_tools.instances.arrays import Instance, Problem, present
from pit_tools.pits.closure import fewer_arcs, is_compiled, ultimate_pit
from pit_tools.schedules.certificates import Certificate, bound_text
from pit_tools.schedules.programs import program_of, solve
from pit_tools.texts.number_texts import multiples_of

#: Blocks by periods up to which HiGHS solves the relaxation as one program.
MOST_OF_HIGHS = 5_000


def bounds_of(mine: Instance, seconds: Optional[float] = None) -> dict[str, Optional[float]]:
    """Returns the sum of values above 0, the ultimate pit's value, and the relaxations of CPIT and
    PCPSP, in the values' unit. HiGHS finds relaxations of about a thousand blocks: None if it did
    not end within the seconds, or limits cannot be met. Larger ones are proved bounds, by prices of
    the limits: if the time is up they are above the relaxation's value.

    Raises UserError if the UPIT or the precedences were not read.
    """
    found: dict[str, Optional[float]] = {**bounds_by_values(mine)}
    precedence: Any = present(mine.precedence, "precedence file")
    for problem in filter(None, (mine.cpit, mine.pcpsp)):
        name = f"{problem.kind}, relaxed"
        if len(problem.values) * problem.periods > MOST_OF_HIGHS and is_compiled():
            one = certified(problem, precedence, seconds)
            found[name] = float(bound_text(one.value(problem)))
        else:
            result = solve(program_of(problem, fewer_arcs(precedence), relaxed=True), seconds)
            found[name] = result.value if result.status == "best" else None
    return found


def bounds_by_values(mine: Instance) -> dict[str, float]:
    """The sum of values above 0, and the ultimate pit's value."""
    values = present(mine.upit, "UPIT").values
    worth, decimals = multiples_of(values)
    return {"all values above 0": int(worth[worth > 0].sum()) / 10**decimals,
            "the ultimate pit": worth_of_pit(values, mine.precedence)}


def worth_of_pit(values: np.ndarray, precedence: Any) -> float:
    """Returns the worth of the ultimate pit of these values (n,)."""
    worth, decimals = multiples_of(values)
    return int(worth[ultimate_pit(values, precedence)].sum()) / 10**decimals


def certified(problem: Problem, precedence: Any, seconds: Optional[float] = None,
              sums: tuple[str, str] = ("", "")) -> Certificate:
    """Returns the bound of a CPIT or a PCPSP with its certificate. The search for prices takes
    about as long as given, and the proof one step more. The sums are those of the instance's files.

    Raises UserError if there is no C++ compiler, memory runs out, or there are too many blocks or
    too large numbers.
    """
    # HiGHS and pandas take long to load, and a check needs neither.
    from pit_tools.schedules import lagrangian

    fewer = fewer_arcs(precedence)
    progress.step(f"finds prices for the {problem.kind}")
    found = lagrangian.Search(problem, fewer, seconds).run()
    progress.step(f"proves the bound of the {problem.kind}")
    return lagrangian.certified(problem, precedence, fewer, found.prices, sums)


def certificates_of(mine: Instance, sums: dict[str, str],
                    seconds: Optional[float] = None) -> Iterator[tuple[Problem, Certificate]]:
    """The problems of an instance with their certificates, by the sums of its files, which are
    named by their endings."""
    precedence: Any = present(mine.precedence, "precedence file")
    for problem in filter(None, (mine.cpit, mine.pcpsp)):
        yield problem, certified(problem, precedence, seconds,
                                 (sums[problem.kind.lower()], sums["prec"]))
