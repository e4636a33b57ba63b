"""`pit-tools bounds`: upper bounds of the worth of pits and schedules."""
from __future__ import annotations

import argparse
from fractions import Fraction
from typing import TYPE_CHECKING, Optional, Union

from pit_tools.commands import add_json, add_precedence_option, from_zero, print_json

if TYPE_CHECKING:
    from pit_tools.instances.arrays import Instance

HELP = """\
Prints bounds of an instance: the sum of all values above 0; the value of the ultimate pit,
undiscounted, a bound of every schedule; and the relaxations of its CPIT and PCPSP, which let blocks
be split over periods.

    pit-tools bounds deposit --seconds 300

HiGHS solves relaxations up to 5,000 blocks by periods; `-` means that it did not end in time, or
that limits cannot be met. For larger ones a search sets prices of the limits and finds closures by
the C++ program, up to millions of blocks. If the time is up, its bound is larger than the
relaxation's value, and still valid. The proof takes about one more step of the search.

    pit-tools bounds deposit --out deposit.bound
    pit-tools bounds deposit --check deposit.bound

The first command searches for prices whatever the size, and writes a certificate of both bounds:
the prices, pits, and the flows that prove the bound. The second checks it from the files of the
instance only, in integers, and prints the bounds that it proves, rounded up to hundredths. The
status is 1 if the certificate belongs to other files or does not prove exactly its bound.
"""

WRITES = "certificates"


#: A bound as a number, exact if a certificate states it; None if none was found.
Bound = Union[float, Fraction, None]


def add_arguments(parser: argparse.ArgumentParser) -> None:
    parser.add_argument("base", help="the instance")
    add_precedence_option(parser)
    parser.add_argument("--seconds", type=from_zero, default=60, metavar="N",
                        help="time limit of each relaxation in seconds; 0 means none "
                        "[default: 60]")
    which = parser.add_mutually_exclusive_group()
    which.add_argument("--out", metavar="CERTIFICATE",
                       help="writes a certificate of the bounds of CPIT and PCPSP")
    which.add_argument("--check", metavar="CERTIFICATE", help="checks such a file")
    add_json(parser)


def run(args: argparse.Namespace) -> int:
    from pit_tools import progress
    from pit_tools.files import outputs
    from pit_tools.instances.files import read_instance
    from pit_tools.schedules.bounds import bounds_of

    outputs.judged(args.out)
    found: Optional[dict[str, Bound]]
    with progress.shown("bounds", 5):
        if args.check:
            found = _checked(args)
        else:
            progress.step(f"reads {args.base}")
            mine = read_instance(args.base, precedence=args.prec)
            found = (_certified(args, mine) if args.out
                     else {**bounds_of(mine, args.seconds or None)})
    if found is None:
        return 1
    if args.json:
        from pit_tools.schedules.certificates import bound_text

        print_json({name: float(bound_text(value)) if isinstance(value, Fraction) else value
                    for name, value in found.items()})
        return 0
    for name, value in found.items():
        print(f"{name:<22} {_text(name, value):>20}")
    return 0


def _text(name: str, value: Bound) -> str:
    from pit_tools.schedules.certificates import bound_text
    from pit_tools.texts.number_texts import at_least_cents

    if value is None:
        return "-"
    if isinstance(value, Fraction):
        return bound_text(value)
    return f"{value:.2f}" if "relaxed" in name else at_least_cents(value)


def _certified(args: argparse.Namespace, mine: Instance) -> dict[str, Bound]:
    """The bounds, after the certificates of CPIT and PCPSP are written."""
    from pit_tools.files import outputs
    from pit_tools.schedules import certificates
    from pit_tools.schedules.bounds import bounds_by_values, certificates_of

    by_values = bounds_by_values(mine)
    kinds = [problem.kind.lower() for problem in (mine.cpit, mine.pcpsp) if problem]
    proved = list(certificates_of(mine, _sums(args, kinds), args.seconds or None))
    with outputs.opened(args.out, "certificate") as file:
        certificates.write([one for _, one in proved], file)
    return {**by_values,
            **{f"{problem.kind}, relaxed": one.value(problem) for problem, one in proved}}


def _sums(args: argparse.Namespace, kinds: list[str]) -> dict[str, str]:
    """The sums of the files of problems and of the precedences, by their endings."""
    from pit_tools.files.records import sum_of

    paths = {kind: f"{args.base}.{kind}" for kind in kinds}
    paths["prec"] = args.prec or f"{args.base}.prec"
    return {ending: sum_of(path) for ending, path in paths.items()}


def _checked(args: argparse.Namespace) -> Optional[dict[str, Bound]]:
    """Returns the bounds that a file of certificates proves; None, which is printed, for one that
    is not proved."""
    from pit_tools import progress
    from pit_tools.instances.arrays import present
    from pit_tools.instances.files import read_instance
    from pit_tools.schedules import certificates

    kinds = certificates.kinds_in(args.check)
    progress.step(f"reads {args.base}")
    mine = read_instance(args.base, ("prec", *kinds), args.prec)
    sums = _sums(args, kinds)
    found: dict[str, Bound] = {}
    for kind in kinds:
        progress.step(f"checks the bound of the {kind.upper()}")
        problem = mine.problem(kind)
        one = certificates.read(args.check, kind, problem)
        try:
            found[f"{problem.kind}, relaxed"] = certificates.check(
                one, problem, present(mine.precedence, "precedence file"),
                (sums[kind], sums["prec"]))
        except certificates.NotProved as error:
            with progress.hidden():
                print(f"{args.check}: {problem.kind}: {error}")
            return None
    return found
