"""The outcome of each export: right, reported, refused with its cause, or wrong.

    python3 export_verdicts.py [--all]      the table, or the wrong ones and the counts

An export is right if its arguments give the blocks of its mine without a line that names a
mistake; reported ('reported') if they do and the report has that line; refused if they stop with
its own cause, also if changed arguments then give its mine. All else is wrong: another mine,
or another cause."""
from __future__ import annotations

import os
import re
import sys
import tempfile
from collections import Counter
from typing import Iterable, NamedTuple

from exports import Export, Rows, exports
from mistaken_exports import mistaken_exports
from package_exports import later_exports
from pit_tools.errors import UserError
from pit_tools.exports.words import Words
from pit_tools.imports.steps import Imported, Wanted, import_export
from pit_tools.plans.zone_files import read_zone_file
from preset_exports import preset_exports
from various_exports import various_exports

#: All exports by their kind.
KINDS = {"first": exports, "later": later_exports, "mistake": mistaken_exports,
         "various": various_exports, "preset": preset_exports}


class Verdict(NamedTuple):
    """The outcome of an export: `right`, `message`, `rejected` or `wrong`, with the line that says
    so or what is wrong."""

    name: str
    outcome: str
    line: str = ""


def imported(export: Export, **changed: object) -> Imported:
    """Reads an export in the current folder, compares what is expected, and writes its zone
    files."""
    paths = [name for name in export.files if name not in ("zones.csv", "d.csv", "report.csv")]
    reports = ["report.csv"] if "report.csv" in export.files else []
    found = import_export(paths, Words(**{**export.words, **changed}),
                          Wanted(reports, export.expected))
    found.write("from")
    return found


def verdict_of(export: Export) -> Verdict:
    """Returns the outcome of an export; its files are written into the current folder."""
    for name, content in export.files.items():
        with open(name, "wb") as file:
            file.write(content)
    line = ""
    if export.rejected:
        try:
            text = "\n".join(f"- {one}" for one in imported(export, **export.first).report.warnings)
            outcome = "reported"
        except UserError as error:
            text, outcome = str(error), "refused"
        line = line_with(export.rejected, text)
        if not line:
            return Verdict(export.name, "wrong", f"no {export.rejected} in: {text}")
    if not export.rows:
        if outcome == "reported":
            return Verdict(export.name, "wrong", f"another mine, and only reported: {line}")
        return Verdict(export.name, outcome, line)
    try:
        found = imported(export)
    except UserError as error:
        return Verdict(export.name, "wrong", f"refused: {error}")
    text = found.report.text()
    absent = [pattern for pattern in export.message if not re.search(pattern, text)]
    wrong = [f"no {pattern} in: {text}" for pattern in absent] or list(differences(export, found))
    if wrong:
        return Verdict(export.name, "wrong", wrong[0])
    if export.rejected:
        return Verdict(export.name, outcome, line)
    message = export.message[0] if export.message else ""
    return Verdict(export.name, "reported" if message else "right", message and line_with(message, text))


def line_with(pattern: str, text: str) -> str:
    """Returns the line of a text in which a pattern ends, or an empty text."""
    found = re.search(pattern, text)
    if not found:
        return ""
    end = text.find("\n", found.end())
    return text[text.rfind("\n", 0, found.end()) + 1:end if end >= 0 else None] or found[0]


def differences(export: Export, found: Imported) -> Iterable[str]:
    """Returns how the written zone files differ from the export's mine."""
    rows = rows_of(found)
    counts = [{zone: len(one) for zone, one in each.items()} for each in (rows, export.rows)]
    if counts[0] != counts[1]:
        yield f"rows by zone: {counts[0]}, not {counts[1]}"
        return
    for zone, truth in export.rows.items():
        for place, contents in truth.items():
            got = rows[zone].get(place)
            if got is None or any(abs(one - other) > capacity for one, other, capacity
                                  in zip(got, contents, export.within)):
                yield f"{zone} {place}: {got}, not {contents}"
                return
    grid = ",".join(format(value.normalize(), "f")
                    for value in (*found.grid.origin, *found.grid.size))
    if grid != export.grid:
        yield f"grid {grid}, not {export.grid}"


def rows_of(found: Imported) -> Rows:
    """Returns the rows of the zone files that were written."""
    rows: Rows = {}
    for name, path in zip(found.zones, found.file_names("from")):
        table = read_zone_file(path)
        places = map(tuple, table[["x", "y", "z"]].to_numpy().tolist())
        contents = map(tuple, table[["tonnes", "grade"]].to_numpy().tolist())
        rows[name] = dict(zip(places, contents))
        assert len(rows[name]) == len(table)
    return rows


def main() -> int:
    """Prints the table. It returns 1 if an export is wrong."""
    counts: dict[str, Counter] = {kind: Counter() for kind in KINDS}
    for kind, made in KINDS.items():
        for export in made():
            with tempfile.TemporaryDirectory() as folder:
                os.chdir(folder)
                verdict = verdict_of(export)
                os.chdir("/")
            counts[kind][verdict.outcome] += 1
            if "--all" in sys.argv or verdict.outcome == "wrong":
                print(f"{kind:8} {verdict.outcome:8} {verdict.name:60.60} {verdict.line[:200]}",
                      flush=True)
    outcomes = ("right", "reported", "refused", "wrong")
    print(f"{'':8}" + "".join(f"{outcome:>9}" for outcome in outcomes))
    for kind, found in counts.items():
        print(f"{kind:8}" + "".join(f"{found[outcome]:>9}" for outcome in outcomes))
    return 1 if any(found["wrong"] for found in counts.values()) else 0


if __name__ == "__main__":
    sys.exit(main())
