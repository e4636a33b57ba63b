"""From a mining package's export to zone files: reads rows, puts them on the grid, and reports what
was read, omitted and unusual.

    from pit_tools.imports.steps import Words, import_export
    words = Words(x="XC", y="YC", z="ZC", tonnes="T", grade="AU oz/st", zone=["DOMAIN"])
    mine = import_export(["export.csv"], words)
    print(mine.report.text())
    mine.rows              # a row for each block: ix, iy, iz, kilograms, millionths of g/t, zone
    mine.write("from")     # from-ZONE.csv and from.json
"""
from __future__ import annotations

from typing import Sequence

from pit_tools import progress
from pit_tools.errors import UserError
from pit_tools.exports.packages import recognised, text_of, words_by_package
from pit_tools.exports.reading import Reading, read_export
from pit_tools.exports.report import Report
from pit_tools.exports.words import Words
from pit_tools.files import inputs
from pit_tools.imports.blocks import Imported
from pit_tools.imports.placing import Placing
from pit_tools.inventories.reconciling import Wanted

__all__ = ["Imported", "Report", "Wanted", "Words", "import_export"]


def import_export(paths: Sequence[str], words: Words, wanted: Wanted = Wanted()) -> Imported:
    """Reads exports, one after the other, puts their rows on one grid, and compares them with a
    resource report if one is given.

    It raises UserError for what cannot be right, with its cause and, if there is one, its line; the
    report warns of what may be wrong, and `reconciliation.judge` of the result reports figures that
    differ from a resource report. Nothing is written."""
    report = Report()
    has_package = bool(words.package)
    if has_package:
        progress.step("reads the frame")
        words, message = words_by_package(words, paths)
        report.facts.append(message)
    words.judge()
    inputs.reads(*paths)
    progress.step("reads rows")
    reading = Reading(words)
    sources = [source for path in paths for source in read_export(path, words, reading, report)]
    if not reading.counts["rows"]:
        raise UserError(f"{paths[0]}: there is no row below the "
                        "header" + (" that the filter keeps" if words.where else ""))
    progress.step("puts rows on the grid")
    name = "" if has_package else recognised(sources[0])
    if name:
        report.facts.append(text_of(name))
    try:
        return Placing(reading, sources, report, wanted).imported()
    except UserError as error:
        raise UserError(f"{error}; {text_of(name)}" if name else str(error)) from None
