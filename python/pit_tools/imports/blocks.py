"""An export as blocks of a grid, and the files that are written of it."""
from __future__ import annotations

import json
import os
import re
from dataclasses import asdict, dataclass, field
from typing import Any, Optional, Sequence

import numpy as np
import pandas as pd

from pit_tools import VERSION, progress
from pit_tools.errors import UserError
from pit_tools.exports.report import Report
from pit_tools.exports.source import Source
from pit_tools.exports.words import Words
from pit_tools.files import outputs
from pit_tools.inventories.reconciling import Reconciled, Reconciliation
from pit_tools.plans.file import Grid, Slope, Zone, zone_record
from pit_tools.plans.grids import Axis, Frame
from pit_tools.plans.slopes import K_for
from pit_tools.plans.zone_files import write_zone_file
from pit_tools.texts.decimals import plain
from pit_tools.texts.formats import MOST_ROWS, MOST_ZONE


def cut_zones(rows: pd.DataFrame, zones: Sequence[str],
              most: int = MOST_ROWS) -> tuple[pd.DataFrame, list[str]]:
    """Splits zones so that none has more than `most` rows: returns the rows with zones numbered
    from 0, and the names of these; a larger zone becomes several of one name, in sequence. It
    raises UserError for more zones than a plan may have."""
    rows = rows.copy(deep=False)
    rows.index = pd.RangeIndex(len(rows))
    counts = np.bincount(rows["zone"], minlength=len(zones))
    parts = np.maximum(1, -(-counts // most))
    if parts.max(initial=1) == 1 and len(zones) <= MOST_ZONE + 1:
        return rows, list(zones)
    if parts.sum() > MOST_ZONE + 1:
        raise UserError(f"{len(rows):,} rows in {len(zones):,} zones would be {parts.sum():,} "
                        f"files of at most {most:,} rows, but a plan has at most {MOST_ZONE + 1} "
                        "zones: regularise the model to larger blocks, or omit rows by --where")
    first = np.cumsum(parts) - parts
    zone = first[rows["zone"]] + rows.groupby("zone").cumcount().to_numpy() // most
    return rows.assign(zone=zone), [name for name, many in zip(zones, parts) for _ in range(many)]


@dataclass
class Imported:
    """An export as blocks of a grid.

    `rows` has a row for each block: ix, iy, iz, positions in the grid from 0; tonnes in kilograms
    and grade in millionths of g/t, int64; zone, an index of `zones`, in which a zone of more rows
    than a zone file may have appears several times. Its order is the export's. `places` has a row
    for each record of the export that was read, with its file, its record (the header being 0) and
    its ix, iy, iz, so that a pit can be traced to the export's rows. `grid` is in metres, or in
    feet where the lengths stay in feet. `benches` has the K of zones that are a number of benches
    below another, and `part_of` the zone that each of these was split off. `reconciliation`
    compares a resource report with what was read, if one was given. `holdings` has the contents of
    each zone, and the total."""

    words: Words
    sources: list[Source]
    grid: Grid
    axes: list[Axis]
    frame: Frame
    zones: list[str]
    rows: pd.DataFrame
    places: pd.DataFrame
    report: Report
    benches: dict[str, int]
    part_of: dict[str, str] = field(default_factory=dict)
    reconciliation: Optional[Reconciliation] = None
    holdings: Sequence[dict[str, Any]] = ()

    def zone_rows(self, zone: int) -> pd.DataFrame:
        """The rows of a zone as a zone file has them: x, y, z in millimetres, tonnes in kilograms,
        grade in millionths of g/t."""
        found = self.rows[self.rows["zone"] == zone]
        columns = {}
        for axis, name in enumerate(("ix", "iy", "iz")):
            first, step = (int(value * 1000)
                           for value in (self.grid.origin[axis], self.grid.size[axis]))
            columns["xyz"[axis]] = first + found[name].to_numpy() * step
        return pd.DataFrame({**columns, "tonnes": found["tonnes"].to_numpy(),
                             "grade": found["grade"].to_numpy()})

    @property
    def rock_benches(self) -> int:
        """Returns the number of benches from the lowest row to the highest: benches of air are not
        rows of a zone file."""
        return int(np.ptp(self.rows["iz"].to_numpy())) + 1

    def records(self) -> list[str]:
        """Returns the records `grid` and `zone` of a plan, the zones in their order, with slopes of
        45 degrees and the K to use for them."""
        grid = ",".join(["grid", *map(plain, (*self.grid.origin, *self.grid.size))])
        K = K_for(self.rock_benches)
        return [grid, *(",".join(zone_record(Zone((Slope(1, 1),) * 4, self.benches.get(name, K))))
                        for name in self.zones)]

    def file_names(self, base: str) -> list[str]:
        """Returns the path of each zone's file, with a number if a zone has several. Raises
        UserError if two zones would have the same."""
        names: dict[str, str] = {}
        for at, zone in enumerate(self.zones):
            number = f"-{self.zones[:at].count(zone) + 1}" if self.zones.count(zone) > 1 else ""
            name = re.sub(r"[^\w.-]", "_", zone)
            name = f"{base}-{name}{number}.csv"
            if name in names:
                raise UserError(f"the zones `{names[name]}` and `{zone}` would have one file, "
                                f"{name}: rename one by --zones")
            names[name] = zone
        return list(names)

    def reconciled(self) -> Reconciled:
        """Returns what is kept of the resource report, and the contents of the zones as they are
        written."""
        if self.reconciliation is None:
            return Reconciled()
        zone = self.rows["zone"].to_numpy()
        tonnes = self.rows["tonnes"].to_numpy() / 1000
        metal = tonnes * (self.rows["grade"].to_numpy() / 1e6)
        count = len(self.zones)
        written: dict[str, tuple[int, float, float]] = {}
        for name, *held in zip(self.zones, *(np.bincount(zone, weights, count) for weights in
                                             (None, tonnes, metal))):
            zone_of_part = self.part_of.get(name, name)
            before = written.get(zone_of_part, (0, 0.0, 0.0))
            written[zone_of_part] = (before[0] + int(held[0]), before[1] + float(held[1]),
                                     before[2] + float(held[2]))
        return Reconciled(self.reconciliation.tolerance, self.reconciliation.rows, written,
                          self.part_of, self.words.is_merged)

    def write(self, base: str) -> list[str]:
        """Writes the zone files, and BASE.json with the options, the grid, the zones, the frame,
        the resource report and the import's report. It returns the zone files' paths. It raises
        UserError, and writes nothing, if zones differ from the resource report."""
        if self.reconciliation is not None:
            self.reconciliation.judge()
        paths = self.file_names(base)
        exports = list(dict.fromkeys(source.path for source in self.sources))
        content = {"tool": f"pit-tools {VERSION}",
                   "exports": exports,
                   "words": {key: value for key, value in asdict(self.words).items()
                             if value not in ("", (), [], None, False)},
                   "grid": {"origin": [plain(value) for value in self.grid.origin],
                            "size": [plain(value) for value in self.grid.size],
                            "blocks": [axis.places for axis in self.axes],
                            "rock_benches": self.rock_benches},
                   "zones": [{"name": name, "file": os.path.basename(path),
                              "K": self.benches.get(name)}
                             for name, path in zip(self.zones, paths)],
                   "frame": asdict(self.frame), "reconciled": self.reconciled().record(),
                   "facts": self.report.facts, "look_at": self.report.warnings}
        progress.step("writes zone files")
        with outputs.together(exports, record=base + ".json", others=()):
            for zone, path in enumerate(paths):
                write_zone_file(path, self.zone_rows(zone))
            with outputs.opened(base + ".json", "record of an import", "utf-8") as file:
                json.dump(content, file, indent=1, ensure_ascii=False)
                file.write("\n")
        return paths
