"""The sidecar file of a plan, PLAN.json: what a planner gave that the plan's fixed format does not
contain.

`plan` writes it: the currency, the parts of a cent, the unit of grades, the zones by name with
their files, each record in words, and the report of `import`. `survey`, `pit` and `report` use it.
It belongs to one plan, by the record PLAN.sums of both."""
from __future__ import annotations

import json
import os
from dataclasses import asdict, dataclass, field

from pit_tools import VERSION
from pit_tools.errors import UserError
from pit_tools.files import inputs, outputs, records
from pit_tools.inventories.reconciling import Reconciled
from pit_tools.plans.grids import Frame
from pit_tools.texts.units import Measures

NOT_TAKEN = "units, names and the export's coordinates are not taken from it"


@dataclass(frozen=True)
class ZoneSeen:
    """A zone by its name, and its file."""

    name: str
    file: str


@dataclass(frozen=True)
class PlanNote:
    """`is_used` is false if there is none, and `why_not` is the reason why an existing one is not
    used; `said` has pairs of a record and its explanation; `facts`, `warnings`, the `frame` of
    coordinates, the resource report and `exports`, the sums of what it read, come from `import`;
    `benches` is the height for which slopes were judged, 0 if it is unknown."""

    is_used: bool = False
    measures: Measures = Measures()
    zones: list[ZoneSeen] = field(default_factory=list)
    said: list[tuple[str, str]] = field(default_factory=list)
    notes: list[str] = field(default_factory=list)
    exports: list[str] = field(default_factory=list)
    facts: list[str] = field(default_factory=list)
    warnings: list[str] = field(default_factory=list)
    frame: Frame = Frame()
    reconciled: Reconciled = Reconciled()
    benches: int = 0
    why_not: str = ""

    def money_text(self, multiple: int, decimals: int = 2) -> str:
        """Returns a multiple of 10^-decimals of the plan's unit of money, exact if a cent has one
        part, with the currency."""
        sign, whole = "-" if multiple < 0 else "", abs(multiple) // self.measures.parts
        units, rest = divmod(whole, 10**decimals)
        return f"{sign}{units}.{rest:0{decimals}d}{self.measures.unit}"


def path_of_note(plan_path: str) -> str:
    return plan_path + ".json"


def write_note(note: PlanNote, plan_path: str) -> str:
    """Writes the sidecar file of the plan, and returns its path."""
    path = path_of_note(plan_path)
    record = {"tool": f"pit-tools {VERSION}", **asdict(note),
              "reconciled": note.reconciled.record()}
    del record["why_not"], record["is_used"]
    with outputs.opened(path, "note of a plan", "utf-8") as file:
        json.dump(record, file, indent=1, ensure_ascii=False)
        file.write("\n")
    return path


def read_note(plan_path: str) -> PlanNote:
    """Returns the sidecar file of a plan, or one that only has the reason why an existing file is
    not used. It raises OSError for the plan."""
    path = path_of_note(plan_path)
    if records.status_of(path) is None:
        return PlanNote()
    inputs.reads(path)
    if not _are_of_one_run(plan_path, path):
        return PlanNote(why_not=f"{path} was written for another plan than {plan_path} now is: "
                        + NOT_TAKEN)
    try:
        return _note_of(records.read_json(path))
    except (OSError, ValueError, KeyError, TypeError, AttributeError, RecursionError, UserError):
        return PlanNote(why_not=f"{path} is not a sidecar file of `pit-tools plan`: "
                        + NOT_TAKEN)


def _are_of_one_run(*paths: str) -> bool:
    """Returns whether a plan and its sidecar file agree with the record that names both."""
    record = records.read_record(paths[0] + records.ENDING)
    folder = os.path.dirname(paths[0])
    return record is not None and {records.File.of(path, folder) for path in paths} <= set(
        record.outputs)


def _note_of(record: dict) -> PlanNote:
    said = [(str(first), str(second)) for first, second in record["said"]]
    notes, exports, lines, warnings = ([str(line) for line in record[name]]
                                       for name in ("notes", "exports", "facts", "warnings"))
    zones = [ZoneSeen(str(zone["name"]), str(zone["file"])) for zone in record["zones"]]
    return PlanNote(True, Measures(**record["measures"]), zones, said, notes, exports,
                    lines, warnings, Frame.of_record(record["frame"]),
                    Reconciled.of_record(record.get("reconciled")), int(record.get("benches", 0)))
