"""One instance of a batch: compiled, checked, measured, and put in its place."""
from __future__ import annotations

import os
import re
import shutil
import subprocess
import tempfile
from contextlib import contextmanager
from dataclasses import dataclass
from typing import Any, Iterable, Iterator, Optional, Sequence, Union

import numpy as np

from pit_tools.batches.build import Way, build_text_once
from pit_tools.batches.listing import Entry
from pit_tools.errors import UserError
from pit_tools.files.records import sum_of
from pit_tools.instances.arrays import present
from pit_tools.instances.files import TEXTS, read_instance
from pit_tools.instances.models import read_outline

#: The columns of SIZES, in order.
COLUMNS = ("name", "blocks", "arcs", "coefficients", "limits", "cpit", "positive", "bytes",
           "periods", "destinations", "resources", "rate", "tonnes", "pit_blocks", "pit_tonnes",
           "pit_value", "cpit_bound", "pcpsp_bound", "thin_arcs")

#: Of the name of a folder in which an instance is made, between its NAME and letters of chance.
MAKING = ".making-"


@dataclass(frozen=True)
class Made:
    """A complete instance: its line of the list, the sums of its inputs and files by name, and its
    row of SIZES."""

    entry: Entry
    sums: dict[str, str]
    row: list[str]


@dataclass(frozen=True)
class Failed:
    """An entry for which a step failed, and its message."""

    entry: Any
    message: str


def texts_of(way: Way) -> tuple[str, ...]:
    """Returns the endings of the files that a batch makes for each instance."""
    return (*TEXTS, "thin") if way.thin else TEXTS


def make(entry: Entry, way: Way, build: str) -> Union[Made, Failed]:
    """Makes an instance in a given way, which must have this text of BUILD. Its files get their
    names when all of them are right; if a step fails, the former files stay."""
    try:
        if build_text_once(way) != build:
            raise UserError("this machine has other programs or packages than BUILD lists")
        return _made(entry, way)
    except OSError as error:
        return Failed(entry,
                      f"{error.filename}: {error.strerror}" if error.filename else str(error))
    except (UserError, MemoryError) as error:
        return Failed(entry, str(error) or "out of memory")


def _made(entry: Entry, way: Way) -> Made:
    before = {name: sum_of(os.path.join(way.folder, name)) for name in entry.inputs}
    with _made_next_to(os.path.join(way.folder, entry.name)) as base:
        row = _measured(entry, way, base)
        texts = {f"{entry.name}.{text}": sum_of(f"{base}.{text}") for text in texts_of(way)}
        for name, found in before.items():
            if sum_of(os.path.join(way.folder, name)) != found:
                raise UserError(f"{name} was changed while the instance was made")
        for text in texts_of(way):
            os.replace(f"{base}.{text}", os.path.join(way.folder, f"{entry.name}.{text}"))
    return Made(entry, {**before, **texts}, row)


@contextmanager
def _made_next_to(base: str) -> Iterator[str]:
    """A base in a new folder next to an instance's base; the folder is removed at the end."""
    folder, name = os.path.split(base)
    made = tempfile.mkdtemp(prefix=f".{name}{MAKING}", dir=folder)
    try:
        yield os.path.join(made, name)
    finally:
        shutil.rmtree(made, ignore_errors=True)


def clear_unfinished(entries: Iterable[Entry], folder: str) -> None:
    """Removes what a killed batch left of these instances."""
    by_folder: dict[str, set[str]] = {}
    for entry in entries:
        within, name = os.path.split(os.path.join(folder, entry.name))
        by_folder.setdefault(within, set()).add(name)
    for within, names in by_folder.items():
        for left in os.listdir(within):
            if left.startswith(".") and MAKING in left and left[1:].rpartition(MAKING)[0] in names:
                shutil.rmtree(os.path.join(within, left), ignore_errors=True)


def _ran(way: Way, words: Sequence[str]) -> str:
    """Returns what a step printed. Raises UserError if it failed."""
    done = subprocess.run(words, capture_output=True, text=True, errors="replace", cwd=way.folder,
                          check=False)
    if done.returncode:
        printed = (done.stderr.strip() or f"status {done.returncode}").splitlines()[-1]
        step = [os.path.basename(words[0]), *[word for word in words[1:2] if word[0] != "-"]]
        raise UserError(f"{' '.join(step)}: {printed}")
    return done.stdout


def _measured(entry: Entry, way: Way, base: str) -> list[str]:
    """Compiles an instance to a base, and returns its row of SIZES."""
    _ran(way,
         [way.pitc, "compile", "--plan", entry.plan, "--out", base, *way.options, *entry.zones])
    counts = _ran(way, [way.pitc, "check", base]).strip()
    if not way.thin:
        return row_of(entry.name, base, counts, way.seconds)
    printed = _ran(way,
                   [way.thin, "--plan", entry.plan, "--out", f"{base}.thin", *entry.zones]).strip()
    arcs = re.fullmatch(r"rows \d+ arcs (\d+) of (\d+)", printed)
    if arcs is None or f" arcs {arcs[2]} " not in f"{counts} ":
        raise UserError(f"pitc counts `{counts}`, but pitc_thin reports `{printed}`")
    return row_of(entry.name, base, counts, way.seconds, int(arcs[1]))


def row_of(name: str, base: str, counts: str, seconds: Optional[float] = None,
           thin_arcs: Optional[int] = None) -> list[str]:
    """Returns the row of SIZES of an instance, from the counts of `pitc check`. Its pit is found by
    BASE.thin if that has `thin_arcs` arcs; without seconds the relaxations are omitted.

    Raises UserError if this tool's counts differ."""
    from pit_tools.pits.closure import ultimate_pit
    from pit_tools.pits.files import pit_text
    from pit_tools.schedules.bounds import bounds_of

    arcs_path = f"{base}.prec" if thin_arcs is None else f"{base}.thin"
    mine = read_instance(base, ("blocks", "prec", "upit"), arcs_path)
    blocks, values = present(mine.blocks, "block file"), present(mine.upit, "UPIT").values
    precedence: Any = present(mine.precedence, "precedence file")
    arcs, counted = precedence.nnz, dict(zip(counts.split()[::2], counts.split()[1::2]))
    pit = pit_text(ultimate_pit(values, precedence), blocks, values)
    pit_blocks, pit_tonnes, pit_value = (part.split()[-1 if at == 2 else 0]
                                         for at, part in enumerate(pit.split(", ")))
    pcpsp, cpit = read_outline(f"{base}.pcpsp", "PCPSP"), read_outline(f"{base}.cpit", "CPIT")
    found = {"blocks": len(blocks), "arcs": int(counted.get("arcs", 0)) if thin_arcs == arcs
             else arcs, "coefficients": pcpsp.uses, "limits": len(pcpsp.limits), "cpit": cpit.uses}
    ours = " ".join(f"{what} {count}" for what, count in found.items())
    if ours != counts or thin_arcs not in (None, arcs):
        raise UserError(f"the programs count `{counts}`, thin arcs {thin_arcs}, but this tool "
                        f"`{ours}`, arcs {arcs}")
    kilograms = int(np.rint(blocks.tonnes * 1000).astype(np.int64).sum())
    bounds = bounds_of(read_instance(base, TEXTS, arcs_path), seconds) if seconds else {}
    relaxed = [bounds.get(f"{kind}, relaxed") for kind in ("CPIT", "PCPSP")]
    cells = [name, *found.values(), int((values > 0).sum()),
             sum(os.path.getsize(f"{base}.{text}") for text in TEXTS), pcpsp.header["NPERIODS"],
             pcpsp.values.shape[1], pcpsp.header["NRESOURCE_SIDE_CONSTRAINTS"],
             f"{float(pcpsp.header['DISCOUNT_RATE']):g}",
             f"{kilograms // 1000}.{kilograms % 1000:03d}", pit_blocks, pit_tonnes, pit_value,
             *("-" if one is None else f"{one:.2f}" for one in relaxed),
             "-" if thin_arcs is None else thin_arcs]
    return list(map(str, cells))
