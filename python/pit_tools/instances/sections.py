"""The sections that the pipe form of `pitc` prints, as the files of an instance."""
from __future__ import annotations

from contextlib import ExitStack
from functools import partial
from typing import IO, Optional, Sequence

from pit_tools.errors import UserError, quoted
from pit_tools.files import kinds, outputs
from pit_tools.instances.files import TEXTS
from pit_tools.texts.lines import LONGEST


def write_sections(file: IO[bytes], base: str, place: str) -> None:
    """Writes the output of `pitc` as the files of a base. Raises UserError, which names the place,
    if it is cut short: its sections differ in the number of blocks, or in limits."""
    found: list[_Section] = []
    with outputs.together(record=base), ExitStack() as files:
        for line in iter(partial(file.readline, LONGEST + 1), b""):
            if len(line) > LONGEST:
                raise UserError(f"{place} has a line of more than {LONGEST >> 20} MB")
            if line.startswith(b"== "):
                name = line[3:].strip().decode("ascii", "replace")
                if name not in TEXTS or name in [section.name for section in found]:
                    raise UserError(f"{quoted(line.decode('utf-8', 'replace').strip())} is not a "
                                    "section of an instance, or appears twice")
                found.append(_Section(name))
                part = files.enter_context(outputs.opened(f"{base}.{name}",
                                                          kinds.ENDINGS["." + name]))
            elif not found:
                raise UserError(f"{place} does not begin with a section, as `== blocks`: did pitc "
                                "reject its input?")
            else:
                found[-1].take(line)
                part.write(line)
        names = [section.name for section in found]
        if names != list(TEXTS):
            raise UserError(f"{place} has the sections {', '.join(names) or 'none'}, not "
                            f"{', '.join(TEXTS)}")
        _judge_blocks(found, place)


class _Section:
    """What shows whether a section is complete: its number of lines, of a model those of its
    objective; and its limits, None if their heading is missing."""

    def __init__(self, name: str):
        self.name, self.lines, self.is_counted = name, 0, name in ("blocks", "prec")
        self.limits: Optional[list[bytes]] = None
        self.last = b"\n"

    def take(self, line: bytes) -> None:
        """Reads a line."""
        self.last = line
        if line.endswith(b":\n"):
            self.is_counted = line == b"OBJECTIVE_FUNCTION:\n"
            self.limits = [] if line == b"RESOURCE_CONSTRAINT_LIMITS:\n" else None
        elif self.limits is not None:
            self.limits.append(line)
        else:
            self.lines += self.is_counted


def _judge_blocks(found: Sequence[_Section], place: str) -> None:
    """Stops if the sections do not belong to one instance: no header counts coefficients and
    limits, but the limits of the CPIT, which come last, equal those of the PCPSP."""
    counts = {section.name: section.lines for section in found}
    limits = [section.limits for section in found if section.name in ("pcpsp", "cpit")]
    if (len(set(counts.values())) > 1 or None in limits or limits[0] != limits[1]
            or not found[-1].last.endswith(b"\n")):
        message = ", ".join(f"{name} {count}" for name, count in counts.items())
        raise UserError(f"{place} was cut short, or is of several runs: its sections have "
                        f"blocks or limits that differ ({message} blocks)")
