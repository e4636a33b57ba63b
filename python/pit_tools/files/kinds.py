"""The beginnings of files of each kind, so that a command replaces no file of another kind."""
from __future__ import annotations

import os
import re

from pit_tools.errors import UserError

KINDS = {
    "zone file": rb"x,y,z,tonnes,grade(,rock)?\r?\n",
    "record of an import": rb'\{\s*"tool": "pit-tools ',
    "note of a plan": rb'\{\s*"tool": "pit-tools ',
    "plan": rb"name,[^,\n]*,*\r?\n(.*\n)?grid,",
    "export": rb'"BLOCK","XC",',
    "list": rb"\S+\.plan( |\n)",
    "blocks": rb"(%|\d+( \d+){3} )",
    "prec": rb"(%|\d+ \d+[ \n])",
    "model": rb"(%|NAME:)",
    "arrays": rb"PK\x03\x04.{26}block_",
    "certificate": rb"PK\x03\x04.{26}(CPIT|PCPSP)-header\.npy",
    "pit": rb"\d+\r?\n",
    "identifiers": rb"\d+ \d+\r?\n",
    "lines of blocks": rb"\d+( [0-9.]+)*\r?\n",
    "schedule": rb"\d+ \d+( [0-9.]+){0,2}\r?\n",
    "program": rb"\\ ",
    "flow": rb"p max ",
    "table of a report": rb"part,name,",
    "table of nested pits": rb"factor,",
    "workbook": rb"PK\x03\x04.{26}docProps/core\.xml.{1,2000}<dc:creator[^>]*>pit-tools<",
    "rows of a pit": rb"[^\n]*\bblock\b[^\n]*\bmined\b",
    "rows of a pit in Parquet": rb"PAR1.*mined",
    "survey": rb"<!doctype html>\n<html[^>]*><head>(<meta[^>]*>)*<title>Survey of ",
    "PNG picture": rb"\x89PNG",
    "SVG picture": rb"<\?xml",
    "PDF picture": rb"%PDF",
    "DXF drawing": rb"\s*(999\r?\n[^\n]*\n\s*)*0\r?\nSECTION\r?\n",
    "VTK file": rb"# vtk DataFile ",
    "OBJ file": rb"# pit-tools shell\n",
    "compiled program": rb"\x7fELF|\xcf\xfa\xed\xfe",
    "table of the library": rb"name( seed shape |,kind,date,)",
    "sums": rb'# \{"tool": "pit-tools ',
    "table of a batch": rb"name blocks ",
    "table of a bench": rb"name,solver,",
    "table of a bench in Parquet": rb"PAR1",
    "record of a batch": rb'\{"build": "',
    "build of a batch": rb"[^\n]*\n[0-9a-f]{64}  pitc\n",
}

#: Names that have one kind, so that no file of another kind replaces them.
ENDINGS = {".plan": "plan", ".blocks": "blocks", ".prec": "prec", ".upit": "model",
           ".cpit": "model", ".pcpsp": "model", ".thin": "prec"}

#: How much of an old file is looked at: more than the longest header.
PREFIX = 1 << 20


def judge_kind(place: str, target: str, kind: str) -> None:
    """Rejects an output that would replace a file of another kind, except an empty one."""
    with open(target, "rb") as file:
        prefix = file.read(PREFIX)
    of_name = ENDINGS.get(os.path.splitext(target)[1].lower(), kind)
    if prefix and (of_name != kind or not re.match(KINDS[kind], prefix, re.DOTALL)):
        raise UserError(f"{place}: the file there is of another kind than `{kind}`: --force "
                        "replaces it")
