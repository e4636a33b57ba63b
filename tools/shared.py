"""Shared code of the scripts of tools/ that are written in Python."""
import argparse
import functools
import glob
import os
import re
import shutil
import subprocess
import sys
import tempfile
import time
from typing import NamedTuple

TOP = os.path.dirname(os.path.dirname(os.path.abspath(__file__)))

# The files of an instance by their extensions, in the order in which they are written.
ENDINGS = ["blocks", "prec", "upit", "pcpsp", "cpit"]

# The files that `check` reads, in its order.
CHECKED = ["blocks", "prec", "pcpsp", "cpit"]


# The header keys of the model files, each with the files that have it and its value, by
# docs/formats.md.
HEADER_KEYS = [
    ("NAME", "UPIT PCPSP CPIT", "{name}"),
    ("TYPE", "UPIT PCPSP CPIT", "{kind}"),
    ("NBLOCKS", "UPIT PCPSP CPIT", "{blocks}"),
    ("NPERIODS", "PCPSP CPIT", "{periods}"),
    ("NDESTINATIONS", "PCPSP", "{destinations}"),
    ("NRESOURCE_SIDE_CONSTRAINTS", "PCPSP CPIT", "{resources}"),
    ("NGENERAL_SIDE_CONSTRAINTS", "PCPSP", "0"),
    ("DISCOUNT_RATE", "PCPSP CPIT", "{rate}"),
]


def header(kind, **values):
    """Returns the header lines of a model file. Defaults mean one period and one destination."""
    said = {"name": "one", "periods": 1, "destinations": 1, "resources": 0, "rate": "0.1"}
    said = {"kind": kind, **said, **values}
    keys = [(key, value) for key, files, value in HEADER_KEYS if kind in files.split()]
    return [f"{key}: {value.format(**said)}" for key, value in keys]


def parser_of(doc):
    """Returns a parser for the arguments of a script with this description."""
    return argparse.ArgumentParser(description=doc.split("\n")[0])


def built(crate, path):
    """Returns the complete path of a program. If there is none the script ends with 2, and prints how to build it."""
    if not os.path.isfile(path) or not os.access(path, os.X_OK):
        print(f"tools/{os.path.basename(sys.argv[0])}: there is no program {path}; (cd crates/{crate} && rt run -- --help) proves and builds it",
              file=sys.stderr)
        sys.exit(2)
    return os.path.abspath(path)


def with_program(doc):
    """Returns the same parser, with a built pitc as first argument."""
    parser = parser_of(doc)
    help_of_it = "a built pitc, as crates/pitc/out/pitc, which rt run leaves there"
    parser.add_argument("program", type=functools.partial(built, "pitc"), help=help_of_it)
    return parser


def with_programs(doc):
    """Returns the same parser, with a built pitc_thin as second argument."""
    parser = with_program(doc)
    help_of_it = "a built pitc_thin, as crates/pitc_thin/out/pitc_thin, which rt run leaves there"
    parser.add_argument("thin", type=functools.partial(built, "pitc_thin"), help=help_of_it)
    return parser


def pages_with_recipes():
    """Returns the pages whose blocks of commands are run."""
    return sorted(glob.glob(os.path.join(TOP, "docs/*.md")))


def read(path):
    with open(path) as file:
        return file.read()


def write(path, text):
    with open(path, "w") as file:
        file.write(text)


def crates():
    """The crates of the repository, each with the libraries that it depends on, as the toolchain reads crates.txt: blanks around a line and
    all after a `#` do not count, and commas separate libraries as blanks do."""
    lines = (line.partition("#")[0].strip() for line in read(os.path.join(TOP, "crates.txt")).splitlines())
    parts = (line.partition(":") for line in lines if line)
    return {head.split()[0]: libraries.replace(",", " ").split() for head, _, libraries in parts}


# A comment, a raw string, a string or a character of Rattle. The first match in a text wins, so no mark inside a string begins a comment.
COMMENT_OR_TEXT = re.compile(r"""(?s)//[^\n]*|/\*.*?\*/|r(#*)".*?"\1|b?"(?:\\.|[^"\\])*"|b?'(?:\\.[^']*|[^'\\])'""")


def code_of(path):
    """Returns the code of a Rattle file, with a blank for each comment and each text, so that no word in them counts."""
    return COMMENT_OR_TEXT.sub(" ", read(path))


# The declaration of a module with its own file, and whether only tests compile it.
MODULE = re.compile(r"(#\[cfg\(test\)\]\s*)?(?:#\[[^\]]*\]\s*)*(?:\bpub\b\s*(?:\([^)]*\)\s*)?)?\bmod\s+(\w+)\s*;")


def test_files():
    """Returns the files of crates/ that only tests compile: modules that are declared after `#[cfg(test)]` and nowhere else in their file, and
    the contents of their folders."""
    found = []
    for path in glob.glob("crates/*/src/**/*.rt", recursive=True):
        folder = os.path.dirname(path) if os.path.basename(path) in ("lib.rt", "main.rt") else path[: -len(".rt")]
        declared = MODULE.findall(code_of(path))
        for name in {name for of_tests, name in declared if of_tests} - {name for of_tests, name in declared if not of_tests}:
            found += [f"{folder}/{name}.rt", *glob.glob(f"{folder}/{name}/**/*.rt", recursive=True)]
    return set(found)


def model(path):
    """Returns the plan and the zone files of an input of the pipe form, at this path from the top."""
    plan, *zones = read(os.path.join(TOP, path)).split("--\n")
    return plan, zones


def pipe_input(plan, zones):
    """Returns a plan and its zone files as one input of the pipe form."""
    return "--\n".join([plan, *zones])


def compile_arguments(plan, base, zones, valuers=None, capacity=None):
    """Returns the arguments of `pitc compile` for these paths."""
    arguments = ["compile", "--plan", plan, "--out", base]
    if valuers is not None:
        arguments += ["--valuers", str(valuers)]
    if capacity is not None:
        arguments += ["--capacity", str(capacity)]
    return arguments + list(zones)


def write_texts(base, texts):
    """Writes the files of BASE, by their extensions."""
    for ending, text in texts.items():
        write(base + "." + ending, text)


class Used(NamedTuple):
    """How a run ended, and what it used: seconds of wall time and of processor time, and the bytes of its peak memory."""

    status: int
    wall: float
    processor: float
    peak: int


def measured(command, **streams):
    """Runs a command in its own process, by `subprocess.Popen` with these streams. GNU time measures its peak, if it exists: the system
    also counts what a process held before it became the command, so without GNU time a peak is never less than that of the calling tool."""
    with tempfile.NamedTemporaryFile("r") as report:
        by_time = ["time", "-f", "%M", "-o", report.name] if shutil.which("time") else []
        begun = time.monotonic()
        child = subprocess.Popen([*by_time, *command], **streams)
        _, ended, used = os.wait4(child.pid, 0)
        wall = time.monotonic() - begun
        peak = int(report.read().split()[-1]) if by_time else used.ru_maxrss
    child.returncode = os.WEXITSTATUS(ended) if os.WIFEXITED(ended) else -os.WTERMSIG(ended)
    return Used(child.returncode, wall, used.ru_utime + used.ru_stime, peak * 1024)
