"""Runs a built pitc on a row, in a folder made for it."""
import os
import subprocess
import sys
import tempfile
from typing import Callable, Iterable, List, NamedTuple

from rows.trial import Folder, Link

# How long a run may take.
SECONDS = 120

# How many bytes the name of a row may have.
LONGEST_NAME = 200

# Files that no row names, next to its files and above its folder: no run reads them in place of a missing one, and they stay unchanged.
AROUND = {"backup": b"a file beside\n", "../above": b"a file above\n"}


class Result(NamedTuple):
    """How a run ended, what it printed, and the files that it left."""

    status: int
    out: bytes
    errors: bytes
    files: dict


def put(path, content):
    """Puts a file, a folder or a link at a path."""
    if isinstance(content, Folder):
        os.mkdir(path)
    elif isinstance(content, Link):
        os.symlink(content.target, path)
    else:
        with open(path, "wb") as file:
            file.write(content)


def put_all(folder, files):
    for name, content in files.items():
        put(os.path.join(folder, name), content)


def found(path):
    """Returns the contents of a path."""
    if os.path.islink(path):
        return Link(os.readlink(path))
    if os.path.isdir(path):
        return Folder()
    with open(path, "rb") as file:
        return file.read()


def all_found(folder, prefix=""):
    """Returns the contents of a folder and of those within, by names with this prefix."""
    for name in os.listdir(folder):
        path = os.path.join(folder, name)
        content = found(path)
        yield prefix + name, content
        if isinstance(content, Folder):
            yield from all_found(path, f"{prefix}{name}/")


def run(program, arguments, trial, folder, **how):
    """Makes one run in the folder of a row, with its standard input; `how` is passed on."""
    how = {"cwd": folder, "capture_output": True, "timeout": SECONDS, **how}
    if not trial.source:
        return subprocess.run([program, *arguments], input=trial.given, **how)
    source = os.open(os.path.join(folder, trial.source), os.O_RDONLY)
    try:
        return subprocess.run([program, *arguments], stdin=source, **how)
    finally:
        os.close(source)


def result(program, trial, **how):
    """Returns the result and the files of a row's run, after the runs before it."""
    with tempfile.TemporaryDirectory() as top:
        folder = os.path.join(top, "row")
        os.mkdir(folder)
        put_all(folder, trial.files)
        for arguments in [*trial.before, trial.arguments]:
            ran = run(program, arguments, trial, folder, **how)
            if ran.returncode != 0:
                break
        files = {os.path.relpath(name, "row"): content for name, content in all_found(top)}
    del files["."]
    return Result(ran.returncode, ran.stdout, ran.stderr, files)


def in_time(differ: Callable[[], Iterable[str]]) -> List[str]:
    """Returns what is wrong with a run: that it took too long, or what is reported on its result."""
    try:
        return list(differ())
    except subprocess.TimeoutExpired as slow:
        return [f"it took more than {slow.timeout:.0f} seconds, and was ended"]


def differences(program, trial, **how):
    """Returns which results or files of a row's run are wrong."""
    trial = trial._replace(files={**AROUND, **trial.files})
    return in_time(lambda: trial.differences(*result(program, trial, **how)))


class Register:
    """The rows so far, of which no two of a table have one name, and no two one input."""

    def __init__(self):
        self.places = {}

    def each_once(self, table, trials):
        """Returns the rows of a table; it ends the program if one has the name or input of another, or a name that is too long."""
        for trial in (trial.made() for trial in trials):
            place = f"{table}: {trial.name}"
            if len(trial.name.encode()) > LONGEST_NAME:
                sys.exit(f"{place}: its name has more than {LONGEST_NAME} bytes")
            for mark, what in ((place, "name"), (trial.input(), "input")):
                if mark in self.places:
                    sys.exit(f"{place}: it has the {what} of {self.places[mark]}")
                self.places[mark] = place
            yield trial


def compared(told_by, rows):
    """Prints each row that differs, with its name and differences; returns how many do, and do not."""
    wrong = right = 0
    for name, differ in rows:
        if differ:
            print(f"{told_by}: {name}: {'; '.join(differ)}", file=sys.stderr)
        wrong += bool(differ)
        right += not differ
    return wrong, right
