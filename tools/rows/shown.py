"""A row as a reader sees it: its inputs, and the expected result and files."""
import shlex
from typing import Iterator

from rows.trial import ANY, Content, Folder, Prefix, Link, Part, Parts, Pieces, Sum, Trial

# How many lines, and how many bytes of a line, are shown of a text.
LINES, BYTES = 40, 300


def shown(trial: Trial) -> Iterator[str]:
    """Returns the lines that show a row. Bytes that are no letters are shown as `\\x..`, and so are line ends except LF."""
    for arguments in [*trial.before, trial.arguments]:
        yield "runs: " + shlex.join(["pitc", *map(word, arguments)])
    if trial.source:
        yield f"standard input is {trial.source}"
    elif trial.given:
        yield from content("standard input", trial.given)
    for name, text in trial.files.items():
        yield from content(f"the file {name}", text)
    yield f"status {trial.status}"
    yield from content("standard output", trial.out)
    yield from content("standard error", trial.errors)
    yield from left(trial)


def left(trial: Trial) -> Iterator[str]:
    """Returns the lines for the files afterwards."""
    for name, text in trial.left.items():
        yield from content(f"left in {name}", text)
    stay = [name for name in trial.files if name not in trial.left]
    if stay:
        yield "stay as they are: " + ", ".join(stay)


def word(text: "str | bytes") -> str:
    return text if isinstance(text, str) else repr(text)[2:-1]


def content(what: str, of: Content) -> Iterator[str]:
    """Returns the lines for one input or output."""
    if isinstance(of, bytes):
        yield f"{what}: {len(of)} bytes" if of else f"{what}: nothing"
        yield from text_lines(of)
    elif of == ANY:
        yield f"{what}: any text"
    elif isinstance(of, (Part, Prefix)):
        yield f"{what}: a text {'that begins with' if isinstance(of, Prefix) else 'with'}"
        yield from text_lines(of.text)
    elif isinstance(of, Parts):
        yield f"{what}: a text with each of these"
        for number, text in enumerate(of.texts, 1):
            yield from content(f"  part {number}", text)
    else:
        yield f"{what}: " + {
            Folder: "a folder", Link: "a link", Sum: "a text by its SHA-256",
            Pieces: "a long text by its formula",
        }[type(of)] + (f", {of[0]}" if isinstance(of, (Link, Sum)) else "")


def text_lines(text: bytes) -> Iterator[str]:
    """Returns the lines of a text, the last with a word if it has no line end."""
    lines = text[: LINES * BYTES * 2].split(b"\n")
    last = lines.pop()
    for line in lines[:LINES]:
        yield "    " + cut(line)
    if len(lines) > LINES or len(text) > LINES * BYTES * 2:
        yield "    .."
    elif last:
        yield f"    {cut(last)}  (without a line end)"


def cut(line: bytes) -> str:
    """Returns a line, cut if it is long."""
    letters = repr(line[:BYTES])[2:-1]
    return letters if len(line) <= BYTES else f"{letters} .. of {len(line)} bytes"
