"""A run of pitc, and its expected result and files."""
import hashlib
import os
import zlib
from typing import Callable, Iterable, Mapping, NamedTuple, Sequence, Union

HEADER = b"x,y,z,tonnes,grade\n"

# A byte order mark.
MARK = b"\xEF\xBB\xBF"


class Part(NamedTuple):
    """Any text that has this one in it."""

    text: bytes

    def fits(self, found):
        return self.text in found


class Parts(NamedTuple):
    """Any text that has each of these in it."""

    texts: Sequence[bytes]

    def fits(self, found):
        return all(text in found for text in self.texts)

    def missing(self, found):
        """Returns the first of them that a text does not have."""
        return Part(next(text for text in self.texts if text not in found))


class Prefix(NamedTuple):
    """Any text that begins so."""

    text: bytes

    def fits(self, found):
        return found.startswith(self.text)


class Sum(NamedTuple):
    """The text of which this is the SHA-256."""

    digits: str

    def fits(self, found):
        return hashlib.sha256(found).hexdigest() == self.digits


class Pieces(NamedTuple):
    """The text that consists of these parts, which are made again each time that it is read."""

    make: Callable[[], Iterable[bytes]]

    def differing(self, found):
        """Returns where a text begins to differ, and the expected part there; None if it is the same."""
        at = 0
        for piece in self.make():
            if not found.startswith(piece, at):
                return at, piece
            at += len(piece)
        return None if at == len(found) else (at, b"")

    def fits(self, found):
        return self.differing(found) is None


class Folder(NamedTuple):
    """A folder in place of a file. Its contents are named with its name before them."""


class Link(NamedTuple):
    """A link to another file in place of a file."""

    target: str


ANY = Part(b"")

Content = Union[bytes, Part, Parts, Prefix, Sum, Pieces, Folder, Link]


class Trial(NamedTuple):
    """The inputs of a run, and its expected result and files.

    The input comes through a pipe, unless a source is named: a file or a folder that is standard input. The runs before it have other
    arguments on the same files, and must end with 0. The files stay unchanged, and no others are created, except those in `left`.
    """

    name: str
    status: int = 0
    arguments: Sequence[Union[str, bytes]] = ()
    given: bytes = b""
    source: str = ""
    files: Mapping[str, Content] = {}
    before: Sequence[Sequence[str]] = ()
    out: Content = b""
    errors: Content = b""
    left: Mapping[str, Content] = {}

    def made(self):
        return self

    def input(self):
        """Returns a number of its arguments, files and standard input, which differs for other runs."""
        arguments, before = tuple(self.arguments), tuple(map(tuple, self.before))
        return hash((arguments, self.given, self.source, frozenset(self.files.items()), before))

    def differences(self, status, out, errors, files):
        """Returns which results or files of a run are wrong."""
        if status != self.status:
            yield f"status {status} in place of {self.status}"
        found = {"standard output": out, "standard error": errors, **files}
        wanted = {"standard output": self.out, "standard error": self.errors}
        wanted.update({**self.files, **self.left})
        for name in sorted({*found, *wanted}):
            if name not in found or name not in wanted:
                yield f"{name} is {'not ' if name in wanted else ''}there"
            elif not fits(found[name], wanted[name]):
                yield difference(name, found[name], wanted[name])


class Later(NamedTuple):
    """A row that takes long to make, and is made when more than its name is needed."""

    name: str
    make: Callable[[str], Trial]

    def made(self):
        return self.make(self.name)


def fits(found, wanted):
    if isinstance(wanted, (Part, Parts, Prefix, Sum, Pieces)):
        return wanted.fits(found)
    return found == wanted


def difference(name, found, wanted):
    """Returns a text and the expected text, each from the first line on in which they differ."""
    if isinstance(wanted, Parts):
        wanted = wanted.missing(found)
    if isinstance(wanted, Pieces):
        start, wanted = wanted.differing(found)
        found = found[start : start + len(wanted) + 1]
    if isinstance(wanted, Part):
        found = found[max(found.find(wanted.text.split(b"\n")[0]), 0) :]
    if isinstance(wanted, (Part, Prefix)):
        wanted = wanted.text
    if isinstance(found, bytes) and isinstance(wanted, bytes):
        same = os.path.commonprefix([found, wanted]).rfind(b"\n") + 1
        found, wanted = found[same:], wanted[same:]
    return f"{name} has {shown(found)} in place of {shown(wanted)}"


def shown(content):
    """Returns a content, cut if it is long."""
    return repr(content if len(content) <= 200 else content[:200] + b"..")


def short(name):
    """Returns the name of a row; if it is long, its ends, its length and its checksum."""
    if len(name) <= 160:
        return name
    return f"{name[:80]} .. {name[-40:]}, {len(name)} letters, {zlib.crc32(name.encode()):08x}"


def lines(text):
    """A text whose lines end in bars here."""
    return text.replace("|", "\n").encode()


def zone_file(*rows):
    """A zone file of these rows."""
    return HEADER + lines("".join(row + "|" for row in rows))


def piped(plan, *zones):
    """Returns the input of the pipe form: a plan and zone files, each except the last with its line end."""
    return b"--\n".join([plan, *zones])


def refused(name, line, **given):
    """A run that is refused with this line and the status of its kind, and prints nothing."""
    status = 1
    if line.startswith(("command line: ", "settings: ")):
        status = 2
    elif line.endswith((": FeedFailed", ": SinkFailed")):
        status = 3
    return Trial(name, status, errors=f"pitc: {line}\n".encode(), **given)
