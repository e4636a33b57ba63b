"""The table of docs/formats.md with the fields of each line that `check` reads, made by evaluating the definitions.

A field's decimals and range are found by trying texts on the definition of its kind: nothing here says what they are. Numbers of blocks and
the like are parameters of the definitions, so a range that ends at one shows the parameter. The names of fields are those that the
definitions give them, except for NAMES.
"""
import difflib
import functools
import itertools
from typing import Any, Callable, Iterator, List, NamedTuple, Tuple

import times_page
from library import LIBRARY
from pages import Made, Pages, applied, chain, each

PAGE, PART = "docs/formats.md", "fields of lines"

# Numbers that no other range ends at, for the parameters; and how the page writes them.
BLOCKS, DESTINATIONS, RESOURCES, PERIODS = 700_001, 701, 709, 719
PARAMETERS = {BLOCKS: "n", DESTINATIONS: "NDESTINATIONS", RESOURCES: "NRESOURCE_SIDE_CONSTRAINTS", PERIODS: "NPERIODS"}

# Other names than those of the definitions, and how the page shows the fields after the first ones.
NAMES = {"resource": "r", "period": "t", "ids": "p1 .. pk", "values": "v0 v1 .."}


class Field(NamedTuple):
    """A field of a line: its name, its decimals and its range."""

    name: str
    decimals: str
    range: str


def text_of(count: int, decimals: int) -> Tuple:
    """Returns the text of a number, given by its last decimals, as the definitions have texts."""
    sign, digits = "-" if count < 0 else "", str(abs(count)).rjust(decimals + 1, "0")
    end = len(digits) - decimals
    return chain(f"{sign}{digits[:end]}.{digits[end:]}".rstrip(".").encode())


def farthest(accepts: Callable[[int], bool], start: int, sign: int) -> int:
    """Returns the last number in one direction that is accepted, as is each between it and the start."""
    step = 1
    while accepts(start + sign * step):
        step *= 2
    low, high = step // 2, step
    while high - low > 1:
        middle = (low + high) // 2
        low, high = (middle, high) if accepts(start + sign * middle) else (low, middle)
    return start + sign * low


def shown(count: int, decimals: int) -> str:
    """Returns a number as the page writes it: by a parameter, as a power of ten, or with commas."""
    if not decimals and count + 1 in PARAMETERS:
        return f"{PARAMETERS[count + 1]} - 1"
    whole, rest = divmod(abs(count), 10**decimals)
    digits = f"{whole:,}" + f".{rest:0{decimals}d}".rstrip("0") * bool(rest)
    zeros = len(str(whole)) - 1
    if zeros > 9 and digits.replace(",", "") == f"{10**zeros}":
        digits = f"10^{zeros}"
    return "-" * (count < 0) + digits


def field_by(name: str, read: Callable[[Tuple], Made]) -> Field:
    """Returns a field whose texts are read so."""

    def error(count: int, decimals: int) -> str:
        result = read(text_of(count, decimals))
        return result.held[0].tag if result.tag == "Err" else ""

    letters = [letter for letter in map(chr, range(ord("A"), ord("Z") + 1)) if read(chain(letter.encode())).tag == "Ok"]
    if letters:
        return Field(name, "", ", ".join(f"`{letter}`" for letter in letters))
    decimals = next(count for count in range(7) if error(10**count + 1, count + 1) == "TooFine")
    start = next(count for count in range(100) if error(count, decimals) != "Range")
    low, high = (shown(farthest(lambda count: error(count, decimals) != "Range", start, sign), decimals) for sign in (-1, 1))
    return Field(name, str(decimals), low if low == high else f"{low} to {high}")


class Lines:
    """The fields of lines, by the definition files."""

    def __init__(self) -> None:
        self.pages = Pages(LIBRARY)

    def word(self, page: str, name: str, *arguments: Any) -> Any:
        """Returns the result of a word, by the last name of its definition file."""
        found = self.pages.word(self.pages.named(page), name)
        return applied(found, *arguments) if arguments else found

    def fields(self, form: Made) -> Iterator[Field]:
        """Yields the fields of a form; a limit has most of them after the letter `I`."""
        while form.tag in ("Then", "Others"):
            kind, part, after = form.held
            name, = after.names if form.tag == "Then" else part.names
            yield field_by(NAMES.get(name, name), functools.partial(self.word, "LineFields", "value_in", kind))
            form = applied(after, Made("I") if kind.tag == "Letter" else 0) if form.tag == "Then" else Made("End")

    def lines(self) -> Iterator[List[Field]]:
        """Yields the fields of each line without a key."""
        form = functools.partial(self.word, "LineForms")
        yield from map(list, map(self.fields, [
            form("block_form", 0), form("preds_form", BLOCKS, 0), form("values_form", BLOCKS, 0),
            *(form("coef_form", Made(problem), BLOCKS, DESTINATIONS, RESOURCES) for problem in ("Pcpsp", "Cpit")),
            form("limit_form", RESOURCES, PERIODS)]))

    def keys(self) -> Iterator[Field]:
        """Yields the header keys whose value is a number, each with the field of its value."""
        problem = Made("Pcpsp")
        for key in each(self.word("HeaderKeys", "keys_of", problem)):
            if key.tag not in ("Name", "Type"):
                yield field_by(bytes(each(self.word("HeaderKeys", "key_word", key))).decode(),
                               functools.partial(self.word, "ModelKeys", "number_stated", problem, BLOCKS, key))


def rows() -> Iterator[List[str]]:
    """Yields the rows of the table: fields of one kind that follow each other share one."""
    found = Lines()
    for line in found.lines():
        head = " ".join(field.name for field in line)
        for kind, fields in itertools.groupby(line, lambda field: field[1:]):
            yield [f"`{head}`" if head else "", ", ".join(field.name for field in fields), *kind]
            head = ""
    for place, field in enumerate(found.keys()):
        yield ["" if place else "`KEY: value`", *field]


def table() -> List[str]:
    """Returns the lines of the table."""
    return times_page.table(["line", "field", "decimals", "range"], rows())


def filled(lines: List[str]) -> Iterator[str]:
    """Yields rows of the table, each with its line in the first cell."""
    head = ""
    for line in lines:
        head = head if line.startswith("|  |") else line.split("|")[1] if "|" in line else ""
        yield f"|{head}{line[3:]}" if line.startswith("|  |") else line


def differences() -> Iterator[str]:
    """Yields the rows of the table on the page that differ from the definitions."""
    on_page, made = (list(filled(lines)) for lines in (times_page.parts(PAGE).get(PART, "").splitlines(), table()))
    for line in difflib.unified_diff(on_page, made, n=0, lineterm=""):
        if line[0] in "+-" and not line.startswith(("+++", "---")):
            yield f"{PAGE}: the definitions have {'a row that the page does not have' if line[0] == '+' else 'no such row'}: {line[1:]}"
