"""What cells and fields may hold: the formats of a number at both ends of its range and outside it, and each byte in a name."""
import itertools
from typing import NamedTuple, Optional

NAME_BYTES = b"0123456789ABCDEFGHIJKLMNOPQRSTUVWXYZ_abcdefghijklmnopqrstuvwxyz-."

# Of the letters of limits and of others.
LETTERS = "ABCDEFGHIJKLMNOPQRSTUVWXYZabcdefghijklmnopqrstuvwxyz"

BLANKS = b" \t"

EVERY_BYTE = [bytes([byte]) for byte in range(256)]


class Cell(NamedTuple):
    """A cell or a field of a record or a line: a valid one, and the decimals, the smallest and the largest number that it may hold.

    The two ends count the last of these decimals. A cell without them holds a name, or a word that
    stays as it is.
    """

    good: str
    decimals: Optional[int] = None
    smallest: int = 0
    largest: int = 0
    stays: bool = False

    def faults(self):
        """Returns texts that are refused, and their kinds: what is checked first, and what last."""
        if self.stays:
            return []
        if self.decimals is None:
            return [("?", "Name")]
        return [("x", "Number"), (formatted(self.largest + 1, self.decimals), "Range")]

    def spellings(self):
        """Returns other formats of numbers, each once, with its number, or with None and the kind of its fault."""
        seen = {self.good}
        for text, number, kind in self.all_spellings() if self.decimals is not None else []:
            if text not in seen:
                seen.add(text)
                yield text, number, kind

    def past(self):
        """Returns numbers outside the range that a counter with this number of bits would read as one of the range, whether it counts
        the last decimals or millionths."""
        for bits, unit in itertools.product((8, 16, 32, 64, 128), (0, 6 - self.decimals)):
            step = 2 ** (bits - unit)
            if self.smallest + step > self.largest:
                yield self.smallest + step
            if self.largest - step < self.smallest:
                yield self.largest - step

    def all_spellings(self):
        """The same, some of them more than once."""
        smallest, largest, decimals = self.smallest, self.largest, self.decimals
        point = "" if decimals else "."
        for number in sorted({smallest, min(smallest + 1, largest), max(largest - 1, smallest), largest}):
            yield formatted(number, decimals), number, None
        yield formatted(largest, decimals) + point + "000", largest, None
        yield formatted(smallest, decimals, "00"), smallest, None
        yield formatted(largest, decimals, "0" * 120), largest, None
        yield ("+" if largest >= 0 else "") + formatted(largest, decimals), largest, None
        if smallest <= 0 <= largest:
            yield "-0", 0, None
            yield "-0.00000", 0, None
            yield ".0", 0, None
        elif not decimals:
            yield ".1", None, "TooFine"
        if largest >= 10**decimals:
            yield str(largest // 10**decimals) + ".", largest // 10**decimals * 10**decimals, None
        for number in [smallest - 1, largest + 1, -(10**40), 10**40, *self.past()]:
            yield formatted(number, decimals), None, "Range"
        # just outside the range in other formats
        for number in (smallest - 1, largest + 1):
            yield formatted(number, decimals, "0") + point + "00", None, "Range"
        if largest > 0 and -largest < smallest:
            yield formatted(-largest, decimals), None, "Range"
        for number in sorted({smallest - 1, smallest, max(0, smallest), largest, largest + 1}):
            yield formatted(number, decimals) + point + "1", None, "TooFine"
        yield formatted(largest, decimals) + point + "0000001", None, "TooFine"
        # also if zeros follow the digit that is too fine
        yield formatted(smallest, decimals) + point + "10", None, "TooFine"
        yield formatted(largest, decimals) + point + "0" * 40 + "500", None, "TooFine"
        yield formatted(smallest, decimals) + point + "0" * 120 + "1", None, "TooFine"
        digits = [formatted(smallest, decimals) + point + "1", formatted(largest + 1, decimals)]
        for text in ["x", "1e0", "-", "+-1", "0,5", digits[0] + "x", digits[1] + "x"]:
            yield text, None, "Number"


def formatted(number, decimals, prefix=""):
    """Returns a number in units of the last of these decimals, with all of them, after this prefix."""
    digits = f"{abs(number):0{decimals + 1}d}"
    whole, fraction = (digits[:-decimals], "." + digits[-decimals:]) if decimals else (digits, "")
    return ("-" if number < 0 else "") + prefix + whole + fraction


def shortest(number, decimals):
    """Returns the shortest text of a number in units of the last of these decimals."""
    text = formatted(number, decimals)
    return text.rstrip("0").rstrip(".") if decimals else text


# Numbers of 3 and of 6 decimals that floating point makes one less when it truncates.
CUT = {3: (1_001, 2_002, 1_023), 6: (249, 1_000_249, 983)}


def unusual(number, decimals):
    """Yields formats, except the shortest, of a number from 0 on in units of the last of these decimals.
    """
    whole = shortest(number, decimals)
    point = "" if "." in whole else "."
    texts = ["0" + whole, "0" * 20 + whole, "+" + whole, "+00" + whole + point + "000"]
    texts += [whole + point + "0" * zeros for zeros in (1, 4, 7, 40, 1_100)]
    if point:
        texts.append(whole + point)
    if whole.startswith("0."):
        texts.append(whole[1:])
    return texts + ["-0", "-.0", "000", "-0.000"] * (number == 0)


def with_cell(cells, at, text):
    """Returns the valid cells, except one."""
    return [text if place == at else cell.good for place, cell in enumerate(cells)]


def record_of(texts):
    """A record of these cells, quoted where they have a comma."""
    return ",".join(f'"{text}"' if "," in text else text for text in texts)


def pairs_of_faults(cells):
    """Yields cells of which two are refused, and the kind of the left one, if the two kinds show which it was."""
    for left, right in itertools.combinations(range(len(cells)), 2):
        pairs = itertools.product(cells[left].faults(), cells[right].faults())
        for (text, kind), (other, other_kind) in pairs:
            if kind != other_kind:
                both = with_cell(cells, left, text)
                both[right] = other
                yield both, kind


# Two kinds of a number's fault, of which one is TooFine, in each order.
WITH_TOO_FINE = [("Number", "TooFine"), ("TooFine", "Range"), ("Range", "TooFine"), ("TooFine", "Number")]


def invalid_text(cell, kind):
    """A text that has this fault in a cell of a number."""
    if kind == "Number":
        return "x"
    if kind == "Range":
        return formatted(cell.largest + 1, cell.decimals)
    return formatted(cell.largest, cell.decimals) + ("" if cell.decimals else ".") + "1"


def two_kinds_of_faults(cells):
    """Yields cells of which two numbers are refused, each two of them with the next two kinds, and the kind of the left one."""
    numbers = [place for place, cell in enumerate(cells) if cell.decimals is not None]
    for (left, right), (kind, other) in zip(itertools.combinations(numbers, 2), itertools.cycle(WITH_TOO_FINE)):
        both = with_cell(cells, left, invalid_text(cells[left], kind))
        both[right] = invalid_text(cells[right], other)
        yield both, kind


def bytes_about_a_name():
    """Yields names with each byte within, before and after, and whether the name is valid."""
    for byte in EVERY_BYTE:
        yield b"a" + byte + b"b", byte in NAME_BYTES
        yield byte + b"c", byte in NAME_BYTES + BLANKS
        yield b"de" + byte, byte in NAME_BYTES + BLANKS


def quoted(cell):
    """A cell of any bytes, as a record has it."""
    return b'"' + cell.replace(b'"', b'""') + b'"'
