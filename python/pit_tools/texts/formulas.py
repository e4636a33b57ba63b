"""Formulas over the columns of a table: `SG*XINC*YINC*ZINC`, `(AU + CU*0.9)`, `CLASS <= 3 and ROCK
!= "AIR"`.

A column's name is written as in its header, in any case, also with blanks and punctuation; the
longest name is used. Other names are written between backquotes. A unit may follow a formula.
`where(CONDITION, THIS, THAT)`, also written as `if(..)`, chooses; its condition sees numbers
unchanged, also -99, and `missing(COLUMN)` is one. `formula_values` computes formulas."""
from __future__ import annotations

import ast
import difflib
import re
from dataclasses import dataclass
from typing import Any, Callable, Container, Optional, Sequence

import numpy as np
import pandas as pd

from pit_tools.errors import UserError
from pit_tools.texts.evaluation import ARGUMENTS, COMPARISONS, OPERATORS, Rows, called, composed

ALLOWED = (ast.Expression, ast.BinOp, ast.UnaryOp, ast.BoolOp, ast.Compare, ast.Name, ast.Load,
           ast.Constant, ast.Call, ast.IfExp, ast.List, ast.Tuple, ast.And, ast.Or, ast.Not,
           ast.USub, ast.UAdd, ast.In, ast.NotIn, *OPERATORS, *COMPARISONS)


# How much of a formula is reported.
MOST_SHOWN = 200

# How long a formula may be, and the names that a name that is missing is compared with.
MOST_TEXT, LIKE = 10_000, 100

# How deep parts of a formula may be nested, as each term of a sum in those before it.
MOST_DEPTH = 200


class MissingColumn(UserError):
    """A formula has a name that is no column."""

    def __init__(self, name: str, names: Sequence[str]) -> None:
        super().__init__(name, names)
        self.name, self.names = name, names
        # how many formulas of a header found all their columns before this one: see source_of
        self.hits, self.hint = 0, ""

    def __str__(self) -> str:
        short = [one for one in self.names if 0 < len(one) <= LIKE]
        near = (difflib.get_close_matches(self.name[:LIKE], short, 1, 0.6)
                or [one for one in short if plain_name(one).startswith(plain_name(self.name))])
        like = f"; is it `{near[0]}`?" if near else ""
        return f"no column `{self.name[:MOST_SHOWN]}`{like}{self.hint}"


def column_name(at: int) -> str:
    """How the column at a place is called in the code of formulas."""
    return f"_at{at}"


def plain_name(text: str) -> str:
    """A column's name as it is compared: without case, quotes and blanks at its ends, line breaks
    as blanks."""
    return " ".join(composed(text).replace("\ufeff", "").split()).strip("\"'").strip().casefold()


def short_name(text: str) -> str:
    """The same without a unit in brackets at its end: `AU (g/t)` is also `au`."""
    return re.sub(r"\s*(\([^()]*\)|\[[^\[\]]*\])$", "", plain_name(text))


def places_of(names: Sequence[str]) -> dict[str, list[int]]:
    """Positions of each name; also of its short form, if no column has that as its name."""
    found: dict[str, list[int]] = {}
    for at, name in enumerate(names):
        if plain_name(name):
            found.setdefault(plain_name(name), []).append(at)
    whole = set(found)
    for at, name in enumerate(names):
        short = short_name(name)
        if short and short not in whole:
            found.setdefault(short, []).append(at)
    return found


@dataclass(frozen=True)
class Formula:
    """A formula whose columns are named _at0, _at1, .. by their places among the columns of the
    table."""

    text: str
    code: str
    columns: tuple[int, ...]

    @property
    def plain_column(self) -> Optional[int]:
        """Returns the column that it is, if it is nothing else."""
        return (self.columns[0]
                if len(self.columns) == 1 and self.code == column_name(self.columns[0]) else None)

    @property
    def divides(self) -> bool:
        """Returns whether it may have no value, as in a division by 0."""
        return any(isinstance(node, (ast.Div, ast.FloorDiv, ast.Mod, ast.Call))
                   for node in ast.walk(ast.parse(self.code, mode="eval")))

    @property
    def texts(self) -> set[int]:
        """The columns that are compared with texts."""
        return number_columns(self)[1]

    @property
    def numbers(self) -> set[int]:
        """The columns that are read as numbers."""
        return number_columns(self)[0]

    @property
    def is_condition(self) -> bool:
        return any(isinstance(node, ast.Compare) or called(node) == "missing"
                   for node in ast.walk(_body(self.code)))

    def value(self, table: pd.DataFrame, unchanged: Optional[pd.DataFrame] = None) -> pd.Series:
        """Returns its values for the rows of a table with its columns _at0, _at1, .. as numbers,
        NaN for a missing one; `unchanged` has them unchanged, for conditions. A missing term of its
        outermost sum adds nothing to the others; if all are missing, so is the sum."""
        return self.summed(table, unchanged)[0]

    def summed(self, table: pd.DataFrame,
               unchanged: Optional[pd.DataFrame] = None) -> tuple[pd.Series, np.ndarray]:
        """Returns the same, and a mask of the rows where a term is missing and another is not,
        bool."""
        def summed(rows: Rows) -> tuple[np.ndarray, Any]:
            found, misses = rows.summed(_body(self.code))
            return np.asarray(found, float), misses
        found, misses = self._computed(summed, table, table if unchanged is None else unchanged)
        return (pd.Series(np.broadcast_to(found, len(table)), index=table.index),
                np.broadcast_to(np.asarray(misses, bool), len(table)))

    def holds(self, table: pd.DataFrame, unchanged: pd.DataFrame) -> Any:
        """Returns whether it holds for each row, as an array; texts of the tables are those of
        `code_name`."""
        return self._computed(lambda rows: rows.holds(_body(self.code)), table, unchanged)

    def _computed(self, of: Callable[[Rows], Any], table: pd.DataFrame,
                  unchanged: pd.DataFrame) -> Any:
        try:
            return of(Rows(*({name: one[name].to_numpy() for name in one}
                             for one in (table, unchanged))))
        except (TypeError, ValueError, AttributeError, OverflowError) as error:
            raise UserError(f"`{self.text[:MOST_SHOWN]}` cannot be computed: "
                            f"{' '.join(str(error).split())}") from None


def _body(code: str) -> ast.expr:
    return ast.parse(code, mode="eval").body


def formula_of(text: str, names: Sequence[str]) -> Formula:
    """Reads a formula over these columns. It raises MissingColumn for an unknown name, UserError
    for a name of two columns and for a text that is not a formula."""
    if len(text) > MOST_TEXT:
        raise UserError(f"`{text[:MOST_SHOWN]}..` has more than {MOST_TEXT:,} characters, so it is "
                        "not a formula")
    places = places_of(names)
    columns: list[int] = []
    lengths = sorted({len(name) for name in places}, reverse=True)
    code, at, folded = "", 0, composed(text)
    low = folded.casefold() if len(folded.casefold()) == len(folded) else folded
    while at < len(folded):
        quote = folded[at]
        if quote in "\"'`" and folded.find(quote, at + 1) > 0:
            end = folded.index(quote, at + 1)
            inner = folded[at + 1:end]
            if quote == "`":
                if plain_name(inner) not in places:
                    raise MissingColumn(inner, names)
                code += _column(plain_name(inner), places, columns)
            else:
                code += folded[at:end + 1]
            at = end + 1
            continue
        name = _name_at(low, at, places, lengths)
        if name:
            code += _column(name, places, columns)
            at += len(name)
            continue
        code += folded[at]
        at += 1
    return Formula(text, _checked(code, text, names), tuple(dict.fromkeys(columns)))


def _name_at(text: str, at: int, names: Container[str], lengths: Sequence[int]) -> Optional[str]:
    """Returns the longest name at this position, if its ends are not inside a longer word."""
    if at and _is_in_word(text[at - 1:at + 1]):
        return None
    for end in (at + length for length in lengths if at + length <= len(text)):
        name = text[at:end]
        if name in names and name.strip("0123456789.") and not _is_in_word(text[end - 1:end + 1]):
            return name
    return None


def _is_in_word(two: str) -> bool:
    """Returns whether two characters both belong to a word."""
    return len(two) == 2 and all(one.isalnum() or one == "_" for one in two)


def _column(name: str, places: dict[str, list[int]], columns: list[int]) -> str:
    if len(places[name]) > 1:
        raise UserError(f"two columns are named `{name}`: rename one of them")
    columns.append(places[name][0])
    return column_name(places[name][0])


def _checked(code: str, text: str, names: Sequence[str]) -> str:
    """Returns the code, if it is a formula over columns only."""
    code = code.strip()
    text = text if len(text) <= MOST_SHOWN else text[:MOST_SHOWN] + ".."
    own = {column_name(at) for at in range(len(names))}
    tree = _tree_of(code) or _tree_of(re.sub(r"\bif\s*\(", "where(", code))
    if tree is None:
        words = [word for word in re.findall(r"[^\W\d]\w*", code)
                 if word not in own and word not in ARGUMENTS and word != "if"]
        if words:
            raise MissingColumn(text.strip() if re.fullmatch(r"[\w ]+", text.strip()) else words[0],
                                names) from None
        raise UserError(f"`{text}` is not a formula")
    if _depth_of(tree) > MOST_DEPTH:
        raise UserError(f"`{text}` has more than {MOST_DEPTH} nested parts: add a column to the "
                        "export in its place")
    calls = {id(node.func) for node in ast.walk(tree) if isinstance(node, ast.Call)}
    for node in ast.walk(tree):
        is_call = isinstance(node, ast.Call)
        if not isinstance(node, ALLOWED) or is_call and not called(node):
            raise UserError(f"`{text}` is not a formula: it may have columns, numbers, + - * / ** "
                            "// %, parentheses and where(CONDITION, THIS, THAT)")
        if isinstance(node, ast.Call):
            _judge_call(node, text)
        if isinstance(node, ast.Name) and id(node) not in calls and node.id not in own:
            raise MissingColumn(node.id, names)
        if (isinstance(node, (ast.List, ast.Tuple))
                and not all(isinstance(one, ast.Constant) for one in node.elts)):
            raise UserError(f"`{text}`: a list may only have numbers or texts")
        if isinstance(node, ast.Constant) and not isinstance(node.value, (int, float, str)):
            raise UserError(f"`{text}` is not a formula: `{node.value}` is not a number")
    return ast.unparse(tree)


def _depth_of(tree: ast.AST) -> int:
    """Returns how deep the parts of the code are nested."""
    depth, level = 0, [tree]
    while level:
        depth, level = depth + 1, [part for node in level for part in ast.iter_child_nodes(node)]
    return depth


def _tree_of(code: str) -> Optional[ast.Expression]:
    try:
        return ast.parse(code, mode="eval")
    except (SyntaxError, ValueError, RecursionError, MemoryError):
        return None


def _judge_call(node: ast.Call, text: str) -> None:
    """Stops at an unknown function, or at wrong arguments."""
    name = called(node)
    if name not in ARGUMENTS:
        raise UserError(f"`{text}`: no function `{name}`: give {', '.join(ARGUMENTS)}")
    if len(node.args) != ARGUMENTS[name] or node.keywords:
        raise UserError(f"`{text}`: {name} has {ARGUMENTS[name]} arguments: where(CONDITION, THIS, "
                        "THAT), missing(COLUMN)")


def number_columns(formula: Formula) -> tuple[set[int], set[int]]:
    """Returns the columns that are read as numbers, and those that are compared with texts. Raises
    UserError if one is both."""
    numbers: set[int] = set()
    texts: set[int] = set()
    nodes = list(ast.walk(_body(formula.code)))
    for node in nodes:
        if isinstance(node, ast.Compare):
            values = [one for side in (node.left, *node.comparators) for one in ast.walk(side)]
            with_text = any(isinstance(one, ast.Constant) and isinstance(one.value, str)
                            for one in values)
            columns = {int(one.id[3:])
                       for one in values if isinstance(one, ast.Name) and one.id.startswith("_at")}
            (texts if with_text else numbers).update(columns)
    for node in nodes:
        if (isinstance(node, ast.Name) and node.id.startswith("_at")
                and int(node.id[3:]) not in texts):
            numbers.add(int(node.id[3:]))
    if numbers & texts:
        raise UserError(f"`{formula.text}` compares a column with numbers and with texts")
    return numbers, texts
