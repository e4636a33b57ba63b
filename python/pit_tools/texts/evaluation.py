"""Computes the values of a formula's code for the rows of a table, by numpy: each step of the code
is interpreted, and none is run."""
from __future__ import annotations

import ast
import operator
import re
import unicodedata
from functools import reduce
from typing import Any, Callable, Mapping

import numpy as np
import pandas as pd

FUNCTIONS: dict[str, Callable[..., Any]] = {
    "sqrt": np.sqrt, "abs": np.abs, "exp": np.exp, "log": np.log, "log10": np.log10,
    "floor": np.floor, "ceil": np.ceil, "sin": np.sin, "cos": np.cos, "min": np.fmin,
    "max": np.fmax}

# How many arguments a function has.
ARGUMENTS = {**dict.fromkeys(FUNCTIONS, 1), "min": 2, "max": 2, "where": 3, "missing": 1}

OPERATORS = {ast.Add: operator.add, ast.Sub: operator.sub, ast.Mult: operator.mul,
             ast.Div: operator.truediv, ast.FloorDiv: operator.floordiv, ast.Mod: operator.mod,
             ast.Pow: operator.pow}

COMPARISONS = {ast.Lt: operator.lt, ast.LtE: operator.le, ast.Gt: operator.gt, ast.GtE: operator.ge,
               ast.Eq: operator.eq, ast.NotEq: operator.ne}


# Characters of a text that is composed: the library's time grows with their square.
MOST_COMPOSED = 200


def composed(text: str) -> str:
    """A text with each letter and its accents as one character. A text that is longer than any name
    stays as it is."""
    return unicodedata.normalize("NFC", text) if len(text) <= MOST_COMPOSED else text


def code_name(text: str) -> str:
    """A text as codes are compared: without case and blanks, `10.0` as `10`."""
    folded = " ".join(composed(text).replace("\ufeff", "")
                      .split()).strip("\"'").strip().casefold()
    return re.sub(r"^(-?\d+)\.0+$", r"\1", folded)


def called(node: ast.AST) -> str:
    """Returns the function that a part of the code calls by its name, or an empty text if it calls
    none."""
    return node.func.id if isinstance(node, ast.Call) and isinstance(node.func, ast.Name) else ""


def listed(node: ast.expr) -> list[ast.expr]:
    """Returns the values of a list. Raises TypeError for any other node."""
    if not isinstance(node, (ast.List, ast.Tuple)):
        raise TypeError("`in` needs a list, as ('ORE', 'WASTE')")
    return node.elts


def is_constant(node: ast.AST) -> bool:
    """Returns whether a part of the code has no column."""
    return not any(isinstance(one, ast.Name) and one.id.startswith("_at")
                   for one in ast.walk(node))


class Rows:
    """Columns by their names in code: `known` has NaN for a missing value, `unchanged` the numbers
    unchanged."""

    def __init__(self, known: Mapping[str, np.ndarray],
                 unchanged: Mapping[str, np.ndarray]) -> None:
        self.known, self.unchanged = known, unchanged

    def value(self, node: ast.AST) -> Any:
        """Returns the value of a part of the code: an array, or one number or text."""
        with np.errstate(all="ignore"):
            return self._of(node)

    def summed(self, node: ast.AST) -> tuple[Any, Any]:
        """Returns the same, with missing terms of an outermost sum adding nothing to the others,
        also in a sum that is multiplied with or divided by a number; and a mask of the rows where
        such a term is missing and another is not."""
        if isinstance(node, ast.UnaryOp) and isinstance(node.op, ast.USub):
            found, misses = self.summed(node.operand)
            return -found, misses
        if isinstance(node, ast.BinOp) and isinstance(node.op, (ast.Mult, ast.Div)):
            is_left = not is_constant(node.left)
            if is_constant(node.right) == is_left and (is_left or isinstance(node.op, ast.Mult)):
                found, misses = self.summed(node.left if is_left else node.right)
                with np.errstate(all="ignore"):
                    other = self._of(node.right if is_left else node.left)
                    return OPERATORS[type(node.op)](found, other), misses
        if not isinstance(node, ast.BinOp) or not isinstance(node.op, (ast.Add, ast.Sub)):
            return self.value(node), False
        left, left_misses = self.summed(node.left)
        right, right_misses = self.summed(node.right)
        right = -right if isinstance(node.op, ast.Sub) else right
        misses = left_misses | right_misses
        if is_constant(node.left) or is_constant(node.right):
            return left + right, misses
        left_missing, no_right = np.isnan(left), np.isnan(right)
        return (np.where(left_missing, right, np.where(no_right, left, left + right)),
                misses | (left_missing ^ no_right))

    def holds(self, node: ast.AST) -> np.ndarray:
        """Returns whether a condition holds: numbers are unchanged, except if it asks whether they
        are missing."""
        asked = {one.id for call in ast.walk(node) if called(call) == "missing"
                 for one in ast.walk(call) if isinstance(one, ast.Name)}
        columns = {name: column if name in asked else self.unchanged.get(name, column)
                   for name, column in self.known.items()}
        return np.asarray(Rows(columns, self.unchanged).value(node), bool)

    def _of(self, node: ast.AST) -> Any:
        if isinstance(node, ast.Constant):
            return code_name(node.value) if isinstance(node.value, str) else np.float64(node.value)
        if isinstance(node, ast.Name):
            return self.known[node.id]
        if isinstance(node, ast.UnaryOp):
            value = self._of(node.operand)
            return (~np.asarray(value, bool) if isinstance(node.op, ast.Not) else -value
                    if isinstance(node.op, ast.USub) else value)
        if isinstance(node, ast.BinOp):
            sides = self._of(node.left), self._of(node.right)
            if any(isinstance(side, str) for side in sides):
                raise TypeError("a text is compared with others, but not computed with")
            return OPERATORS[type(node.op)](*sides)
        if isinstance(node, ast.BoolOp):
            holds = [np.asarray(self._of(one), bool) for one in node.values]
            if isinstance(node.op, ast.And):
                return reduce(np.logical_and, holds)
            return reduce(np.logical_or, holds)
        if isinstance(node, ast.Compare):
            return self._compared(node)
        if isinstance(node, ast.IfExp):
            return self._where(node.test, node.body, node.orelse)
        if isinstance(node, ast.Call):
            return self._called(node)
        raise TypeError(f"a formula cannot have {type(node).__name__}")

    def _compared(self, node: ast.Compare) -> Any:
        left = self._of(node.left)
        holds: Any = True
        for sign, side in zip(node.ops, node.comparators):
            if isinstance(sign, (ast.In, ast.NotIn)):
                found = pd.Series(left).isin([self._of(one) for one in listed(side)]).to_numpy()
                return holds & (found if isinstance(sign, ast.In) else ~found)
            right = self._of(side)
            holds, left = holds & np.asarray(COMPARISONS[type(sign)](left, right), bool), right
        return holds

    def _called(self, node: ast.Call) -> Any:
        name = called(node)
        if name == "where":
            return self._where(*node.args)
        if name == "missing":
            return np.isnan(self._of(node.args[0]))
        return FUNCTIONS[name](*map(self._of, node.args))

    def _where(self, test: ast.AST, then: ast.AST, other: ast.AST) -> Any:
        return np.where(self.holds(test), self._of(then), self._of(other))
