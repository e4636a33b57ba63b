"""What is done once for many rows is what is done for each: numbers of texts that occur many
times, and the lowest and highest block of a column."""
from __future__ import annotations

import numpy as np
import pandas as pd
import pytest

from pit_tools.inventories.rock import column_of_places, ends_of
from pit_tools.texts.decimals import SHOWING, floats_of

TEXTS = ["0.1", "-99", "1e400", "1e0310", "1E3", "x", "", None, "+7.", " 2.5", "0x10", "inf"]


def test_texts_that_occur_many_times_are_the_numbers_of_each():
    random = np.random.default_rng(1)
    many = pd.Series(random.choice(np.array(TEXTS, object), 3 * SHOWING))
    each = dict(zip(TEXTS, floats_of(pd.Series(TEXTS, dtype=object))))
    found = floats_of(many)
    assert np.array_equal(found, [each[text] for text in many], equal_nan=True)
    assert each["1E3"] == 1000 and each["0.1"] == 0.1 and np.isnan(each["x"]) and np.isnan(each[None])


def test_texts_that_differ_after_the_first_ones_are_read():
    many = pd.Series(["5"] * SHOWING + [f"{at}.5" for at in range(SHOWING)])
    assert np.array_equal(floats_of(many), [5.0] * SHOWING + [at + 0.5 for at in range(SHOWING)])


@pytest.mark.parametrize("wide", [7, 5000])
def test_ends_of_columns_are_the_smallest_and_the_largest(wide):
    """Few columns far apart are numbered by sorting, others by a table."""
    random = np.random.default_rng(2)
    x, y, z = random.integers(0, wide, 300), random.integers(0, wide, 300), random.integers(0, 10_000, 300)
    column = column_of_places(x, y)
    floors, tops = ends_of(column, z)
    table = pd.DataFrame({"x": x, "y": y, "z": z, "column": column})
    wanted = table.groupby(["x", "y"]).agg(column=("column", "first"), least=("z", "min"),
                                           most=("z", "max"), numbers=("column", "nunique"))
    assert wanted["numbers"].eq(1).all() and sorted(wanted["column"]) == list(range(len(wanted)))
    assert np.array_equal(floors[wanted["column"]], wanted["least"])
    assert np.array_equal(tops[wanted["column"]], wanted["most"])
