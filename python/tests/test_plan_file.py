"""Plans and zone files, as docs/formats.md has them."""
from decimal import Decimal

import numpy as np
import pandas as pd
import pytest

from pit_tools.errors import UserError
from pit_tools.plans.file import Slope, plan_of
from pit_tools.plans.zone_files import read_zone_file, write_zone_file
from pit_tools.texts.decimals import parts_of, plain, rounded, in_short, texts_of

PLAN = """name,pit
grid,1000.5,2000,-300,20,20,10
zone,1,1,9
zone,3,2,1,1,5,4,4,3,13,,
mill,mill,920,5800000,1650
leach,heap,5800000,620,0.2,300,0.6,480
DUMP, dump ,180

periods,2
rate,0.08
resource,fleet,mill,heap,dump
limit,fleet,0,I,1000,2000.5
limit,fleet,1,L,3000
"""


def test_a_plan_is_read_with_its_units_and_written_as_it_was():
    plan = plan_of(PLAN)
    assert plan.grid.origin == (Decimal("1000.5"), Decimal(2000), Decimal(-300))
    assert plan.grid.volume == 4000
    assert plan.zones[0].slopes == (Slope(1, 1),) * 4
    assert plan.zones[1].slopes == (Slope(3, 2), Slope(1, 1), Slope(5, 4), Slope(4, 3))
    assert [zone.benches for zone in plan.zones] == [9, 13]
    assert [one.kind for one in plan.destinations] == ["mill", "leach", "dump"]
    assert [plan.destinations[1].recovery(Decimal(grade))
            for grade in ("0.1", "0.2", "0.6")] == [0, 300, 480]
    assert plan.destinations[0].break_even == pytest.approx(0.30922, abs=1e-5)
    assert plan.destinations[2].break_even is None
    assert plan.limits_of(0, 0).upper == Decimal("2000.5")
    assert plan.limits_of(0, 1).lower is None
    tidy = PLAN.replace(",,\n", "\n").replace("DUMP, dump ,", "dump,dump,").replace("\n\n", "\n")
    assert plan.text() == tidy


@pytest.mark.parametrize("edit, message", [
    (("zone,1,1,9", "zone,1,1"), "record 3: a zone has p, q, K"),
    (("rate,0.08\n", ""), "record 12: the plan ends without a record rate"),
    (("mill,mill,920", "mill,mill,0.92"), "record 5: `0.92` is not an integer"),
    (("resource,fleet,mill", "resource,fleet,plant"), "`plant` is in no earlier record"),
    (("name,pit", "x,y,z"), "record 1: `x` is not a key of a plan"),
    (("20,20,10", "20,0,10"), "`0`: a size of the grid must be from 0.001 to 100"),
    (("zone,1,1,9", "zone,1,1,99999"), "record 3: `99999`: K must be from 1 to 20"),
    (("dump ,180", "dump ,1e18"), "`1e18` is not a number"),
    (("mill,mill", "mill,a mill"), "record 5: `a mill` is not a name"),
    (("name,pit", "name,pit\nname,pit"), "record 2: `name` appears twice"),
])
def test_a_plan_that_cannot_be_understood_names_its_record(edit, message):
    with pytest.raises(UserError, match=message):
        plan_of(PLAN.replace(*edit))


# If the nearest float is on the other side of the middle, a rounding by floats is wrong.
@pytest.mark.parametrize("text, places, parts",
                         [("0.0005", 3, 1), ("1.0005", 3, 1001), ("2.6745", 3, 2675),
                          ("-0.0005", 3, -1), ("1.005", 2, 101), ("10935.537999900", 3, 10935538),
                          ("999999.9994999999", 3, 999999999), ("0.0000005", 6, 1),
                          ("123456789012.3456785", 6, 123456789012345679), ("+5.", 3, 5000),
                          (".5", 3, 500)])
def test_decimals_are_rounded_as_decimals(text, places, parts):
    assert rounded(text, places) == parts
    found, wrong = parts_of(pd.Series([text]), places)
    assert found.tolist() == [parts] and not wrong.any()


def test_a_number_whose_parts_no_float_holds_is_none_that_is_missing():
    found, wrong = parts_of(pd.Series(["1e306", "-1e306", "1e30", "2"]), 6)
    assert found.tolist() == [10**18, -10**18, 10**18, 2_000_000] and not wrong.any()


def test_what_is_no_number_is_reported():
    found, wrong = parts_of(pd.Series(["1.5", "", None, "n/a", "inf"]), 3)
    assert wrong.tolist() == [False, True, True, True, True]
    assert found[0] == 1500


def test_numbers_are_written_with_their_decimals():
    assert texts_of([0, -1, 2700500, 10 ** 12], 3).tolist() == ["0.000", "-0.001", "2700.500",
                                                                "1000000000.000"]
    assert in_short(2700500, 3) == "2700.5" and in_short(-20000, 3) == "-20"
    assert plain(Decimal("1E+3")) == "1000" and plain(Decimal("-0.0")) == "0"


def test_a_zone_file_is_read_by_names_and_written_back(tmp_path):
    path = tmp_path / "zone.csv"
    path.write_text('rock,Grade,"TONNES",z,y,x\n"ore, '
                    'rich",1.8,2700.0005,-10,0.25,20\nwaste,0,0,0,0,0\n')
    rows = read_zone_file(str(path))
    assert rows.index.tolist() == [2, 3]
    assert rows.iloc[0].to_dict() == {"x": 20000, "y": 250, "z": -10000, "tonnes": 2700001,
                                      "grade": 1800000}
    again = tmp_path / "again.csv"
    write_zone_file(str(again), rows)
    first = again.read_text().splitlines()[1]
    assert first == "20,0.25,-10,2700.001,1.8"
    assert np.array_equal(read_zone_file(str(again)), rows)


@pytest.mark.parametrize("text, message", [
    ("x,y,z,tonnes\n", "no column `grade`"),
    ("x,y,z,tonnes,grade\n0,0,0,1,2\n0,0,0,NA,2\n", "row 3: column tonnes has `NA`"),
    ("x,y,z,tonnes,grade\n0,0,0,1,2\n0,0,0,1,2,3\n", "line 3"),
    ("x,y,z,tonnes,grade\n0,0,0,1,2\n\n0,0,0,1\n", "row 3 has fewer cells"),
])
def test_a_zone_file_that_cannot_be_read_names_its_row(tmp_path, text, message):
    path = tmp_path / "zone.csv"
    path.write_text(text)
    with pytest.raises(UserError, match=message):
        read_zone_file(str(path))
