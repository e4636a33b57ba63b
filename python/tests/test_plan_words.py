"""Plans from arguments: each number is worked out manually in a comment."""
from decimal import Decimal

import pytest

from pit_tools.errors import UserError
from pit_tools.plans.file import Grid, Slope, plan_of
from pit_tools.plans.slopes import degrees_of, slope_of, slopes_of
from pit_tools.plans.words import Explained, Purse, Spoken, plan_from, price_of, sides_of
from pit_tools.texts.units import Measures

GRID = Grid((Decimal(1000), Decimal(2000), Decimal(300)), (Decimal(20), Decimal(20), Decimal(10)))

WORDS = {"name": "deposit", "price": "1,804 USD/oz", "mill": ["recovery 92 %, cost 16.50 USD/t"],
         "leach": ["heap: cost 6.20 USD/t, 30 % from 0.2 g/t, 48 % from 0.6 g/t"],
         "dump": ["cost 1.80 USD/t"], "slope": ["45", "west: E 56.3, W 45, N 51.3, S 51.3"], "K": 9,
         "periods": "4 years", "rate": "8 %",
         "limit": ["crusher: mill heap, at most 2.5 Mt", "fleet: all, 1 Mt to 6 Mt, period 0",
                   "fleet: at most 6.5 Mt, periods 1 to 3"]}


def plan_text(**changed) -> str:
    plan, _ = plan_from(Spoken(**{**WORDS, **changed}), GRID, ["oxide", "west"], 12)
    assert plan_of(plan.text()) == plan
    return plan.text()


def test_a_plan_has_the_numbers_of_its_arguments():
    # 1804 USD for 31.1034768 g are 57.99994.. USD a gram, so 5,799,995 cents a kilogram.
    # tan 56.3 degrees is 1.4994, so 1000 : 667; tan 51.3 is 1.2482, so 1000 : 802 is never steeper.
    assert plan_text() == """name,deposit
grid,1000,2000,300,20,20,10
zone,1,1,9
zone,1000,667,1,1,500,401,500,401,9
mill,mill,920,5799995,1650
leach,heap,5799995,620,0.2,300,0.6,480
dump,dump,180
periods,4
rate,0.08
resource,crusher,mill,heap
resource,fleet,mill,heap,dump
limit,crusher,0,L,2500000
limit,crusher,1,L,2500000
limit,crusher,2,L,2500000
limit,crusher,3,L,2500000
limit,fleet,0,I,1000000,6000000
limit,fleet,1,L,6500000
limit,fleet,2,L,6500000
limit,fleet,3,L,6500000
"""


@pytest.mark.parametrize("text, parts, cents",
                         [("1 USD/oz", 1, 3215), ("100 USD/oz", 1, 321_507),
                          ("1 USD/lb", 100, 22_046), ("4 USD/lb", 1, 882), ("8000 USD/t", 1, 800),
                          ("61 USD/t", 100, 610), ("58 USD/g", 1, 5_800_000),
                          ("1804 USD/oz, payable 99.5 %, selling 45 USD/oz", 1, 5_626_316),
                          ("1000 USD/kg, royalty 3 %", 1, 97_000)])
def test_a_price_is_cents_a_kilogram(text, parts, cents):
    assert price_of(text, parts, Purse()).value == cents


def test_mining_is_added_to_each_cost_and_periods_share_a_year():
    text = plan_text(mining="2 USD/t", periods="8 quarters",
                     limit=["crusher: mill, at most 2.5 Mt a year"])
    assert "mill,mill,920,5799995,1850\n" in text and "dump,dump,380\n" in text
    assert "rate,0.019427\n" in text                   # 1.08 to the power 1/4
    assert text.count("L,625000\n") == 8


def test_a_short_ton_of_rock_is_less_than_a_tonne():
    assert "dump,dump,198\n" in plan_text(dump=["cost 1.80 USD/st"])          # 1.80 / 0.90718474


def test_a_return_brings_what_it_states():
    # A return of 30 a tonne, as grade 30: 1 t has 0.03 kg, which earn 3,000 cents at 100,000
    # cents a kilogram.
    text = plan_text(price="", grade_unit="USD/t", mill=["cost 12 USD/t"], leach=[], limit=[])
    assert "mill,mill,1000,100000,1200\n" in text


def test_a_flat_slope_is_never_steeper_than_its_degrees():
    for degrees in range(1, 90):
        found = degrees_of(slope_of(degrees))
        assert degrees - 0.06 < found <= degrees + 1e-9
    assert slope_of(45) == Slope(1, 1) and slope_of(40) == Slope(839, 1000) and slope_of(
        55) == Slope(1000, 701)
    assert slopes_of("+x 3:2, -x 1:1, N 5:4, south 5:4") == (Slope(3, 2), Slope(1, 1), Slope(5, 4),
                                                             Slope(5, 4))


def test_sectors_of_azimuth_become_the_sides_that_lie_in_them():
    message = Explained()
    four = sides_of("315-45 50, 45-135 40, 135-225 30, 225-315 60", 90, message)
    assert [round(degrees_of(slope)) for slope in four] == [40, 60, 50, 30]
    # The model's +x points to bearing 180, so its +y to 90.
    four = sides_of("315-45 50, 45-135 40, 135-225 30, 225-315 60", 180, message)
    assert [round(degrees_of(slope)) for slope in four] == [30, 50, 40, 60]
    assert not any("border" in note for note in message.notes)
    four = sides_of("0-180 50, 180-360 40", 90, message)
    assert [round(degrees_of(slope)) for slope in four] == [50, 40, 40, 40]
    assert sum("border" in note for note in message.notes) == 2 and not message.warnings


@pytest.mark.parametrize("changed, message", [
    ({"mill": ["recovery 0.92, cost 16.50 USD/t"]}, "give percent"),
    ({"mill": ["recovery 920 %, cost 16.50 USD/t"]}, "not from 0 to 100"),
    ({"mill": ["recovery 92 %, cost 16.50 USD"]}, "give the unit"),
    ({"mill": ["recovery 92 %, cost 16,50 USD/t"]}, "write numbers with a decimal point"),
    ({"price": "1804 USD"}, "give the unit"), ({"price": "61 USD/t"}, "count all money in parts"),
    ({"price": "1804 USD/oz/t"}, "give the unit"),
    ({"leach": ["heap: cost 6 USD/t, 48 % from 0.6 g/t, 30 % from 0.2 g/t"]}, "bands must rise"),
    ({"leach": ["heap: cost 6 USD/t, 0.2 300"]}, "write a band as"),
    ({"slope": ["45", "north: 50"]}, "no zone `north`"),
    ({"slope": ["E 45, W 50"]}, r"no slope for \+y, -y"), ({"slope": ["95"]}, "give 1 to 89"),
    ({"slope": ["0-90 45, 90-180 50"]}, "180 degrees wide"),
    ({"limit": ["crusher: plant, at most 1 Mt"]}, "no destination `plant`"),
    ({"limit": ["crusher: mill, at most 2.5 million"]}, "the unit must be t, kt or Mt"),
    ({"limit": ["crusher: mill, at most 1 Mt", "crusher: at least 0.5 Mt"]}, "give both ends"),
    ({"limit": ["crusher: mill, at most 1 Mt, period 4"]}, "periods are 0 to 3"),
    ({"limit": ["crusher: mill, 2 Mt to 1 Mt"]}, "falls"),
    ({"periods": "16 quarters"}, "in a year or a period"), ({"rate": "0.08"}, "give percent per year"),
    ({"dump": ["mill: cost 1 USD/t"]}, "two destinations `mill`"),
    ({"price": "1804 AUD/oz"},
     "--mill: mill: cost is in USD, but --price in AUD: a plan has one currency"),
    ({"price": "1804 USD/oz, selling 45 AUD/oz"}, "--price: selling is in AUD, but --price in USD"),
    ({"mining": "2 EUR/t"}, "--price is in USD, but --mining in EUR"),
    ({"mining": "1,80 USD/t"}, "`1,80`: write numbers with a decimal point"),
    ({"rate": "8,5 %"}, "`8,5`: write numbers with a decimal point"),
    ({"rate": "8.12345 % a period"}, "percent have at most 4 decimals"),
    ({"price": "9" * 40 + " USD/oz"}, "is too large or too small a number"),
    ({"price": "9" * 14 + " USD/oz"}, "but a plan needs 1 to 100,000,000"),
    ({"mining": "9" * 14 + " USD/t"}, "but a plan needs 0 to 10,000,000"),
    ({"leach": ["heap: cost 6 USD/t, 30.55 % from 0.2 g/t"]}, "a recovery has at most one decimal"),
    ({"limit": ["crusher: mill, at least -1 Mt"]}, "a plan needs 0 to 1,000,000,000,000 t"),
    ({"limit": ["crusher: mill, at most 2000000 Mt"]}, "a plan needs 0 to"),
    ({"periods": "9" * 500}, "give 1 to 100"),
    ({"slope": ["9" * 500 + ":1"]}, "give"),
    ({"periods": "9" * 5000}, "--periods: `9+` has more than 1,000 characters"),
    ({"slope": ["45", "9" * 5000 + ":1"]}, "--slope: `9+` has more than 1,000 characters"),
    ({"price": "", "grade_unit": "USD/t", "mill": ["cost 12 USD/t"], "leach": [], "parts": 10_000},
     "--parts: a return is counted in at most 1/1,000 cents"),
    ({"price": "", "grade_unit": "AUD/t", "mill": ["cost 12 USD/t"], "leach": []},
     "--mill: mill: cost is in USD, but the grade in AUD")])
def test_words_that_cannot_be_right_are_named(changed, message):
    with pytest.raises(UserError, match=message):
        plan_text(**changed)


@pytest.mark.parametrize("changed, message", [
    ({"dump": [], "limit": []}, "there is no dump"),
    ({"mill": ["recovery 92 %, cost 1.50 USD/t"]}, "a tonne costs 1.50 USD at mill, no more than at dump"),
    ({"mill": ["recovery 9.2 %, cost 16.50 USD/t"]}, "mill recovers 9.2 % at most"),
    ({"mill": ["recovery 100 %, cost 16.50 USD/t"]}, "mill recovers 100 %"),
    ({"K": 2}, "K is too small: zone oxide: K = 2 makes a pit of"),
])
def test_what_may_be_wrong_is_reported(changed, message):
    _, explained = plan_from(Spoken(**{**WORDS, **changed}), GRID, ["oxide", "west"], 12)
    assert any(message in doubt for doubt in explained.warnings)
    _, sound = plan_from(Spoken(**{**WORDS, "K": None}), GRID, ["oxide", "west"], 12)
    assert not sound.warnings


def test_a_band_in_ounces_begins_at_a_grade_that_a_plan_takes():
    text = plan_text(leach=["heap: cost 6 USD/t, 30 % from 0.01 oz/st"])
    assert "leach,heap,5799995,600,0.342857,300\n" in text


def test_what_is_taken_without_a_word_is_a_note():
    plan, explained = plan_from(Spoken(**{**WORDS, "rate": "", "periods": "", "limit": []}), GRID,
                                ["oxide", "west"], 12)
    assert (plan.periods, plan.rate) == (1, Decimal("0.08"))
    assert {"--periods was not given: 1 year is used",
            "--rate was not given: 8 % a year is used"} <= set(explained.notes)
    _, sound = plan_from(Spoken(**WORDS), GRID, ["oxide", "west"], 12)
    assert not any("not given" in note for note in sound.notes)


def test_an_ore_in_percent_is_reported_in_percent():
    """A pound is 0.45359237 kg, so 4 USD/lb are 882 cents a kilogram, and 16.50 USD/t are paid by
    1,650 / (0.92 x 882) kg a tonne, 0.2033 %."""
    plan, explained = plan_from(Spoken(**{**WORDS, "price": "4 USD/lb", "grade_unit": "%",
                                          "leach": ["heap: cost 6.20 USD/t, 30 % from 0.2 %"],
                                          "limit": []}), GRID, ["oxide", "west"], 12)
    said = dict(explained.lines)
    assert said["mill,mill,920,882,1650"].endswith("pays from 0.2033 %")
    assert "recovers 30 % from 0.2 %" in said["leach,heap,882,620,2000,300"]
    assert explained.measures == Measures("USD", 1, "%")
