"""Deposits by seed are those in published batches and papers: the sums are of files that
another program with the same rule made, examples/deposit.awk up to version 0.2.0, by mawk."""
import hashlib

import pytest

from pit_tools.cli import main
from pit_tools.deposits.seeded import Deposit
from pit_tools.errors import UserError

SUMS = [(Deposit("d1000000543lens", 1000000, (5, 4, 3), "lens"), "a5a1c4d6a56bc299",
         "f3d98db3b1609857 96c69e872ba8e88e c4940185c1ca45b0"),
        (Deposit("d1001296vein", 100, (12, 9, 6), "vein"), "717651afc6250ea9",
         "1ca2a503b0d48dab 016691612482f497 42e1808d63a2a384"),
        (Deposit("d241812lens"), "b4be8399917ab0f6", "1507c32bdad86da8 52da268dd8363c1b "
         "17af72d6df70bd3b"), (Deposit("d7403020vein", 7, (40, 30, 20), "vein"), "e9b9bfbf84112de9",
                               "5a3b26b54b4b2430 55849162a142e521 556bb122bcf457d5"),
        (Deposit("d913117pipe", 9, (13, 11, 7), "pipe"), "72a9faa2ba6e0a06",
         "5e05e64f5ac61722 b4983fbb6ea462d2 11a90b7630737593")]


def sum_of(text):
    return hashlib.sha256(text.encode()).hexdigest()[:16]


@pytest.mark.parametrize("deposit, plan, zones", SUMS, ids=lambda value: getattr(value, "name", ""))
def test_a_deposit_is_the_same_to_the_byte(deposit, plan, zones):
    assert sum_of(deposit.plan()) == plan
    assert list(map(sum_of, deposit.zone_texts())) == zones.split()


def test_a_span_of_seeds_writes_files_and_a_list(tmp_path):
    words = ["deposit", "--seed", "100-102", "--size", "12,9,6", "--shape", "lens,vein", "--out",
             str(tmp_path), "--list", str(tmp_path / "LIST")]
    assert main(words) == 0
    lines = (tmp_path / "LIST").read_text().splitlines()
    assert (lines[1] == "vein100.plan vein100-oxide.csv vein100-west.csv vein100-east.csv"
            and len(lines) == 6)
    assert all((tmp_path / name).exists() for line in lines for name in line.split())
    assert sum_of((tmp_path / "vein100-west.csv").read_text()) == "016691612482f497"


@pytest.mark.parametrize("wrong", [dict(shape="ball"), dict(seed=0), dict(seed=1000001),
                                   dict(size=(1, 0, 3))])
def test_what_is_no_deposit_is_rejected(wrong):
    with pytest.raises(UserError):
        Deposit(**wrong)


def test_the_command_prints_in_a_line_what_is_wrong(capsys):
    assert main(["deposit", "--seed", "x"]) == 2
    message = capsys.readouterr().err
    assert message.startswith("pit-tools deposit: a seed is an integer") and message.count("\n") == 1
