"""Bounds of CPIT and PCPSP with their certificates: compared with HiGHS, and wrong ones
rejected."""
import itertools
import json
import os
import zipfile
from dataclasses import replace
from fractions import Fraction
from pathlib import Path

import numpy as np
import pytest
from scipy import sparse

import mines
from pit_tools.cli import main
from pit_tools.deposits import library
from pit_tools.instances.arrays import Limit, Problem, Uses
from pit_tools.instances.files import read_instance
from pit_tools.pits import compiled
from pit_tools.pits.closure import fewer_arcs
from pit_tools.schedules import certificates
from pit_tools.schedules.bounds import bounds_of, certified
from pit_tools.schedules.certificates import (Factors, NotProved, check, evaluated, scaled_up,
                                               bound_text, total)
from pit_tools.schedules.lagrangian import Search
from pit_tools.schedules.programs import _solved, program_of
from pit_tools.texts.number_texts import multiples_of

pytestmark = pytest.mark.skipif(compiled.compiler() is None, reason="no C++ compiler is here")


def by_highs(problem, precedence):
    """Returns the value of the relaxation, None if limits cannot be met."""
    return _solved(program_of(problem, precedence, relaxed=True), None, 0.0, None).value


def random_problem(seed, blocks=7, lower=True):
    """A small CPIT or PCPSP and its arcs. Limits are met if nothing is mined, except lower
    ends."""
    random = np.random.default_rng(seed)
    periods, resources = int(random.integers(1, 5)), int(random.integers(0, 3))
    destinations = int(random.integers(1, 4))
    values = random.integers(-900, 1000, (blocks, destinations)) / 10 ** random.integers(0, 3)
    block, destination, resource = np.nonzero(
        random.random((blocks, destinations, resources)) < 0.8)
    amounts = random.integers(0, 60, len(block)) / 10 ** random.integers(0, 4)
    limits = []
    for which, period in itertools.product(range(resources), range(periods)):
        letter = random.choice(["L", "L", "I", "G", "none"] if lower else ["L", "none"])
        capacity = float(np.round(amounts.sum() * random.random() / 3, 3))
        ends = {"I": [capacity / 4, capacity], "G": [capacity / 9], "L": [capacity]}.get(letter)
        if ends:
            limits.append(Limit.of(which, period, letter, list(np.round(ends, 3))))
    uses = Uses(block.astype(np.int32), destination.astype(np.int8), resource.astype(np.int8),
                amounts)
    arcs = sparse.csr_matrix((np.triu(random.random((blocks, blocks)) < 0.3, 1)).astype(np.int8))
    rate = float(random.choice([0, 0.08, 0.333333, 1]))
    return Problem("PCPSP" if destinations > 1 else "CPIT", "few", periods, resources, rate, values,
                   uses, limits), arcs


def random_certificate(seed, problem, arcs):
    """Any prices and flows, which prove some bound."""
    random = np.random.default_rng(seed)
    one = certified(problem, arcs)
    prices = [[int(random.integers(0, 2**48)) if np.isfinite(end) else 0 for end in ends]
              for ends in zip(*((limit.most, limit.least) for limit in problem.limits))] or [[], []]
    counts = [int(random.integers(0, arcs.nnz + 1)) for _ in range(problem.periods)]
    later = [int(random.integers(0, 4)) * (period + 1 < problem.periods)
             for period in range(problem.periods)]
    return replace(one, most=tuple(prices[0]), least=tuple(prices[1]), bits=8,
                   arcs=[random.integers(0, arcs.nnz, count) for count in counts],
                   flows=[random.integers(0, 10**6, count) for count in counts],
                   later=[random.integers(0, len(problem.values), count) for count in later],
                   later_flows=[random.integers(0, 10**6, count) for count in later])


# Compared with HiGHS


@pytest.mark.parametrize("deposit", library.DEPOSITS, ids=lambda deposit: deposit.name)
def test_bounds_of_the_library_are_those_of_highs(tmp_path, deposit):
    mine = library.make(deposit, str(tmp_path))
    for problem in (mine.cpit, mine.pcpsp):
        value = by_highs(problem, mine.precedence)
        one = certified(problem, mine.precedence)
        bound = check(one, problem, mine.precedence)
        assert -1e-9 * value <= bound - Fraction(value) <= 3e-9 * value


@pytest.mark.parametrize("seed", range(120))
def test_bounds_of_a_few_blocks_are_those_of_highs(seed):
    problem, arcs = random_problem(seed)
    value = by_highs(problem, arcs)
    bound = check(certified(problem, arcs), problem, arcs)
    if value is None:
        return  # limits cannot be met, so that each bound is true
    assert -1e-6 <= bound - Fraction(value) <= 1e-6 * max(1, abs(value))


@pytest.mark.parametrize("seed", range(150))
def test_any_prices_and_flows_prove_a_bound(seed):
    """The value that the check returns for a certificate is never below the worth of a
    schedule."""
    problem, arcs = random_problem(seed, blocks=5, lower=seed % 2 == 0)
    value = by_highs(problem, arcs)
    if value is None or not arcs.nnz:
        return
    one = random_certificate(seed, problem, arcs)
    bound, pits = evaluated(one, problem, arcs)
    assert replace(one, bound=bound).value(problem) >= Fraction(value) - Fraction(1, 10**6)
    assert pits <= bound
    with pytest.raises(NotProved):
        check(replace(one, bound=bound - 1), problem, arcs)


def test_two_destinations_and_two_resources_of_a_larger_deposit(tmp_path):
    """Limits of both resources, from below too, as `deposit` has them."""
    base = mines.deposit(tmp_path, 3, (14, 10, 8))
    mine = read_instance(base)
    fewer = fewer_arcs(mine.precedence)
    for problem in (mine.cpit, mine.pcpsp):
        value = by_highs(problem, fewer)
        found = Search(problem, fewer).run()
        assert found.bound == pytest.approx(value, rel=1e-8) == found.below
        bound = check(certified(problem, mine.precedence), problem, mine.precedence)
        assert -1e-9 * value <= bound - Fraction(value) <= 1e-8 * value


def test_bounds_of_large_instances_are_proved_ones(tmp_path, monkeypatch):
    mine = read_instance(mines.deposit(tmp_path, 4))
    by_program = bounds_of(mine)
    monkeypatch.setattr("pit_tools.schedules.bounds.MOST_OF_HIGHS", 0)
    proved = bounds_of(mine)
    assert list(proved) == list(by_program)
    for name, value in by_program.items():
        assert value - 1e-4 <= proved[name] <= value + 0.02


def test_a_search_whose_time_is_up_proves_a_bound_above_that_of_highs(tmp_path):
    mine = read_instance(mines.deposit(tmp_path, 4, (12, 9, 6)))
    for problem in (mine.cpit, mine.pcpsp):
        cut = check(certified(problem, mine.precedence, 1e-9), problem, mine.precedence)
        best = check(certified(problem, mine.precedence), problem, mine.precedence)
        assert cut >= best
        assert bound_text(check(certified(problem, mine.precedence, 60.0), problem, mine.precedence)) \
            == bound_text(best)


@pytest.mark.parametrize("change", [
    lambda one: replace(one, values=-np.abs(one.values) - 1),
    lambda one: replace(one, limits=[]),
    lambda one: replace(one, uses=Uses(*(part[:0] for part in vars(one.uses).values()))),
    lambda one: replace(one, periods=1, limits=[limit for limit in one.limits
                                                if limit.period == 0]),
])
def test_instances_without_value_limits_uses_or_later_periods(change):
    for seed in range(8):
        problem, arcs = random_problem(seed, lower=False)
        problem = change(problem)
        bound = check(certified(problem, arcs), problem, arcs)
        assert abs(bound - Fraction(by_highs(problem, arcs))) <= 1e-6


def test_a_hundred_periods_end_in_time():
    random = np.random.default_rng(1)
    blocks, periods = 400, 100
    values = random.integers(-1000, 1100, (blocks, 2)).astype(float)
    uses = Uses(np.repeat(np.arange(blocks), 2).astype(np.int32),
                np.tile(np.arange(2), blocks).astype(np.int8), np.zeros(2 * blocks, np.int8),
                np.tile([1.0, 2.0], blocks))
    problem = Problem("PCPSP", "long", periods, 1, 0.01, values, uses,
                      [Limit.of(0, period, "L", [5.0]) for period in range(periods)])
    arcs = sparse.csr_matrix(np.triu(random.random((blocks, blocks)) < 0.01, 1).astype(np.int8))
    bound = check(certified(problem, arcs, 5.0), problem, arcs)
    assert 0 < bound < values.max(axis=1).clip(0).sum()


# Wrong certificates


@pytest.fixture(name="proved", scope="module")
def fixture_proved(tmp_path_factory):
    """An instance, and its certificate for the PCPSP. Limits are so tight that pits of periods
    are not nested by themselves: there are flows from a period to the next."""
    mine = read_instance(mines.deposit(tmp_path_factory.mktemp("mine"), 1, (10, 8, 6), "pipe"))
    limits = [Limit.of(limit.resource, limit.period, "L", [limit.most / (1 + limit.resource)])
              for limit in mine.pcpsp.limits]
    mine = replace(mine, pcpsp=replace(mine.pcpsp, limits=limits))
    return mine, certified(mine.pcpsp, mine.precedence)


def changed(lists, period, at, number):
    """Lists of periods with one number of one changed."""
    lists = [part.copy() for part in lists]
    lists[period][at] += number
    return lists


WRONG = {
    "bound-below": (lambda one: replace(one, bound=one.bound - 1), "but it claims"),
    "bound-above": (lambda one: replace(one, bound=one.bound + 1), "but it claims"),
    "price-smaller": (lambda one: replace(one, most=(one.most[0] * 99 // 100, *one.most[1:])),
                      "but it claims"),
    "price-larger": (lambda one: replace(one, most=(one.most[0] * 101 // 100, *one.most[1:])),
                     "but it claims"),
    "price-below-0": (lambda one: replace(one, most=(-1, *one.most[1:])), "a price is below 0"),
    "price-of-no-end": (lambda one: replace(one, least=(1, *one.least[1:])),
                        "without a lower end has a price"),
    "price-missing": (lambda one: replace(one, most=one.most[1:]), "other limits"),
    "price-huge": (lambda one: replace(one, most=(2**120, *one.most[1:])), "too large"),
    "pit-smaller": (lambda one: replace(one, first=np.where(
        one.first == one.first.max(), 0, one.first)), "miss predecessors"),
    "pit-empty": (lambda one: replace(one, first=np.full_like(one.first, 4)), "its pits are worth"),
    "pit-of-fewer": (lambda one: replace(one, first=one.first[1:]), "number of blocks"),
    "flow-larger": (lambda one: replace(one, flows=changed(one.flows, 0, 0, 10**9)), "it claims"),
    "flow-below-0": (lambda one: replace(one, flows=changed(one.flows, 1, 0, -10**15)),
                     "a flow is below 0"),
    "flow-huge": (lambda one: replace(one, flows=[np.full_like(part, 2**62)
                                                  for part in one.flows]), "too large"),
    "flow-elsewhere": (lambda one: replace(one, arcs=changed(one.arcs, 0, -1, 1)), "."),
    "arc-beyond": (lambda one: replace(one, arcs=changed(one.arcs, 2, 0, 10**6)), "does not exist"),
    "arc-before": (lambda one: replace(one, arcs=changed(one.arcs, 2, 0, -10**6)), "does not exist"),
    "later-beyond": (lambda one: replace(one, later=[np.full_like(part, 10**6)
                                                     for part in one.later]), "does not exist"),
    "flow-from-the-end": (lambda one: replace(one, later=[*one.later[:-1], np.array([0])],
                                              later_flows=[*one.later_flows[:-1], np.array([1])]),
                          "leaves the last period"),
    "no-flows": (lambda one: replace(one, arcs=[part[:0] for part in one.arcs],
                                     flows=[part[:0] for part in one.flows]), "it claims"),
    "flows-missing": (lambda one: replace(one, flows=[part[1:] for part in one.flows]),
                      "differ in number"),
    "period-missing": (lambda one: replace(one, arcs=one.arcs[1:]), "number of periods"),
    "other-units": (lambda one: replace(one, bits=one.bits + 1), "it claims"),
    "no-units": (lambda one: replace(one, bits=-1), "units"),
    "other-kind": (lambda one: replace(one, kind="CPIT"), "for a CPIT"),
    "other-sums": (lambda one: replace(one, sums=("a", "c")), "of other files"),
}


@pytest.mark.parametrize("wrong", WRONG)
def test_a_wrong_certificate_is_rejected(proved, wrong):
    mine, right = proved
    right = replace(right, sums=("a", "b"))
    assert sum(map(len, right.later)) and sum(map(len, right.arcs))
    check(right, mine.pcpsp, mine.precedence, ("a", "b"))
    change, message = WRONG[wrong]
    with pytest.raises(NotProved, match=message):
        check(change(right), mine.pcpsp, mine.precedence, ("a", "b"))


def test_a_certificate_of_another_instance_is_rejected(proved):
    """Another value, use, limit, rate or arc makes it another instance."""
    mine, one = proved
    problem, arcs = mine.pcpsp, mine.precedence
    in_pit = int(np.flatnonzero(one.first == 0)[0])
    values, amount = problem.values.copy(), problem.uses.amount.copy()
    values[in_pit] += 0.01
    amount[problem.uses.block == in_pit] += 1
    first, *limits = problem.limits
    for other in (replace(problem, values=values),
                  replace(problem, uses=replace(problem.uses, amount=amount)),
                  replace(problem, rate=0.079999),
                  replace(problem, limits=[replace(first, most=first.most + 1), *limits])):
        with pytest.raises(NotProved):
            check(one, other, arcs)
    with pytest.raises(NotProved):
        check(one, problem, arcs[::-1][:, ::-1].tocsr())


def test_more_resources_than_files_have_are_rejected(proved):
    """Their products together would go beyond 64 bits."""
    mine, one = proved
    with pytest.raises(NotProved, match="more than 8 resources"):
        check(one, replace(mine.pcpsp, resources=9), mine.precedence)


@pytest.mark.parametrize("seed", range(30))
def test_sums_and_products_are_exact(seed):
    random = np.random.default_rng(seed)
    numbers = random.integers(-2**53, 2**53, 50)
    factor, shift = int(random.integers(0, 2**62)) - 2**61, int(random.integers(58, 66))
    wanted = [-(-int(number) * factor >> shift) for number in numbers]
    assert scaled_up(numbers, factor, shift).tolist() == wanted
    assert scaled_up(numbers, 3, 1).tolist() == [-(-int(number) * 3 >> 1) for number in numbers]
    great = random.integers(-2**62, 2**62, 1000)
    assert total(great) == sum(map(int, great))


@pytest.mark.parametrize("seed", range(20))
def test_factors_are_rounded_up_and_by_less_than_a_unit_each(seed):
    problem, _ = random_problem(seed, blocks=4)
    random = np.random.default_rng(seed)
    most, least = (tuple(int(random.integers(0, 2**40)) if np.isfinite(end) else 0 for end in ends)
                   for ends in ([limit.most for limit in problem.limits],
                                [limit.least for limit in problem.limits]))
    factors = Factors(problem, 3, most, least)
    unit = Fraction(1, 10**multiples_of(problem.values)[1] * 2**3)
    price = unit / 2**32 * 10**multiples_of(problem.uses.amount, range(7))[1]
    after = [Fraction(0)] * 4
    paid = sum((upper * Fraction(str(limit.most)) if upper else 0)
               - (lower * Fraction(str(limit.least)) if lower else 0)
               for limit, upper, lower in zip(problem.limits, most, least)) * price / unit
    assert paid <= factors.paid < paid + 1
    for period, counts in reversed(list(enumerate(factors.by_period()))):
        now = []
        for block in range(4):
            each = [Fraction(repr(value)) / (1 + Fraction(repr(problem.rate)))**period
                    for value in problem.values[block].tolist()]
            for limit, upper, lower in zip(problem.limits, most, least):
                uses = problem.use_matrix(limit.resource)[block].toarray()[0]
                if limit.period == period:
                    each = [one - (upper - lower) * price * Fraction(repr(use))
                            for one, use in zip(each, uses.tolist())]
            now.append(max(each) / unit)
        for count, one, other in zip(counts.tolist(), now, after):
            assert one - other - problem.resources - 1 < count < one - other + problem.resources + 1
        mined = factors._mined_in(period)
        assert all(0 <= count - one < problem.resources + 1
                   for count, one in zip(mined.tolist(), now))
        after = now


@pytest.mark.parametrize("sign", [1, -1])
def test_discounts_are_rounded_so_that_no_factor_becomes_smaller(sign):
    """Values whose factor is so close to an integer unit that 64 bits of the discount decide."""
    bits, numerator, denominator = 3, 10**18, 1333333**3
    numbers = [2**52 + at for at in range(200_000)]
    close = [number for number in numbers
             if 0 < sign * number * 2**bits * numerator % denominator < denominator >> 15]
    assert close
    values = np.array(close[:9]) * sign / 100
    problem = Problem("CPIT", "close", 4, 0, 0.333333, values[:, None],
                      Uses(*(np.empty(0, kind) for kind in (np.int32, np.int8, np.int8, float))))
    counts = Factors(problem, bits, (), ())._mined_in(3)
    for count, number in zip(counts.tolist(), close):
        assert count * denominator >= sign * number * 2**bits * numerator


@pytest.mark.parametrize("value, text", [(Fraction(5, 3), "1.67"), (Fraction(-5, 3), "-1.66"),
                                         (Fraction(1, 100), "0.01"), (Fraction(-1, 1000), "0.00"),
                                         (Fraction(1, 10**9), "0.01"), (Fraction(12), "12.00")])
def test_bounds_are_rounded_up(value, text):
    assert bound_text(value) == text


# The command


def printed(capsys):
    return [line.rsplit(maxsplit=1) for line in capsys.readouterr().out.splitlines()]


def test_the_command_writes_and_checks(tmp_path, capsys):
    base = mines.deposit(tmp_path, 2)
    assert main(["bounds", base, "--out", base + ".bound"]) == 0
    names, values = zip(*printed(capsys))
    assert main(["bounds", base]) == 0
    for name, value, by_program in zip(names, values, printed(capsys)):
        assert name == by_program[0] and 0 <= float(value) - float(by_program[1]) <= 0.0101
    assert main(["bounds", base, "--check", base + ".bound"]) == 0
    assert printed(capsys) == [list(pair) for pair in zip(names[2:], values[2:])]
    archive = np.load(base + ".bound")
    header = json.loads(archive["PCPSP-header"].tobytes())
    assert header["form"] == "pit-tools bound 1" and len(header["most"]) == 8
    assert archive["PCPSP-first"].max() == 4 and len(archive["PCPSP-arcs"]) == sum(header["arcs"])


def test_the_command_rejects_certificates_of_other_files(tmp_path, capsys):
    base, other = mines.deposit(tmp_path, 2), mines.deposit(tmp_path, 5, name="other")
    assert main(["bounds", base, "--out", base + ".bound"]) == 0
    Path(base + ".copy").write_bytes(Path(base + ".prec").read_bytes() + b"% a remark\n")
    capsys.readouterr()
    for words in ([other], [base, "--prec", base + ".copy"]):
        assert main(["bounds", *words, "--check", base + ".bound"]) == 1
        assert "sums are of other files" in capsys.readouterr().out
    kept = Path(base + ".bound").read_bytes()
    for size in (0, 1, 100, len(kept) // 2, len(kept) - 1):
        Path(base + ".bound").write_bytes(kept[:size])
        assert main(["bounds", base, "--check", base + ".bound"]) == 2
        assert "certificates" in capsys.readouterr().err
    Path(base + ".bound").write_bytes(kept)
    assert main(["bounds", base, "--out", base + ".prec"]) == 2
    assert main(["bounds", base, "--check", base + ".bound"]) == 0


@pytest.mark.parametrize("name, content", [
    ("CPIT-first.npy", b""), ("CPIT-first.npy", b"no array"),
    ("CPIT-flows.npy", 10**7), ("CPIT-header.npy", b"{}"), ("CPIT-header.npy", b"[" * 10**5),
    ("CPIT-header.npy", b'{"form": 1}'), ("CPIT-arcs.npy", 3), ("CPIT-header.npy", None),
    ("CPIT-later.npy", None)])
def test_files_that_are_no_certificates_are_rejected(tmp_path, capsys, name, content):
    """Members that are damaged, too long, of another form, or missing."""
    base = mines.six_blocks(tmp_path)
    assert main(["bounds", base, "--out", base + ".bound"]) == 0
    with zipfile.ZipFile(base + ".bound") as archive:
        parts = {one: archive.read(one) for one in archive.namelist()}
    if isinstance(content, int):
        np.save(tmp_path / "array.npy", np.zeros(content, np.int64))
        content = (tmp_path / "array.npy").read_bytes()
    elif content and name == "CPIT-header.npy":
        np.save(tmp_path / "array.npy", np.frombuffer(content, "u1"))
        content = (tmp_path / "array.npy").read_bytes()
    with zipfile.ZipFile(base + ".wrong", "w") as archive:
        for one, part in {**parts, name: content}.items():
            if part is not None and not (content is None and one.startswith("PCPSP")):
                archive.writestr(one, part)
    assert main(["bounds", base, "--check", base + ".wrong"]) == 2
    assert "certificates" in capsys.readouterr().err


def test_certificates_that_would_not_end_or_not_be_reported_are_rejected(tmp_path, capsys):
    """A device without an end, a pipe, members packed in another form, and numbers of any size."""
    base = mines.six_blocks(tmp_path)
    assert main(["bounds", base, "--out", base + ".bound"]) == 0
    with zipfile.ZipFile(base + ".bound") as archive:
        parts = {one: archive.read(one) for one in archive.namelist()}
    os.mkfifo(tmp_path / "pipe")
    with zipfile.ZipFile(tmp_path / "lzma", "w", zipfile.ZIP_LZMA) as archive:
        for name, part in parts.items():
            archive.writestr(name, part)
    header = json.loads(np.load(base + ".bound")["CPIT-header"].tobytes())
    header["bound"] = 10**4000
    np.save(tmp_path / "array.npy", np.frombuffer(json.dumps(header).encode(), "u1"))
    with zipfile.ZipFile(tmp_path / "large", "w") as archive:
        for name, part in parts.items():
            archive.writestr(name, (tmp_path / "array.npy").read_bytes()
                             if name == "CPIT-header.npy" else part)
    for path, message in (("/dev/zero", "give the file that --out wrote"),
                          (str(tmp_path / "pipe"), "give the file"),
                          (str(tmp_path / "lzma"), "packed in another form"),
                          (str(tmp_path / "large"), "a number is too large")):
        capsys.readouterr()
        assert main(["bounds", base, "--check", path]) == 2
        error = capsys.readouterr().err
        assert path in error and message in error and len(error) < 300 + len(path)


def test_the_bound_of_the_six_blocks_by_the_command(tmp_path, capsys):
    base = mines.six_blocks(tmp_path)
    assert main(["bounds", base]) == 0
    by_program = printed(capsys)
    assert main(["bounds", base, "--out", base + ".bound", "--seconds", "0"]) == 0
    for (name, value), (other, bound) in zip(by_program, printed(capsys)):
        assert name == other and 0 <= float(bound) - float(value) <= 0.0101
