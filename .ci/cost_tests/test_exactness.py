"""Each cost against one that is reckoned anew in fractions, for figures that are drawn: with thirds, and close to halves."""

from __future__ import annotations

import math
from fractions import Fraction
from pathlib import Path
from random import Random

import pytest
from hypothesis import given
from hypothesis import strategies as some

from cost_tests.calling import parts
from cost_tests.days import lay
from costing.making import parted_text
from costing.spilling import mean_of, spilled
from costing.words import Call, Words

PARTS = ("departure", "minutes", "fuel", "fee", "spill")


def decimals(most: int) -> "some.SearchStrategy[Fraction]":
    """Draws numbers to a greatest one, with at most six decimals."""
    places = some.integers(0, 6)
    return some.builds(lambda number, at: Fraction(number % (most * 10**at + 1), 10**at), some.integers(0, most * 10**6), places)


MEANS = some.tuples(decimals(400), some.integers(0, 1000)).map(lambda it: (it[0], it[0] * it[1] / 1000))


@given(MEANS, some.integers(0, 400))
def test_spill_falls_with_seats(law: "tuple[Fraction, Fraction]", seats: int) -> None:
    """One seat more spills fewer passengers, but at most one fewer, and never fewer than the mean is above the seats."""
    mean, sd = law
    less, more = (spilled(mean, sd, Fraction(it)) for it in (seats, seats + 1))
    assert more <= less <= more + 1001
    assert less >= math.floor(1000 * max(mean - seats, Fraction(0)))


@given(some.integers(1, 400), some.integers(0, 500), some.integers(0, 1000))
def test_a_mean_gives_back_what_was_carried(seats: int, thousandths: int, part: int) -> None:
    """Of any mean up to twice the seats as many are carried as are of the mean that this number tells."""
    factor, mean = Fraction(thousandths, 1000), Fraction(2 * seats * part, 1000)
    has = mean - Fraction(spilled(mean, factor * mean, Fraction(seats)), 1000)
    found = mean_of(has, factor, Fraction(seats))
    # The number is known to half a thousandth, so it may lie above what is carried of twice the seats.
    if found is not None:
        again = found - Fraction(spilled(found, factor * found, Fraction(seats)), 1000)
        assert abs(again - has) <= Fraction(2, 1000)


def text(number: Fraction) -> str:
    """Returns a number with six decimals."""
    whole, part = divmod(int(number * 10**6), 10**6)
    return f"{whole}.{part:06}"


# How great each figure may be.
MOST = {
    "mean": 300, "fare": 900, "recapture": 100, "seats": 300, "departure": 9000, "minute": 90, "fuel": 9000, "price": 2000, "fee": 3000, "block": 1438,
}  # fmt: skip


@pytest.mark.parametrize("seed", range(12))
def test_each_cost_is_what_its_figures_say(seed: int, scratch: Path) -> None:
    """Costs of twenty legs, each with a fleet of its own, by fractions, and parts whose sum lies on the same side of each half as they do."""
    draw = Random(seed)
    drawn = [{name: Fraction(draw.randrange(most * 10**at + 1), 10**at) for name, most in MOST.items() for at in [draw.randint(0, 6)]} for _ in range(20)]
    for it in drawn:
        it["block"] = Fraction(int(it["block"]) + 1)
    stations = [f"{a}{b}{c}" for a in "AB" for b in "ABCD" for c in "ABCDE"]
    tables = {
        "legs": ["flight,from,dep,to,arr"], "demand": ["flight,mean,sd,fare,recapture"], "types": ["fleet,seats,departure,minute,fuel,longest,closed"],
        "fuel": ["station,price"], "fees": ["station,fleet,fee"], "fleets": ["fleet,aircraft,turn"],
    }  # fmt: skip
    for at, it in enumerate(drawn):
        start, end = stations[2 * at], stations[2 * at + 1]
        tables["legs"].append(f"FP{at},{start},00:00,{end},{int(it['block']) // 60:02}:{int(it['block']) % 60:02}")
        tables["demand"].append(f"FP{at},{text(it['mean'])},{text(it['mean'] / 4)},{text(it['fare'])},{text(it['recapture'])}")
        tables["types"].append(f"T{at},{text(it['seats'])},{text(it['departure'])},{text(it['minute'])},{text(it['fuel'])},,")
        tables["fuel"].append(f"{start},{text(it['price'])}")
        tables["fees"].append(f"{end},T{at},{text(it['fee'])}")
        tables["fleets"].append(f"T{at},1,30")
    lay(scratch, **{name: "\n".join([*rows, ""]) for name, rows in tables.items()})
    made = Call(Words([str(scratch)])).costs
    (scratch / "costs-parts.csv").write_text(parted_text(made), encoding="ascii")
    told = parts(scratch)
    for at, it in enumerate(drawn):
        own = told[f"FP{at}", f"T{at}"]
        turned_away = Fraction(own["spilled"])
        operating = it["departure"] + it["minute"] * it["block"] + it["fuel"] * it["block"] / 60 * it["price"] / 1000 + it["fee"]
        exact = operating + it["fare"] * (1 - it["recapture"] / 100) * turned_away
        shown = sum((Fraction(own[name]) for name in PARTS), Fraction(0))
        assert made.pairs[f"FP{at}", f"T{at}"].cost == math.floor(exact + Fraction(1, 2)) == math.floor(shown + Fraction(1, 2))
        assert abs(shown - exact) < Fraction(1, 10**6)
