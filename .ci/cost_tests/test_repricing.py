"""The pairs of a costs.csv, priced anew."""

from fractions import Fraction
from pathlib import Path
from typing import Dict, List, Optional, Sequence

import pytest

from cost_tests.days import COSTS, DAY, lay
from costing.repricing import Scaling, reprice, skips
from fleetplan.errors import Unread

Rows = List[List[str]]


def rows(text: str) -> Rows:
    """Returns the records of a table below its header."""
    return [it.split(",") for it in text.splitlines()[1:]]


LEGS = rows(DAY["legs.csv"])
PAIRS = [[*it.split(","), "0"] for it in COSTS]


def costs(folder: Path, scaling: Scaling, pairs: Sequence[Sequence[str]] = PAIRS, legs: Sequence[Sequence[str]] = LEGS) -> Dict[str, int]:
    """Returns the new cost of each pair."""
    return {f"{flight},{fleet}": int(cost) for flight, fleet, cost in reprice(str(folder), legs, pairs, scaling)}


def scaled(*demand: str, fuel: str = "1", **flights: str) -> Scaling:
    """Returns factors of demand, of each leg and of some, and of fuel."""
    found = Scaling()
    for it in demand:
        found.demand(Fraction(it))
    for flight, factor in flights.items():
        found.demand(Fraction(factor), flight)
    found.fuel(Fraction(fuel))
    return found


def both(found: Dict[str, int]) -> List[int]:
    """Returns what the day costs with the A320 to LHR, and with the E190 to LHR."""
    plans = (["A320", "A320", "E190", "E190"], ["E190", "E190", "A320", "A320"])
    return [sum(found[f"FP{leg},{fleet}"] for leg, fleet in zip("1234", fleets)) for fleets in plans]


def test_the_day_as_it_is(tmp_path: Path) -> None:
    """Without factors each pair has its cost, whatever it had before."""
    assert costs(lay(tmp_path), scaled()) == COSTS
    assert both(COSTS)[0] == 30523


def test_less_demand_changes_who_flies_where(tmp_path: Path) -> None:
    """Without spill, and with four fifths of the demand, the E190 to LHR is the cheaper plan."""
    lay(tmp_path)
    least = [min(both(costs(tmp_path, it))) for it in (scaled("0"), scaled("0.8"))]
    assert least == [28270, 29632]
    assert least == [both(costs(tmp_path, it))[1] for it in (scaled("0"), scaled("0.8"))]


def test_factors_multiply(tmp_path: Path) -> None:
    """A leg has the product of its own factors and of those of each leg, in any order."""
    lay(tmp_path)
    assert costs(tmp_path, scaled("0.8", FP1="1.25")) == {**costs(tmp_path, scaled("0.8")), "FP1,A320": 10870, "FP1,E190": 10816}
    assert costs(tmp_path, scaled("0.4", "2")) == costs(tmp_path, scaled("0.8"))


def test_dearer_fuel(tmp_path: Path) -> None:
    """Half as much again for fuel: FP1 burns 2500 kg an hour for 110 minutes, at 1.2 a kilogram: 5500 in the place of 3666.67."""
    found = costs(lay(tmp_path), scaled(fuel="1.5"))
    assert found["FP1,A320"] == 12703
    assert found["FP3,E190"] == 4915 + 760


def test_any_fraction_is_a_factor(tmp_path: Path) -> None:
    """A seventh of the fuel's price: FP1 burns 3666.67 / 7 = 523.81, so that the cost is 7727.05."""
    assert costs(lay(tmp_path), scaled(fuel="1/7", FP1="2/7"))["FP1,A320"] == 1500 + 4180 + 1400 + 524
    assert costs(tmp_path, scaled(fuel="1/7"))["FP1,A320"] == 7727


def test_no_pair_is_added(tmp_path: Path) -> None:
    """The pairs stay as they are, in their order, also those that types.csv closes."""
    lay(tmp_path, types=DAY["types.csv"].replace("2500,,", "2500,10,LHR"))
    pairs = [["FP4", "E190", "7"], ["FP1", "A320", "-7"]]
    assert reprice(str(tmp_path), LEGS, pairs, scaled()) == [["FP4", "E190", "5184"], ["FP1", "A320", "10870"]]


def test_legs_that_were_changed(tmp_path: Path) -> None:
    """Blocks are those of the records that are given: ten minutes more cost 380 and 333.33."""
    legs = [it if it[0] != "FP1" else ["FP1", "ZRH", "06:00", "LHR", "08:00"] for it in LEGS]
    assert costs(lay(tmp_path), scaled(), legs=legs)["FP1,A320"] == 11583


def test_a_flight_of_several_days(tmp_path: Path) -> None:
    """In a week a name without the day stands for the leg of each day, also where only one day is left and called day 1."""
    week = "flight,day,from,dep,to,arr\n" + "".join(f"FP1D{day},{day},ZRH,06:00,LHR,07:50\n" for day in (1, 2, 3))
    lay(tmp_path, legs=week, demand="flight,mean,sd,fare,recapture\nFP1D3,80,28,110,30\nFP1,125,37.5,130,20\n")
    pairs = [[f"FP1D{day}", "E190", "0"] for day in (1, 2, 3)]
    assert list(costs(tmp_path, scaled(), pairs, rows(week)).values()) == [10816, 10816, 8282]
    one = costs(tmp_path, scaled(FP1D2="0"), pairs, rows(week))
    assert list(one.values()) == [10816, 8077, 8282]
    all_days = costs(tmp_path, scaled(FP1="0"), pairs, rows(week))
    assert list(all_days.values()) == [8077, 8077, 8077]
    assert costs(tmp_path, scaled(), pairs[1:2], [["FP1D2", "1", "ZRH", "06:00", "LHR", "07:50"]]) == {"FP1D2,E190": 10816}


def test_what_it_costs_to_leave_a_leg_out(tmp_path: Path) -> None:
    """The spill without a seat: 130 x 0.8 x 125, and a fifth less."""
    lay(tmp_path)
    assert skips(str(tmp_path), LEGS, ["FP1", "FP3"], scaled()) == [["FP1", "13000"], ["FP3", "6160"]]
    assert skips(str(tmp_path), LEGS, ["FP1"], scaled("0.8")) == [["FP1", "10400"]]


REFUSED = [
    ({}, [["FP9", "A320", "0"]], scaled(), "costs.csv record 2: FP9 is no flight of legs.csv", 2, "flight"),
    ({}, [["FP1", "A320", "0"], ["FP1", "F9", "0"]], scaled(), "costs.csv record 3: F9 has no type by ", 3, "fleet"),
    ({}, PAIRS, scaled(FP9="2"), "legs.csv has no flight FP9, whose demand is to change", None, None),
    ({"fuel": "station,price\nLHR,800\n"}, PAIRS, scaled(), "legs.csv record 2: ", 2, "from"),
    ({"demand": "flight,mean,sd,fare,recapture\nFP1,1,1,1,1\n"}, PAIRS, scaled(), "legs.csv record 3: FP2 has no demand by ", 3, "flight"),
    ({}, PAIRS, scaled("1000000000"), "and a cost is 1000000000000 at most", 2, None),
]


@pytest.mark.parametrize("files, pairs, scaling, text, record, column", REFUSED)
def test_what_is_refused(
    tmp_path: Path, files: Dict[str, str], pairs: Rows, scaling: Scaling, text: str, record: Optional[int], column: Optional[str]
) -> None:
    """Each refusal is one line with its place."""
    lay(tmp_path, **files)
    with pytest.raises(Unread) as raised:
        reprice(str(tmp_path), LEGS, pairs, scaling)
    assert text in str(raised.value) and "\n" not in str(raised.value)
    assert (raised.value.status, raised.value.record, raised.value.column) == (6, record, column)
