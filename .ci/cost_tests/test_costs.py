"""Costs of a folder's figures: the rows of integrals, the parts of each cost, which pairs there are, and what is told."""

import math
from decimal import ROUND_FLOOR, Decimal
from pathlib import Path
from typing import Callable, Dict, List

import pytest

from cost_tests.calling import WRITTEN, call, costs, parts, standing
from cost_tests.days import COSTS, DAY, lay

ONE_LEG = "flight,from,dep,to,arr\nFP1,ZRH,06:00,LHR,07:50\n"
HEADER = "flight,mean,sd,fare,recapture\n"
TYPES = "fleet,seats,departure,minute,fuel,longest,closed\n"
# By numeric integration: mean, sd, seats, fare and recapture, the operating cost; the spill and the cost.
INTEGRATED = [
    ("120,36", "180", "120,0", "6000", "0.714", 6086), ("150,45", "150", "100,0", "6000", "17.952", 7795),
    ("165,49.5", "180", "130,20", "7350", "13.147", 8717), ("165,49.5", "106", "130,20", "5410", "61.823", 11840),
    ("300,90", "106", "130,20", "5410", "194.499", 25638), ("181,0", "180", "1001,50", "5000", "1.000", 5501),
]  # fmt: skip


@pytest.mark.parametrize("demand, seats, fare, operating, spill, cost", INTEGRATED)
def test_rows_of_integrals(scratch: Path, demand: str, seats: str, fare: str, operating: str, spill: str, cost: int) -> None:
    """Each row has its spill and its cost."""
    lay(scratch, legs=ONE_LEG, fleets="fleet,aircraft,turn\nA320,1,40\n", demand=f"{HEADER}FP1,{demand},{fare}\n", fees="station,fleet,fee\n",
        types=f"{TYPES}A320,{seats},{operating},0,0,,\n")  # fmt: skip
    assert call(scratch).status == 0
    assert costs(scratch) == {"FP1,A320": cost}
    assert parts(scratch)["FP1", "A320"]["spilled"] == spill


def test_the_day(scratch: Path) -> None:
    """Each pair has its cost, in the order of legs and then of fleets."""
    answer = call(lay(scratch))
    assert (answer.status, answer.told) == (0, ["4 legs, 2 fleets: 8 pairs may be flown"])
    assert list(costs(scratch).items()) == list(COSTS.items())


def test_parts_give_each_cost_by_hand(scratch: Path) -> None:
    """The parts sum to the cost, rounded halves up, and each is what its figures say."""
    call(lay(scratch))
    found = parts(scratch)
    assert [",".join(found["FP1", it].values()) for it in ("A320", "E190")] == [
        "FP1,A320,125,37.5,180,1.185,1500,4180,3666.6667,1400,123.24,10870",
        "FP1,E190,125,37.5,106,26.341,1000,3190,2786.6667,1100,2739.464,10816",
    ]
    for it in found.values():
        total = sum(Decimal(it[name]) for name in ("departure", "minutes", "fuel", "fee", "spill"))
        assert int((total + Decimal("0.5")).to_integral_value(ROUND_FLOOR)) == int(it["cost"])


# Of each cost that is close to a half its departure, minute, fuel and fee, of a leg of 110 minutes with fuel at 800.
HALVES = [
    ("0.5", "0", "0", "0", 1), ("0.499999", "0", "0", "0", 0), ("1.25", "0", "0", "0.25", 2), ("0", "0.95", "0", "0", 105),
    ("0", "0.004545", "0", "0", 0), ("0", "0", "1", "0", 1), ("0.033333", "0", "1", "0", 1), ("0.033334", "0", "1", "0", 2),
]  # fmt: skip


@pytest.mark.parametrize("departure, minute, fuel, fee, cost", HALVES)
def test_halves_go_up(scratch: Path, departure: str, minute: str, fuel: str, fee: str, cost: int) -> None:
    """All is exact and rounded once: 110 minutes at 0.95 are 104.5, and a kilogram an hour is 1.46666.. at 800."""
    lay(scratch, legs=ONE_LEG, fleets="fleet,aircraft,turn\nA320,1,40\n", demand=f"{HEADER}FP1,0,0,0,0\n",
        types=f"{TYPES}A320,1,{departure},{minute},{fuel},,\n", fees=f"station,fleet,fee\nLHR,A320,{fee}\n")  # fmt: skip
    assert call(scratch).status == 0
    assert costs(scratch) == {"FP1,A320": cost}
    found = parts(scratch)["FP1", "A320"]
    total = sum(Decimal(found[it]) for it in ("departure", "minutes", "fuel", "fee", "spill"))
    assert math.floor(total + Decimal("0.5")) == cost


def test_carried(scratch: Path) -> None:
    """What was carried tells the mean, and k times that is the spread."""
    header = "flight,carried,seats,k,fare,recapture\n"
    lay(scratch, demand=f"{header}FP1,144,180,0.3,130,20\nFP2,171,180,0.3,130,20\n*,0,1,0.5,0,0\n")
    answer = call(scratch)
    found = parts(scratch)
    assert [(found[it, "A320"]["mean"], found[it, "A320"]["sd"]) for it in ("FP1", "FP2", "FP3")] == [
        ("151.24", "45.372"), ("233.291", "69.9873"), ("0", "0"),
    ]  # fmt: skip
    # With the seats of then as many are carried as then.
    assert [Decimal(found[it, "A320"]["mean"]) - Decimal(found[it, "A320"]["spilled"]) for it in ("FP1", "FP2")] == [144, 171]
    assert answer.told == ["4 legs, 2 fleets: 8 pairs may be flown"]


def test_prices_and_fees_by_station(scratch: Path) -> None:
    """Fuel is bought at the departure, by the price there or else that of `*`; a landing's fee is that of the arrival."""
    lay(scratch, fuel="station,price\n*,800\nLHR,900\n", fees="station,fleet,fee\nLHR,A320,1\nZRH,E190,2\n")
    call(scratch)
    found = parts(scratch)
    assert [found[it, "A320"]["fuel"] for it in ("FP1", "FP2", "FP4")] == ["3666.6667", "3750", "2000"]
    assert [found[it]["fee"] for it in (("FP1", "A320"), ("FP1", "E190"), ("FP2", "E190"), ("FP3", "A320"))] == ["1", "0", "2", "0"]


# Of each closing of the A320 the legs that it may not fly.
CLOSED: Dict[str, List[str]] = {
    ",": [], "109,": ["FP1"], "110,": [], "99,": ["FP1", "FP2"], "0,": ["FP1", "FP2", "FP3", "FP4"],
    ",LHR": ["FP1", "FP2"], ",LHR FRA": ["FP1", "FP2", "FP3", "FP4"], ",SIN": [],
    # FP1 lands at 07:50 and FP2 departs at 08:40: closed from the first minute on, by the last.
    ",LHR/0750-0751": ["FP1"], ",LHR/0751-0840": [], ",LHR/0700-0750": [], ",LHR/0751-0841": ["FP2"], ",LHR/2230-0500": [],
    ",LHR/0841-0751": ["FP1"], ",LHR/0840-0750": ["FP2"], ",LHR/0100-0200 LHR/0800-0900": ["FP2"],
    ",ZRH/2300-0600": [], ",ZRH/2300-0601": ["FP1"], ",ZRH/0600-0601 FRA/0750-0800": ["FP1", "FP4"],
}  # fmt: skip


@pytest.mark.parametrize("closed", CLOSED)
def test_what_a_fleet_may_not_fly(scratch: Path, closed: str) -> None:
    """A pair is left out where the block is too long, or a station is closed at the departure or at the arrival."""
    call(lay(scratch, types=DAY["types.csv"].replace("2500,,", f"2500,{closed}")))
    assert [it for it in COSTS if it not in costs(scratch)] == [f"{it},A320" for it in CLOSED[closed]]


def test_an_arrival_after_midnight(scratch: Path) -> None:
    """Hours are those of the clock, also on the next day."""
    types = DAY["types.csv"].replace("2500,,", "2500,,LHR/0030-0500")
    lay(scratch, legs="flight,from,dep,to,arr\nFP1,ZRH,23:30,LHR,00:45\nFP2,LHR,04:59,ZRH,06:00\n", types=types)
    call(scratch)
    assert list(costs(scratch)) == ["FP1,E190", "FP2,E190"]


def test_legs_that_may_be_left_out(scratch: Path) -> None:
    """A file of flights makes an optional.csv: fare x (1 - recapture / 100) x mean, rounded halves up. No fleet need fly a leg there."""
    demand = DAY["demand.csv"].replace("FP3,80,28,110,30", "FP3,82,28,0.5,50")
    lay(scratch, demand=demand, types=DAY["types.csv"].replace(",,\n", ",,FRA\n"))
    (scratch / "optional.csv").write_text("flight,skip\nFP1,0\nFP2,7\n", encoding="ascii")
    (scratch / "skips").write_text("flight\nFP4\nFP3\nFP9\nFP2\n", encoding="ascii")
    answer = call(scratch, "--skips", scratch / "skips")
    assert answer.status == 0
    assert (scratch / "optional.csv").read_text(encoding="ascii") == "flight,skip\nFP2,11440\nFP3,21\nFP4,6545\n"
    assert list(costs(scratch)) == ["FP1,A320", "FP1,E190", "FP2,A320", "FP2,E190"]
    assert answer.told[2:] == [
        "optional.csv has 3 records, for calls with --optional",
        f"{scratch}/skips: 1 flight not among these legs and fleets: FP9",
        "optional.csv has no record any more of FP1",
    ]


def test_all_legs_may_be_left_out(scratch: Path) -> None:
    """`*` stands for each leg."""
    (scratch / "skips").write_text("flight\n*\n", encoding="ascii")
    assert call(lay(scratch), f"--skips={scratch}/skips").status == 0
    assert (scratch / "optional.csv").read_text(encoding="ascii") == "flight,skip\nFP1,13000\nFP2,11440\nFP3,6160\nFP4,6545\n"


def test_legs_that_the_folder_lets_out(scratch: Path) -> None:
    """Without --skips an optional.csv that stands there says which legs need no fleet, and stays as it is."""
    lay(scratch, types=DAY["types.csv"].replace(",,\n", ",,FRA\n"))
    (scratch / "optional.csv").write_text("flight,skip\nFP3,0\nFP4,7\n", encoding="ascii")
    assert call(scratch).status == 0
    assert (scratch / "optional.csv").read_text(encoding="ascii") == "flight,skip\nFP3,0\nFP4,7\n"


def test_names_without_the_day(scratch: Path) -> None:
    """In a week a leg takes the record of its name, else that without the day, else that of `*`. N1 is named by names.csv."""
    legs = "flight,day,from,dep,to,arr\nFP1D1,1,ZRH,06:00,LHR,07:50\nFP1D2,2,ZRH,06:00,LHR,07:50\nN1,2,LHR,08:40,ZRH,10:20\nFP1D4,3,ZRH,06:00,LHR,07:50\n"
    names = "flight,airline,number,suffix,variation,leg,line,operates\nN1,ZZZ,1234,,01,2,5,2026-12-01\n"
    lay(scratch, legs=legs, fees="station,fleet,fee\n", demand=f"{HEADER}FP1,1,0,1,1\nFP1D2,2,0,2,2\nZZZ1234B,3,0,3,3\n*,4,0,4,4\nFP7,5,0,5,5\n")
    (scratch / "names.csv").write_text(names, encoding="ascii")
    answer = call(scratch)
    assert [it["mean"] for (_, fleet), it in parts(scratch).items() if fleet == "A320"] == ["1", "2", "3", "4"]
    assert answer.told[1:] == [f"{scratch}/demand.csv: 1 flight not among these legs and fleets: FP7"]


def test_what_is_odd_is_told(scratch: Path) -> None:
    """A great spread, full loads and names that stand for nothing are told with their places."""
    lay(
        scratch,
        demand=f"{HEADER}FP1,125,62.5,130,20\nFP2,110,55.1,130,20\n*,80,41,110,30\nFP9,1,1,1,1\n",
        types=f"{DAY['types.csv'].replace(',,', ',,SIN/2200-2300', 1)}B77W,1,1,1,1,,\n",
        fuel="station,price\n*,800\nNRT,1\n",
        fees="station,fleet,fee\nNRT,A320,1\nZRH,B77W,1\n",
    )
    assert call(scratch).told[1:] == [
        f"{scratch}/demand.csv: sd is above half of mean, so a part of the law is below 0, of FP2 (record 3), * (record 4)",
        f"{scratch}/demand.csv: 1 flight not among these legs and fleets: FP9",
        f"{scratch}/types.csv: 1 fleet not among these legs and fleets: B77W",
        f"{scratch}/types.csv: 1 closed station not among these legs and fleets: SIN",
        f"{scratch}/fuel.csv: 1 station not among these legs and fleets: NRT",
        f"{scratch}/fees.csv: 1 station not among these legs and fleets: NRT",
        f"{scratch}/fees.csv: 1 fleet not among these legs and fleets: B77W",
    ]


def test_full_loads_are_told(scratch: Path) -> None:
    """What was carried above 0.95 of the seats."""
    lay(scratch, demand="flight,carried,seats,k,fare,recapture\nFP1,171,180,0.3,1,1\nFP2,171.001,180,0.3,1,1\n*,1,2,0,0,0\n")
    assert call(scratch).told[1:] == [
        f"{scratch}/demand.csv: carried is above 0.95 of seats, where a little more tells of many more who wanted one, of FP2 (record 3)"
    ]


def test_files_that_are_missing_are_told(scratch: Path) -> None:
    """Without fees.csv landings cost nothing, and without fuel.csv no fleet may burn any."""
    lay(scratch, types=f"{TYPES}A320,180,1500,38,0,,\nE190,106,1000,29,0,,\n")
    (scratch / "fees.csv").unlink()
    (scratch / "fuel.csv").unlink()
    answer = call(scratch)
    told = [f"{scratch} has no fuel.csv, so there are no prices of fuel", f"{scratch} has no fees.csv, so there are no fees"]
    assert (answer.status, answer.told[1:]) == (0, told)
    assert parts(scratch)["FP1", "A320"]["fee"] == "0"


PLAN = "flight,fleet\nFP1,A320\nFP2,A320\nFP3,E190\nFP4,E190\n"


def test_a_plan_is_told(scratch: Path) -> None:
    """Operating cost 10746.67 + 9533.33 + 4710 + 4860, spill cost 123.24 + 20.904 + 205.436 + 324.016, 8.262 of 400 passengers, 572 seats."""
    lay(scratch, plan=PLAN)
    told = "plan.csv: operating cost 29,850, spill cost 674, in sum 30,523; 8.262 passengers spilled, load factor 0.685"
    assert call(scratch).told[1:] == [told]


def test_a_plan_with_shifts_and_legs_left_out(scratch: Path) -> None:
    """A leg that is left out and one whose fleet may not fly it have no figures."""
    plan = "flight,fleet,shift\nFP1,A320,5\nFP2,A320,0\nFP3,-,0\nFP4,E190,0\n"
    lay(scratch, plan=plan, types=DAY["types.csv"].replace("2500,,", "2500,100,"))
    assert call(scratch).told[2:] == [
        "plan.csv: operating cost 14,393, spill cost 345, in sum 14,738; 4.409 passengers spilled, load factor 0.666; 1 leg left out",
        "plan.csv: 1 leg with a fleet that may not fly it, and without figures: FP1 by A320",
    ]


@pytest.mark.parametrize("plan", ["flight,fleet\nFP1,A320\n", "flight,fleet\nFP2,A320\nFP1,A320\nFP3,E190\nFP4,E190\n", "mine", ""])
def test_a_plan_of_other_legs(scratch: Path, plan: str) -> None:
    """Nothing is told of it, and costs are made all the same."""
    answer = call(lay(scratch, plan=plan))
    assert (answer.status, answer.told[1:]) == (0, ["plan.csv is no plan of these legs and fleets, so nothing is told of it"])


def test_shifts_into_closed_hours_are_told(scratch: Path) -> None:
    """FP1 departs at 06:00 and lands at 07:50, FP2 departs at 08:40: the A320 may be shifted into hours that are closed to it."""
    types = DAY["types.csv"].replace("2500,,", "2500,,ZRH/2300-0600 LHR/0755-0840")
    lay(scratch, windows="flight,shift,extra\nFP1,-1,0\nFP1,10,0\nFP2,-45,0\nFP2,720,0\nFP3,5,0\n", types=types)
    assert call(scratch).told[1:] == [
        "3 shifts of windows.csv may take a fleet into closed hours, which tables can't forbid: FP1 by -1 with A320 (ZRH is closed from 23:00 to 06:00), "
        "FP1 by +10 with A320 (LHR is closed from 07:55 to 08:40), FP2 by -45 with A320 (LHR is closed from 07:55 to 08:40)"
    ]  # fmt: skip


@pytest.mark.parametrize("windows", ["mine", "", "flight,shift,extra\nFP1,x,1\n", "flight,shift,extra\nFP1,5\n"])
def test_windows_that_dont_read(scratch: Path, windows: str) -> None:
    """Costs are made all the same, and what isn't told is said."""
    answer = call(lay(scratch, windows=windows))
    assert (answer.status, answer.told[1:]) == (0, ["windows.csv doesn't read, so nothing is told of its shifts"])
    assert costs(scratch) == COSTS


def test_no_legs(scratch: Path) -> None:
    """Without legs there are no costs, with fleets or without."""
    lay(scratch, legs="flight,from,dep,to,arr\n", demand=HEADER, fuel="station,price\n", fees="station,fleet,fee\n")
    assert call(scratch) == (0, ["0 legs, 2 fleets: 0 pairs may be flown"])
    assert (scratch / "costs.csv").read_text(encoding="ascii") == "flight,fleet,cost\n"
    (scratch / "fleets.csv").write_text("fleet,aircraft,turn\n", encoding="ascii")
    (scratch / "types.csv").write_text(TYPES, encoding="ascii")
    assert call(scratch) == (0, ["0 legs, 0 fleets: 0 pairs may be flown"])


FORMS: Dict[str, Callable[[str], str]] = {
    "CR LF": lambda text: text.replace("\n", "\r\n"),
    "CR": lambda text: text.replace("\n", "\r"),
    "a byte order mark": lambda text: "\ufeff" + text,
    "blank lines": lambda text: "\n" + text.replace("\n", "\n\n"),
    "no last line end": lambda text: text.rstrip("\n"),
    "quotes": lambda text: "\n".join(",".join(f'"{field}"' for field in line.split(",")) for line in text.splitlines()),
}


@pytest.mark.parametrize("form", FORMS)
def test_forms_of_files(scratch: Path, form: str) -> None:
    """Files read as all tables do."""
    lay(scratch, **{name[:-4]: FORMS[form](text) for name, text in DAY.items()})
    assert (call(scratch).status, costs(scratch)) == (0, COSTS)


def test_records_in_another_order(scratch: Path) -> None:
    """The order of figures doesn't matter, and what is written twice is the same."""
    call(lay(scratch))
    first = standing(scratch)
    turned = {name[:-4]: "\n".join([DAY[name].splitlines()[0], *reversed(DAY[name].splitlines()[1:]), ""]) for name in ("demand.csv", "types.csv", "fees.csv")}
    call(lay(scratch, **turned))
    assert [standing(scratch)[it] == first[it] for it in WRITTEN] == [True] * 3
