"""What is refused: each with its status, file, record and column, in one line, and nothing is written."""

import os
from pathlib import Path
from typing import Dict, NamedTuple, Optional

import pytest

from cost_tests.calling import call, standing
from cost_tests.days import DAY, lay
from costing.words import USAGE, Call, Words
from fleetplan.errors import Unread

DEMAND, TYPES, FUEL, FEES = (DAY[f"{it}.csv"] for it in ("demand", "types", "fuel", "fees"))
CARRIED = "flight,carried,seats,k,fare,recapture\n"


class Case(NamedTuple):
    """The files that are otherwise than on the day, and what is refused: its file, record and column, and why."""

    files: Dict[str, str]
    file: str
    record: Optional[int]
    column: Optional[str]
    text: str


def changed(file: str, old: str, new: str) -> Dict[str, str]:
    """Returns a file of the day with another text once."""
    assert old in DAY[f"{file}.csv"]
    return {file: DAY[f"{file}.csv"].replace(old, new, 1)}


def carried(rows: str, record: int, column: str, why: str) -> Case:
    """Returns the case of demand by what was carried."""
    return Case({"demand": f"{CARRIED}{rows}\n"}, "demand.csv", record, column, why)


def field(file: str, record: int, column: str, text: str, why: str) -> Case:
    """Returns the case of a field of the day that hasn't its form."""
    lines = [it.split(",") for it in DAY[f"{file}.csv"].splitlines()]
    lines[record - 1][lines[0].index(column)] = text
    bare = text.strip('"')
    whole = "".join(",".join(it) + "\n" for it in lines)
    return Case({file: whole}, f"{file}.csv", record, column, f'{column} is "{bare}": {why}')


AMOUNT = "a number from 0 to 1000000000000 is wanted, with at most 6 decimals"
PARTS = "a number from 0 to 100 is wanted, with at most 6 decimals"
CASES = {
    # A leg, a fleet or a station without figures.
    "a leg without demand": Case(changed("demand", "FP2,", "FP8,"), "legs.csv", 3, "flight", "FP2 has no demand by {folder}/demand.csv"),
    "a fleet without a type": Case(changed("types", "E190", "E195"), "fleets.csv", 3, "fleet", "E190 has no type by {folder}/types.csv"),
    "fuel without a price": Case(changed("fuel", "*", "ZRH"), "legs.csv", 3, "from", "{folder}/fuel.csv has no price of fuel at LHR, and A320 burns it"),
    "a leg that is too long for each fleet": Case({"types": TYPES.replace(",,\n", ",109,\n")}, "legs.csv", 2, "flight",
        "FP1 may be flown by no fleet (A320: block 110 min, longest 109, E190: block 110 min, longest 109), and isn't optional"),
    "a leg to a station that is closed to each fleet": Case({"types": TYPES.replace(",,\n", ",,FRA/0700-0800\n")}, "legs.csv", 4, "flight",
        "FP3 may be flown by no fleet (A320: FRA is closed from 07:00 to 08:00, E190: FRA is closed from 07:00 to 08:00), and isn't optional"),
    "no fleet": Case({"fleets": "fleet,aircraft,turn\n"}, "legs.csv", 2, "flight", "FP1 may be flown by no fleet (there is no fleet), and isn't optional"),
    # Demand that no normal law tells.
    "sd above mean": Case(changed("demand", "125,37.5", "125,125.000001"), "demand.csv", 2, "sd",
        "sd is above mean, and no normal law with such a spread tells passengers"),
    "k above 0.5": carried("*,1,2,0,0,0\nFP1,100,180,0.500001,1,1", 3, "k", "k is above 0.5, where what is carried doesn't tell what is wanted"),
    "carried as many as seats": carried("*,180,180,0.3,1,1", 2, "carried", "carried isn't below seats, so nothing tells how many more wanted one"),
    "carried more than seats": carried("*,180.5,180,0.3,1,1", 2, "carried", "carried isn't below seats, so nothing tells how many more wanted one"),
    "no mean up to twice the seats": carried("*,178,180,0.3,1,1", 2, "carried",
        "carried is told by no mean up to twice the seats, with which 177.859 are carried by this k"),
    "recapture above 100": field("demand", 2, "recapture", "100.000001", "it may be 0 to 100"),
    # Limits.
    "a cost above the limit": Case(changed("types", "A320,180,1500", "A320,180,1000000000000"), "legs.csv", 2, None,
        "FP1 costs 1000000009370 with A320, and a cost is 1000000000000 at most"),
    "too many legs": Case({"legs": DAY["legs.csv"].splitlines()[0] + "\n" + "".join(f"L{it},ZRH,06:00,LHR,07:00\n" for it in range(1001))},
        "legs.csv", 1002, None, "it has more than 1,000 records below its header"),
    "too many fleets": Case({"fleets": "fleet,aircraft,turn\n" + "".join(f"F{it},1,1\n" for it in range(21))}, "fleets.csv", 22, None,
        "it has more than 20 records below its header"),
    # Numbers.
    "less than nothing": field("demand", 3, "mean", "-1", AMOUNT),
    "nothing with a minus": field("demand", 3, "fare", "-0", AMOUNT),
    "seven decimals": field("demand", 2, "sd", "37.5000000", AMOUNT),
    "a decimal comma": field("demand", 2, "sd", '"37,5"', f"{AMOUNT} (write 37.5)"),
    "marks of thousands": field("types", 2, "departure", "1'500", f"{AMOUNT} (write 1500)"),
    "an exponent": field("types", 2, "fuel", "1e3", AMOUNT),
    "a plus": field("fees", 2, "fee", "+5", AMOUNT),
    "no digit behind the point": field("fuel", 2, "price", "800.", AMOUNT),
    "no digit before the point": field("fuel", 2, "price", ".5", AMOUNT),
    "a figure above the limit": field("fees", 4, "fee", "1000000000000.000001", "it may be 0 to 1000000000000"),
    "an empty field": field("types", 3, "minute", "", "it is empty"),
    "a blank before": field("demand", 2, "mean", " 125", f"{AMOUNT} (write 125)"),
    "a word": field("demand", 4, "recapture", "all", PARTS),
    "too many digits": field("types", 2, "seats", "0" * 21, AMOUNT),
    # Names, minutes and hours.
    "a flight in small letters": field("demand", 2, "flight", "fp1", "capital letters are wanted (write FP1)"),
    "a fleet with a dash": field("types", 2, "fleet", "A-320", "a name is 1 to 8 letters A to Z and digits (as A320)"),
    "a station of two letters": field("fuel", 2, "station", "LH", "a station code is exactly 3 letters A to Z"),
    "a longest block of a day": field("types", 2, "longest", "1440", "it may be 0 to 1439"),
    "a longest block with decimals": field("types", 2, "longest", "90.5", "a whole number is wanted: count in smaller units in each record, as in cents"),
    "a closed station of two letters": field("types", 3, "closed", "LHR LC", "a station code is exactly 3 letters A to Z"),
    "hours with one end": field("types", 3, "closed", "LCY/2230", "hours that are closed are HHMM-HHMM in UTC, 0000 to 2359, as LCY/2230-0500"),
    "hours with colons": field("types", 3, "closed", "LCY/22:30-05:00", "hours that are closed are HHMM-HHMM in UTC, 0000 to 2359, as LCY/2230-0500"),
    "hours to the end of a day": field("types", 3, "closed", "LCY/2230-2400", "hours that are closed are HHMM-HHMM in UTC, 0000 to 2359, as LCY/2230-0500"),
    "hours that end when they begin": field("types", 3, "closed", "LCY/2230-2230", "hours end when they begin: for all day write the station alone"),
    # Records.
    "a flight twice": Case({"demand": f"{DEMAND}FP1,1,1,1,1\n"}, "demand.csv", 6, "flight", "FP1 stands twice, it should stand once"),
    "a fee twice": Case({"fees": f"{FEES}LHR,A320,1\n"}, "fees.csv", 8, "station", "LHR A320 stands twice, it should stand once"),
    "a field too few": Case({"fuel": f"{FUEL}LHR\n"}, "fuel.csv", 3, None, "LHR, it should be 2 fields"),
    "another header": Case(changed("demand", "flight,mean,sd", "flight,sd,mean"), "demand.csv", 1, None,
        "flight,sd,mean,fare,recapture, it should be flight,mean,sd,fare,recapture or flight,carried,seats,k,fare,recapture"),
    "semicolons": Case({"types": TYPES.replace(",", ";")}, "types.csv", 1, None,
        "fleet;seats;departure;minute;fuel;longest;closed, it should be fleet,seats,departure,minute,fuel,longest,closed"),
    "an empty file": Case({"fees": ""}, "fees.csv", None, None, "is empty, it should begin with station,fleet,fee"),
    "a leg that goes nowhere": Case(changed("legs", "LHR,07:50", "ZRH,07:50"), "legs.csv", 2, "to", "FP1 arrives at the station that it departs from"),
    "a leg that takes no time": Case(changed("legs", "LHR,07:50", "LHR,06:00"), "legs.csv", 2, "arr", "FP1 arrives in the minute of its departure"),
}  # fmt: skip


@pytest.mark.parametrize("name", CASES)
def test_refused(name: str, scratch: Path) -> None:
    """Each with its place, in one line, and nothing is written."""
    case = CASES[name]
    lay(scratch, **case.files)
    before = standing(scratch)
    answer = call(scratch)
    place = f"{scratch}/{case.file}" + (f" record {case.record}:" if case.record else "")
    assert (answer.status, answer.told) == (6, [f"{place} {case.text.replace('{folder}', str(scratch))}"])
    with pytest.raises(Unread) as raised:
        Call(Words([str(scratch)]))
    assert (raised.value.file, raised.value.record, raised.value.column) == (f"{scratch}/{case.file}", case.record, case.column)
    assert standing(scratch) == before


# Of each file of flights what is told of it.
SKIPS = {
    "flights\nFP1\n": "record 1: flights, it should be flight",
    "flight\nfp1\n": 'record 2: flight is "fp1": capital letters are wanted (write FP1)',
    "flight\nFP1\nFP1\n": "record 3: FP1 stands twice, it should stand once",
}


@pytest.mark.parametrize("text", SKIPS)
def test_refused_skips(text: str, scratch: Path) -> None:
    """A file of flights that doesn't read."""
    (lay(scratch) / "skips").write_text(text, encoding="ascii")
    assert call(scratch, "--skips", scratch / "skips") == (6, [f"{scratch}/skips {SKIPS[text]}"])


def test_a_leg_that_costs_too_much_left_out(scratch: Path) -> None:
    """What it costs to leave a leg out has the limit of costs."""
    lay(scratch, demand="flight,mean,sd,fare,recapture\nFP1,1000000,0,1000001,0\n*,0,0,0,0\n", types=TYPES.replace("A320,180", "A320,1000000"), fleets="fleet,aircraft,turn\nA320,1,40\n")
    assert call(scratch).status == 0
    (scratch / "skips").write_text("flight\nFP1\n", encoding="ascii")
    told = f"{scratch}/legs.csv record 2: FP1 costs 1000001000000 left out, and that is 1000000000000 at most"
    assert call(scratch, "--skips", scratch / "skips") == (6, [told])


def test_a_bare_leg_that_skips_leave_out(scratch: Path) -> None:
    """Where --skips names flights, an older optional.csv lets none out: it is written anew."""
    lay(scratch, types=TYPES.replace(",,\n", ",109,\n"))
    (scratch / "optional.csv").write_text("flight,skip\nFP1,0\n", encoding="ascii")
    (scratch / "skips").write_text("flight\nFP2\n", encoding="ascii")
    assert call(scratch).status == 0
    assert call(scratch, "--skips", scratch / "skips").status == 6


@pytest.mark.parametrize("name", ["legs.csv", "fleets.csv", "demand.csv", "types.csv"])
def test_a_file_that_is_missing(name: str, scratch: Path) -> None:
    """A file that has to stand there and doesn't."""
    (lay(scratch) / name).unlink()
    assert call(scratch) == (7, [f"{scratch}/{name} can't be read: No such file or directory"])


@pytest.mark.parametrize("name", ["demand.csv", "fuel.csv", "fees.csv"])
def test_a_folder_in_the_place_of_a_file(name: str, scratch: Path) -> None:
    """It is no file, also where the file may be missing."""
    (lay(scratch) / name).unlink()
    (scratch / name).mkdir()
    assert call(scratch) == (7, [f"{scratch}/{name} is no file"])


def test_a_file_that_is_too_long(scratch: Path) -> None:
    """More than 4,194,304 bytes."""
    lay(scratch, fees=FEES + "\n" * 4_194_304)
    assert call(scratch) == (6, [f"{scratch}/fees.csv is longer than 4194304 bytes"])


@pytest.mark.parametrize("words", ["", "a b", "a --skips", "a --skips=", "a --skips b --skips c", "a --demand b", "-v a"])
def test_wrong_words(words: str) -> None:
    """Words that are no call."""
    assert call(*words.split()) == (2, [USAGE])


def test_folders_of_odd_names(scratch: Path) -> None:
    """Behind `--` a name may begin with a dash, and the page has any name as it is."""
    folder = lay(scratch / "-<b>&amp;")
    before = os.getcwd()
    os.chdir(scratch)
    try:
        assert call("--", folder.name).status == 0
    finally:
        os.chdir(before)
    assert "<h1>-&lt;b&gt;&amp;amp;: costs</h1>" in (folder / "costs.html").read_text(encoding="utf-8")
