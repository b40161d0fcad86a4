"""Tables of a schedule file with costs by figures, in the place of prices: the same as tools/costs makes of them."""

import re
from pathlib import Path
from typing import Dict, List

import pytest

from cost_tests import calling
from cost_tests.calling import costs, parts, standing
from ssim_tests.trying import EXAMPLE, call

FILE = EXAMPLE / "season.ssim"
DATE = ("--date", "2026-11-30")
FILES = {
    "demand.csv": "flight,carried,seats,k,fare,recapture\n*,110,150,0.3,150,20\nZZ300,150,180,0.35,120.5,10\nXX1,1,2,0.1,1,1\n",
    "types.csv": (
        "fleet,seats,departure,minute,fuel,longest,closed\n320,180,1500,38,2500,,LUG LCY\n223,140,1300.5,34,2100,,\n"
        "333,280,3000,80,5600,,\nE90,100,1000,29,1900,400,ZRH/2100-0400\n"
    ),
    "fuel.csv": "station,price\n*,800\nZRH,812.25\n",
    "fees.csv": "station,fleet,fee\nZRH,320,900\nZRH,E90,600\n",
    "fleets.csv": "fleet,aircraft,turn\n223,9,30\n320,9,30\n333,9,30\nE90,9,30\n",
}
GIVEN = ("demand", "types", "fuel", "fees")


def lay(folder: Path, **changed: str) -> List[str]:
    """Writes the files, and returns the words that name them."""
    for name, text in {**FILES, **{f"{it}.csv": text for it, text in changed.items()}}.items():
        (folder / name).write_text(text, encoding="ascii")
    return [word for it in ("fleets", *GIVEN) for word in (f"--{it}", str(folder / f"{it}.csv"))]


def copied(scratch: Path) -> Dict[str, bytes]:
    """Returns what tools/costs makes of the tables with the same figures beside them."""
    for it in GIVEN:
        (scratch / "day" / f"{it}.csv").write_bytes((scratch / f"{it}.csv").read_bytes())
    assert calling.call(scratch / "day").status == 0
    return standing(scratch / "day")


@pytest.mark.parametrize("option, ending", [("--date", ""), ("--week", "D3")])
def test_the_same_costs(option: str, ending: str, scratch: Path) -> None:
    """Of a date and of a week: costs and parts are those that tools/costs makes of the tables."""
    words = lay(scratch)
    status, told = call("tables", FILE, scratch / "day", option, "2026-11-30", *words)
    made = standing(scratch / "day")
    assert (status, f"{scratch}/demand.csv: 1 flight not among these legs and fleets: XX1" in told) == (0, True)
    again = copied(scratch)
    assert [made[it] == again[it] for it in ("costs.csv", "costs-parts.csv")] == [True, True]
    assert "costs.html" not in made
    assert len(costs(scratch / "day")) > 200
    means = {it: parts(scratch / "day")[f"{it}{ending}", "223"]["mean"] for it in ("ZZ300", "ZZ301", "ZZ302")}
    assert means["ZZ300"] != means["ZZ301"] == means["ZZ302"]


def test_without_fuel_and_fees(scratch: Path) -> None:
    """Files that aren't named have no record."""
    lay(scratch, types=FILES["types.csv"].replace(",2500,", ",0,").replace(",2100,", ",0,").replace(",5600,", ",0,").replace(",1900,", ",0,"))
    words = [str(it) for name in ("fleets", "demand", "types") for it in (f"--{name}", scratch / f"{name}.csv")]
    assert call("tables", FILE, scratch / "day", *DATE, *words)[0] == 0
    assert {it["fuel"] + it["fee"] for it in parts(scratch / "day").values()} == {"00"}


def test_legs_that_may_be_left_out(scratch: Path) -> None:
    """--skips writes optional.csv, and the settings say so; a leg that no fleet may fly may stand there."""
    words = lay(scratch, types=FILES["types.csv"].replace(",,\n", ",520,\n").replace(",,LUG", ",520,LUG"))
    status, told = call("tables", FILE, scratch / "day", *DATE, *words)
    assert (status, "may be flown by no fleet" in told, "line " in told) == (6, True, True)
    assert not (scratch / "day").exists()
    (scratch / "skips").write_text("flight\nZZ91\nZZ300\n", encoding="ascii")
    status, told = call("tables", FILE, scratch / "day", *DATE, *words, "--skips", scratch / "skips")
    assert (status, "ssim: optional.csv has 2 records, for calls with --optional\n" in told) == (0, True)
    found = dict(it.split(",") for it in (scratch / "day" / "optional.csv").read_text(encoding="ascii").splitlines()[1:])
    assert sorted(found) == ["ZZ300", "ZZ91"]
    mean = parts(scratch / "day")["ZZ300", "320"]["mean"]
    assert abs(float(found["ZZ300"]) - float(mean) * 120.5 * 0.9) <= 0.5
    assert "optional,yes" in (scratch / "day" / "settings.csv").read_text(encoding="ascii")


def test_types_are_chosen_beside_figures(scratch: Path) -> None:
    """Where --types names the file of figures --types-only says which types are asked for, and without figures both do."""
    words = lay(scratch, fleets="fleet,aircraft,turn\nE90,9,30\n")
    assert call("tables", FILE, scratch / "day", *DATE, *words, "--types-only", "E90")[0] == 0
    assert {fleet for _, fleet in parts(scratch / "day")} == {"E90"}
    legs = (scratch / "day" / "legs.csv").read_bytes()
    for option in ("--types", "--types-only"):
        assert call("tables", FILE, scratch / "own", *DATE, "--fleets", scratch / "fleets.csv", option, "E90")[0] == 0
        assert (scratch / "own" / "legs.csv").read_bytes() == legs


def test_older_parts_are_told(scratch: Path) -> None:
    """Where prices follow figures the older parts stay, and standard error says so."""
    words = lay(scratch)
    assert call("tables", FILE, scratch / "day", *DATE, *words)[0] == 0
    status, told = call("tables", FILE, scratch / "day", *DATE, *words[:2])
    assert (status, f"ssim: costs-parts.csv stays in {scratch}/day as it was\n" in told) == (0, True)


REFUSED = {
    "a leg without demand": ({"demand": "flight,mean,sd,fare,recapture\nZZ300,1,1,1,1\n"}, 6, " has no demand by {folder}/demand.csv"),
    "a fleet without a type": ({"types": FILES["types.csv"].replace("333,", "332,")}, 6, "{folder}/fleets.csv record 4: 333 has no type by {folder}/types.csv"),
    "fuel without a price": ({"fuel": "station,price\nZRH,800\n"}, 6, "{folder}/fuel.csv has no price of fuel at "),
    "a figure": ({"fees": "station,fleet,fee\nZRH,320,1.2345678\n"}, 6, "{folder}/fees.csv record 2: fee is "),
}  # fmt: skip


@pytest.mark.parametrize("name", REFUSED)
def test_refused(name: str, scratch: Path) -> None:
    """What figures refuse is refused here too, and nothing is written."""
    files, status, text = REFUSED[name]
    came, told = call("tables", FILE, scratch / "day", *DATE, *lay(scratch, **files))
    assert (came, told.count("\n")) == (status, 1)
    assert text.replace("{folder}", str(scratch)) in told
    assert not (scratch / "day").exists()


def test_a_filed_type_without_figures(scratch: Path) -> None:
    """Where no fleets are named those as filed want a type, and the line of a leg of one that has none is told."""
    words = lay(scratch, types=FILES["types.csv"].replace("333,", "332,"))[2:]
    status, told = call("tables", FILE, scratch / "day", *DATE, *words)
    found = re.fullmatch(f"ssim: {FILE} line ([0-9]+): 333 has no type by {scratch}/types.csv\n", told)
    assert status == 6 and found
    assert FILE.read_bytes().splitlines()[int(found[1]) - 1][72:75] == b"333"


WORDS = {
    "--demand a": "--demand wants --types FILE too",
    "--demand a --types b --costs c": "--demand and --costs stand both",
    "--demand a --types b --skips c --optional d": "--skips and --optional stand both",
    "--fuel a": "--fuel wants --demand FILE and --types FILE too",
    "--fees a --types 320": "--fees wants --demand FILE and --types FILE too",
    "--skips a --costs b": "--skips wants --demand FILE and --types FILE too",
    "--types 320 --types-only 320": "--types and --types-only stand both",
    "--types-only 32": "--types-only 32: 32 is none of its form",
    "--demand a --types b --types-only 32": "--types-only 32: 32 is none of its form",
}


@pytest.mark.parametrize("words", WORDS)
def test_wrong_words(words: str) -> None:
    """Options that don't go together."""
    status, told = call("tables", FILE, "day", *DATE, *words.split())
    assert (status, told.splitlines()[0]) == (2, f"ssim: {WORDS[words]}")
