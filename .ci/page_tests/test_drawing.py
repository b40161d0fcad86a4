"""Pages as texts, without a browser: what stands in them goes by the tables, by what the program says, and by figures counted here."""

import os
import re
import shutil
import subprocess
import sys
from pathlib import Path
from typing import Dict, List, Set
from xml.etree import ElementTree

import pytest
from page_tables import Tables
from page_tests.counting import rows, wanted_legs
from page_tests.plans import KINDS, TOP, Desk, Drawn, draw, run


def tables_in(page: Path) -> Dict[str, List[List[str]]]:
    """Returns the tables of a page, by the section that they stand in."""
    return Tables(page.read_text(encoding="utf-8")).rows


def legs_by_aircraft(page: Path) -> Dict[str, List[str]]:
    """Returns the flights of each aircraft and day, as the table of flights has them."""
    table = tables_in(page)["flights"]
    found: Dict[str, List[str]] = {}
    for row in table[1:]:
        it = dict(zip(table[0], row))
        found.setdefault(f"{it.get('Day', '')} {it['Aircraft']}".strip(), []).append(it["Flight"])
    return found


def said_lines(said: str) -> Set[str]:
    """Returns the lines of `tails` or `due` that name flights, their dates without a year."""
    months = ("Jan", "Feb", "Mar", "Apr", "May", "Jun", "Jul", "Aug", "Sep", "Oct", "Nov", "Dec")
    found = set()
    for line in said.splitlines():
        it = re.fullmatch(r"\d{4}-(\d\d)-(\d\d) (\S+): (.+)", line)
        if it and it[4] != "-":
            found.add(f"{int(it[2])} {months[int(it[1]) - 1]} {it[3]}: {it[4]}")
    return found


@pytest.mark.parametrize("name, command", [("tails", "tails"), ("due", "due")])
def test_dates(desk: Desk, name: str, command: str) -> None:
    """The rows of aircraft are those that `tails` and `due` tell."""
    drawn = desk.drawn(name)
    first, dates = drawn.words[1], drawn.words[3]
    said = run([desk.program, command, str(drawn.folder), first, dates, *drawn.reading])
    drawn_lines = {f"{it.split(' ', 1)[1]}: {' '.join(flights)}" for it, flights in legs_by_aircraft(drawn.page).items()}
    assert drawn_lines == said_lines(said)


@pytest.mark.parametrize("name, first", [("tails", "2026-11-26"), ("week", "2026-11-24"), ("week", "2026-11-20")])
def test_first_day(desk: Desk, name: str, first: str, tmp_path: Path) -> None:
    """Where settings.csv tells a date of day 1, the rows are those that `tails` tells by it."""
    drawn, dates = desk.drawn(name), ["2026-11-27", "2"]
    words = [*drawn.reading, *(KINDS[name].solving or [])]
    folder: Path = shutil.copytree(drawn.folder, tmp_path / "day")
    (folder / "settings.csv").write_text(f"word,value\nfirst-day,{first}\n", encoding="ascii")
    draw(folder, "--from", dates[0], "--dates", dates[1], *words)
    said = run([desk.program, "tails", str(folder), *dates, *words, "--first-day", first])
    lines = {f"{it.split(' ', 1)[1]}: {' '.join(flights)}" for it, flights in legs_by_aircraft(folder / "plan.html").items()}
    assert lines == said_lines(said)
    said = draw(folder, "--from", "2026-11-01", *words, status=9)
    assert said == f"tools/draw: {folder}/settings.csv has first-day {first}, after --from 2026-11-01\n"


@pytest.mark.parametrize("name", ["hub-day", "week", "season-day", "optional-flight"])
def test_figures(desk: Desk, name: str) -> None:
    """Legs, cost and aircraft of each fleet, and cost in sum, are those of the tables and of the program."""
    drawn = desk.drawn(name)
    said = run([desk.program, "judge", str(drawn.folder), *drawn.reading])
    used = dict(re.findall(r"fleet (\w+): used (\d+ of \d+)", said))
    table = tables_in(drawn.page)["figures"]
    found = {row[0]: dict(zip(table[0], row)) for row in table[1:]}
    plan = {flight: fleet for flight, fleet, *_ in rows(drawn.folder / "plan.csv")}
    for fleet in set(plan.values()) - {"-"}:
        assert found[fleet]["Aircraft"] == used[fleet]
        assert found[fleet]["Legs"] == str(sum(it == fleet for it in plan.values()))
    cost = next(row for row in table[1:] if row[0] == "In sum")[8]
    assert cost == f"{int(said.split()[2]):,}"


def test_block_hours(desk: Desk) -> None:
    """Block hours a day and an aircraft, by hand: 2 x 95 and 2 x 75 minutes."""
    table = tables_in(desk.drawn("night-parking").page)["figures"]
    legs = rows(desk.drawn("night-parking").folder / "legs.csv")
    minutes = sum((int(arr[:2]) - int(dep[:2])) * 60 + int(arr[3:]) - int(dep[3:]) for _, _, dep, _, arr in legs)
    assert table[-1][3] == f"{minutes / 60:.1f}"
    assert table[-1][4] == f"{minutes / 60 / 2:.1f}"


def test_worth(desk: Desk) -> None:
    """What an aircraft more or less is worth is what the README tells."""
    table = tables_in(desk.drawn("hub-day").page)["figures"]
    assert {row[0]: row[9:11] for row in table[1:4]} == {"A320": ["0", "0"], "A220": ["410", "410"], "E190": ["850", "850"]}


def test_plan_alone(desk: Desk) -> None:
    """A plan without rotation.csv has as many rows as it uses aircraft, and each flight departs where the one before it landed."""
    drawn = desk.drawn("filed")
    legs = {it[0]: it for it in rows(drawn.folder / "legs.csv")}
    page = drawn.page.read_text(encoding="utf-8")
    for fleet, count in (("A320", 5), ("A220", 3), ("E190", 3)):
        section = re.search(rf'data-fleet="{fleet}">(.*?)</section>', page, re.S)
        assert section
        assert len(re.findall(r'<g class="row"', section[1])) == 2 * count
        assert "no rotation.csv" in section[1]
    table = tables_in(drawn.page)["flights"][1:]
    for one, other in zip(table, table[1:]):
        if one[0] == other[0] and int(legs[one[1]][2][:2]) >= 3 and int(legs[other[1]][2][:2]) >= 3:
            assert legs[one[1]][3] == legs[other[1]][1]


def test_against(desk: Desk, tmp_path: Path) -> None:
    """The legs with another fleet are marked, counted and listed with the difference of cost."""
    folder: Path = shutil.copytree(desk.drawn("hub-day").folder, tmp_path / "planned")
    there = desk.drawn("filed").folder
    draw(folder, "--against", str(there))
    page = (folder / "plan.html").read_text(encoding="utf-8")
    plans = [dict(it[:2] for it in rows(it / "plan.csv")) for it in (there, folder)]
    costs = {(flight, fleet): int(cost) for flight, fleet, cost in rows(folder / "costs.csv")}
    changed = [it for it in plans[0] if plans[0][it] != plans[1][it]]
    marked = re.findall(r'<g class="leg [^"]*\bchanged\b[^"]*" data-flight="(\w+)"', page)
    assert sorted(marked) == sorted(changed) != []
    assert f"{len(changed)} of 50 legs differ: {len(changed)} in fleet, 0 in time." in page
    table = tables_in(folder / "plan.html")["changes"]
    assert [it[0] for it in table[1:-1]] == changed
    assert table[1:][0][3:5] == [plans[0][changed[0]], plans[1][changed[0]]]
    wanted = sum(costs[it, plans[1][it]] - costs[it, plans[0][it]] for it in changed)
    assert table[-1][-1] == f"{wanted:+,}".replace("-", "−")
    assert wanted == 305420 - 314330


def test_moved(desk: Desk) -> None:
    """A flight that is moved has its shift, and an outline at its own time."""
    page = desk.drawn("re-timing").page.read_text(encoding="utf-8")
    bars = re.findall(r'<g class="leg [^"]*\bmoved\b[^"]*" data-flight="(\w+)"', page)
    assert bars == ["FP2", "FP3"]
    assert re.findall(r'<text class="mark"[^>]*>([^<]*)</text>', page) == ["−5 min", "+5 min"]
    assert re.findall(r"(\w+) at its own time", page) == ["FP2", "FP3"]
    notes = {row[1]: row[-1] for row in tables_in(desk.drawn("re-timing").page)["flights"][1:]}
    assert notes["FP2"] == "5 minutes earlier than in legs.csv; through flight with FP3"


def test_optional(desk: Desk) -> None:
    """A ferry that is flown has a dashed edge, and a leg that is left out a row of its own, with its price."""
    page = desk.drawn("ferry").page.read_text(encoding="utf-8")
    assert re.findall(r'<g class="leg [^"]*\boptional\b[^"]*" data-flight="(\w+)"', page) == ["FF2"]
    out = page[page.index('data-fleet="-"') :]
    assert re.findall(r'<g class="leg out[^"]*" data-flight="(\w+)"', out) == ["FF1"]
    table = tables_in(desk.drawn("optional-flight").page)["figures"]
    left = next(row for row in table if row[0] == "Left out")
    assert (left[2], left[8]) == ("2", "18,500")


def test_parking(desk: Desk) -> None:
    """The limit of a night stands at its station."""
    page = desk.drawn("night-parking").page.read_text(encoding="utf-8")
    station = re.search(r'data-station="AAA">(.*?)</svg></div></div>', page, re.S)
    assert station and "at night at most 1" in station[1] and 'class="limit"' in station[1]


def test_picture(desk: Desk, tmp_path: Path) -> None:
    """The picture of the README is what tools/draw draws, and reads as XML."""
    folder: Path = shutil.copytree(desk.drawn("hub-day").folder, tmp_path / "hub-day")
    draw(folder, "--svg", "E190")
    text = (folder / "plan.svg").read_bytes()
    ElementTree.fromstring(text)
    assert text == (TOP / "docs" / "hub-day.svg").read_bytes()


def test_nothing_beside(desk: Desk) -> None:
    """A page asks for nothing beside itself."""
    for name in ("hub-day", "week"):
        page = desk.drawn(name).page.read_text(encoding="utf-8")
        ours = re.sub(r"<script.*?</script>", "", page, flags=re.S)
        assert not re.search(r"\b(src|href)\s*=\s*(?!\"#)|@import|url\((?!#)", ours)


def test_escaped(desk: Desk, tmp_path: Path) -> None:
    """No name of a folder becomes markup."""
    folder, other = tmp_path / "<b>&'\"{{7*7}}", tmp_path / "<i>there"
    for it in (folder, other):
        shutil.copytree(desk.drawn("re-timing").folder, it)
    draw(folder, "--windows", "--against", str(other))
    page = (folder / "plan.html").read_text(encoding="utf-8")
    assert "<h1>&lt;b&gt;&amp;&#39;&#34;{{7*7}}</h1>" in page
    assert "<h2>Against &lt;i&gt;there</h2>" in page
    assert "<b>&" not in page and "<i>" not in page


def test_no_flight(tmp_path: Path) -> None:
    """A schedule without a flight is drawn: there is nothing in its chart."""
    folder: Path = shutil.copytree(TOP / "examples" / "two-legs", tmp_path / "none")
    for name in ("legs.csv", "costs.csv", "throughs.csv", "plan.csv"):
        text = (folder / name).read_text(encoding="ascii")
        (folder / name).write_text(text.splitlines()[0] + "\n" if text else "", encoding="ascii")
    draw(folder)
    page = (folder / "plan.html").read_text(encoding="utf-8")
    assert "Without a flight: F1, F2." in page and '<g class="leg' not in page


@pytest.mark.parametrize(
    "words",
    [[], ["--dates", "3"], ["--from", "2026-13-01"], ["--from"], ["--dates", "0", "--from", "2026-11-30"], ["--period", "8"], ["--sizes=2"], ["x"]],
)
def test_words(tmp_path: Path, words: List[str]) -> None:
    """Words that are no call have status 2 and the usage line."""
    call = words if not words else [*words, str(tmp_path)]
    assert run([str(TOP / "tools" / "draw"), *call], 2).startswith("usage: tools/draw DIR")


def test_no_plan(tmp_path: Path) -> None:
    """A folder without a plan, and one that isn't there, have one line and status 7."""
    folder: Path = shutil.copytree(TOP / "examples" / "infeasible", tmp_path / "day")
    assert re.fullmatch(r"tools/draw: .*plan\.csv is missing: .*\n", draw(folder, "--day-start", "00:00", status=7))
    assert draw(tmp_path / "nowhere", status=7).count("\n") == 1


def test_other_plan(desk: Desk, tmp_path: Path) -> None:
    """A rotation of another plan, an illegal pair and another day start are refused with status 9, and nothing is written."""
    folder: Path = shutil.copytree(desk.drawn("hub-day").folder, tmp_path / "day")
    os.remove(folder / "plan.html")
    assert "isn't by this day start" in draw(folder, "--day-start", "12:00", status=9)
    shutil.copy(TOP / "examples" / "hub-day" / "plan.csv", folder / "plan.csv")
    assert "isn't of this plan.csv" in draw(folder, status=9)
    text = (folder / "plan.csv").read_text(encoding="ascii")
    (folder / "plan.csv").write_text(text.replace("FP108,A320", "FP108,E190"), encoding="ascii")
    assert "E190 may not fly FP108" in draw(folder, status=9)
    assert not (folder / "plan.html").exists()


def test_illegal(desk: Desk, tmp_path: Path) -> None:
    """A plan by hand that isn't legal is drawn, and what judge says of it stands above all."""
    folder: Path = shutil.copytree(TOP / "examples" / "hub-day", tmp_path / "day")
    text = (folder / "plan.csv").read_text(encoding="ascii")
    (folder / "plan.csv").write_text(text.replace("FP101,A320", "FP101,E190"), encoding="ascii")
    draw(folder)
    assert "Not a legal plan." in (folder / "plan.html").read_text(encoding="utf-8")


def test_late(desk: Desk, tmp_path: Path) -> None:
    """Where `due` says that aircraft are late, that stands beside the fleet."""
    folder: Path = shutil.copytree(desk.drawn("due").folder, tmp_path / "day")
    tails = (folder / "tails.csv").read_text(encoding="ascii")
    (folder / "tails.csv").write_text(tails.replace("DAFPC,A320,2", "DAFPC,A320,1"), encoding="ascii")
    draw(folder, "--from", "2026-11-30")
    assert "late within 1, tails 3, starts 2" in (folder / "plan.html").read_text(encoding="utf-8")


def test_other_routing(desk: Desk, tmp_path: Path) -> None:
    """Dates by other options than those of solve are refused where the tours differ."""
    folder: Path = shutil.copytree(desk.drawn("week").folder, tmp_path / "week")
    said = draw(folder, "--period", "7", "--from", "2026-11-30", "--days", "1", status=9)
    assert re.search(r"has another tour of F\d+ than tails: give --days", said)
    draw(folder, "--period", "7", "--from", "2026-11-30", "--dates", "14", "--days", "4")


def test_too_much(desk: Desk) -> None:
    """More flights than a page can hold are refused, with status 2."""
    said = draw(desk.drawn("hub-day").folder, "--from", "2026-11-30", "--dates", "366", status=2)
    assert said == "tools/draw: 50 flights on 366 dates are too many to draw: give fewer --dates\n"


def hindered(folder: Path, hindrance: str) -> "subprocess.CompletedProcess[str]":
    """Draws a folder by a Python in which something is done before."""
    first = f"import runpy, sys; sys.argv = sys.argv[1:]; sys.path.insert(0, 'tools'); {hindrance}"
    python = "/usr/bin/python3" if os.path.exists("/usr/bin/python3") else sys.executable
    words = [python, "-c", f"{first}; runpy.run_path(sys.argv[0], run_name='__main__')", str(TOP / "tools" / "draw"), str(folder)]
    pipe = subprocess.PIPE
    return subprocess.run([*words, "--windows"], cwd=TOP, stdout=pipe, stderr=subprocess.STDOUT, check=False, universal_newlines=True)


def test_without_jinja(tmp_path: Path) -> None:
    """Where Jinja2 isn't there, one line says how to install it, and nothing is written."""
    folder: Path = shutil.copytree(TOP / "examples" / "re-timing", tmp_path / "day")
    ran = hindered(folder, "sys.modules['jinja2'] = None")
    wanted = "tools/draw: Jinja2 isn't there, which makes the page: apt-get install python3-jinja2 node-d3\n"
    assert (ran.returncode, ran.stdout) == (7, wanted)
    assert not (folder / "plan.html").exists()


def test_without_d3(tmp_path: Path) -> None:
    """Where D3 isn't there, the page has no script, and one line says how to install it."""
    folder: Path = shutil.copytree(TOP / "examples" / "re-timing", tmp_path / "day")
    ran = hindered(folder, "import drawing.library as it; it.PLACES = ()")
    wanted = "tools/draw: the page has no zoom and no search, since D3 isn't there: apt-get install python3-jinja2 node-d3\n"
    assert (ran.returncode, ran.stdout) == (0, wanted)
    page = (folder / "plan.html").read_text(encoding="utf-8")
    assert "<script" not in page and '<tr data-number="3">' in page


def test_legs_once(desk: Desk) -> None:
    """The table has each flight once on each date that it departs on."""
    for name in ("week", "season", "tails"):
        drawn: Drawn = desk.drawn(name)
        table = tables_in(drawn.page)["flights"]
        flights = [row[table[0].index("Flight")] for row in table[1:]]
        assert sorted(flights) == sorted(flight for flight, _ in wanted_legs(drawn).elements())
