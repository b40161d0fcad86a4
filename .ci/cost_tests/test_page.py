"""The page of the parts: what stands in it, and how long the greatest one takes."""

import json
import os
import random
import re
import resource
import subprocess
import sys
import time
from pathlib import Path
from typing import Any, Dict
from unittest import mock

import pytest

from cost_tests.calling import TOP, call, costs, parts
from cost_tests.days import COSTS, DAY, lay
from page_tables import Tables


def page(folder: Path) -> str:
    """Returns the page of a folder."""
    return (folder / "costs.html").read_text(encoding="utf-8")


def data(text: str) -> Dict[str, Any]:
    """Returns what the script of a page reads."""
    found = re.search(r'<script type="application/json" id="data">(.*?)</script>', text, re.DOTALL)
    assert found
    return dict(json.loads(found[1]))


def test_all_legs_stand_there(scratch: Path) -> None:
    """Each leg has its costs, the least one bold, and a dash with the reason where a fleet may not fly it."""
    call(lay(scratch, types=DAY["types.csv"].replace("1900,,", "1900,100,FRA/0745-0800")))
    found = Tables(page(scratch))
    assert found.rows["legs"] == [
        ["Flight", "From", "Dep", "To", "Arr", "Block", "Mean", "Spread", "A320", "E190"],
        ["FP1", "ZRH", "06:00", "LHR", "07:50", "110", "125", "37.5", "10,870", "–"],
        ["FP2", "LHR", "08:40", "ZRH", "10:20", "100", "110", "33", "9,554", "8,621"],
        ["FP3", "ZRH", "06:10", "FRA", "07:10", "60", "80", "28", "6,480", "4,915"],
        ["FP4", "FRA", "07:50", "ZRH", "08:50", "60", "85", "29.75", "6,680", "–"],
    ]
    assert found.bold["legs"] == ["10,870", "8,621", "4,915", "6,680"]
    assert found.titles["legs"] == ["block 110 min, longest 100", "FRA is closed from 07:45 to 08:00"]


def test_what_the_charts_are_drawn_of(scratch: Path) -> None:
    """Of each pair its cost, its spill and its parts, and of others why they may not be."""
    call(lay(scratch, types=DAY["types.csv"].replace("1900,,", "1900,100,")))
    found = data(page(scratch))
    assert found["parts"] == ["Departure", "Minutes", "Fuel", "Fee", "Spill"]
    assert found["fleets"] == [["A320", 180], ["E190", 106]]
    assert found["legs"][0] == {
        "block": 110, "mean": 125, "sd": 37.5, "worth": 104,
        "cells": [[10870, 1185, 150000, 418000, 366667, 140000, 12324], "block 110 min, longest 100"],
    }  # fmt: skip
    assert [it["cells"][0][0] for it in found["legs"]] == [cost for pair, cost in COSTS.items() if "A320" in pair]


def test_a_page_without_d3(scratch: Path) -> None:
    """Without D3 the table stands alone, and standard error says so."""
    lay(scratch)
    with mock.patch("drawing.library.PLACES", ()):
        answer = call(scratch)
    assert (answer.status, answer.told[0]) == (0, "the page has no charts, since D3 isn't there: apt-get install python3-jinja2 node-d3")
    assert "<script" not in page(scratch) and 'id="one"' not in page(scratch)
    assert len(Tables(page(scratch)).rows["legs"]) == 5


def test_the_plan_stands_above(scratch: Path) -> None:
    """With plan.csv its figures are those that are told."""
    call(lay(scratch, plan="flight,fleet\nFP1,A320\nFP2,A320\nFP3,E190\nFP4,E190\n"))
    facts = re.findall(r"<dt>(.*?)</dt><dd>(.*?)</dd>", page(scratch))
    assert facts[3:] == [
        ("The plan&#39;s operating cost", "29,850"), ("Its spill cost", "674"), ("Spilled passengers", "8.262"), ("Load factor", "0.685"),
    ]  # fmt: skip


def greatest(folder: Path) -> Path:
    """Writes 1,000 legs and 20 fleets with figures of their own, and returns the folder."""
    draw = random.Random(7)
    stations = [f"{a}{b}{c}" for a in "ABC" for b in "ABCDEFGH" for c in "ABCDEFGH"]
    legs = []
    for it in range(1000):
        start, end = draw.sample(stations, 2)
        dep = draw.randrange(1440)
        arr = (dep + draw.randint(40, 500)) % 1440
        legs.append(f"FP{it},{start},{dep // 60:02}:{dep % 60:02},{end},{arr // 60:02}:{arr % 60:02}")
    demand = [f"FP{it},{draw.randint(50, 150)},{draw.randint(170, 190)},0.{draw.randint(20, 45)},{draw.randint(50, 300)}.{draw.randint(10, 99)},{draw.randint(0, 40)}" for it in range(1000)]
    tables = {
        "legs": ("flight,from,dep,to,arr", legs),
        "fleets": ("fleet,aircraft,turn", [f"T{it},50,40" for it in range(20)]),
        "demand": ("flight,carried,seats,k,fare,recapture", demand),
        "types": ("fleet,seats,departure,minute,fuel,longest,closed", [f"T{it},{60 + 13 * it},{900 + 77 * it}.5,{20 + 2 * it}.25,{1500 + 170 * it},1439," for it in range(20)]),
        "fuel": ("station,price", [f"{it},{draw.randint(700, 900)}.{draw.randint(10, 99)}" for it in stations]),
        "fees": ("station,fleet,fee", [f"{it},T{fleet},{draw.randint(200, 3000)}" for it in stations for fleet in range(20)]),
    }  # fmt: skip
    return lay(folder, **{name: "\n".join([header, *rows, ""]) for name, (header, rows) in tables.items()})


def test_the_greatest_folder_takes_less_than_a_second(scratch: Path) -> None:
    """1,000 legs by 20 fleets, of the processor's time. Where others keep it busy all takes longer: a loop that takes 0.1 seconds tells by how
    much."""
    folder, took = greatest(scratch), []
    for _ in range(5):
        began, before = time.process_time(), resource.getrusage(resource.RUSAGE_CHILDREN)
        sum(it * it for it in range(1_500_000))
        slower = max(1.0, (time.process_time() - began) / 0.1)
        subprocess.run([sys.executable, str(TOP / "tools" / "costs"), str(folder)], stderr=subprocess.DEVNULL, check=True)
        after = resource.getrusage(resource.RUSAGE_CHILDREN)
        took.append((after.ru_utime + after.ru_stime - before.ru_utime - before.ru_stime) / slower)
    assert min(took) < 1, took
    assert len(costs(folder)) == len(parts(folder)) == 20_000


BROWSER = "/usr/bin/chromium"


@pytest.mark.skipif(not os.access(BROWSER, os.X_OK), reason="there is no browser: apt-get install chromium")
def test_charts_in_a_browser(scratch: Path, tmp_path: Path) -> None:
    """Of the first leg each fleet has its bar of five parts, or why it may not fly it; the least is marked; the line of spill is drawn."""
    call(lay(scratch, fleets=f"{DAY['fleets.csv']}AT76,1,25\n", types=f"{DAY['types.csv']}AT76,70,600,20,700,80,\n"))
    words = ["--headless=new", "--no-sandbox", "--disable-gpu", "--disable-dev-shm-usage", f"--user-data-dir={tmp_path}", "--virtual-time-budget=5000", "--dump-dom"]
    ran = subprocess.run([BROWSER, *words, (scratch / "costs.html").as_uri()], stdout=subprocess.PIPE, stderr=subprocess.DEVNULL, text=True, check=True, timeout=100)
    bars = ran.stdout[ran.stdout.index('<div id="bars"') : ran.stdout.index('<div class="wide"><table id="numbers"')]
    assert re.findall(r'data-fleet="(.*?)"', bars) == ["A320", "E190", "AT76"]
    assert re.findall(r"<title>(.*?)</title>", bars)[:5] == ["Departure 1,500", "Minutes 4,180", "Fuel 3,666.67", "Fee 1,400", "Spill 123.24"]
    assert re.findall(r'class="(?:least|why|)" x=.*?>(.*?)</text>', bars) == ["10,870", "10,816, the least", "may not fly it: block 110 min, longest 80"]
    widths = [float(it) for it in re.findall(r'<rect x="[0-9.]+" width="([0-9.]+)"', bars)]
    assert [round(10870 * it / sum(widths[:5])) for it in widths] == [1500, 4180, 3667, 1400, 123, 1000, 3190, 2787, 1100, 2739]
    numbers = ran.stdout[ran.stdout.index('<table id="numbers"') : ran.stdout.index('<div id="curve"')]
    assert re.findall(r"<tr class=\"least\"><th.*?>(.*?)</th>", numbers) == ["E190"]
    curve = ran.stdout[ran.stdout.index('<div id="curve"') : ran.stdout.index('<section id="legs">')]
    assert re.findall(r"<title>(.*?)</title>", curve) == ["A320, 180 seats: 123.24", "E190, 106 seats: 2,739.46", "AT76, 70 seats: may not fly it"]
    points = [tuple(map(float, it.split(","))) for it in re.findall(r'class=""|<path d="M([0-9.,L]+)"', curve)[0].split("L")]
    assert len(points) == 241
    assert [it[1] for it in points] == sorted(it[1] for it in points)
    assert 'data-ready="yes"' in ran.stdout
