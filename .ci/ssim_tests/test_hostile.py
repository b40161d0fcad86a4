"""Lines changed at random: each file ends in a refusal by name with nothing written, or in tables that the program reads. Plans with
shifts and legs left out that are drawn for these are refused by name, or written so that the legs depart then."""

import os
import random
import re
from collections import Counter
from pathlib import Path
from typing import List, Sequence, Set, Tuple

import pytest
from fleetplan.program import BESIDE, Runner
from schedule_lines import leg, segment, text, whole
from ssim_tests.test_shifts import Drawn, times_by
from ssim_tests.trying import Standing, call, standing

LINES = 2000
DATE = "2026-11-30"
REFUSED = re.compile(r"ssim: \S+/season line [1-9][0-9]*: .+ \(bytes? \d[\d, toand]*\), it should be .+\n")
LIMIT = re.compile(r"ssim: \S+/season: [0-9,]+ [a-z ]+ (on|in the 7 days from) 2026-11-30, and tables have .+\n")
TYPES = ("320", "E90", "333", "BUS")
# Values of a form that may stand at some first bytes of a leg, with which its meaning changes.
VALUES = (
    (15, ("30NOV26", "01DEC26", "29FEB28", "31NOV26", "01JAN99")), (22, ("30NOV26", "29NOV26", "00XXX00", "30FEB27")),
    (29, ("1      ", "1234567", "       ", "      7")), (36, ("2", " ", "1")), (37, ("ZRH", "LHR", "AAA")), (44, ("0000", "2400", "2359", "1200")),
    (48, ("+0000", "-0330", "+0545", "+1400", "-1200")), (55, ("ZRH", "LHR", "BBB")), (58, ("0000", "2400", "0001", "1800")), (66, ("+0000", "-1200", "+1300")),
    (12, ("01", "02", "99")), (10, ("01", "02", "99")), (6, ("0001", "   7", "9999")), (14, ("J", "U", "F")), (73, TYPES), (149, ("Z", " ")),
    (193, ("00", "01", "11", "A0", "7A", "  ")), (2, ("D", " ")), (128, ("A", " ")), (195, ("000007", "000001")), (1, ("3", "4", "5", "2", "1", "0")),
)  # fmt: skip
# How many faults are told.
TOLD = 10
LETTERS = "ABZ019 +-?\x00\xe4\t"


def base() -> List[str]:
    """A small schedule with a flight of two legs, over midnight, shared flights and a bus."""
    far = leg("ZZ", 9, "ZRH 2155 +0100 KTM 1110 +0545", "333", shifts="01")
    legs = [
        leg("ZZ", 1, "ZRH 0800 +0100 LHR 0950 +0000", "320"), leg("ZZ", 2, "LHR 1100 +0000 ZRH 1250 +0100", "320"),
        leg("ZZ", 1, "ZRH 0900 +0100 LHR 1050 +0000", "E90", "67", variation=2),
        leg("ZZ", 7, "ZRH 2000 +0100 GVA 2045 +0100", "E90"), leg("ZZ", 7, "GVA 2130 +0100 LIS 2310 +0000", "E90", sequence=2),
        far, segment(far, "010", "XY 7009"), leg("ZZ", 10, "KTM 1310 +0545 ZRH 1740 +0100", "333"),
        leg("ZZ", 11, "YYT 2230 -0330 ZRH 0915 +0100", "333", shifts="01", b36="2"), leg("ZZ", 80, "ZRH 0700 +0100 BSL 0830 +0100", "BUS", service="U"),
    ]  # fmt: skip
    return whole("ZZ", legs)


def changed(chance: random.Random, lines: List[str]) -> int:
    """Changes one to three lines, and returns how many."""
    count = chance.randint(1, 3)
    for _ in range(count):
        at = chance.choice([it for it, line in enumerate(lines) if line[:1] != "0"] or [0])
        line, way = lines[at], chance.random()
        if way < 0.6:
            first, values = chance.choice(VALUES)
            put = chance.choice(values)
        else:
            first, put = chance.randint(1, 200), chance.choice(LETTERS)
        lines[at] = line[: first - 1] + put + line[first - 1 + len(put) :]
        if way > 0.9:
            lines[at] = chance.choice((lines[at] + " ", lines[at][:-1], ""))
        elif way > 0.85:
            other = chance.randrange(len(lines))
            lines[at], lines[other] = lines[other], lines[at]
        elif way > 0.8:
            del lines[at]
        elif way > 0.75:
            lines.insert(at, lines[at])
    return count


class Hostile:
    """The folder of the runs, the tables that the program has read, and what was wrong."""

    def __init__(self, folder: Path) -> None:
        self.folder, self.refused, self.planned = folder, 0, 0
        self.known: Set[Tuple[object, ...]] = set()
        self.wrong: List[str] = []
        self.chance = random.Random(50)
        fleets = "".join(f"{it},500,30\n" for it in TYPES)
        (folder / "fleets").write_text(f"fleet,aircraft,turn\n{fleets}", encoding="ascii")

    def run(self, number: int, lines: Sequence[str]) -> None:
        """Makes tables of changed lines, and has a plan of them written back."""
        folder = self.folder
        data = text(lines).encode("latin-1")
        (folder / "season").write_bytes(data)
        words = ["--fleets", folder / "fleets", *(["--surface"] if number % 3 == 0 else [])]
        option = "--week" if number % 2 else "--date"
        before = standing(folder / "day")
        status, told = call("tables", folder / "season", folder / "day", option, DATE, *words)
        after = standing(folder / "day")
        if status == 6 and (REFUSED.fullmatch(told) or LIMIT.fullmatch(told)):
            self.refused += 1
            if before != after:
                self.wrong.append(f"run {number} is refused and writes: {told}")
        elif status:
            self.wrong.append(f"run {number}: status {status}: {told}")
        else:
            self.judge(number, after, ["--period", "7"] if number % 2 else [])
            status, told = call("plan", folder / "season", folder / "day", folder / "new")
            if status or (folder / "new").read_bytes() != data:
                self.wrong.append(f"run {number}: the plan as filed changes the file, status {status}: {told}")
            self.plan(number, option, words)
        beside = sorted(it for it in os.listdir(folder) if it not in ("fleets", "season", "day", "new"))
        if beside:
            self.wrong.append(f"run {number} leaves {beside}")

    def plan(self, number: int, option: str, words: Sequence[object]) -> None:
        """Has a plan that is drawn written back, for some through the season. It looks when the legs of its dates depart that stay on
        these; through the season others may come to them."""
        folder = self.folder
        drawn = Drawn(self.chance, folder / "day", TYPES[:3], is_calm=False)
        wanted = times_by(folder / "day", drawn)
        before = (folder / "new").read_bytes()
        is_whole_season = number % 5 == 0
        status, told = call("plan", folder / "season", folder / "day", folder / "new", *(["--whole-season"] if is_whole_season else []))
        if status:
            is_same = (folder / "new").read_bytes() == before
            if status != 6 or not REFUSED.fullmatch(told) or not is_same:
                self.wrong.append(f"run {number}: a plan has status {status}{'' if is_same else ' and is written'}: {told}")
            return
        self.planned += 1
        status, told = call("tables", folder / "new", folder / "day", option, DATE, *words)
        came = None if status else times_by(folder / "day")
        if came is None or Counter(wanted) - Counter(came) or came != wanted and not is_whole_season:
            self.wrong.append(f"run {number}: a plan isn't what was planned, status {status}: {told}wanted {wanted}\ncame {came}")

    def judge(self, number: int, held: Standing, period: Sequence[str]) -> None:
        """Has the program read tables that it hasn't read yet."""
        tables = tuple(held[it] for it in sorted(held) if it != "names.csv")
        if tables in self.known:
            return
        self.known.add(tables)
        ran = Runner(stderr=BESIDE).run("judge", self.folder / "day", *period)
        if ran.status not in (0, 9) or ran.text.startswith("plan refused"):
            self.wrong.append(f"run {number}: judge has status {ran.status}: {ran.text}")


@pytest.mark.usefixtures("program")
def test_lines_at_random(scratch: Path) -> None:
    """Each file is refused by name or read, and some are of either."""
    hostile, chance, done, number = Hostile(scratch), random.Random(49), 0, 0
    lines = base()
    while done < LINES:
        number += 1
        now = list(lines)
        done += changed(chance, now)
        hostile.run(number, now)
    assert not hostile.wrong, "\n".join(hostile.wrong[:TOLD])
    assert number // 4 < hostile.refused < number
    assert len(hostile.known) > 50 and hostile.planned > 50
