"""What is too much is refused in one line, within 512 MB and five seconds of the processor; and the greatest tables are drawn within them."""

import itertools
import shutil
import string
import subprocess
import sys
from pathlib import Path
from typing import Dict, Iterable, List, Tuple

import pytest
from fleetplan.program import MOST_PRINTED, MOST_TOLD
from fleetplan.proofs import counts_of
from fleetplan.tables import MOST_BYTES
from safety_tests.trying import TOP, call, stand_in
from schedule_lines import leg, text as text_of_lines, whole

START = ["--day-start", "00:00"]
HOLDS = 'case $1 in check) echo "holds: cost 70 bound 70" ;; *) echo "legal: cost 70" ;; esac'
# Of each table as many records as there may be: its header, and the form of a record with its number.
MOST: Dict[str, Tuple[str, str, int]] = {
    "stations.csv": ("code,extra,maintenance", "{code},0,yes", 200),
    "fleets.csv": ("fleet,aircraft,turn", "F{0},1,30", 20),
    "legs.csv": ("flight,from,dep,to,arr", "X{0},AAA,08:00,BBB,09:00", 1000),
    "costs.csv": ("flight,fleet,cost", "X{0},F1,1", 20_000),
    "throughs.csv": ("in,out,value", "X{0},X1,1", 2000),
    "windows.csv": ("flight,shift,extra", "X{0},5,1", 8000),
    "optional.csv": ("flight,skip", "X{0},1", 1000),
}
CODES = ["".join(it) for it in itertools.islice(itertools.product(string.ascii_uppercase, repeat=3), 10_000)]


def lay(scratch: Path) -> Path:
    """Lays a folder with a plan."""
    folder: Path = shutil.copytree(TOP / "examples" / "split", scratch / "split")
    return folder


def table(name: str, count: int) -> str:
    """Returns a table of so many records."""
    header, form, _ = MOST[name]
    return "\n".join([header, *(form.format(it, code=CODES[it % len(CODES)]) for it in range(count)), ""])


@pytest.mark.parametrize("name", MOST)
def test_too_many_records(name: str, scratch: Path) -> None:
    """A table of more records than it may have is refused by its number of them, and no page is written."""
    folder = lay(scratch)
    most = MOST[name][2]
    text = table(name, most + 1)
    (folder / name).write_text(text, encoding="ascii")
    flags = [f"--{it}" for it in ("windows", "optional") if name.startswith(it)]
    ended = call(["draw", folder, *START, *flags], scratch)
    count = text.count("\n") - 1
    assert (ended.status, ended.told) == (6, [f"tools/draw: {folder / name} has {count} records, and may have {most}"])
    assert not (folder / "plan.html").exists()


@pytest.mark.parametrize("text", ["a\n", '"', "X1,F1\n"], ids=ascii)
@pytest.mark.parametrize("name", ["legs.csv", "costs.csv", "plan.csv", "rotation.csv", "settings.csv"])
def test_long_files(name: str, text: str, scratch: Path) -> None:
    """A file of any one text, as often as it has room for, is refused."""
    folder = lay(scratch)
    header = {"plan.csv": "flight,fleet", "rotation.csv": "fleet,round,kind,a,b", "settings.csv": "word,value"}.get(name) or MOST[name][0]
    (folder / name).write_text(f"{header}\n{text * (MOST_BYTES // len(text) - 100)}", encoding="ascii")
    ended = call(["draw", folder, *START], scratch)
    assert ended.status in (6, 9) and len(ended.told) == 1, ended


def great(folder: Path) -> None:
    """Lays the greatest tables that there may be, with a plan of them."""
    folder.mkdir()
    ways: List[str] = []
    plan: List[str] = []
    for number in range(0, 1000, 2):
        home, away, minute = CODES[0], CODES[1 + number // 2 % 199], number * 7 % 1200
        times = [f"{it // 60 % 24:02}:{it % 60:02}" for it in (minute, minute + 60, minute + 100, minute + 160)]
        ways += [f"X{number},{home},{times[0]},{away},{times[1]}", f"X{number + 1},{away},{times[2]},{home},{times[3]}"]
        plan += [f"X{it},F{number // 2 % 20}" for it in (number, number + 1)]
    costs = [f"X{flight},F{fleet},{flight + fleet}" for flight in range(1000) for fleet in range(20)]
    texts: Dict[str, Iterable[str]] = {
        "stations.csv": table("stations.csv", 200).splitlines(),
        "fleets.csv": ["fleet,aircraft,turn", *(f"F{it},500,30" for it in range(20))],
        "legs.csv": [MOST["legs.csv"][0], *ways],
        "costs.csv": [MOST["costs.csv"][0], *costs],
        "throughs.csv": ["in,out,value"],
        "plan.csv": ["flight,fleet", *plan],
    }
    for name, lines in texts.items():
        (folder / name).write_text("".join(f"{it}\n" for it in lines), encoding="ascii")


def test_greatest_tables(scratch: Path) -> None:
    """The greatest tables are drawn."""
    great(scratch / "great")
    ended = call(["draw", "great", *START], scratch)
    assert (ended.status, (scratch / "great" / "plan.html").exists()) == (0, True), ended


def test_long_proof(scratch: Path) -> None:
    """A proof of 3 GB without a line's end is read by parts."""
    folder, program = lay(scratch), stand_in(scratch / "program", HOLDS)
    with open(folder / "proof.txt", "wb") as it:
        it.write(b"split \nopen nodes\n")
        it.truncate(3 << 30)
    ended = call(["draw", folder, *START], scratch, program)
    assert (ended.status, ended.told) == (0, [])
    assert "70" in (folder / "plan.html").read_text(encoding="utf-8")


@pytest.mark.parametrize("size", [1 << 20, 1 << 16, (1 << 16) - 3, (1 << 16) - 6, 5])
def test_counts(size: int, scratch: Path) -> None:
    """Lines are counted by their beginnings, whatever part of the proof they stand in."""
    lines = [f"{'x' * size}split ", "split 1", "open nodes", "open pivots 3", "open nodes more", f"{'y' * size}open nodes"]
    (scratch / "proof.txt").write_text("".join(f"{it}\n" for it in lines), encoding="ascii")
    assert counts_of(str(scratch / "proof.txt")) == {"splits": 1, "nodes": 1, "pivots": 1, "grew": 0}


ENDLESS: Dict[str, Tuple[str, List[str]]] = {
    "judge": ("head -c 3000000000 /dev/zero", []),
    "lines": ("yes", ["--from", "2026-11-30"]),
    "dates": ("yes '2026-11-30 F1/1: X1'", ["--from", "2026-11-30"]),
    "fleets": ("seq 1 9999999 | sed 's/$/: unused/'", ["--from", "2026-11-30"]),
}


@pytest.mark.parametrize("name", ENDLESS)
def test_endless_answers(name: str, scratch: Path) -> None:
    """What a program prints without end is cut."""
    script, words = ENDLESS[name]
    folder, program = lay(scratch), stand_in(scratch / "program", script)
    (folder / "proof.txt").unlink(missing_ok=True)
    ended = call(["draw", folder, *START, *words], scratch, program)
    command = "tails" if words else "judge"
    assert ended.status == 7 and len(ended.told) == 1
    assert f"{command} can't be asked: it prints more than {MOST_PRINTED} bytes" in ended.told[0], ended
    assert not (folder / "plan.html").exists()


HOSTILE: Dict[str, Tuple[bytes, int, str]] = {
    "line feeds": (b"\n", 1 << 30, "has 1,048,576 lines in 1,048,576 bytes, and each line of a schedule file has 200"),
    "short lines": (b"3ZZ\n", 1 << 28, "has 262,144 lines in 1,048,576 bytes, and each line of a schedule file has 200"),
    "one line": (b"1", 1 << 30, "line 1: the line has more than 1048576 bytes (bytes 1 to 1048576), it should be 200 bytes long"),
    "too long": (b"", (1 << 30) + 1, "is longer than 1073741824 bytes"),
}


@pytest.mark.parametrize("command", ["tables", "plan"])
@pytest.mark.parametrize("name", HOSTILE)
def test_schedule_files(name: str, command: str, scratch: Path) -> None:
    """A file of far too many lines, or of one that is far too long, is refused before it is split."""
    text, length, why = HOSTILE[name]
    folder, place = lay(scratch), scratch / "season"
    with open(place, "wb") as it:
        for _ in range(min(length, 1 << 25) // (1 << 20) if text else 0):
            it.write(text * ((1 << 20) // len(text)))
        it.truncate(length)
    rest = [folder, "--date", "2026-11-30"] if command == "tables" else [folder, scratch / "new"]
    ended = call(["ssim", command, place, *rest], scratch)
    assert (ended.status, ended.told) == (6, [f"ssim: {place} {why}"])
    assert not (scratch / "new").exists()


@pytest.mark.parametrize("script", ["yes", "head -c 3000000000 /dev/zero", "sh -c yes", "yes & sleep 1; kill $!", "head -c 3000000000 /dev/zero >&2"])
def test_endless_judgements(script: str, scratch: Path) -> None:
    """What the program prints of the plan as filed is cut, and nothing is written."""
    legs = [leg("ZZ", 1, "ZRH 0800 +0100 LHR 0950 +0000", "320"), leg("ZZ", 2, "LHR 1100 +0000 ZRH 1250 +0100", "320")]
    (scratch / "season").write_text(text_of_lines(whole("ZZ", legs)), encoding="ascii")
    program = stand_in(scratch / "program", script)
    ended = call(["ssim", "tables", "season", "day", "--date", "2026-11-30"], scratch, FLEETPLAN=str(program))
    much = f"tells more than {MOST_TOLD}" if ">&2" in script else "prints more than 65536"
    assert (ended.status, ended.told) == (7, [f"ssim: {program} judge {much} bytes"])
    assert not (scratch / "day").exists()


# What a season takes at most beyond what Python does: it begins where nothing is read yet.
PEAK = """
import re, sys
sys.path.insert(0, sys.argv[1])
from schedule_files.files import schedule_bytes
from schedule_files.reading import read_schedule

def peak() -> int:
    with open("/proc/self/status") as it:
        return 1024 * int(re.search("VmHWM:\\s*([0-9]+) kB", it.read())[1])

before = peak()
found = read_schedule(sys.argv[2], schedule_bytes(sys.argv[2]))
print((peak() - before) // len(found.lines))
"""


def test_season(scratch: Path) -> None:
    """A season takes some 1,150 bytes for each of its lines, so that one of 980,000 takes little more than 1 GB."""
    legs = [leg("ZZ", it, "ZRH 0800 +0100 LHR 0950 +0000", "320", variation=1 + more) for more in range(4) for it in range(1, 10_000)]
    (scratch / "season").write_text(text_of_lines(whole("ZZ", legs)), encoding="ascii")
    words = [sys.executable, "-B", "-c", PEAK, str(TOP / "tools"), str(scratch / "season")]
    said = subprocess.run(words, stdout=subprocess.PIPE, check=True, encoding="ascii").stdout
    assert int(said) < 1240
