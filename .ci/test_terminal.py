"""The words of a call beside the program, the line of the elapsed time, pictures of all examples, the manual, and the preview.

Calls in a terminal stand in .ci/expected-terminal (.ci/collecting.py)."""

import re
import shutil
import subprocess
import xml.etree.ElementTree
from pathlib import Path
from typing import Any, List, Optional

import pytest
from command_runs.made import calls
from command_runs.running import lay, run, typed_in_terminal
from fleetplan.words import USAGE, Call

TOP = Path(__file__).resolve().parent.parent
PICTURE = ("hub-day", "E190")
EXAMPLES = sorted(it.parent.name for it in TOP.glob("examples/*/legs.csv"))
# A program that takes more than three seconds, or so many as are asked for, and then answers as `solve` does.
SLOW = "#!/bin/sh\nsleep ${SLOW:-3.6}\necho 'outcome: optimal'\nexit 3\n"


@pytest.mark.parametrize("words", [pytest.param(it, id=f"{' '.join(it)!r}") for it in calls()])
def test_words(words: List[str], program: Path, scratch: Path) -> None:
    """The program refuses the words that tools/words answers, and no others."""
    call = Call(words)
    text, status = run([str(program), *words], scratch)
    assert ((status, text) == (2, f"{USAGE}\n")) == (call.wants_help or bool(call.faults)), text


def test_manual() -> None:
    """docs/fleetplan.1 is what tools/completion makes of the table of words."""
    assert run(["tools/completion", "man"], TOP) == ((TOP / "docs" / "fleetplan.1").read_text(encoding="utf-8"), 0)


TICKS = r"(\rfleetplan: solve has run for 0:0[2-9] \(Ctrl-C ends it\))+(\^C)?\r {60}\r"
SOLVE = "./fleetplan solve examples/two-legs"


@pytest.mark.parametrize("command, keys, form, wanted", [
    (SOLVE, "", TICKS + "outcome: optimal\n(.*\n)*", 3),
    (f"{SOLVE} > f; e=$?; cat f; exit $e", "", TICKS + "outcome: optimal\n", 3),
    (f"SLOW=30 {SOLVE}; exit $?", "\x03", TICKS + "(.*\n)*", 130),
    ("./fleetplan judge examples/two-legs", "", "outcome: optimal\n(.*\n)*", 3),
], ids=["on a terminal", "beside a file", "a Ctrl-C", "a quick answer"])  # fmt: skip
def test_elapsed_time(command: str, keys: str, form: str, wanted: int, tmp_path: Path) -> None:
    """A program that takes its time has a line of it, which goes before the answer comes."""
    slow = tmp_path / "slow"
    slow.write_text(SLOW, encoding="ascii")
    lay(tmp_path, slow)
    text, status = typed_in_terminal(command, tmp_path, keys, 5)
    assert re.fullmatch(form, text) and status == wanted, f"status {status}: {text!r}"


def reading_of(folder: Path) -> List[str]:
    """Returns the words by which the tables of an example are read, and how long its nights for maintenance are."""
    text = (folder / "expected").read_text(encoding="utf-8")
    found = (re.search(rf"--{it} \S+", text) for it in ("day-start", "period", "least-night"))
    asked = [f"--{it}" for it in ("windows", "optional") if (folder / f"{it}.csv").is_file()]
    return [*(word for it in found if it for word in it[0].split()), *asked]


def drawn_wrong(folder: Path) -> Optional[str]:
    """Returns how the page of a folder differs from its rotation.csv, or None."""
    page = (folder / "plan.html").read_text(encoding="utf-8")
    for it in re.findall(r"<svg.*?</svg>", page, re.S):
        xml.etree.ElementTree.fromstring(it)
    if re.search(r"""(src|href)\s*=(?!"#)|url\((?!#)|@import""", re.sub("<script.*?</script>", "", page, flags=re.S)):
        return "the page asks for something beside itself"
    rows = [it.split(",") for it in (folder / "rotation.csv").read_text(encoding="ascii").splitlines()[1:]]
    last = {fleet: turn for fleet, turn, *_ in rows}
    drawn = dict(re.findall(r'<section[^>]* data-fleet="(\w+)">(.*?)</section>', page, re.S))
    nights = dict(re.findall(r'<th scope="row"><span[^>]*></span>(\w+)</th>(?:<td class="n">[^<]*</td>){6}<td class="n">(\d+ of \d+)<', page))
    for fleet, turn in last.items():
        own = [it for it in rows if it[:2] == [fleet, turn]]
        if not any(it[2] == "tour" for it in own):
            continue
        rows_of_aircraft = drawn.get(fleet, "").partition('<div class="by-day">')[0]
        wanted, found = sum(it[2] == "leg" for it in own), rows_of_aircraft.count('<g class="leg ')
        if found != wanted:
            return f"{fleet}: {found} of {wanted} flights are drawn"
        told = f"{sum(it[4] == 'yes' for it in own if it[2] == 'night')} of {sum(it[2] == 'night' for it in own)}"
        if nights.get(fleet) != told:
            return f"{fleet}: {nights.get(fleet)} nights at maintenance are told, and it has {told}"
    plan = [it.split(",") for it in (folder / "plan.csv").read_text(encoding="ascii").splitlines()[1:]]
    flights = sum(fleet != "-" for _, fleet, *_ in plan)
    count = len(re.findall(r'<tr data-number="', page))
    return None if count == flights else f"{count} of {flights} flights are in the table"


@pytest.fixture(scope="module")
def desk(program: Path, tmp_path_factory: Any) -> Path:
    """A folder with the program, the tools and the examples."""
    folder: Path = tmp_path_factory.mktemp("drawing")
    lay(folder, program)
    return folder


@pytest.mark.parametrize("name", EXAMPLES)
def test_drawing(name: str, desk: Path) -> None:
    """An example that is solved by the free search, which takes least time, is drawn, and one without a plan isn't."""
    folder = desk / "examples" / name
    reading = reading_of(folder)
    said, status = run(["./fleetplan", "solve", "--search", "free", str(folder), *reading], desk)
    told, drawn = run(["tools/draw", str(folder), *reading], desk)
    if status == 4:
        assert drawn in (7, 9) and not (folder / "plan.html").exists(), told
    else:
        assert not drawn, said + told
        assert not drawn_wrong(folder)


def test_picture(desk: Path) -> None:
    """The picture of the README is the one that is drawn."""
    name, fleet = PICTURE
    run(["./fleetplan", "solve", f"examples/{name}"], desk)
    run(["tools/draw", f"examples/{name}", "--svg", fleet], desk)
    assert (desk / "examples" / name / "plan.svg").read_bytes() == (TOP / "docs" / f"{name}.svg").read_bytes()


@pytest.mark.skipif("config.getoption('--no-preview', True)", reason="--no-preview leaves out the one call that compiles without proofs")
def test_preview() -> None:
    """tools/preview answers on an example, which stays as it is."""
    folder = TOP / "examples" / "two-legs"
    before = sorted((it.name, it.read_bytes()) for it in folder.iterdir())
    words = [str(TOP / "tools" / "preview"), "solve", str(folder), "--day-start", "00:00"]
    ran = subprocess.run(words, stdin=subprocess.DEVNULL, stdout=subprocess.PIPE, stderr=subprocess.PIPE, timeout=1200, check=False)
    said = ran.stderr.decode(errors="replace")
    assert (ran.returncode, ran.stdout[:27]) == (0, b"outcome: optimal\ncost: 200\n"), said
    found = re.fullmatch(r"fleetplan: not proved: for the proved answer call .*/fleetplan solve .*; what it wrote stands in (.*)\n", said)
    assert found and Path(found[1], "plan.csv").is_file(), said
    shutil.rmtree(Path(found[1]).parent)
    assert sorted((it.name, it.read_bytes()) for it in folder.iterdir()) == before
