"""Answers of scenarios that a full disk, a machine that was switched off, or a hand has torn: their scenarios weren't solved, the others have
their rows, and the next call makes them anew."""

import json
import os
import tempfile
from functools import partial
from pathlib import Path
from typing import Callable, Dict, List

import pytest
from breaking import MEMORY
from hypothesis import given, settings, strategies as st
from scenario_tests.laid import column, lay_run, optimal, records, summed
from steps import sizes, solving
from steps.answers import Torn, answer_in
from steps.running import Fault, Limits

LISTED = "scenario,words,folder,changes\nwhole,,,\nhurt,,,\n"
PLACES = {"answer": "solved/answer.json", "check": "check.json", "sizes": "sizes.json"}
ASKED = {"asked": [["F1", {"less": "whatif F1 1: infeasible", "more": "whatif F1 3: bound 60"}], ["F2", {}]]}
LIMITS = Limits(100, 1)


def half(path: Path) -> None:
    """Leaves half of a file."""
    data = path.read_bytes()
    path.write_bytes(data[: len(data) // 2])


def as_folder(path: Path) -> None:
    """Puts a folder into the place of a file."""
    path.unlink()
    path.mkdir()


def as_loop(path: Path) -> None:
    """Puts a link that leads to itself into the place of a file."""
    path.unlink()
    path.symlink_to(path.name)


# What else a file may have in it.
DATA = {
    "empty": b"", "zeros": b"\0" * 512, "a letter of no text": b'{"told": "\xff\xfe"}', "a list": b"[1]", "a number": b"70", "nothing": b"null",
    "no number": b'{"told": "", "seconds": NaN, "memory": 1, "sums": {}, "asked": NaN}', "deep": b"[" * 100_000,
    "long": b'{"fault": "' + b"x" * (1 << 24) + b'"}', "two": b'{"fault": "x"}{"fault": "x"}', "a fault that is no text": b'{"fault": 7}',
    "another": b'{"other": 1}',
}  # fmt: skip
# Ways in which any of the files may be torn.
WAYS: Dict[str, Callable[[Path], object]] = {
    "half": half, "a folder": as_folder, "a loop": as_loop, **{name: partial(Path.write_bytes, data=it) for name, it in DATA.items()},
}  # fmt: skip
# What stands in another form in each file, and in what `solve` answered; `...` is left out.
OTHERS: Dict[str, List[Dict[str, object]]] = {
    "answer": [
        {"told": ...}, {"seconds": ...}, {"seconds": True}, {"memory": 1.5}, {"memory": -1}, {"reading": ...}, {"reading": "--windows"},
        {"solved": None},
    ],
    "solved": [
        {"cost": "7x"}, {"cost": 70}, {"bound": ...}, {"outcome": ["optimal"]}, {"outcome": "best"}, {"splits": None}, {"fleets": [{"name": "F1"}]},
        {"fleets": [[]]}, {"rotations": [None]},
    ],
    "check": [
        dict.fromkeys(("told", "seconds", "memory", "sums"), ...), {"told": ...}, {"told": ["holds: "]}, {"sums": ...}, {"sums": []},
        {"sums": {"plan.csv": 1}},
    ],
    "sizes": [{"asked": it} for it in ({"F1": {}}, [["F1"]], [[1, {}]], [["F1", {"less": None}]])],
}  # fmt: skip
CHANGES = [(part, change) for part, changes in OTHERS.items() for change in changes]


def lay(folder: Path) -> Path:
    """Lays a run of two scenarios whose files are whole, and returns the folder of the second."""
    lay_run(folder, LISTED, {"whole": optimal(70), "hurt": optimal(60)})
    for it in ("whole", "hurt"):
        (folder / "scenarios" / it / "sizes.json").write_text(json.dumps(ASKED), encoding="ascii")
    assert summed(folder)[0]
    return folder / "scenarios" / "hurt"


def hurt(folder: Path, name: str) -> None:
    """Sums up a run of which a file of the second scenario is torn: it wasn't solved, and is made anew; the first stays as it was."""
    own, before = folder / "scenarios" / "hurt", records(folder)
    (folder / "summary.csv").write_text("an older one", encoding="ascii")
    is_sound, said = summed(folder)
    told = f"{os.path.basename(PLACES[name])} "
    assert not is_sound and f"\n  hurt: NOT SOLVED, {told}" in said and "the next call makes it anew" in said
    assert column(folder, "outcome") == {"hurt": "NOT SOLVED", "whole": "optimal"}
    assert {it: text for it, text in before[0].items() if "used difference" not in it} == records(folder)[1]
    assert not os.path.lexists(own / PLACES[name])
    assert (own / "check.json").exists() == (name == "sizes")
    assert (own / "solved").exists() == (name != "answer")


@pytest.mark.parametrize("way", WAYS)
@pytest.mark.parametrize("name", PLACES)
def test_torn(name: str, way: str, scratch: Path) -> None:
    """A file that is torn in any way makes its scenario not solved."""
    WAYS[way](lay(scratch) / PLACES[name])
    hurt(scratch, name)


@pytest.mark.parametrize("at", range(len(CHANGES)))
def test_lacking(at: int, scratch: Path) -> None:
    """So does an answer that lacks something, or has it in another form."""
    part, change = CHANGES[at]
    name = "answer" if part == "solved" else part
    place = lay(scratch) / PLACES[name]
    answer = json.loads(place.read_text(encoding="ascii"))
    own = answer["solved"] if part == "solved" else answer
    own.update(change)
    for it in (it for it, value in change.items() if value is ...):
        del own[it]
    place.write_text(json.dumps(answer), encoding="ascii")
    hurt(scratch, name)


def test_each_beginning(scratch: Path) -> None:
    """No beginning of an answer is taken for a whole one."""
    own = lay(scratch)
    for place in PLACES.values():
        data = (own / place).read_bytes()
        assert answer_in(str(own / place)) == json.loads(data)
        for most in range(len(data) - 1):
            (own / place).write_bytes(data[:most])
            with pytest.raises(Torn):
                answer_in(str(own / place))


def test_steps_behind_a_torn_answer(scratch: Path) -> None:
    """A step behind a torn answer fails in words, and at its last try that is its answer."""
    own = lay(scratch)
    half(own / "solved" / "answer.json")
    solved, check, asked, drawn = (str(own / it) for it in ("solved", "check.json", "sizes.json", "drawn"))
    steps: Dict[str, Callable[[bool], None]] = {
        check: lambda is_last: solving.check("none", solved, check, LIMITS, is_last),
        asked: lambda is_last: sizes.ask("none", solved, asked, LIMITS, is_last),
        drawn: lambda is_last: solving.draw(solved, "hurt", drawn, is_last),
    }
    why = f"answer.json isn't whole: {solved}"
    for place, step in steps.items():
        with pytest.raises(Fault, match="answer.json isn't whole"):
            step(False)
        step(True)
        text = Path(place, "fault.txt") if place == drawn else Path(place)
        assert (json.loads(text.read_text(encoding="ascii"))["fault"] if place != drawn else text.read_text(encoding="ascii")) == why


@pytest.mark.parametrize("name", ["plan.csv", "proof.txt"])
def test_torn_solution(name: str, scratch: Path) -> None:
    """A plan or a proof that can't be read any more isn't proved."""
    own = lay(scratch)
    (own / "solved" / name).unlink(missing_ok=True)
    (own / "solved" / name).mkdir()
    is_sound, said = summed(scratch)
    assert not is_sound and f"{name} can't be compared with what was checked: Is a directory" in said
    assert column(scratch, "outcome") == {"hurt": "NOT PROVED", "whole": "optimal"}


TEXTS = st.text(st.one_of(st.sampled_from("\x1b\r\n\x07\x9b\u2028\u202e<>&'\" "), st.characters(blacklist_categories=["Cs"])), max_size=40)


@settings(max_examples=25)
@given(TEXTS, TEXTS)
def test_texts_of_answers(fault: str, said: str) -> None:
    """Whatever an answer says, the summary tells it in one line of letters that can be printed."""
    with tempfile.TemporaryDirectory(dir=MEMORY) as folder:
        lay_run(Path(folder), LISTED, {"whole": {"fault": fault}, "hurt": optimal(60)})
        check = Path(folder, "scenarios", "hurt", "check.json")
        check.write_text(json.dumps({**json.loads(check.read_text(encoding="ascii")), "told": said}), encoding="ascii")
        lines = summed(Path(folder))[1].split("\n")
        assert len(lines) == 8 and all(it.isprintable() for it in lines), lines
        assert {it["scenario"]: it["outcome"] for it in records(Path(folder))} == {"whole": "NOT SOLVED", "hurt": "NOT PROVED"}


def test_check_of_what_was_refused(scratch: Path) -> None:
    """What was refused has a check that says nothing, and stays."""
    refused = {"status": 6, "told": "bad input: legs.csv record 2 kind 3", "seconds": 0, "memory": 0}
    lay_run(scratch, LISTED, {"whole": optimal(70), "hurt": refused})
    assert column(scratch, "outcome") == {"hurt": "refused", "whole": "optimal"}
    assert (scratch / "scenarios" / "hurt" / "check.json").exists()
