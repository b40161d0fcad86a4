"""What the tools tell: one line a sentence, of letters that a terminal can show, whatever stands in files, names and words."""

import contextlib
import io
import os
import shutil
import subprocess
import sys
import tempfile
from pathlib import Path
from typing import Dict, List, Sequence

import pytest
from breaking import MEMORY
from fleetplan.texts import can_be_typed, plain, shown, tell, typed
from hints.saying import BRIEF, JSON, WHOLE, Hint
from hypothesis import example, given, settings, strategies as st

TOP = Path(__file__).resolve().parent.parent.parent
# Letters that a terminal obeys, that end a line, that turn it round, that can't be encoded, and plain ones.
LETTERS = "\x1b\r\n\x07\x00\x9b\u2028\u202e\ufeff\udc80\ud800\t '\"$`\\%!*~[]{}&;|<>ab\xe9\u6f22\U0001f6eb"
TEXTS = st.text(st.one_of(st.sampled_from(LETTERS), st.characters()))
# What a word of a call and the name of a file may be.
WORDS = st.binary(max_size=12).map(lambda it: os.fsdecode(it.replace(b"\0", b"")))
ODD = "a\x1b[31mb\rc\nd\udce9e\u202ef"


@given(TEXTS)
def test_shown(text: str) -> None:
    """What is shown can be printed, is one line, and is the text itself where that can be printed."""
    assert shown(text).isprintable()
    assert shown(text) == text or not text.isprintable()
    assert plain(text).isprintable()


@given(st.lists(TEXTS), st.sampled_from(["ascii", "utf-8", "latin-1"]))
def test_told(texts: List[str], encoding: str) -> None:
    """Each sentence is a line, also on a terminal whose letters are fewer."""
    raw = io.BytesIO()
    stream = io.TextIOWrapper(raw, encoding=encoding)
    tell(*texts, to=stream)
    lines = raw.getvalue().decode(encoding).split("\n")
    assert len(lines) == len(texts) + 1 and all(it.isprintable() for it in lines)


@settings(max_examples=60)
@given(st.lists(st.one_of(WORDS, st.text(st.sampled_from(LETTERS.replace("\x00", "").replace("\ud800", "")))), min_size=1))
@example(["$HOME", "`id`", "~", "*", "a b", "", "#x", "-\x01'$(id)"])
def test_typed(words: List[str]) -> None:
    """A call that is shown can be printed, and parsed by a shell it gives the words again."""
    if can_be_typed(words):
        call = typed(words)
        assert call.isprintable()
        said = subprocess.run(["sh", "-c", f"for it in {call}; do printf '%s\\000' \"$it\"; done"], stdout=subprocess.PIPE, check=True).stdout
        assert said == b"".join(os.fsencode(it) + b"\0" for it in words)


@given(st.lists(TEXTS, min_size=1, max_size=3), st.lists(WORDS, min_size=1, max_size=3), st.sampled_from([BRIEF, WHOLE, JSON]))
def test_hints(texts: List[str], words: List[str], how: str) -> None:
    """A hint has one line for each sentence, and for each call."""
    hint = Hint(6)
    for it in texts:
        hint.fault(it)
    hint.mend(words)
    hint.show(texts[0])
    told = hint.told(how)
    assert told.endswith("\n") and all(it.isprintable() for it in told[:-1].split("\n"))
    assert len(told.split("\n")) == 1 + len(texts) + (how != JSON) + (how == WHOLE)


def said_by(words: Sequence[str], folder: Path, **names: str) -> str:
    """Returns what a tool says on both streams, which has to be lines that can be printed."""
    where = {**os.environ, "LANG": "C.UTF-8", "PYTHONDONTWRITEBYTECODE": "1", **names}
    ran = subprocess.run([sys.executable, *words], cwd=folder, env=where, stdin=subprocess.DEVNULL, stdout=subprocess.PIPE, stderr=subprocess.PIPE)
    for it in (ran.stdout, ran.stderr):
        text = it.decode("utf-8")
        assert text == "" or text.endswith("\n") and all(line.isprintable() for line in text[:-1].split("\n")), text
    return (ran.stdout + ran.stderr).decode("utf-8")


def lay(folder: Path, **files: str) -> Path:
    """Lays a copy of an example with an odd name, in which files are others."""
    place: Path = shutil.copytree(TOP / "examples" / "split", folder / ODD)
    for name, text in files.items():
        (place / f"{name}.csv").write_bytes(os.fsencode(text))
    return place


CALLS: Dict[str, List[str]] = {
    "draw": ["tools/draw", ODD],
    "draw without a plan": ["tools/draw", ODD, "--svg", ODD],
    "a wrong word of draw": ["tools/draw", ODD, f"--{ODD}"],
    "a wrong word": ["tools/words", f"./{ODD}", "solve", ODD, f"--{ODD}"],
    "a wrong command": ["tools/words", ODD, ODD],
    "settings": ["tools/words", "./fleetplan", "solve", ODD],
    "a file that is missing": ["tools/hint", "7", "fault: legs.csv", "./fleetplan", "solve", f"{ODD}/no"],
    "a table that doesn't read": ["tools/hint", "6", "bad input: legs.csv record 2 kind 2", "./fleetplan", "solve", ODD],
    "a plan that is refused": ["tools/hint", "9", "plan refused: record 2 kind 4", "./fleetplan", "judge", ODD],
    "a flight of another plan": ["tools/hint", "9", "plan refused: record 2 kind 3", "./fleetplan", "judge", ODD],
    "an unknown fleet": ["tools/hint", "9", f"unknown fleet: {ODD}", "./fleetplan", "whatif", ODD, ODD, "3"],
    "too many aircraft": ["tools/hint", "9", f"too many: {ODD} used 3 of 2", "./fleetplan", "judge", ODD],
    "ssim": ["tools/ssim", "tables", ODD, ODD, "--date", "2026-11-30"],
    "a wrong word of ssim": ["tools/ssim", "tables", ODD, ODD, f"--{ODD}"],
    "a wrong value of ssim": ["tools/ssim", "tables", ODD, ODD, "--date", ODD],
    "a step": ["tools/scenarios/step", "summary", f"{ODD}/scenarios.csv", ODD, ODD],
    "a wrong step": ["tools/scenarios/step", ODD],
    "a release": ["tools/release", ODD],
    "a preview": ["tools/preview", "solve", ODD, f"--{ODD}"],
    "completion": ["tools/completion", ODD],
}  # fmt: skip
ROWS = f'X1,"{ODD}",08:00,BBB,09:00\n'


@pytest.mark.parametrize("hints", ["0", "1", "json"])
@pytest.mark.parametrize("name", CALLS)
def test_odd_names(name: str, hints: str, tmp_path: Path) -> None:
    """Odd names of folders, words, and texts of tables can be printed."""
    place = lay(tmp_path, legs=f"flight,from,dep,to,arr\n{ROWS}", plan=f'flight,fleet\n"{ODD}",F1\n', settings=f"option,value\n{ODD},7\n")
    (place / "scenarios.csv").write_bytes(os.fsencode(f"scenario,words,folder,changes\n{ODD.replace(chr(10), '')},,,\n"))
    (place / f"{ODD}.csv").write_text("", encoding="ascii")
    words = CALLS[name]
    said_by([str(TOP / words[0]), *words[1:]], tmp_path, FLEETPLAN_HINTS=hints)


@settings(max_examples=40)
@given(st.dictionaries(st.sampled_from(["legs", "plan", "fleets", "stations", "costs", "settings"]), TEXTS, min_size=1), st.integers(0, 12))
def test_any_tables(tables: Dict[str, str], number: int) -> None:
    """A hint about any table, and the refusal of any settings, can be printed."""
    from hints.after import hint_for
    from hints.before import settled

    with tempfile.TemporaryDirectory(dir=MEMORY) as scratch:
        folder = Path(scratch)
        for name, text in tables.items():
            (folder / f"{name}.csv").write_bytes(text.encode("utf-8", "surrogatepass"))
        kind = f"record {number} kind {number}"
        for status, said in ((6, f"bad input: {next(iter(tables))}.csv {kind}"), (9, f"plan refused: {kind}")):
            for how in (WHOLE, BRIEF):
                told = hint_for(str(status), said, "./fleetplan", ["solve", scratch]).told(how)
                assert all(it.isprintable() for it in told[:-1].split("\n"))
        raw = io.BytesIO()
        heard = io.TextIOWrapper(raw, encoding="utf-8")
        with contextlib.redirect_stderr(heard), contextlib.suppress(Exception):
            settled("./fleetplan", ["solve", scratch])
        assert all(it.isprintable() for it in raw.getvalue().decode("utf-8").split("\n"))
