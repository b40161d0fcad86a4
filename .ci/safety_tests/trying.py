"""Tools called as anybody does, within little memory and time, with a stand-in for the program."""

import os
import sys
from pathlib import Path
from typing import List, NamedTuple, Optional, Sequence

from fleetplan.program import Runner

TOP = Path(__file__).resolve().parent.parent.parent
MEGABYTES, SECONDS = 512, 5


class Ended(NamedTuple):
    """How a tool ended: its status, and its lines on both streams."""

    status: int
    said: List[str]
    told: List[str]


def call(words: Sequence[object], folder: Path, program: Optional[Path] = None, megabytes: int = MEGABYTES, **names: str) -> Ended:
    """Calls a tool of the clone in a folder, within so much memory and five seconds of the processor. Each line that it prints has to be
    of letters that can be printed, and none of a traceback."""
    tool, *rest = map(str, words)
    where = {**os.environ, "LANG": "C.UTF-8", "FLEETPLAN_HINTS": "0", "FLEETPLAN": str(program or os.devnull), **names}
    where.pop("PYTHONPATH", None)
    ran = Runner(sys.executable, 45, memory=megabytes, processor=SECONDS, cwd=folder, env=where).run("-B", TOP / "tools" / tool, *rest)
    return Ended(ran.status, _lines(ran.printed), _lines(ran.told))


def _lines(data: bytes) -> List[str]:
    text = data.decode("utf-8")
    assert text == "" or text.endswith("\n") and all(it.isprintable() for it in text[:-1].split("\n")), text
    assert "Traceback" not in text and "fault of the tool" not in text, text
    return text.splitlines()


def stand_in(place: Path, script: str) -> Path:
    """Lays a program that a script of sh answers for."""
    place.write_text(f"#!/bin/sh\n{script}\n", encoding="ascii")
    place.chmod(0o755)
    return place
