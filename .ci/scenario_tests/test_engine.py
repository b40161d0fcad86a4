"""Runs of the engine, with a program that prints recorded answers: what is old is known by its bytes."""

import os
import shutil
import subprocess
from pathlib import Path
from typing import List

import pytest

TOP = Path(__file__).resolve().parent.parent.parent
SPLIT = TOP / "examples" / "split"
SOLVED = (
    '{"bound":"140","cost":"140","fleets":[{"has":1,"name":"F1","used":1},{"has":1,"name":"F2","used":1},{"has":1,"name":"F3","used":1}],'
    '"open":{"grew":0,"nodes":0,"pivots":0},"outcome":"optimal","rotations":["tour of 2 legs in 1 days","none","none"],"splits":2}'
)
# It notes its command, and answers as the example was solved; DIR is the first word that is a folder.
PROGRAM = f"""#!/bin/sh
echo "$1" >> "{{log}}"
for dir; do [ -d "$dir" ] && break; done
case $1 in
judge) echo 'legal: cost 140' ;;
solve) cp {SPLIT}/plan.csv {SPLIT}/proof.txt {SPLIT}/rotation.csv "$dir"; echo '{SOLVED}' ;;
check) echo 'holds: cost 140 bound 140' ;;
esac
"""


def run(folder: Path) -> List[str]:
    """Runs the scenarios of a folder, and returns what the program was asked."""
    words = ["snakemake", "-s", str(TOP / "tools" / "scenarios" / "Snakefile"), "--directory", str(folder), "--cores", "1", "--quiet", "all"]
    where = {**os.environ, "HOME": str(folder), "XDG_CACHE_HOME": str(folder / "cache"), "PYTHONDONTWRITEBYTECODE": "1"}
    ran = subprocess.run(words, env=where, stdin=subprocess.DEVNULL, stdout=subprocess.PIPE, stderr=subprocess.STDOUT, check=False, timeout=300)
    assert ran.returncode == 0, ran.stdout.decode()
    asked = (folder / "asked").read_text(encoding="ascii").split() if (folder / "asked").exists() else []
    (folder / "asked").write_text("", encoding="ascii")
    return asked


@pytest.mark.skipif(not shutil.which("snakemake"), reason="there is no snakemake, which runs scenarios")
def test_older_time(tmp_path: Path) -> None:
    """A base table with other bytes and an older time is solved anew, one with the same bytes and a newer time isn't kept from it, and
    nothing else is done twice."""
    shutil.copytree(SPLIT, tmp_path / "tables")
    program = tmp_path / "program"
    program.write_text(PROGRAM.replace("{log}", str(tmp_path / "asked")), encoding="ascii")
    program.chmod(0o755)
    (tmp_path / "config.yaml").write_text(f"program: {program}\npictures: false\nsizes: false\n", encoding="ascii")
    (tmp_path / "scenarios.csv").write_text("scenario,words,folder,changes\na,--day-start 00:00,,\n", encoding="ascii")
    assert run(tmp_path).count("solve") == 1
    assert run(tmp_path).count("solve") == 0
    costs = tmp_path / "tables" / "costs.csv"
    before = costs.stat().st_mtime
    lines = costs.read_text(encoding="ascii").splitlines()
    costs.write_text("\n".join([*lines[:-1], f"{lines[-1].rpartition(',')[0]},7777"]) + "\n", encoding="ascii")
    os.utime(costs, (before - 3600, before - 3600))
    assert run(tmp_path).count("solve") == 1
    assert run(tmp_path).count("solve") == 0
