"""Other solvers beside the program: cbc, glpsol and HiGHS, on the same integer program. HiGHS is called by scipy."""

import re
import shutil
from pathlib import Path
from typing import Dict, Optional, Tuple

import plan_by_cbc
from shared import BENCH, Place, run

from fleetplan.program import TooLate
from fleetplan.times import minute_of

# The seconds of each solver, and the cost where it was found.
Found = Dict[str, Tuple[float, Optional[int]]]
SECONDS = 120
# Debian's scipy is for this one.
PYTHON = "/usr/bin/python3"
OBJECTIVE = re.compile(r"^Objective value: +(\S+)", re.M)
INTEGER_OPTIMAL = re.compile(r"\A(?:.*\n)*\+ *\d+: mip = +(\S+) >= .*\n(?:.*\n)*?INTEGER OPTIMAL")
SOLVERS = {
    "cbc": (["cbc", "model.lp", "solve"], OBJECTIVE),
    "glpsol": (["glpsol", "--lp", "model.lp", "-o", "found"], INTEGER_OPTIMAL),
    "highs": ([PYTHON, str(BENCH / "by_highs.py"), "model.lp"], OBJECTIVE),
}


def is_there(name: str) -> bool:
    """Whether a solver is on this machine."""
    if name == "highs":
        return shutil.which(PYTHON) is not None and run(PYTHON, "-c", "import scipy.optimize").status == 0
    return shutil.which(name) is not None


def solved(folder: Place, day_start: str = "03:00") -> Found:
    """The seconds of the processor and the cost of each solver that is there, on the tables of a folder. After two minutes by the
    clock they are ended, and have no cost."""
    model, _ = plan_by_cbc.program(*plan_by_cbc.pairs_of(folder, minute_of(day_start)))
    Path(folder, "model.lp").write_text(model)
    found: Found = {}
    for name, (words, cost) in SOLVERS.items():
        if is_there(name):
            try:
                ran = run(*words, cwd=folder, seconds=SECONDS)
                costs = cost.findall(ran.text)
                found[name] = ran.seconds, round(float(costs[-1])) if costs else None
            except TooLate:
                found[name] = SECONDS, None
    return found


def told(found: Found) -> str:
    """What they took, in words."""
    return "".join(f" {name} {seconds:.2f} s{'' if cost is not None else ' (ended)'}" for name, (seconds, cost) in found.items())
