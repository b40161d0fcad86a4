"""Times `fleetplan judge` beside a Python process whose csv module merely reads the same files."""

import shutil
import sys
import tempfile
from pathlib import Path
from typing import Any, Dict, NoReturn, Sequence, Tuple

import make_tables
from shared import BENCH, DAY_START, Place, program_of, run

RUNS = 9


def compare(title: str, program: Path, folder: Place, files: Sequence[Path], flags: Sequence[str]) -> bool:
    """Prints the best time of several runs, taken in turn, and the peak memory. Answers whether the program's time is no more."""
    sides = {
        "fleetplan judge": [str(program), "judge", str(folder), "--day-start", DAY_START, *flags],
        "Python csv": [sys.executable, str(BENCH / "read_csv.py"), *map(str, files)],
    }
    best = {name: float("inf") for name in sides}
    for _ in range(RUNS):
        for name, words in sides.items():
            best[name] = min(best[name], run(*words).elapsed)
    print(f"{title}, {sum(path.stat().st_size for path in files):,} bytes")
    for name, words in sides.items():
        # A child's own count begins at our size, and that of GNU time at its own.
        print(f"  {name:16} {best[name] * 1000:8.1f} ms {run(*words, is_measured=True).peak / 1e6:8.1f} MB")
    return best["fleetplan judge"] <= best["Python csv"]


def same_answer(program: Path, folder: Place, flags: Sequence[str]) -> bool:
    """Whether the program prints what the reference prints."""
    ours = run(program, "judge", folder, "--day-start", DAY_START, *flags)
    theirs = run(sys.executable, BENCH / "judge_reference.py", folder, DAY_START, *flags)
    return (ours.status, ours.printed) == (theirs.status, theirs.printed) and ours.status == 0


def main(filled: bool) -> NoReturn:
    """Measures on the largest tables, in both orders of costs, and on those with windows and optional legs. Its status is 0 where the program
    took no more time."""
    program = program_of(*sys.argv[1:2])
    if not shutil.which("time"):
        sys.exit("GNU time is not on the PATH, by which memory is measured")
    print(f"best of {RUNS} runs, and the most memory held")
    no_more = True
    kinds: Tuple[Tuple[str, Dict[str, Any]], ...] = (
        ("costs by leg and fleet", {}),
        ("costs in another order", {"shuffled": True}),
        ("windows and optional legs", {"timed": True}),
    )
    for title, kind in kinds:
        flags = ["--windows", "--optional"] if "timed" in kind else []
        with tempfile.TemporaryDirectory() as scratch:
            files = make_tables.write(Path(scratch), filled=filled, **kind)
            if not same_answer(program, scratch, flags):
                sys.exit("the program does not print what judge_reference.py prints")
            no_more = compare(title, program, scratch, files, flags) and no_more
    print("no more than Python" if no_more else "MORE than Python")
    sys.exit(0 if no_more else 1)
