"""The plans that are drawn: each is a copy of an example, solved and drawn once."""

import shutil
from dataclasses import dataclass
from pathlib import Path
from typing import Dict, List, Optional

from fleetplan.program import BESIDE, Runner

TOP = Path(__file__).resolve().parent.parent.parent
SECONDS = 120


def run(words: List[str], status: int = 0) -> str:
    """Runs a command, and returns what it printed, errors and all. Its status has to be the one that is wanted."""
    ran = Runner(words[0], SECONDS, stderr=BESIDE).run(*words[1:])
    assert ran.status == status, f"{' '.join(words)}: status {ran.status}, and it said\n{ran.text}"
    return ran.text


def draw(folder: Path, *words: str, status: int = 0) -> str:
    """Draws a folder, and returns what tools/draw said."""
    return run([str(TOP / "tools" / "draw"), str(folder), *words], status)


@dataclass(frozen=True)
class Drawn:
    """A plan that was drawn: its folder, the words by which its tables are read, and those for tools/draw beside them."""

    folder: Path
    reading: List[str]
    words: List[str]

    @property
    def page(self) -> Path:
        """The page."""
        return self.folder / "plan.html"


@dataclass(frozen=True)
class Kind:
    """A plan to be drawn: the example that it is a copy of, how that is read and solved, and how it is drawn."""

    example: str
    reading: List[str]
    solving: Optional[List[str]] = None
    drawing: Optional[List[str]] = None


PRICES = ["--stations", "stations.csv", "--costs", "prices.csv", "--windows", "windows.csv", "--optional", "optional.csv"]
KINDS = {
    "hub-day": Kind("hub-day", [], [], ["--sizes"]),
    "filed": Kind("hub-day", []),
    "week": Kind("week", ["--period", "7"], ["--days", "4"]),
    "re-timing": Kind("re-timing", ["--windows"], []),
    "night-parking": Kind("night-parking", ["--day-start", "00:00"], []),
    "ferry": Kind("ferry", ["--optional"], []),
    "optional-flight": Kind("optional-flight", ["--optional"], []),
    "due": Kind("due", [], [], ["--from", "2026-11-30", "--dates", "3"]),
    "tails": Kind("hub-day", [], [], ["--from", "2026-11-27", "--dates", "2"]),
    "season": Kind("ssim", ["--period", "7"]),
    "season-day": Kind("ssim", ["--windows", "--optional"], []),
}


class Desk:
    """Draws each kind of plan once."""

    def __init__(self, scratch: Path, program: str) -> None:
        self.scratch, self.program = scratch, program
        self.done: Dict[str, Drawn] = {}

    def drawn(self, name: str) -> Drawn:
        """Returns a plan of a kind, solved and drawn."""
        if name not in self.done:
            self.done[name] = self.draw(name, KINDS[name])
        return self.done[name]

    def draw(self, name: str, kind: Kind) -> Drawn:
        """Lays a plan out, solves it where it is to be solved, and draws it."""
        folder = self.scratch / name
        example = TOP / "examples" / kind.example
        if kind.example == "ssim":
            self.lay_season(folder, example, "--week" if "--period" in kind.reading else "--date")
        else:
            shutil.copytree(example, folder)
        words = list(kind.drawing or [])
        if kind.solving is not None:
            if kind.example == "ssim":
                shutil.copytree(folder, self.scratch / f"{name}-filed")
                words += ["--against", str(self.scratch / f"{name}-filed")]
            run([self.program, "solve", str(folder), *kind.reading, *kind.solving])
        draw(folder, *kind.reading, *words)
        return Drawn(folder, kind.reading, words)

    @staticmethod
    def lay_season(folder: Path, example: Path, option: str) -> None:
        """Makes the tables of a date or a week of the season, with its plan as filed."""
        priced = [str(example / it) if it.endswith(".csv") else it for it in (PRICES if option == "--date" else PRICES[:4])]
        run([str(TOP / "tools" / "ssim"), "tables", str(example / "season.ssim"), str(folder), option, "2026-11-30", *priced])
