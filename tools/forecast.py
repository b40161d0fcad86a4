"""How long the proofs that are left will take: by what each took in the last whole build, which docs/gate.csv tells, and by the
pace of this one."""

import csv
import heapq
import time
from pathlib import Path
from typing import Dict, List, Optional, Set, Tuple

# Seconds of a crate that the file lacks, and how many planned seconds have to be over before a pace is told.
UNKNOWN = 40
FIRST = 60


def seconds_in(file: Path) -> Dict[str, float]:
    """Returns the processor seconds of each crate's proof, by its name, or nothing where the file can't be read."""
    try:
        with file.open(encoding="utf-8", newline="") as lines:
            return {row["crate"]: float(row["proof"]) for row in csv.DictReader(lines) if row.get("proof")}
    except (OSError, ValueError, KeyError):
        return {}


class Forecast:
    """The build as it was planned when it began, and its pace so far. Some crates take longer than the file says, by a factor."""

    def __init__(self, file: Path, below: Dict[str, Set[str]], program: str, processors: int, longer: Optional[Dict[str, float]] = None) -> None:
        found = seconds_in(file)
        self.seconds = {it: (longer or {}).get(it, 1) * found.get(it, UNKNOWN) for it in (*below, program)}
        self.program = program
        self.below, self.processors, self.began = below, processors, time.monotonic()

    def planned(self, finished: Set[str]) -> float:
        """Returns the seconds in which all other crates and then the program would be proved, each by one processor, at the
        pace of the file."""
        left = [it for it in self.below if it not in finished]
        done = set(finished)
        running: List[Tuple[float, str]] = []
        now = 0.0
        while left or running:
            ready = [it for it in left if self.below[it] <= done]
            for name in sorted(ready, key=lambda it: -self.seconds[it])[: self.processors - len(running)]:
                left.remove(name)
                heapq.heappush(running, (now + self.seconds[name], name))
            now, name = heapq.heappop(running)
            done.add(name)
        return now + self.seconds[self.program]

    def words(self, done: Set[str], kept: Set[str]) -> str:
        """Returns what to say of the time that is left where these crates are done, of which some were kept from earlier builds,
        with a comma before it; or nothing at first."""
        left = self.planned(done)
        over = self.planned(kept) - left
        if over < FIRST:
            return ""
        minutes = round(left * (time.monotonic() - self.began) / over / 60)
        return f", about {minutes} minutes left" if minutes > 1 else ", about a minute left"
