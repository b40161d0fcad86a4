"""What the program says of a folder: its check of the proof, its verdict on the plan, what other numbers of aircraft are worth, and who
flies what on dates."""

import datetime
import os
from dataclasses import dataclass
from typing import Callable, Mapping, Optional, TypeVar

from fleetplan.calls import Roster, check, due, judge, tails, whatif
from fleetplan.errors import FAULT, REFUSED, UNREADABLE, Answered, Unread, Unrun
from fleetplan.program import Runner
from fleetplan.proofs import counts_of
from fleetplan.tables import TABLE

# What a run of the program may take.
SECONDS = 20
# The status of `due` where aircraft can't all come to maintenance by their dates.
LATE = 10
MOST_FLEETS = TABLE["fleets.csv"].most
Found = TypeVar("Found")


@dataclass(frozen=True)
class Proof:
    """What the proof that stands there shows, by the program's own check of it."""

    bound: int
    splits: int
    opened: str


class Asker:
    """Asks the program about a folder. `reading` are the options by which the tables are read, and `routing` those by which tours are
    made."""

    def __init__(self, folder: str, reading: Mapping[str, object], routing: Mapping[str, object]) -> None:
        self.folder, self.reading, self.routing = folder, reading, routing
        self.runner = Runner(seconds=SECONDS)

    @property
    def is_there(self) -> bool:
        """Whether there is a program to ask."""
        return os.access(self.runner.program, os.X_OK)

    def ask(self, call: Callable[..., Found], *more: object, **options: object) -> Found:
        """Returns what a call answers, or raises what it does. Raises Unread where the program can't be run or doesn't end."""
        try:
            return call(self.folder, *more, runner=self.runner, **self.reading, **options)
        except Unrun as fault:
            why = fault.__cause__ if isinstance(fault.__cause__, OSError) else f"it {fault.__cause__}"
            raise Unread(f"{self.runner.program} {call.__name__} can't be asked: {why}", FAULT) from fault

    def has(self, name: str) -> bool:
        """Returns whether a file stands in the folder."""
        return os.path.isfile(os.path.join(self.folder, name))

    def proof(self) -> Optional[Proof]:
        """Returns what the proof shows, or None where there is none of a plan that holds, or no program."""
        if not self.is_there or not self.has("proof.txt"):
            return None
        try:
            found = self.ask(check)
            counts = counts_of(os.path.join(self.folder, "proof.txt"))
        except (Answered, Unread, OSError):
            return None
        if found.cost is None or found.bound is None:
            return None
        return Proof(found.bound, counts["splits"], f"{counts['nodes']} nodes, {counts['pivots']} pivots, {counts['grew']} grew")

    def verdict(self) -> Optional[str]:
        """Returns why the plan isn't legal, as the program tells it, or None where it is, or where there is no program."""
        try:
            if self.is_there:
                self.ask(judge)
        except Answered as other:
            return str(other) if other.status == REFUSED else None
        return None

    def bound_with(self, fleet: str, count: int) -> Optional[str]:
        """Returns the bound with another number of aircraft, or `infeasible`; or None where the proof says nothing of it."""
        try:
            found = self.ask(whatif, fleet, count)
        except Answered:
            return None
        return "infeasible" if found.is_infeasible else str(found.bound)

    def lines(self, command: str, first: datetime.date, dates: int) -> Roster:
        """Returns what `tails` or `due` says of so many dates, or raises Unread where it refuses."""
        if not self.is_there:
            raise Unread("who flies what on dates is asked of the program, which isn't built: ./fleetplan builds it", FAULT)
        try:
            found = self.ask(tails if command == "tails" else due, first, dates, **self.routing)
        except Answered as other:
            if other.status != LATE:
                kept = other.status if other.status in (UNREADABLE, REFUSED) else FAULT
                raise Unread(f"{command} ended with status {other.status}: {str(other) or 'it said nothing'}", kept) from other
            found = Roster(str(other))
        if len(found.causes) > MOST_FLEETS:
            raise Unread(f"{command} tells of more fleets than there may be", FAULT)
        return found
