"""Calls of the program, each with its answer and the files that it wrote."""

import datetime
import json
import os
import re
import subprocess
from typing import Any, Callable, Dict, List, NamedTuple, Optional, Sequence, Type, TypeVar

from fleetplan.errors import Answered, Broken, Fault, Refused, Unrun
from fleetplan.program import Ran, Runner
from fleetplan.rotations import Rotation, rotations_of
from fleetplan.schedule import Schedule
from fleetplan.tables import NO_FLEET
from fleetplan.texts import quietly
from fleetplan.words import COMMANDS, OPTIONS, READING, Call

# The statuses of plans and proofs that were asked for, and which error another one is.
_SOLVED = (0, 3, 4, 5)
_ERRORS: Dict[int, Type[Answered]] = {2: Refused, 6: Refused, 9: Refused, 10: Refused, 11: Broken}
_FAULT: Type[Answered] = Fault
_LEGAL, _USED = re.compile(r"legal: cost (-?\d+)"), re.compile(r"fleet (\w+): used (\d+) of (\d+)")
_HOLDS = re.compile(r"(?:holds|whatif \w+ \d+): (?:(infeasible)|(?:cost (-?\d+) )?bound (-?\d+))\n")
_FLOWN = re.compile(r"(\d{4}-\d\d-\d\d) (\S+)")
_SETTINGS = tuple(it.replace("-", "_") for it in READING)
Found = TypeVar("Found")


class Verdict(NamedTuple):
    """What `judge` says of a legal plan: what it costs, and how many aircraft of each fleet it uses."""

    cost: int
    used: Dict[str, int]


class Held(NamedTuple):
    """What a proof says: that no plan is legal, or what none costs less than, beside the cost of its plan, where there is one."""

    is_infeasible: bool
    bound: Optional[int]
    cost: Optional[int]


class Flying(NamedTuple):
    """What an aircraft flies on a date: its name, or its fleet and its number in the tour, and its flights in their order."""

    date: datetime.date
    tail: str
    flights: List[str]


class Roster(List[Flying]):
    """What aircraft fly on dates. `flights` has of each its flights date by date, and `causes`, of each fleet without such lines, why."""

    def __init__(self, text: str) -> None:
        self.flights: Dict[str, List[List[str]]] = {}
        self.causes: Dict[str, str] = {}
        for line in text.splitlines():
            name, _, rest = line.partition(": ")
            found = _FLOWN.fullmatch(name)
            if found:
                self.append(Flying(datetime.date.fromisoformat(found[1]), found[2], [] if rest == "-" else rest.split()))
                self.flights.setdefault(found[2], []).append(self[-1].flights)
            else:
                self.causes[name] = rest


class Solution:
    """What `solve` answers: the `outcome` (optimal, gap, infeasible or unsettled), what the plan costs and what none costs less than (None
    where there is none), `splits`, how many subproblems stayed `open` by which limit, aircraft `used` by fleet, and `told`, of each fleet
    what became of its rotation. Where there is a plan, `schedule` is the one that it is of, each flight at the time that is planned, `plan`
    has a fleet for each flight (None: left out), and `rotations` the tours with their nights, where they were written. `ran` is the call."""

    def __init__(self, ran: Ran, folder: str, options: Dict[str, Any]) -> None:
        answered = json.loads(ran.text)
        self.outcome: str = answered["outcome"]
        self.cost, self.bound = (None if answered[it] is None else int(answered[it]) for it in ("cost", "bound"))
        self.splits: int = answered["splits"]
        self.open: Dict[str, int] = answered["open"]
        fleets = [it["name"] for it in answered["fleets"]]
        self.used: Dict[str, int] = {it["name"]: it["used"] for it in answered["fleets"]}
        self.told: Dict[str, str] = dict(zip(fleets, answered["rotations"]))
        self.ran, self.folder = ran, folder
        self.schedule = Schedule.read(folder, **{it: options[it] for it in _SETTINGS if it in options})
        self.plan: Dict[str, Optional[str]] = {}
        self.rotations: List[Rotation] = []
        if self.cost is not None:
            self.schedule, plan = self.schedule.planned()
            self.plan = {flight: None if fleet == NO_FLEET else fleet for flight, fleet in plan.items()}
            if os.path.lexists(os.path.join(folder, "rotation.csv")):
                self.rotations = rotations_of(self.schedule, plan)

    @property
    def held(self) -> Held:
        """What a check says of its proof, where that holds."""
        return Held(self.outcome == "infeasible", self.bound, self.cost)


def solve(folder: str, runner: Optional[Runner] = None, **options: Any) -> Solution:
    """Finds a cheapest plan of the tables of a folder, or that there is none, and returns the solution, whose files stand in the folder.

    Options are those of `./fleetplan solve`, with underscores: day_start="00:00", period=7, windows=True, days=4, nodes=0. A Runner says how
    the program is called. It raises Refused where words or a table are refused, Fault where there is no answer, and TypeError where there is
    no such option."""
    ran = _call(runner, "solve", [folder], {**options, "json": True})
    return _read(ran, lambda: Solution(ran, folder, options))


def make(folder: str, number: int, legs: int, runner: Optional[Runner] = None) -> Solution:
    """Makes a schedule of so many flights to play with, drawn from a number, in a folder that is there, and solves it. It raises what
    `solve` raises."""
    _call(runner, "make", [folder, str(number), str(legs)], {})
    return solve(folder, runner)


def judge(folder: str, runner: Optional[Runner] = None, **options: Any) -> Verdict:
    """Returns the cost of the plan in plan.csv and the aircraft that it uses. It raises Refused where it isn't legal, and Fault."""
    ran = _call(runner, "judge", [folder], options)
    return _read(ran, lambda: _verdict(*ran.text.splitlines()))


def check(folder: str, runner: Optional[Runner] = None, **options: Any) -> Held:
    """Returns what the proof in proof.txt says, where it holds. It raises Broken where it doesn't, Refused where it doesn't read, and Fault."""
    return _held(_call(runner, "check", [folder], options))


def whatif(folder: str, fleet: str, count: int, runner: Optional[Runner] = None, **options: Any) -> Held:
    """Returns what the proof in proof.txt says where a fleet has so many aircraft. Nothing is solved. It raises Broken where the proof says
    nothing of that number, and what `check` raises."""
    return _held(_call(runner, "whatif", [folder, fleet, str(count)], options))


def tails(folder: str, date: datetime.date, count: int, runner: Optional[Runner] = None, **options: Any) -> Roster:
    """Returns what each aircraft flies on so many dates from one on, by the plan in plan.csv. It raises Refused and Fault."""
    ran = _call(runner, "tails", [folder, date.isoformat(), str(count)], options)
    return _read(ran, lambda: Roster(ran.text))


def due(folder: str, date: datetime.date, count: int, runner: Optional[Runner] = None, **options: Any) -> Roster:
    """Returns the same of the aircraft that tails.csv names, so that each comes to maintenance by its own date. It raises Refused, also
    where they can't all come there in time, and Fault."""
    ran = _call(runner, "due", [folder, date.isoformat(), str(count)], options)
    return _read(ran, lambda: Roster(ran.text))


def options_of(call: Call) -> Dict[str, Any]:
    """Returns the options by which a call reads its tables, as the calls here take them."""
    return {it.replace("-", "_"): call.given[it][0] or True for it in READING if it in call.given}


def _read(ran: Ran, read: Callable[[], Found]) -> Found:
    """Returns what is read of an answer, or raises Fault where it is none."""
    try:
        return read()
    except (ValueError, TypeError, KeyError) as error:
        raise Fault(ran.text.rstrip("\n"), ran.status) from error


def _verdict(legal: str = "", *used: str) -> Verdict:
    cost, found = _LEGAL.fullmatch(legal), [_USED.fullmatch(it) for it in used]
    if not cost or not all(found):
        raise ValueError
    return Verdict(int(cost[1]), {it[1]: int(it[2]) for it in found if it})


def _held(ran: Ran) -> Held:
    found = _HOLDS.fullmatch(ran.text)
    if not found:
        raise Fault(ran.text.rstrip("\n"), ran.status)
    return Held(bool(found[1]), int(found[3]) if found[3] else None, int(found[2]) if found[2] else None)


def _words(command: str, options: Dict[str, Any]) -> List[str]:
    """Returns options as words of a call, or raises TypeError where the command has no such option."""
    words = []
    for key, value in options.items():
        name = key.replace("_", "-")
        if name not in COMMANDS[command].options:
            raise TypeError(f"{command} has no option {key}")
        if OPTIONS[name].form is None:
            words += [f"--{name}"] if value else []
        else:
            words += [f"--{name}={value}"]
    return words


def _call(runner: Optional[Runner], command: str, own: Sequence[str], options: Dict[str, Any]) -> Ran:
    """Returns what a call came to, or raises what its answer is in the place of the one that was asked for."""
    words, runner = [command, *_words(command, options), "--", *own], runner or Runner()
    try:
        ran = runner.run(*words)
    except OSError as error:
        raise Unrun(f"{runner.program} can't be run: {error.strerror}", 0) from error
    except subprocess.SubprocessError as error:
        raise Unrun(f"{runner.program} {command} {error}", 0) from error
    if ran.status in (_SOLVED if command in ("solve", "make") else (0,)):
        return ran
    error_of = _ERRORS.get(ran.status, _FAULT)
    if ran.text.startswith("broken:"):
        error_of = Broken
    raise error_of(ran.text.rstrip("\n"), ran.status, lambda: quietly(_hint, ran, words) or "")


def _hint(ran: Ran, words: Sequence[str]) -> str:
    """Returns what helps, where the tools stand beside the package."""
    from hints.after import hint_for

    return str(hint_for(str(ran.status), ran.text, os.path.join(".", "fleetplan"), words))
