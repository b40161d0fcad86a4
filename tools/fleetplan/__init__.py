"""What all tools know of the program: its tables, their forms and limits, schedules, times, the words of a call, and its answers.

For programs that call it: Schedule.read and .write, and solve, judge, check, whatif, tails, due and make, as docs/python.md tells."""

import importlib
from typing import TYPE_CHECKING, Any

if TYPE_CHECKING:
    from fleetplan.calls import Flying, Held, Roster, Solution, Verdict, check, due, judge, make, solve, tails, whatif
    from fleetplan.errors import Answered, Broken, Fault, Refused, Unread
    from fleetplan.framing import frames, write_frames
    from fleetplan.program import Ran, Runner
    from fleetplan.schedule import Schedule

# Where each name stands. It is loaded when it is wanted first, since a hint has to come at once. No module has the name of one of these: it
# would take its place.
_PLACES = {
    "calls": ("Flying", "Held", "Roster", "Solution", "Verdict", "check", "due", "judge", "make", "solve", "tails", "whatif"),
    "errors": ("Answered", "Broken", "Fault", "Refused", "Unread"),
    "framing": ("frames", "write_frames"),
    "program": ("Ran", "Runner"),
    "schedule": ("Schedule",),
}
__all__ = [
    "Answered", "Broken", "Fault", "Flying", "Held", "Ran", "Refused", "Roster", "Runner", "Schedule", "Solution", "Unread", "Verdict", "check",
    "due", "frames", "judge", "make", "solve", "tails", "whatif", "write_frames",
]  # fmt: skip


def __getattr__(name: str) -> Any:
    for module, names in _PLACES.items():
        if name in names:
            return getattr(importlib.import_module(f"fleetplan.{module}"), name)
    raise AttributeError(f"fleetplan has no {name}")
