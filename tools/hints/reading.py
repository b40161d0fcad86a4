"""The tables that a call reads, and those that stand in its folder and aren't read, since no option of it says so."""

import os
from typing import Any, Dict

from fleetplan.schedule import Schedule
from fleetplan.tables import ASKED
from fleetplan.texts import listed
from fleetplan.words import COMMANDS, Call
from hints.saying import Hint


def schedule_of(call: Call) -> Schedule:
    """Returns the schedule that a call reads, or raises Unread."""
    return Schedule(call.folder, call.value("day-start"), call.value("period"), [it for it in ASKED if call.has(it)])


def options_of_tails(call: Call) -> Dict[str, Any]:
    """Returns the options of a call that `tails` takes too, as its call in Python takes them."""
    return {it.replace("-", "_"): call.given[it][0] or True for it in COMMANDS["tails"].options if it in call.given}


def tell_option(hint: Hint, command: str, call: Call, what: str, option: str) -> None:
    """Says that a plan or a proof is one of a call with an option."""
    hint.say(f"{what} of a call with --{option}:")
    hint.mend([command, *call.with_more(f"--{option}")])


def tell_no_shifts(hint: Hint, command: str, call: Call, what: str) -> None:
    """Says that a plan or a proof is one of a call without windows."""
    hint.say(f"it tells no shifts, as a {what} of a call without --windows. With --windows solve writes another one:")
    hint.mend([command, "solve", call.folder, *call.reading])


def tell_unread(hint: Hint, command: str, call: Call) -> bool:
    """Says which of these there are, with the words that read them, and returns whether there are any."""
    options = [it for it, name in ASKED.items() if not call.has(it) and os.path.isfile(os.path.join(call.folder, name))]
    if options:
        stand, are = ("stands", "is") if len(options) == 1 else ("stand", "are")
        by = listed(f"--{it}" for it in options)
        hint.say(f"{listed(ASKED[it] for it in options)} {stand} in {call.folder}, and {are} read with {by} alone:")
        hint.mend([command, *call.with_more(*(f"--{it}" for it in options))])
    return bool(options)
