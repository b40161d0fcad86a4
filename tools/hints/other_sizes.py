"""What is said where a proof was asked about another number of aircraft: a fleet that isn't there (status 9 of whatif), and a
proof that says nothing of that number (status 11)."""

import difflib
import os
import re

from fleetplan.records import names_in
from fleetplan.texts import quietly
from fleetplan.words import Call
from hints.saying import Hint, Where
from hints.table_faults import unknown

SECTION = "what-whatif-prints"
UNKNOWN = re.compile(r"unknown fleet: (.*)", re.DOTALL)
FALLEN = re.compile(r"fallen: node (\d+)")


def tell_unknown(hint: Hint, command: str, call: Call, said: str) -> None:
    """Says which fleets there are, where one was asked about that isn't among them."""
    found = UNKNOWN.fullmatch(said)
    if not found:
        return
    fleets = quietly(names_in, os.path.join(call.folder, "fleets.csv")) or []
    hint.fault(unknown(found[1], "fleets.csv", fleets), Where(found=found[1], wanted="a name of fleets.csv"))
    near = difflib.get_close_matches(found[1].upper(), fleets, 1, 0.6)
    if near:
        hint.mend([command, *call.with_word(call.words[1][0], near[0])])
    hint.see(SECTION)


def tell_fallen(hint: Hint, command: str, call: Call, said: str) -> None:
    """Says what a leaf that has fallen means, and how to have an answer."""
    found = FALLEN.fullmatch(said.strip())
    if not found:
        return
    fleet, count = call.words[1][1], int(call.words[2][1])
    proof = os.path.join(call.folder, "proof.txt")
    text = f"the proof says that nothing is legal in node {found[1]}, and with {count} aircraft of {fleet} it doesn't follow"
    hint.fault(text, Where(proof, found=f"{count} aircraft of {fleet}"))
    hint.say("so the proof says nothing of that number. To know, give the fleet that number in fleets.csv, in a copy, and solve it:")
    copy = f"{call.folder.rstrip('/')}-{fleet}-{count}"
    hint.mend(["cp", "-r", call.folder, copy])
    hint.mend([command, "solve", copy, *call.reading])
    hint.see(SECTION)
