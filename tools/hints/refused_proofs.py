"""What is said of a proof that is refused (status 9 of check and whatif)."""

import os
import re
import stat

from fleetplan.tables import NO_FLEET
from fleetplan.texts import plain, quietly
from fleetplan.words import Call
from hints.reading import tell_no_shifts, tell_option, tell_unread
from hints.saying import Hint, Where

TEXT = "what-is-wrong-with-the-text-of-a-proof-kinds-1-to-9"
RULES = "what-check-prints"
UNREAD = re.compile(r"proof refused: line (\d+) kind (\d+)")
BROKEN = re.compile(r"broken: node (\d+) rule (\d+)")
KINDS = {
    1: "the first line of proof.txt isn't its head: with --windows fleet proof 3, else fleet proof 2 or, without charges, fleet proof 1",
    2: "this line has no line feed, or a byte that no proof has",
    3: "proof.txt ends where this line is due",
    4: "this line may not stand here",
    5: "this line has too many or too few words, or spaces",
    6: "a number of this line hasn't its form, or is out of its range",
    7: "this line names a flight, fleet or station that the tables don't have, or a shift that the flight hasn't",
    8: "this line isn't in its order",
    9: "too many lines trim and split stand above this node",
}
RULE = {
    1: "the scale of this node's prices is out of its range",
    2: "a rent, price or charge of this node is out of its range, or a charge is at a station without a limit of parking",
    3: "a price of this node rises in the course of the day, or of the period, by more than a charge allows",
    4: "a price at the day start is above the last one of the day, or of the period, with the rent and the charge",
    5: "legs of this node keep more or fewer fleets than its line claims",
    6: "the prices of this node don't refute it",
    7: "the bound of this node is below the plan's cost, or there is no plan",
    8: "this trim or split names a pair that it may not, or no part of the trim ends at once",
    9: "the fractional assignment isn't one of this node",
    10: "the fractional assignment is whole, or doesn't cost what the prices are worth, or doesn't part the pair",
}
# The heads of texts: of one without lines of charges, of the one that is written without --windows, and of the one with shifts.
FIRST, SECOND, THIRD = (b"fleet proof %d\n" % it for it in (1, 2, 3))
# The lines that tell what flies a flight, behind the flight.
PAIRS = (b"trim", b"split", b"weight")
# Proofs have no limit of their length; this many lines are looked through for the one that is told.
MOST_LINES = 1_000_000


def explain(hint: Hint, command: str, call: Call, said: str) -> None:
    """Says what the line of a refused proof means, and shows the line of the text."""
    unread, broken, proof = UNREAD.fullmatch(said), BROKEN.fullmatch(said), os.path.join(call.folder, "proof.txt")
    if unread and int(unread[2]) in KINDS:
        hint.fault(KINDS[int(unread[2])], Where(proof, int(unread[1])))
        quietly(look, hint, command, call, *map(int, unread.groups()))
        hint.see(TEXT)
    elif broken and int(broken[2]) in RULE:
        hint.fault(RULE[int(broken[2])], Where(proof, found=f"node {broken[1]}", wanted=f"rule {broken[2]}"))
        start = call.given["day-start"][0] if "day-start" in call.given else "03:00, where none is given"
        hint.say(f"a proof counts minutes from the day start that it was made for, and these words say {start}")
        if call.value("period") != 1:
            hint.say(f"it is a proof of as many days, and these words say --period {call.value('period')}")
        tell_unread(hint, command, call)
        hint.see(RULES)


def look(hint: Hint, command: str, call: Call, number: int, kind: int) -> None:
    """Shows the line of the proof, where it has one and it is within reach, and says what doesn't go with its head or with the words."""
    path = os.path.join(call.folder, "proof.txt")
    if number > MOST_LINES or not stat.S_ISREG(os.stat(path).st_mode):
        return
    with open(path, "rb") as lines:
        line = head = lines.readline(1 << 20)
        for _ in range(number - 1):
            line = lines.readline(1 << 20)
    if line:
        hint.say(f"{path}, line {number}:")
        hint.show(plain(line.rstrip(b"\n").decode("latin-1")))
        first, *words = line.split() or [b""]
        if head == FIRST and first == b"charge":
            hint.say("a proof that begins with fleet proof 1 has no charges; one with charges begins with fleet proof 2")
        elif kind == 1 and head == THIRD:
            tell_option(hint, command, call, "it tells shifts, as a proof", "windows")
        elif kind == 1 and head in (FIRST, SECOND):
            tell_no_shifts(hint, command, call, "proof")
        elif kind == 7 and first in PAIRS and words[1:2] == [NO_FLEET.encode()] and not call.has("optional"):
            tell_option(hint, command, call, "it leaves a flight out (-), as a proof", "optional")
