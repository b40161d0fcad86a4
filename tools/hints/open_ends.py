"""What is said where subproblems stayed open (status 3 and 5): by which limit, how large the gap is, and what allows more."""

import os
from typing import Dict

from fleetplan.calls import check, options_of
from fleetplan.program import PROGRAM, Runner
from fleetplan.proofs import counts_of
from fleetplan.texts import counted, quietly
from fleetplan.words import FREE, MOST_SEARCH, OPTIONS, Call
from hints.saying import Hint

SECTION = "what-solve-prints-and-writes"
SECONDS = 5
# Why a subproblem stays open, by the limit that it is counted under.
WHY = {
    "nodes": "the search might split no more (--nodes)",
    "pivots": "it might take no more pivots (--pivots, or --all-pivots)",
    "grew": "an exact number outgrew its limit, and no greater number of splits or pivots helps there",
}


def explain(hint: Hint, command: str, call: Call) -> None:
    """Says how many subproblems stayed open by which limit, and the words of the same call with more and with a free search."""
    counts = counts_of(os.path.join(call.folder, "proof.txt"))
    if not any(counts[it] for it in WHY):
        return
    for name, why in WHY.items():
        if counts[name]:
            hint.say(f"{counted(counts[name], 'subproblem')} stayed open since {why}")
    quietly(tell_gap, hint, call)
    tell_more(hint, command, call, counts)
    tell_free(hint, command, call)
    hint.see(SECTION)


def tell_gap(hint: Hint, call: Call) -> None:
    """Says how far cost and bound are apart, as the program's own check of the proof tells them."""
    found = check(call.folder, Runner(PROGRAM, SECONDS), **options_of(call))
    cost, bound = found.cost, found.bound
    if bound is None:
        return
    if cost is None:
        hint.say(f"no plan was found yet; none costs less than {bound:,}")
    elif cost > bound:
        parts = f", {100 * (cost - bound) / cost:.2g} in 100 of the cost" if cost > 0 else ""
        hint.say(f"the plan costs {cost:,}, and none costs less than {bound:,}: a gap of {cost - bound:,}{parts}")


def tell_more(hint: Hint, command: str, call: Call, counts: Dict[str, int]) -> None:
    """Shows the words of the same call with more, for the limits that have more to give."""
    words, call_on = None, call
    for option in ("nodes", "pivots"):
        now = call.value(option)
        if counts[option] and now < MOST_SEARCH:
            default = int(OPTIONS[option].default)
            more = default if now < default else min(MOST_SEARCH, 10 * now)
            words = call_on.with_option(option, str(more)) if call.command == "solve" else ["solve", call.folder, f"--{option}", str(more)]
            call_on = type(call)(words)
    if words:
        hint.say("to allow more:" if call.command == "solve" else "to go further on the tables that were made:")
        hint.mend([command, *words])
    elif counts["nodes"] or counts["pivots"]:
        hint.say("these limits are at their most: fewer pairs in costs.csv, or a part of the schedule alone, make it easier")


def tell_free(hint: Hint, command: str, call: Call) -> None:
    """Shows the words of the same call with a free search, where the choices of this one were fixed and pivots are allowed."""
    if call.value("search") == FREE or not (call.value("pivots") or call.has("all-pivots")):
        return
    words = call.with_option("search", FREE) if call.command == "solve" else ["solve", call.folder, "--search", FREE]
    hint.say("to let the search choose freely within its limits, with a proof that is checked as strictly:")
    hint.mend([command, *words])
