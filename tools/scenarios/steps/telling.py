"""What a scenario changed, in words."""

from collections import Counter
from typing import List, Optional, Sequence

from fleetplan.texts import typed
from fleetplan.words import OPTIONS, Call
from steps.changes import read_change
from steps.listing import Scenario

AS_IT_IS = "as it is"
# The options that ask for no other plan.
SEARCHING = ("visits", "search", "nodes", "pivots", "all-pivots", "json")


def told_of(scenario: Scenario, base: Optional[Scenario]) -> str:
    """Returns in words what a scenario changed of another one, or, where that is itself or None, of the base tables."""
    if base is None or base is scenario:
        return "; ".join(told_alone(scenario)) or AS_IT_IS
    own, other = scenario.told, base.told
    parts = []
    if own.folder != other.folder:
        parts.append(f"tables of {own.folder}" if own.folder else "the base tables")
    parts += [read_change(it).told for it in without(own.changes, other.changes)]
    parts += [f"not: {read_change(it).told}" for it in without(other.changes, own.changes)]
    words, others = asked(own.words), asked(other.words)
    if words != others:
        parts.append(f"with {typed(words)}" if words else f"without {typed(others)}")
    return "; ".join(parts) or AS_IT_IS


def told_alone(scenario: Scenario) -> List[str]:
    """Returns in words, one by one, what a scenario changed of the base tables."""
    own = scenario.told
    folder = [f"tables of {own.folder}"] if own.folder else []
    words = [f"with {typed(asked(own.words))}"] if asked(own.words) else []
    return [*folder, *(read_change(it).told for it in own.changes), *words]


def asked(words: Sequence[str]) -> List[str]:
    """Returns the words of a call that ask for something else, in one order: not those that say how to search for it, and how long. Words that
    are no call stay as they are."""
    call = Call(["solve", ".", *words])
    if call.faults:
        return list(words)
    given = [(it, call.given[it][0]) for it in OPTIONS if it in call.given and it not in SEARCHING]
    return [word for name, text in given for word in (f"--{name}", text) if word]


def without(texts: Sequence[str], others: Sequence[str]) -> List[str]:
    """Returns the texts that aren't among others, as often as they stand more often, in their order."""
    left = Counter(plain(it) for it in others)
    found = []
    for it in texts:
        if left[plain(it)]:
            left[plain(it)] -= 1
        else:
            found.append(it)
    return found


def plain(text: str) -> str:
    """Returns a text with one blank between its words."""
    return " ".join(text.split())
