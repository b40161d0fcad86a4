"""What a run tells before it begins: how many scenarios there are and about how long they take, whether they are drawn, and what to do about
a lock that stands there."""

import math
import os
import re
from typing import List, Mapping, NamedTuple, Optional, Sequence

from fleetplan.errors import Unread
from fleetplan.texts import counted, plain, typed
from steps.solving import ANSWER, CHECK, DRAWN, SIZES, Answer, read_json

# How many scenarios are drawn where nobody says whether they are.
MOST_DRAWN = 200
# Seconds of the processor that a scenario takes beside the program: of the engine, of a step, of a picture, and of a question about other
# numbers of aircraft. bench/README.md has what was measured.
ENGINE, STEP, PICTURE, QUESTION = 0.2, 0.1, 0.4, 0.03
STEPS = 3
# A solve with its check was seen to take about so long for so many pairs of a leg and a fleet, and four times as long for twice as many.
SEEN_PAIRS, SEEN_SECONDS = 2000, 0.3
MINUTE, HOUR = 60, 3600


def wants_pictures(asked: object, number: int) -> bool:
    """Returns whether so many scenarios are drawn, by what `config.yaml` says of it: true, false, or nothing; or raises Unread."""
    text = "" if asked is None else str(asked).lower()
    if text not in ("", "true", "false"):
        raise Unread(f"pictures: {plain(text)} in config.yaml is none of true, false and nothing")
    return text == "true" if text else number <= MOST_DRAWN


def undrawn(asked: object, number: int) -> Optional[str]:
    """Returns what is told where scenarios aren't drawn since they are many, or None."""
    if asked not in ("", None) or wants_pictures(asked, number):
        return None
    return f"{number:,} scenarios are more than {MOST_DRAWN}, so no plan is drawn: `pictures: true` in config.yaml draws them"


def is_dry(words: Sequence[str]) -> bool:
    """Returns whether the words of the engine ask what would be done, and no more."""
    return any(it in ("--dry-run", "--dryrun") or re.fullmatch("-[npqrF]*n[npqrF]*", it) for it in words)


class Wanted(NamedTuple):
    """What is asked of each scenario: the pairs of a leg and a fleet of its tables, its fleets, whether it is drawn, and whether its proof is
    asked about other numbers of aircraft."""

    pairs: int
    fleets: int
    is_drawn: bool
    has_sizes: bool


def own_seconds(wanted: Wanted) -> float:
    """Returns the seconds of the processor that a scenario takes beside the program's solve and check."""
    steps = STEPS + wanted.is_drawn + wanted.has_sizes
    return ENGINE + STEP * steps + PICTURE * wanted.is_drawn + QUESTION * 2 * wanted.fleets * wanted.has_sizes


def seconds_seen(folder: str) -> Optional[float]:
    """Returns the seconds that a scenario's solve and check took, where both stand, or None."""
    try:
        answers: List[Answer] = [read_json(os.path.join(folder, "solved", ANSWER)), read_json(os.path.join(folder, CHECK))]
        return float(sum(it["seconds"] for it in answers))
    except (OSError, ValueError, KeyError, TypeError):
        return None


def is_done(folder: str, wanted: Wanted) -> bool:
    """Returns whether all that is wanted of a scenario stands there, old or not."""
    names = [CHECK, *([SIZES] if wanted.has_sizes else []), *([DRAWN] if wanted.is_drawn else [])]
    return all(os.path.exists(os.path.join(folder, it)) for it in names)


def forecast(scenarios: Mapping[str, Wanted], folder: str, cores: Optional[int]) -> str:
    """Returns how many scenarios there are, and about how long those take of which something lacks: on so many cores, or, where that is None,
    on a cluster."""
    left = {name: it for name, it in scenarios.items() if not is_done(os.path.join(folder, name), it)}
    if not left:
        return f"{counted(len(scenarios), 'scenario')}, and all stand there. What is old is done anew."
    seen = [it for it in (seconds_seen(os.path.join(folder, name)) for name in scenarios) if it is not None]
    mean = sum(seen) / len(seen) if seen else None
    program = sum(SEEN_SECONDS * (it.pairs / SEEN_PAIRS) ** 2 if mean is None else mean for it in left.values())
    total = program + sum(map(own_seconds, left.values()))
    shared = f"{spoken(total)} of the processor, shared among its machines"
    time = shared if cores is None else f"{spoken(total / cores)} with {counted(cores, 'core')}"
    why = f"as the {len(seen):,} that stand there" if seen else "by the size of the tables alone, and much more where plans are hard to find"
    return f"{len(scenarios):,} scenarios, {len(left):,} of them to do: about {time}, of which solving takes {share(program, total)} ({why})."


def share(part: float, whole: float) -> str:
    """Returns a part in percents."""
    return f"{round(100 * part / whole)} %"


def spoken(seconds: float) -> str:
    """Returns a time as it is said."""
    if seconds < 2 * MINUTE:
        return f"{math.ceil(seconds)} seconds"
    return f"{math.ceil(seconds / MINUTE)} minutes" if seconds < 2 * HOUR else f"{math.ceil(seconds / HOUR)} hours"


def locked(locks: Sequence[str], words: Sequence[str]) -> Optional[str]:
    """Returns what to do about locks that stand in a run's folder, by the words of the engine, or None where none stand there or the words
    deal with them."""
    if not locks or is_dry(words) or any(it in ("--unlock", "--nolock") for it in words):
        return None
    own = typed([os.path.basename(words[0]), *words[1:]])
    return (
        "this folder has a lock: another call is at work here, or one was killed. Where none is at work, on a cluster after\n"
        f"    scancel --name=fleetplan\ntake the lock away by\n    {own} --unlock\nand then call the same as now. What stands there stays."
    )
