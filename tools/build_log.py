"""What a build says: to the caller, and of a log of rt that tells of faults."""

import re
from pathlib import Path

from fleetplan.texts import tell as tell_lines

# The lines of a log that tell what is wrong, and how many are printed.
FAULT = re.compile(
    r"(?!.*: proved$)(.*\berror\b|.*not proved|.*no proof|rattle: |rt: (?!chose |\w+: begins |\w+ proved$|\w+ is kept: |trying |ok; ))"
)
MOST_LINES = 20


def say(text: str) -> None:
    """Tells something on standard error."""
    tell_lines(f"fleetplan: {text}")


def tell(log: Path, of: str, top: Path) -> None:
    """Prints what a log says of faults, or else its end, and where it stands."""
    lines = log.read_text(encoding="utf-8", errors="replace").splitlines()
    faults = [it for it in lines if FAULT.match(it)][:MOST_LINES]
    tell_lines(*(faults or lines[-MOST_LINES:]))
    say(f"all that was said of {of} stands in {log.relative_to(top)}")
