"""What the program is, in one line: its version, its commit, and the kit that proves it."""

import os
import re
import subprocess
from typing import Optional, Tuple

from fleetplan.program import PROGRAM, TOP

# What tools/build and tools/ready note of the kit beside the program, and the page that names the kit.
_KIT = os.path.join(os.path.dirname(PROGRAM), "kit")
_README = os.path.join(TOP, "README.md")
_CHANGELOG = os.path.join(TOP, "CHANGELOG.md")
_SECONDS = 5


def version() -> str:
    """Returns the name, the version with which the changelog begins, the commit where this is a clone, and the kit."""
    of = _first((_CHANGELOG, r"^## (.*)$"))
    commit, kit = _commit(), proving_kit()
    told = [f"commit {commit}" if commit else "", f"proved with {kit}" if kit else ""]
    return ", ".join([f"fleetplan {of}" if of else "fleetplan", *(it for it in told if it)])


def proving_kit() -> Optional[str]:
    """Returns the kit that proved the program, as it was noted when it was built, or else as the README names it."""
    return _first((_KIT, r"(rattle-kit-.*)"), (_README, r"Proved with `(.*?)`"))


def _first(*places: Tuple[str, str]) -> Optional[str]:
    """Returns what the first file holds in which a form is found, or None."""
    for file, form in places:
        try:
            with open(file, encoding="utf-8") as it:
                found = re.search(form, it.read(), re.MULTILINE)
        except (OSError, UnicodeDecodeError):
            continue
        if found:
            return found[1]
    return None


def _commit() -> Optional[str]:
    """Returns the commit of the clone, or None where there is no clone, or no git."""
    if not os.path.exists(os.path.join(TOP, ".git")):
        return None
    words = ["git", "-C", TOP, "rev-parse", "--short=12", "HEAD"]
    try:
        ran = subprocess.run(words, stdin=subprocess.DEVNULL, stdout=subprocess.PIPE, stderr=subprocess.DEVNULL, timeout=_SECONDS, check=True)
    except (OSError, subprocess.SubprocessError):
        return None
    return ran.stdout.decode("ascii", "replace").strip()
