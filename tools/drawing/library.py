"""What pages are made with, where Debian's packages have it: Jinja2, and D3, which a page holds."""

import os
import re
import sys
from dataclasses import dataclass
from typing import Optional

# The line that installs both, and the system's own Python, which finds what the system's packages have.
INSTALL = "apt-get install python3-jinja2 node-d3"
SYSTEM = "/usr/bin/python3"
# Where packages put D3: Debian's node-d3, and the older libjs-d3.
PLACES = ("/usr/share/nodejs/d3/dist/d3.min.js", "/usr/share/javascript/d3/d3.min.js")


@dataclass(frozen=True)
class Library:
    """The text of D3, and its version."""

    text: str
    version: str


def library() -> Optional[Library]:
    """Returns D3 where it is installed in a version that the page's script is made for, or None."""
    for path in PLACES:
        if not os.path.isfile(path):
            continue
        with open(path, encoding="utf-8") as it:
            text = it.read()
        found = re.match(r"// https://d3js\.org v?(5\.\d+\.\d+)", text)
        if found and "</script" not in text.lower():
            return Library(text, found[1])
    return None


def has_templates() -> bool:
    """Returns whether Jinja2 is there. Where it is the system's Python alone that has it, goes on in that one."""
    try:
        import jinja2  # noqa: F401
    except ImportError:
        is_other = os.path.realpath(sys.executable) != os.path.realpath(SYSTEM)
        if is_other and os.access(SYSTEM, os.X_OK) and os.path.isdir("/usr/lib/python3/dist-packages/jinja2"):
            os.execv(SYSTEM, [SYSTEM, *sys.argv])
        return False
    return True
