"""What can be counted in the text of a proof, which is read by parts: it may be as long as the disk has room for."""

import os
import stat
from typing import Dict

# How the lines of splits begin, and those of leaves that stayed open, by what was too little.
_OPEN = {"splits": (b"split ",), "nodes": (b"open nodes\n",), "pivots": (b"open pivots ",), "grew": (b"open grew ", b"open lift ")}


# So much of a line is read at once, from a buffer as large. The words that are counted stand before that.
_PART = 1 << 16


def counts_of(path: str) -> Dict[str, int]:
    """Returns how many splits the proof has that was written, and how many leaves that stayed open, by what was too little. It raises
    OSError where the file can't be read."""
    counts = dict.fromkeys(_OPEN, 0)
    if not stat.S_ISREG(os.stat(path).st_mode):
        return counts
    is_begin = True
    with open(path, "rb", buffering=_PART) as it:
        for part in iter(lambda: it.readline(_PART), b""):
            if is_begin and part.startswith((b"open ", b"split ")):
                for name, starts in _OPEN.items():
                    counts[name] += part.startswith(starts)
            is_begin = part.endswith(b"\n")
    return counts
