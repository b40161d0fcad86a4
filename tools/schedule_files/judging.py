"""What the program says of the plan as filed: it is asked with more aircraft than any fleet has."""

import os
import re
import tempfile
from typing import Dict, Mapping, Optional, Sequence, Tuple

from fleetplan.calls import judge
from fleetplan.errors import FAULT, Answered, Unread, Unrun
from fleetplan.program import TOP, Runner
from fleetplan.texts import plain, tell
from schedule_files.files import write_tables

# The most bytes that are read of a judgement: a line for each of 20 fleets.
MOST_PRINTED = 1 << 16


def used_by(texts: Mapping[str, str], fleets: Sequence[str], days: int) -> Tuple[Optional[Dict[str, int]], Optional[str]]:
    """Returns how many aircraft each of the fleets uses by the plan of tables of so many days, and None; or None, and the program's
    reason why not. The program is the one of the environment's FLEETPLAN, or ./fleetplan beside the tool; what it says of its building is
    passed on."""
    runner = Runner(os.environ.get("FLEETPLAN") or os.path.join(TOP, "fleetplan"), printed=MOST_PRINTED, hear=tell)
    with tempfile.TemporaryDirectory(prefix="ssim-") as scratch:
        folder = os.path.join(scratch, "filed")
        write_tables(folder, texts)
        try:
            found = judge(folder, runner, **({"period": days} if days > 1 else {}))
            if list(found.used) == list(fleets):
                return found.used, None
        except Unrun as fault:
            raise Unread(str(fault), FAULT) from fault
        except Answered:
            pass
    status, lines = runner.last.status, runner.last.text.splitlines()
    if status == 9 and len(lines) == 1 and re.match("unbalanced|too many", lines[0]):
        return None, lines[0]
    said = f": {plain(lines[0])}" if lines else ""
    raise Unread(f"{runner.program} judge ended with status {status}{said}, it should judge the plan as filed", FAULT)
