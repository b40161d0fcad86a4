"""What the machine has for a call: processors, and memory that is free, and what rt is told of it."""

import contextlib
import os
from pathlib import Path
from typing import Dict

PROCESSOR_LIMIT = Path("/sys/fs/cgroup/cpu.max")
MEMORY = Path("/proc/meminfo")
MEMORY_LIMIT, MEMORY_HELD = Path("/sys/fs/cgroup/memory.max"), Path("/sys/fs/cgroup/memory.stat")


def numbers_in(file: Path) -> Dict[str, int]:
    """Returns the numbers of a file with lines of a name and a number, by their names."""
    rows = [line.replace(":", " ").split() for line in file.read_text(encoding="utf-8").splitlines()]
    return {row[0]: int(row[1]) for row in rows if len(row) > 1}


def processors() -> int:
    """Returns how many processors there are for this call."""
    found = len(os.sched_getaffinity(0))
    with contextlib.suppress(OSError, ValueError):
        quota, period = map(int, PROCESSOR_LIMIT.read_text(encoding="utf-8").split())
        found = min(found, max(quota // period, 1))
    return found


def free_gigabytes() -> float:
    """Returns the memory that can be had, within the limit of the control group where it has one."""
    free = numbers_in(MEMORY)["MemAvailable"] * 1024
    with contextlib.suppress(OSError, ValueError, KeyError):
        limit = int(MEMORY_LIMIT.read_text(encoding="utf-8"))
        free = min(free, limit - numbers_in(MEMORY_HELD)["anon"])
    return free / 1e9


def give_lanes(gigabytes: float) -> None:
    """Sets RT_JOBS to the number of processors where so much memory is free for each of them, so that rt keeps all of them busy. One that is
    set stays."""
    if processors() * gigabytes <= free_gigabytes():
        os.environ.setdefault("RT_JOBS", str(processors()))
