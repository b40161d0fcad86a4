"""What is said where a file couldn't be read or written (status 7): which one, and what stands in its place."""

import difflib
import os
import select
import shutil
import stat
import sys
from typing import List, Optional, Tuple

from fleetplan.tables import ASKED, HEADERS, TABLES, WRITTEN
from fleetplan.texts import listed
from fleetplan.words import Call
from hints.saying import Hint, Where

SECTION = "the-files-of-a-folder"
# Of a table that only some calls read what it is for, and a record of one.
MORE_TABLES = {
    "windows.csv": ("each flight that may depart some minutes later, or earlier (below 0), and what that costs", "X2,10,5"),
    "optional.csv": ("each flight that may be left out, and what that costs", "X2,30"),
    "tails.csv": (
        "the aircraft of each fleet, with the nights left to each until it has to come to maintenance",
        "DAFPA,A320,3",
    ),
}
# How many names of a folder are looked through.
MOST_NAMES = 2000


def explain(hint: Hint, command: str, call: Call) -> None:
    """Says which file of the call is missing, is a folder, or may not be read or written."""
    if tell_folder(hint, command, call.folder, call) or tell_reads(hint, command, call) or tell_writes(hint, call):
        hint.see(SECTION)
        return
    if has_lost_reader(sys.stdout.fileno()):
        return
    hint.say("no file of this call stands in the way now.")
    hint.say("The status is the same where the output could not be put: a full disk, or a pipe whose reader has gone.")


def has_lost_reader(output: int) -> bool:
    """Returns whether an output is a pipe whose reader has gone, as behind `head`: that is no fault of anybody's."""
    looked = select.poll()
    looked.register(output, 0)
    return any(found & select.POLLERR for _, found in looked.poll(0))


def names_in(folder: str) -> List[str]:
    """Returns the names in a folder, or none where it may not be listed."""
    try:
        return sorted(os.listdir(folder or "/"))[:MOST_NAMES]
    except OSError:
        return []


def kind_of(path: str) -> str:
    """Returns what stands under a path: 'nothing', 'folder', 'file', 'other', or 'hidden' where that may not be known."""
    try:
        mode = os.stat(path).st_mode
    except (FileNotFoundError, NotADirectoryError):
        return "nothing"
    except (OSError, ValueError):
        return "hidden"
    return "folder" if stat.S_ISDIR(mode) else "file" if stat.S_ISREG(mode) else "other"


def tell_folder(hint: Hint, command: str, folder: str, call: Call) -> bool:
    """Says what is wrong with the folder itself, and returns whether anything is."""
    kind = kind_of(folder or "/")
    where = Where(folder, found=kind, wanted="a folder that holds the tables")
    if kind == "folder":
        if os.access(folder or "/", os.X_OK):
            return False
        hint.fault(f"you may not enter the folder {folder}", where)
    elif kind == "nothing":
        hint.fault(f"there is no folder {folder}", where)
        above, name = os.path.split(folder.rstrip("/"))
        beside = [it for it in names_in(above or ".") if os.path.isdir(os.path.join(above, it))]
        near = difflib.get_close_matches(name, beside, 1, 0.6)
        if call.command == "make":
            hint.say("make writes into a folder that is there:")
            hint.mend(["mkdir", "-p", folder])
        elif near:
            hint.say("the nearest folder is:")
            hint.mend([command, *call.with_word(call.words[0][0], os.path.join(above, near[0]))])
    elif kind == "hidden":
        hint.fault(f"you may not look at {folder}", where)
    else:
        hint.fault(f"{folder} is a file, and DIR is the folder that holds the tables", where)
        if os.path.basename(folder) in (*TABLES, *MORE_TABLES, "plan.csv", "proof.txt"):
            hint.say("give its folder:")
            hint.mend([command, *call.with_word(call.words[0][0], os.path.dirname(folder) or ".")])
    return True


def files_of(call: Call) -> Tuple[str, ...]:
    """Returns the files that a call reads, in its order."""
    if not call.own.needs_tables:
        return ()
    return (*TABLES, *(name for option, name in ASKED.items() if call.has(option)), *call.own.reads)


def tell_reads(hint: Hint, command: str, call: Call) -> bool:
    """Says which file can't be read, the first in the order of reading, and returns whether one can't."""
    folder = call.folder
    bad = [it for it in files_of(call) if wrong_to_read(os.path.join(folder, it))]
    if call.command in ("check", "whatif") and bad == ["plan.csv"] and not says_plan(os.path.join(folder, "proof.txt")):
        bad = []
    if not bad:
        return False
    name = bad[0]
    path = os.path.join(folder, name)
    hint.fault(f"{path} {wrong_to_read(path)}", Where(path, found=kind_of(path), wanted="a file that can be read"))
    missing = [it for it in bad[1:] if kind_of(os.path.join(folder, it)) == "nothing"]
    if missing and not set(TABLES) <= set(bad) and kind_of(os.path.join(folder, name)) == "nothing":
        hint.say(f"missing too: {listed(missing)}")
    if set(TABLES) <= set(bad):
        tell_other_folders(hint, command, call)
    elif kind_of(os.path.join(folder, name)) == "nothing":
        tell_missing(hint, command, call, name)
    return True


def wrong_to_read(path: str) -> Optional[str]:
    """Returns why a file can't be read, or None."""
    kind = kind_of(path)
    if kind == "file":
        return None if os.access(path, os.R_OK) else "may not be read by you"
    return {"nothing": "is missing", "folder": "is a folder, and a file is wanted", "hidden": "may not be looked at"}.get(kind)


def says_plan(path: str) -> bool:
    """Returns whether a proof says that a plan comes with it."""
    try:
        with open(path, "rb") as it:
            return it.read(64).split(b"\n")[1:2] == [b"plan yes"]
    except OSError:
        return False


def tell_other_folders(hint: Hint, command: str, call: Call) -> None:
    """Says that no table stands in the folder, and in which folders below it there are tables."""
    hint.say(f"none of the five tables stands in {call.folder}: {listed(TABLES)}")
    below = [os.path.join(call.folder, it) for it in names_in(call.folder)]
    below = [it for it in below if os.path.isfile(os.path.join(it, "legs.csv"))]
    if below:
        hint.say("tables stand in folders below it, such as:")
        words = list(call.all)
        words[call.words[0][0]] = below[0]
        hint.mend([command, *words])


def tell_missing(hint: Hint, command: str, call: Call, name: str) -> None:
    """Says what may stand for a missing file, and how to come by it."""
    has = names_in(call.folder)
    like = [it for it in has if it.lower() == name]
    known = (*TABLES, *MORE_TABLES, *WRITTEN)
    near = like or [it for it in difflib.get_close_matches(name, has, 3, 0.75) if it not in known]
    if near:
        why = "in other letters" if like else "with a name like it"
        hint.say(f"there is {near[0]}, {why}: names are taken letter by letter")
        hint.mend(["mv", os.path.join(call.folder, near[0]), os.path.join(call.folder, name)])
    elif name == "throughs.csv":
        hint.say("where there are no through pairs an empty file will do:")
        hint.mend(["touch", os.path.join(call.folder, name)])
    elif name in MORE_TABLES:
        holds, line = MORE_TABLES[name]
        hint.say(f"it names {holds}, such as:")
        hint.show(",".join(HEADERS[name]))
        hint.show(line)
    elif name in ("plan.csv", "proof.txt"):
        hint.say("solve writes it, where it has a plan:" if name == "plan.csv" else "solve writes it:")
        hint.mend([command, "solve", call.folder, *call.reading])


def tell_writes(hint: Hint, call: Call) -> bool:
    """Says which file can't be written, and returns whether one can't."""
    for name in call.own.writes:
        path = os.path.join(call.folder, name)
        why = wrong_to_write(path)
        if why:
            hint.fault(f"{path} {why}", Where(path, found=kind_of(path), wanted="a file that can be written"))
            return True
    if call.own.writes and shutil.disk_usage(call.folder or "/").free == 0:
        hint.say(f"the disk of {call.folder} is full")
        return True
    return False


def wrong_to_write(path: str) -> Optional[str]:
    """Returns why a file can't be written, or None."""
    kind = kind_of(path)
    if kind == "folder":
        return "is a folder, and a file of this name is to be written: move it away"
    if kind == "file":
        return None if os.access(path, os.W_OK) else "may not be written by you"
    if kind == "nothing" and not os.access(os.path.dirname(path) or "/", os.W_OK):
        return "can't be made: you may not write in its folder"
    return None
