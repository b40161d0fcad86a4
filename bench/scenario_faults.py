"""Faults of the machine, and slips of a planner's, in runs of tools/scenarios."""

import contextlib
import os
import re
import shutil
import subprocess
from typing import Iterator

import hubs
import slurm_here
from pathlib import Path
from scenario_runs import BUILT, HUB_DAY, Run, Tries, is_root, wrapped

NOBODY = 65534
AS_IS = ("as-is", "", "", "")
THREE = [AS_IS, ("less", "", "", "aircraft A320 -1"), ("dearer", "", "", "cost E190 *1.1")]


def faults(tries: Tries, scratch: Path, _: int) -> None:
    """Tries all faults."""
    sound = Run(scratch / "sound", HUB_DAY, THREE)
    tries("three scenarios", sound.on(2) == 0)
    slips(tries, scratch)
    too_little_memory(tries, scratch)
    never_enough(tries, scratch)
    failing_steps(tries, scratch)
    changed_proofs(tries, scratch, sound)
    if is_root():
        full_disk(tries, scratch, sound)
        no_writing(tries, scratch, sound)
        places_by_slurm(tries, scratch)
    else:
        tries.without("a full disk, and a folder that may not be written", "root, who mounts a disk and gives folders away")


def slips(tries: Tries, scratch: Path) -> None:
    """Tables that don't read and changes that can't be are rows of the summary, which the run tells, and the others are solved."""
    bad = scratch / "slips" / "bad"
    bad.mkdir(parents=True)
    lines = (HUB_DAY / "costs.csv").read_text(encoding="utf-8").splitlines()
    (bad / "costs.csv").write_text("\n".join([*lines[:3], "FP999,A320,1", *lines[3:]]) + "\n", encoding="utf-8")
    rows = [AS_IS, ("bad", "", "bad", ""), ("many", "", "", "aircraft A320 -7"), ("who", "", "", "cost B747 *1.1")]
    rows += [("words", "--days 31", "", ""), ("week", "--period 7", "", ""), ("day", "", "", "only-day 3"), ("where", "", "", "parking ZZZ 2")]
    rows += [("none", "", "", "aircraft A320 0; aircraft A220 0; aircraft E190 0")]
    run = Run(scratch / "slips", HUB_DAY, rows)
    status, engine = run.on(2), (run.folder / "engine").read_text(encoding="utf-8")
    slipped = ("bad", "many", "who", "words", "week", "day", "where")
    is_told = "DON'T RELY ON 7 OF THE SCENARIOS" in engine and all(f"  {it}: refused, " in engine for it in slipped)
    is_first = [it["scenario"] for it in run.summary()] == [*slipped, "as-is", "none"]
    tries("slips are told, and stand first", status != 0 and is_told and is_first and "Each proof holds (2)." in engine)
    told = {it["scenario"]: (it["outcome"], it["told"]) for it in run.summary()}
    tries("a bad table", told["bad"] == ("refused", "bad input: costs.csv record 4 kind 7"), told["bad"][1])
    tries("fewer aircraft than none", told["many"][0] == "refused", told["many"][1])
    tries("a fleet that isn't there", told["who"] == ("refused", "cost B747 *1.1: fleets.csv has no B747"), told["who"][1])
    tries("a station that isn't there", told["where"] == ("refused", "parking ZZZ 2: stations.csv has no ZZZ"), told["where"][1])
    tries("words that are no call", told["words"][0] == "refused" and "usage" in told["words"][1], told["words"][1])
    for name in ("week", "day"):
        tries("a period of days that legs don't tell", told[name] == ("refused", "bad input: legs.csv record 1 kind 1"), told[name][1])
    tries("no aircraft at all", told["none"] == ("infeasible", "") and run.row("none")["check"] == "holds: infeasible")
    for change in ("parking ZRH +2", "aircraft A320", "cost A320 1.1", "turn A320 5.5", "only-day 8"):
        other = Run(scratch / "slips", HUB_DAY, [AS_IS, ("new", "", "", change)])
        status, said = other.on(1), (other.folder / "engine").read_text(encoding="utf-8").rsplit("WorkflowError", 1)[-1]
        tries(f"a change that doesn't read ends the run before it begins: {change}", status != 0 and change.split()[0] in said)


def too_little_memory(tries: Tries, scratch: Path) -> None:
    """Each further try has twice the memory. Of 400 legs a solve takes more than 6 MB, and less than 12. Where its stack can't grow it
    is killed."""
    base, rows = scratch / "hub400", [AS_IS, ("dearer", "", "", "cost F220 *1.1")]
    hubs.write(base, 400, 5)
    ample = Run(scratch / "ample", base, rows, pictures="false")
    tries("two scenarios of 400 legs", ample.on(2) == 0)
    run = Run(scratch / "memory", base, rows, memory_mb=6, memory_kb_a_pair=0, pictures="false")
    status, told = run.on(2), (run.folder / "engine").read_text(encoding="utf-8")
    ends = re.findall(r"solve ended with (8: memory ran out|139: it was killed) \(it might take 6 MB", told)
    is_told = len(ends) == len(rows) and "12 MB" not in told
    is_same = status == 0 and run.summary() == ample.summary()
    tries("too little memory at first, and twice as much is enough", is_told and is_same, ", ".join(ends))


def never_enough(tries: Tries, scratch: Path) -> None:
    """A solve, and a question, that have too little memory at each try are told. With enough of it the next call does them alone."""
    short = scratch / "short"
    starved = wrapped(scratch / "starved", f'[ ! -e {short} ] || case "$*" in solve*/less/* | whatif*/dearer/*) exit 8 ;; esac')
    short.touch()
    run = Run(scratch / "never", HUB_DAY, THREE, pictures="false", program=starved)
    status, came = run.on(2), {it["scenario"]: (it["outcome"], it["told"].split(":")[0]) for it in run.summary()}
    unasked = "other numbers of aircraft weren't asked"
    wanted = {"less": ("NOT SOLVED", "solve ended with 8"), "as-is": ("optimal", ""), "dearer": ("optimal", unasked)}
    is_blank = not run.row("dearer")["one less A320"] and run.row("as-is")["one less A320"]
    told = "; ".join(it for _, it in came.values() if it)
    tries("memory that never suffices to solve, or to ask", status != 0 and came == wanted and is_blank, told)
    short.unlink()
    standing = run.done()
    status, after = run.on(2), run.done()
    ample = Run(scratch / "enough", HUB_DAY, THREE, pictures="false")
    is_same = ample.on(2) == 0 and run.summary() == ample.summary()
    again = [it for it, mark in standing.items() if after.get(it) != mark]
    is_right = status == 0 and is_same and len(again) <= 1
    tries("with enough of it the same summary, and what stood isn't done again", is_right, f"{len(again)} of {len(standing)} were")


def failing_steps(tries: Tries, scratch: Path) -> None:
    """Tables that can't be judged and a plan that can't be drawn are told, and the others of a job of the cluster aren't lost."""
    spoil = f'{BUILT} "$@"; status=$?; for it; do [ ! -e "$it/rotation.csv" ] || echo x > "$it/rotation.csv"; done; exit $status'
    failing = wrapped(scratch / "failing", f'case "$*" in judge*/dearer/*) exit 8 ;; solve*/less/*) {spoil} ;; esac')
    for name in ("cores", "slurm"):
        if name == "slurm" and slurm_here.lacks():
            tries.without("steps that fail, by Slurm", slurm_here.lacks())
            continue
        run = Run(scratch / f"failing-{name}", HUB_DAY, THREE, program=failing)
        if name == "slurm":
            with slurm_here.Slurm() as slurm:
                status = run.go(name, environment=slurm.environment)
        else:
            status = run.on(2)
        came = {it["scenario"]: (it["outcome"], it["told"].split(":")[0]) for it in run.summary()}
        wanted = {"dearer": ("NOT SOLVED", "judge ended with 8"), "as-is": ("optimal", ""), "less": ("optimal", "it wasn't drawn")}
        tries(f"steps that fail at each try, by {name}", status != 0 and came == wanted, "; ".join(it for _, it in came.values() if it))


def changed_proofs(tries: Tries, scratch: Path, sound: Run) -> None:
    """A proof that was changed by hand is told first, whether it was changed before its check or after."""
    for name, is_checked in (("before its check", False), ("after its check", True)):
        run = Run(scratch / f"proof-{is_checked}", HUB_DAY, THREE)
        tries("three scenarios once more", run.on(2) == 0 and run.summary() == sound.summary())
        proof = run.place("less", "solved/proof.txt")
        proof.write_text(proof.read_text(encoding="ascii").replace("rent ", "rent  ", 1).replace("scale ", "scale 1", 1), encoding="ascii")
        if not is_checked:
            run.place("less", "check.json").unlink()
        (run.folder / "engine").unlink()
        status, first, told = run.on(2), run.summary()[0], (run.folder / "engine").read_text(encoding="utf-8")
        is_told = "DON'T RELY ON 1" in told and "less: NOT PROVED" in told
        is_first = first["scenario"] == "less" and first["outcome"] == "NOT PROVED" and not first["cost"]
        tries(f"a proof changed by hand {name}", status != 0 and is_told and is_first, f"{first['told']} ({first['check']})")
        shutil.rmtree(run.place("less"))
        tries("its folder deleted and run again: the same summary", run.on(2) == 0 and run.summary() == sound.summary())


@contextlib.contextmanager
def mounted(place: Path, options: str) -> Iterator[None]:
    """Gives a folder a disk of its own."""
    place.mkdir(parents=True)
    subprocess.run(["mount", "-t", "tmpfs", "-o", options, "none", place], check=True)
    try:
        yield
    finally:
        subprocess.run(["umount", place], check=True)


def full_disk(tries: Tries, scratch: Path, sound: Run) -> None:
    """A run whose disk is full ends, and goes on with more room."""
    with mounted(scratch / "disk", "size=200k"):
        run = Run(scratch / "disk" / "run", HUB_DAY, THREE)
        status = run.on(2)
        tries("a full disk ends the run, and no folder is half written", status != 0 and not run.half_written())
        subprocess.run(["mount", "-o", "remount,size=100m", scratch / "disk"], check=True)
        run.unlock()
        tries("with more room: the same summary", run.on(2) == 0 and run.summary() == sound.summary())


def no_writing(tries: Tries, scratch: Path, sound: Run) -> None:
    """One scenario's folder belongs to somebody else. Root may write everywhere, so nobody runs it."""
    run = Run(scratch / "closed", HUB_DAY, THREE)
    own = run.place("less")
    own.mkdir(parents=True)
    scratch.chmod(0o755)
    for it in (run.folder, own.parent):
        os.chown(it, NOBODY, NOBODY)
    as_nobody = ["setpriv", f"--reuid={NOBODY}", f"--regid={NOBODY}", "--clear-groups"]
    run.before = [*as_nobody, "env", f"HOME={run.folder}", f"XDG_CACHE_HOME={run.folder}", f"TMPDIR={run.folder}"]
    status, outcomes = run.on(2), [(it["scenario"], it["outcome"]) for it in run.summary()]
    wanted = [("less", "NOT SOLVED"), ("as-is", "optimal"), ("dearer", "optimal")]
    tries("a folder that may not be written", status != 0 and outcomes == wanted, f"{outcomes[:1]}")
    shutil.rmtree(own, ignore_errors=True)
    tries("opened again: the same summary", run.on(2) == 0 and run.summary() == sound.summary())


def places_by_slurm(tries: Tries, scratch: Path) -> None:
    """Of eight scenarios in one job of a cluster one has a folder that may not be written, and another one a disk that is full: these two
    fail alone. With room for both what stood isn't done again."""
    if slurm_here.lacks():
        tries.without("folders that can't be written, by Slurm", slurm_here.lacks())
        return
    rows = [*THREE, *((f"more{it}", "", "", f"cost A220 *1.{it}") for it in range(1, 6))]
    ample = Run(scratch / "ample-places", HUB_DAY, rows, pictures="false")
    tries("eight scenarios", ample.on(2) == 0)
    run = Run(scratch / "places", HUB_DAY, rows, pictures="false")
    with slurm_here.Slurm() as slurm:
        with mounted(run.place("less"), "ro,size=1m"), mounted(run.place("more2"), "size=4k"):
            status = run.go("slurm", environment=slurm.environment)
            outcomes = [(it["scenario"], it["outcome"]) for it in run.summary()]
            standing = run.done()
        wanted = [(it, "NOT SOLVED") for it in ("less", "more2")] + [(it[0], "optimal") for it in rows if it[0] not in ("less", "more2")]
        tries("a folder that may not be written and a full disk, by Slurm", status != 0 and outcomes == wanted, f"{outcomes[:3]}")
        status, after = run.go("slurm", environment=slurm.environment), run.done()
    again = [it for it, mark in standing.items() if after.get(it) != mark]
    is_right = status == 0 and run.summary() == ample.summary() and not again
    tries("with room for both: the same summary, and what stood isn't done again", is_right, f"{len(again)} of {len(standing)} were")
