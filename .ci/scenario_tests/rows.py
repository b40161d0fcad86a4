"""Rows of texts in tools/scenarios: what goes in, and what has to come."""

from typing import Any, Dict, List, Optional, Tuple

TABLES = {
    "stations.csv": "code,extra,maintenance\nAAA,0,yes\nBBB,0,no\n",
    "fleets.csv": "fleet,aircraft,turn\nF1,1,30\nF2,2,30\n",
    "legs.csv": "flight,from,dep,to,arr\nX1,AAA,08:00,BBB,09:00\nX2,BBB,09:20,AAA,10:20\n",
    "costs.csv": "flight,fleet,cost\nX1,F1,15\nX1,F2,-15\nX2,F1,100\n",
    "throughs.csv": "in,out,value\nX1,X2,5\n",
}

# Changes, a table, and what stands in it then.
CHANGES = [
    ("aircraft F1 -1", "fleets.csv", "fleet,aircraft,turn\nF1,0,30\nF2,2,30\n"),
    ("aircraft F2 +3", "fleets.csv", "fleet,aircraft,turn\nF1,1,30\nF2,5,30\n"),
    ("aircraft F2 7; aircraft F1 500", "fleets.csv", "fleet,aircraft,turn\nF1,500,30\nF2,7,30\n"),
    ("cost F1 *1.1", "costs.csv", "flight,fleet,cost\nX1,F1,17\nX1,F2,-15\nX2,F1,110\n"),
    ("cost F2 *1.1", "costs.csv", "flight,fleet,cost\nX1,F1,15\nX1,F2,-17\nX2,F1,100\n"),
    ("drop-leg X2", "costs.csv", "flight,fleet,cost\nX1,F1,15\nX1,F2,-15\n"),
    ("drop-leg X2", "throughs.csv", "in,out,value\n"),
    ("parking AAA 2", "stations.csv", "code,extra,maintenance,parking\nAAA,0,yes,2\nBBB,0,no,-\n"),
    ("parking AAA 2; parking AAA -", "stations.csv", "code,extra,maintenance,parking\nAAA,0,yes,-\nBBB,0,no,-\n"),
    ("window X2 10 5", "windows.csv", "flight,shift,extra\nX2,10,5\n"),
    ("window X2 10 5; window X2 -10 -3", "windows.csv", "flight,shift,extra\nX2,10,5\nX2,-10,-3\n"),
    ("window X2 10 5; window X1 5 0; drop-leg X2", "windows.csv", "flight,shift,extra\nX1,5,0\n"),
    ("optional X2 30", "optional.csv", "flight,skip\nX2,30\n"),
    ("optional X2 -30; optional X1 0", "optional.csv", "flight,skip\nX2,-30\nX1,0\n"),
]

# Changes that can't be made, and why.
REFUSED = {
    "aircraft F1 -2": "aircraft F1 -2: fleets.csv gives F1 1 aircraft, and it may have 0 to 500",
    "aircraft F9 1": "aircraft F9 1: fleets.csv has no F9",
    "cost F9 *2": "cost F9 *2: fleets.csv has no F9",
    "cost F1 *100000; cost F1 *200000": "cost F1 *200000: X2 would cost 2000000000000 with F1, and a cost is 1000000000000 at most",
    "drop-leg X9": "drop-leg X9: legs.csv has no X9",
    "parking CCC 2": "parking CCC 2: stations.csv has no CCC",
    "parking AAA 10001": "parking AAA 10001: AAA would have room for 10001 aircraft, and a limit is 10000 at most",
    "only-day 2": "only-day 2: legs.csv tells no day of its flights",
    "window X9 10 5": "window X9 10 5: legs.csv has no X9",
    "drop-leg X2; optional X2 30": "optional X2 30: legs.csv has no X2",
}

# Records of scenarios.csv with the tables of the folder `own`: the words of the call, and the files that its tables come from.
FIVE = [f"tables/{it}" for it in TABLES]
SEVERAL = {"windows.csv": "flight,shift,extra\nX2,10,5\n", "optional.csv": "flight,skip\nX1,4\n"}
FLAGS: List[Tuple[str, Dict[str, str], List[str], List[str]]] = [
    ("a,--days 4,,aircraft F1 -1", {}, ["--days", "4"], FIVE),
    ("a,,own,", SEVERAL, [], FIVE),
    ("a,--windows,own,", SEVERAL, ["--windows"], [*FIVE, "own/windows.csv"]),
    ("a,--windows,,", {}, ["--windows"], [*FIVE, "tables/windows.csv"]),
    ("a,--days 4,,window X2 10 5; window X1 5 0", {}, ["--days", "4", "--windows"], FIVE),
    ("a,--optional,own,window X1 10 5", SEVERAL, ["--optional", "--windows"], [*FIVE, "own/windows.csv", "own/optional.csv"]),
    ("a,--optional,,optional X2 30", {}, ["--optional"], FIVE),
]

# Records, and the period by which their tables are judged before they are changed.
PERIODS = {
    "a,--days 4,,": "1",
    "a,--period 7 --days 4,,": "7",
    "a,--period=8,,": "8",
    "a,--period week,,aircraft F1 -1": "week",
    "a,,,aircraft F1 -1; only-day 3": "7",
}

# Records that don't read, and why.
UNREAD = {
    "a,,": "it has 3 fields, it should have 4",
    "../a,,,": 'a scenario is named "../a", it should be 1 to 64 of A to Z, a to z, 0 to 9, ".", "_", "+" and "-"',
    "a,--days '4,,": "the words --days '4 don't read: No closing quotation",
    "a,,,window X2 10": '"window X2 10" doesn\'t read, it should be as window FLIGHT 10 5',
    "a,,,window X2 +10 5": '"window X2 +10 5" doesn\'t read, it should be as window FLIGHT 10 5',
    "a,,,optional X2 1.5": '"optional X2 1.5" doesn\'t read, it should be as optional FLIGHT 30',
    "a,--period 7,,only-day 3": "only-day leaves a schedule of one day, so the words may not have --period",
    "a,,,cost F1 1.1": '"cost F1 1.1" doesn\'t read, it should be as cost FLEET *1.1',
}

# What solve answers and check says where nothing else is told.
ENDED = {"outcome": "optimal", "cost": "70", "bound": "70", "splits": 0, "fleets": [{"name": "F1", "has": 2, "used": 1}], "rotations": ["unused"]}
SOLVED = {"status": 0, "told": "", "seconds": 1.5, "memory": 2000, "reading": []}
CHECKED = {"told": "holds: cost 70 bound 70", "seconds": 0.25, "memory": 1000}
NO_PLAN: Dict[str, Any] = {"cost": None, "fleets": [], "rotations": []}


def ended(**other: Any) -> Dict[str, Any]:
    """Returns an answer of a solve."""
    return {"solved": {**ENDED, **other}}


# Of each scenario what differs from that in the answer and in the check (None: there is none), and its record in the summary, whose
# header is HEADER. A scenario without `solved` wasn't solved. Each is compared with the first.
UNPROVED = "NOT PROVED,,,,,,optimal,as it is,,,,,,,"
HEADER = (
    "scenario,outcome,cost,bound,gap,splits,used F1,base,changes,cost difference,bound difference,used difference F1,refleeted,no tour,"
    "rotations,check,told,seconds,memory MB"
)
OUTCOMES: Dict[str, Tuple[Dict[str, Any], Optional[Dict[str, Any]], str]] = {
    "optimal": (ended(), {}, "optimal,70,70,0,0,1,optimal,as it is,,,,,,F1 unused,holds: cost 70 bound 70,,1.75,2.0"),
    "gap": (ended(outcome="gap", bound="60"), {"told": "holds: cost 70 bound 60"},
            "gap,70,60,10,0,1,optimal,as it is,-10 to 0,-10,0,0,,F1 unused,holds: cost 70 bound 60,,1.75,2.0"),
    "infeasible": (ended(outcome="infeasible", bound=None, **NO_PLAN), {"told": "holds: infeasible"},
                   "infeasible,,,,0,,optimal,as it is,infeasible,,,,,,holds: infeasible,,1.75,2.0"),
    "unsettled": (ended(outcome="unsettled", **NO_PLAN), {"told": "holds: bound 70"},
                  "unsettled,,70,,0,,optimal,as it is,at least 0,0,,,,,holds: bound 70,,1.75,2.0"),
    "refused": ({"status": 6, "told": "bad input: costs.csv record 4 kind 7", "seconds": 0, "memory": 0}, {},
                "refused,,,,,,optimal,as it is,,,,,,,,bad input: costs.csv record 4 kind 7,0.00,0.0"),
    "fault": ({"fault": "solve ended with 8: memory ran out"}, {}, "NOT SOLVED,,,,,,optimal,as it is,,,,,,,,solve ended with 8: memory ran out,,"),
    "other-cost": (ended(), {"told": "holds: cost 71 bound 70"}, f"{UNPROVED}holds: cost 71 bound 70,"
                   "its proof holds for something else than was answered (holds: cost 70 bound 70),1.75,2.0"),
    "broken": (ended(), {"told": "does not hold: node 1 kind 3"}, f"{UNPROVED}does not hold: node 1 kind 3,its proof does not hold,1.75,2.0"),
    "unchecked": (ended(), None, f"{UNPROVED},it wasn't checked: a step failed: the log says which and why,1.50,2.0"),
    "changed": (ended(), {"sums": {}}, f'{UNPROVED}holds: cost 70 bound 70,"changed after the check: '
                'costs.csv, fleets.csv, legs.csv, plan.csv, stations.csv, throughs.csv of scenarios/changed/solved",1.75,2.0'),
}  # fmt: skip

# Scenarios that are solved and checked: the words by which their tables are read, their plan, and what was asked of their proof.
PLAIN, TIMED, LEFT = "flight,fleet\nX1,F1\nX2,F1\n", "flight,fleet,shift\nX1,F1,0\nX2,F1,-5\n", "flight,fleet\nX1,F1\nX2,-\n"
ASKED: Dict[str, Tuple[List[str], str, Dict[str, Any]]] = {
    "timed": (["--windows"], TIMED, {"asked": [["F1", {"less": "whatif F1 1: bound 90", "more": "whatif F1 3: infeasible"}]]}),
    "left": (["--day-start", "04:00", "--optional"], LEFT, {"fault": "whatif ended with 8: memory ran out"}),
    "plain": ([], PLAIN, {"asked": [["F1", {"less": "fallen: node 0", "more": "whatif F1 3: bound -5"}]]}),
}
ASKED_TEXT = """\
scenario,outcome,cost,bound,gap,splits,moved,left out,used F1,base,changes,cost difference,bound difference,used difference F1,refleeted,\
no tour,one less F1,one more F1,rotations,check,told,seconds,memory MB
timed,optimal,70,70,0,0,1,,1,timed,as it is,,,,,,90,infeasible,F1 unused,holds: cost 70 bound 70,,1.75,2.0
left,optimal,70,70,0,0,,1,1,timed,as it is,0,0,0,1,,,,F1 unused,holds: cost 70 bound 70,other numbers of aircraft weren't asked: \
whatif ended with 8: memory ran out,1.75,2.0
plain,optimal,70,70,0,0,,,1,timed,as it is,0,0,0,0,,,-5,F1 unused,holds: cost 70 bound 70,it wasn't drawn: tools/draw: no room,1.75,2.0
"""
