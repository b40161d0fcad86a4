"""The day of the cases: two fleets, four legs, and the figures that examples/demand has."""

from pathlib import Path
from typing import Dict

# Each file of the folder.
DAY: Dict[str, str] = {
    "stations.csv": "code,extra,maintenance\nZRH,0,yes\nLHR,0,no\nFRA,0,no\n",
    "fleets.csv": "fleet,aircraft,turn\nA320,1,40\nE190,1,30\n",
    "legs.csv": "flight,from,dep,to,arr\nFP1,ZRH,06:00,LHR,07:50\nFP2,LHR,08:40,ZRH,10:20\nFP3,ZRH,06:10,FRA,07:10\nFP4,FRA,07:50,ZRH,08:50\n",
    "throughs.csv": "in,out,value\n",
    "demand.csv": "flight,mean,sd,fare,recapture\nFP1,125,37.5,130,20\nFP2,110,33,130,20\nFP3,80,28,110,30\nFP4,85,29.75,110,30\n",
    "types.csv": "fleet,seats,departure,minute,fuel,longest,closed\nA320,180,1500,38,2500,,\nE190,106,1000,29,1900,,\n",
    "fuel.csv": "station,price\n*,800\n",
    "fees.csv": "station,fleet,fee\nLHR,A320,1400\nLHR,E190,1100\nFRA,A320,700\nFRA,E190,450\nZRH,A320,900\nZRH,E190,600\n",
}
# What the pairs cost, by hand.
COSTS = {
    "FP1,A320": 10870, "FP1,E190": 10816, "FP2,A320": 9554, "FP2,E190": 8621,
    "FP3,A320": 6480, "FP3,E190": 4915, "FP4,A320": 6680, "FP4,E190": 5184,
}  # fmt: skip


def lay(folder: Path, **changed: str) -> Path:
    """Writes the day into a folder, with other texts for some files (named without .csv), and returns it."""
    folder.mkdir(exist_ok=True)
    for name, text in {**DAY, **{f"{it}.csv": text for it, text in changed.items()}}.items():
        (folder / name).write_text(text, encoding="utf-8")
    return folder
