#!/usr/bin/env python3
"""Solves an integer program with HiGHS, and prints what it costs at least.

usage: by_highs.py MODEL      (the text of plan_by_cbc.program)

It wants scipy, which has HiGHS in it; Debian's python3-scipy is for /usr/bin/python3.
"""

import re
import sys
from pathlib import Path
from typing import Dict, List, Tuple

import numpy
from scipy.optimize import Bounds, LinearConstraint, milp
from scipy.sparse import csr_array

# The names of a sum, each with its number.
Terms = List[Tuple[str, int]]
TERM = re.compile(r"([+-]?) ?(\d*) ?([a-z]\d+)")
ENDS = {"=": (0, 0), "<=": (-numpy.inf, 0)}


def terms_of(text: str) -> Terms:
    """The names of a sum, each with its number."""
    return [(name, (-1 if sign == "-" else 1) * int(number or 1)) for sign, number, name in TERM.findall(text)]


def read(text: str) -> Tuple[Terms, List[Tuple[Terms, str, int]], List[str]]:
    """The cost terms, the constraints as (terms, relation, right side), and the names of the binaries."""
    lines = text.splitlines()
    begins, binaries = lines.index("Subject To"), lines.index("Binaries")
    made = [line.rsplit(None, 2) for line in lines[begins + 1 : binaries]]
    return terms_of(lines[1].split(":")[1]), [(terms_of(left), relation, int(right)) for left, relation, right in made], lines[binaries + 1].split()


def main() -> None:
    """Prints the least cost of the model that the word names."""
    costs, lines, binaries = read(Path(sys.argv[1]).read_text())
    place: Dict[str, int] = {}
    entries = [(row, place.setdefault(name, len(place)), number) for row, (terms, _, _) in enumerate(lines) for name, number in terms]
    rows, columns, numbers = zip(*entries)
    cost, most, whole = numpy.zeros(len(place)), numpy.full(len(place), numpy.inf), numpy.zeros(len(place))
    for name, number in costs:
        cost[place[name]] = number
    for name in binaries:
        most[place[name]], whole[place[name]] = 1, 1
    low = [ENDS[relation][0] + right for _, relation, right in lines]
    high = [right for _, _, right in lines]
    matrix = csr_array((numbers, (rows, columns)), shape=(len(lines), len(place)))
    found = milp(cost, integrality=whole, bounds=Bounds(0, most), constraints=LinearConstraint(matrix, low, high), options={"mip_rel_gap": 0})
    print(f"Objective value: {round(found.fun)}" if found.status == 0 else found.message)


if __name__ == "__main__":
    main()
