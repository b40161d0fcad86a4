"""The words of a call of tools/costs, and the files that it reads and writes."""

import os
from typing import Iterator, Mapping, Optional, Sequence, Set

from costing import telling
from costing.choosing import Costs
from costing.figures import Figures, read_flights
from costing.legs import Leg, read_fleets, read_legs
from costing.making import COSTS, OPTIONAL, PAGE, PARTED, costs_text, parted_text, skipped, skips_text
from costing.telling import Sums
from fleetplan.errors import Unread
from fleetplan.files import told_of, write_all
from fleetplan.judged import judged
from fleetplan.records import rows_of, table_of
from fleetplan.tables import HEADERS, SHIFTED, TABLE
from schedule_files.files import want_no_folder
from schedule_files.words import Usage, given

USAGE = "usage: tools/costs DIR [--skips FILE]"
PLAN, WINDOWS = "plan.csv", "windows.csv"


class Words:
    """The words of a call: the folder, and the file of the legs that may be left out, or None."""

    def __init__(self, words: Sequence[str]) -> None:
        rest, found = given(words, {"skips": "FILE"})
        if len(rest) != 1:
            raise Usage
        self.folder, self.skips = rest[0], found.get("skips")


class Call:
    """What a call makes of a folder. All that can be refused is judged before anything is written."""

    def __init__(self, words: Words) -> None:
        self.folder, self.path = words.folder, words.skips
        legs, fleets = read_legs(self.folder), read_fleets(self.folder)
        self.costs = Costs(Figures.of_folder(self.folder), legs, fleets)
        self.names = None if self.path is None else read_flights(self.path)
        self.skips = None if self.names is None else skipped(self.costs, self.names)
        self.costs.want_pairs(self._optional)
        self.plan, self.shifts = plan_in(self.folder, legs), shifts_in(self.folder)

    def _optional(self) -> Set[str]:
        """Returns the flights that may be left out: those that the call says, or else those that the folder does."""
        return optional_in(self.folder) if self.skips is None else set(self.skips)

    def _before(self) -> Set[str]:
        """Returns the flights of the older optional.csv, as far as it reads: it is written anew."""
        try:
            return optional_in(self.folder)
        except Unread:
            return set()

    def write(self) -> Iterator[str]:
        """Writes the files, and tells of them."""
        from costing.page import page
        from drawing.library import INSTALL, library

        found = library()
        sums = Sums(self.costs, self.plan) if self.plan is not None else None
        before = self._before() if self.skips is not None else set()
        texts = {PARTED: parted_text(self.costs), PAGE: page(self.costs, self.folder, sums, found)}
        if self.skips is not None:
            texts[OPTIONAL] = skips_text(self.skips)
        texts[COSTS] = costs_text(self.costs)
        for name in texts:
            want_no_folder(os.path.join(self.folder, name))
        with told_of(self.folder):
            write_all(self.folder, texts, COSTS)
        if found is None:
            yield f"the page has no charts, since D3 isn't there: {INSTALL}"
        yield from self._told()
        gone = sorted(before - set(self.skips or ()))
        if gone:
            yield f"optional.csv has no record any more of {', '.join(gone)}"

    def _told(self) -> Iterator[str]:
        """Tells what stands in the files, and what is odd about figures."""
        costs, folder = self.costs, self.folder
        yield from telling.of_pairs(costs)
        for name, path in (("fuel", costs.figures.paths.fuel), ("fees", costs.figures.paths.fees)):
            if path is None:
                yield f"{folder} has no {name}.csv, so there are no {'prices of fuel' if name == 'fuel' else 'fees'}"
        yield from telling.of_figures(costs)
        if self.skips is not None and self.names is not None:
            yield from telling.of_skips(costs, self.skips, self.names, str(self.path))
        if self.shifts is not None:
            yield from telling.of_shifts(costs, self.shifts, WINDOWS)
        elif os.path.lexists(os.path.join(folder, WINDOWS)):
            yield f"{WINDOWS} doesn't read, so nothing is told of its shifts"
        if self.plan is not None:
            yield from telling.of_plan(costs, self.plan, PLAN)
        elif os.path.lexists(os.path.join(folder, PLAN)):
            yield f"{PLAN} is no plan of these legs and fleets, so nothing is told of it"


def optional_in(folder: str) -> Set[str]:
    """Returns the flights of a folder's optional.csv, where there is one."""
    return {it[0] for it in rows_of(folder, OPTIONAL)} if os.path.lexists(os.path.join(folder, OPTIONAL)) else set()


def plan_in(folder: str, legs: Sequence[Leg]) -> Optional[Mapping[str, str]]:
    """Returns the fleet of each flight by a folder's plan.csv, or None where there is none, or none of these legs."""
    if not os.path.lexists(os.path.join(folder, PLAN)):
        return None
    try:
        rows = table_of(folder, PLAN, (HEADERS[PLAN], SHIFTED))[1]
    except Unread:
        return None
    return {it[0]: it[1] for it in rows} if [it[0] for it in rows] == [it.flight for it in legs] else None


def shifts_in(folder: str) -> Optional[Sequence[telling.Shift]]:
    """Returns the shifts of a folder's windows.csv, or None where there is none that reads."""
    try:
        _, rows = judged(os.path.join(folder, WINDOWS), {HEADERS[WINDOWS]: TABLE[WINDOWS].forms}, lambda row: (row[0], int(row[1])))
    except Unread:
        return None
    return [(it[0], int(it[1])) for it in rows]
