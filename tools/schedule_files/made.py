"""How the tables of a folder were made: what stands in its made.csv, for the plan that is written back later."""

from __future__ import annotations

import os
from typing import Dict, FrozenSet, Iterator, List, Mapping, Optional, Sequence, Tuple

from fleetplan.errors import Unread
from fleetplan.records import text_of
from schedule_files.files import rows
from schedule_files.selecting import Choice

NAME = "made.csv"
HEADER = ("word", "value")
SURFACE, SERVICE, STATIONS, EXTRA = "surface", "service", "stations-only", "extra"
AIRLINE, MAP, CHARGE, SUM = "airline", "map", "change-cost", "sum"
WORDS = (AIRLINE, MAP, CHARGE, SURFACE, SERVICE, STATIONS, EXTRA, SUM)


class Made:
    """What tables were made by: the choice of legs, the minutes of a turn beyond the fleet's at stations that the tables haven't, by the
    caller's file, what each change of a fleet costs in them, and the sums of the files as they were made."""

    def __init__(self, choice: Choice, extras: Mapping[str, int], charge: int, sums: Mapping[str, str]) -> None:
        self.choice, self.extras, self.charge, self.sums = choice, dict(extras), charge, dict(sums)

    @classmethod
    def read(cls, folder: str) -> Made:
        """Returns what a folder's made.csv says, or that all legs were taken where it isn't there; or raises Unread."""
        path = os.path.join(folder, NAME)
        found: Dict[str, List[str]] = {it: [] for it in WORDS}
        for number, (word, value) in enumerate(rows(path, HEADER) if os.path.lexists(path) else (), 2):
            if word not in found:
                raise Unread.at(path, number, f"{word} is none of {', '.join(WORDS)}: it should be as tools/ssim tables wrote it")
            found[word].append(value)
        try:
            extras = {code: int(minutes) for code, minutes in (it.split() for it in found[EXTRA])}
            families = dict(it.split("=") for it in found[MAP])
            charge = int((found[CHARGE] or ["0"])[0])
            sums = dict(it.split() for it in found[SUM])
        except ValueError as error:
            raise Unread.of(path, f"has a value that isn't of its form: {error}, it should be as tools/ssim tables wrote it") from error
        airline = found[AIRLINE][0] if found[AIRLINE] else None
        choice = Choice(bool(found[SURFACE]), _codes(found[SERVICE]), None, _codes(found[STATIONS]), airline, families)
        return cls(choice, extras, charge, sums)

    def text(self) -> str:
        """Returns the text of made.csv."""
        return text_of(HEADER, self._records())

    def _records(self) -> Iterator[Tuple[str, str]]:
        if self.choice.airline is not None:
            yield AIRLINE, self.choice.airline
        for kind, fleet in sorted(self.choice.families.items()):
            yield MAP, f"{kind}={fleet}"
        if self.charge:
            yield CHARGE, str(self.charge)
        if self.choice.with_surface:
            yield SURFACE, "yes"
        for word, codes in ((SERVICE, self.choice.services), (STATIONS, self.choice.stations)):
            if codes is not None:
                yield word, " ".join(sorted(codes))
        for code, minutes in sorted(self.extras.items()):
            yield EXTRA, f"{code} {minutes}"
        for name, text in self.sums.items():
            yield SUM, f"{name} {text}"


def _codes(values: Sequence[str]) -> Optional[FrozenSet[str]]:
    """Returns the codes of a word, or None where it doesn't stand there."""
    return frozenset(values[0].split()) if values else None
