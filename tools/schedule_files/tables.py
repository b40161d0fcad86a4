"""The tables of a folder, made of the legs of a date or a week, and what is told of them."""

import os
from collections import Counter
from typing import Dict, Iterable, Iterator, List, Mapping, NamedTuple, Optional, Sequence, Set, Tuple

from costing.making import PARTED
from fleetplan.forms import MOST_AIRCRAFT
from fleetplan.records import text_of
from fleetplan.settings import FIRST_DAY, NO, YES, renewed
from fleetplan.settings import NAME as SETTINGS
from fleetplan.tables import ASKED, DATED, HEADERS, LIMITED, SHIFTED
from fleetplan.texts import some
from fleetplan.times import clock
from schedule_files import choosing, costing, judging, made, naming, onward, selecting
from schedule_files.changing import Changing, Charged
from schedule_files.days import Dates, iso
from schedule_files.figures import Figured, Priced
from schedule_files.files import write_tables
from schedule_files.keeping import MADE, Keeping, sums_of, want_as_made, want_no_source
from schedule_files.layout import LEG
from schedule_files.naming import ZONED
from schedule_files.reading import Schedule
from schedule_files.selecting import Choice, Flown


class Sources(NamedTuple):
    """The files of the caller's, each a path or None, the value of a through pair, the paths of tables that options have read, the files of
    figures that stand in the place of prices, what changes cost, and the value of an onward flight, None where they make no pairs."""

    stations: Optional[str] = None
    fleets: Optional[str] = None
    costs: Optional[str] = None
    through_value: int = 0
    asked: Mapping[str, str] = {}
    figured: Optional[Figured] = None
    changing: Changing = Changing()
    onward_value: Optional[int] = None

    @property
    def options(self) -> Set[str]:
        """The options of the program whose tables are written."""
        return {*self.asked, *(["optional"] if self.figured and self.figured.skips else [])}


class Tables:
    """The legs of some dates with their stations and fleets. Everything that can be refused is judged here, before anything is written."""

    def __init__(self, schedule: Schedule, dates: Dates, choice: Choice, sources: Sources) -> None:
        self.schedule, self.dates, self.choice, self.sources = schedule, dates, choice, sources
        selecting.check_choice(schedule, dates, choice)
        self.flown, self.left_out = selecting.flown_on(schedule, dates, choice)
        naming.name_all(schedule, self.flown, dates)
        self.stations = costing.stations_of(sources.stations, schedule, self.flown)
        self.fleets = costing.fleets_of(sources.fleets, schedule, self.flown)
        self.priced = self.price(sources.figured) if sources.figured else None
        costs = self.priced.records if self.priced else costing.costs_of(sources.costs, schedule, self.flown, self.fleets)
        self.charged = Charged(sources.changing, schedule, self.flown, costs)
        self.costs = self.charged.costs
        self.throughs = self.through_values()
        self.asked = [choosing.Asked(option, path, self.flown, self.costs) for option, path in sources.asked.items()]
        if self.priced:
            self.priced.want_pairs({it[0] for it in self.records_of("optional")})
        self.unjudged: Optional[str] = None
        if sources.fleets is None:
            self.count_aircraft()

    def through_values(self) -> Dict[Tuple[str, str], int]:
        """Returns the through pairs with their values: legs of one flight, and onward flights where those are asked for."""
        found = {(it.name, to.name): self.sources.through_value for it, to in naming.throughs(self.flown, self.dates)}
        if self.sources.onward_value is not None:
            for it, to in onward.pairs(self.schedule, self.flown, self.dates):
                pair = it.name, to.name
                found[pair] = max(found.get(pair, 0), self.sources.onward_value)
        return found

    def price(self, figured: Figured) -> Priced:
        """Returns the costs by figures."""
        return Priced(figured, self.schedule, self.flown, [it[0] for it in self.fleets], self.sources.fleets)

    def records_of(self, option: str) -> Sequence[Sequence[str]]:
        """Returns the records of the table that an option has read, by a file of the caller's; none where it isn't asked for."""
        return [record for it in self.asked if it.option == option for record in it.records]

    def count_aircraft(self) -> None:
        """Gives each fleet as many aircraft as the plan as filed uses, by the program; or as many as a fleet may have."""
        most = [(fleet, MOST_AIRCRAFT, turn) for fleet, _, turn in self.fleets]
        anywhere = [it[: len(HEADERS["stations.csv"])] for it in self.stations]
        asked = {**self.tables(), "stations.csv": encoded("stations.csv", anywhere), "fleets.csv": encoded("fleets.csv", most)}
        asked["costs.csv"] = encoded("costs.csv", costing.costs_of(None, self.schedule, self.flown, most))
        used, self.unjudged = judging.used_by(asked, [fleet for fleet, *_ in most], self.dates.count)
        self.fleets = most if used is None else [(fleet, used[fleet], turn) for fleet, _, turn in most]

    def tables(self) -> Dict[str, str]:
        """Returns the texts of the five tables and of the plan, by their names."""
        records: Dict[str, Sequence[Sequence[object]]] = {
            "stations.csv": self.stations,
            "fleets.csv": self.fleets,
            "legs.csv": [self.leg(it) for it in self.flown],
            "costs.csv": self.costs,
            "throughs.csv": [(*pair, value) for pair, value in self.throughs.items()],
            "plan.csv": [(it.name, it.fleet) for it in self.flown],
        }
        texts = {name: encoded(name, records[name]) for name in records}
        if any(len(it) == len(LIMITED) for it in self.stations):
            texts["stations.csv"] = text_of(LIMITED, self.stations)
        if self.dates.count > 1:
            texts["legs.csv"] = text_of(DATED, records["legs.csv"])
        return texts

    def texts(self) -> Dict[str, str]:
        """Returns the text of each file by its name. Where legs have other times the plan has shifts."""
        texts = {it.table: encoded(it.table, it.records) for it in self.asked}
        if "windows" in self.sources.asked:
            texts["plan.csv"] = text_of(SHIFTED, [(it.name, it.fleet, 0) for it in self.flown])
        parts = self.priced.texts() if self.priced else {}
        return {**self.tables(), **texts, **parts, "names.csv": text_of(ZONED, [self.named(it) for it in self.flown])}

    def named(self, it: Flown) -> Tuple[object, ...]:
        """Returns the record of names.csv of a leg."""
        leg, line = it.leg, self.schedule.lines[it.leg.number - 1]
        own = it.name, leg.airline.strip(), leg.flight, leg.suffix.strip(), leg.variation, leg.sequence, leg.number, iso(it.operates)
        return (*own, *(LEG[f"{end}'s variation from UTC"].of(line) for end in ("departure", "arrival")))

    def made(self, texts: Mapping[str, str]) -> str:
        """Returns the text of what says how the tables were made, and what their files are."""
        extras = costing.extras_beside(self.sources.stations, self.schedule, self.stations)
        return made.Made(self.choice, extras, self.sources.changing.cost, sums_of(texts)).text()

    def settings(self, folder: str) -> str:
        """Returns the text of the settings by which the tables are read, where the folder's other ones stay."""
        read = {option: YES if option in self.sources.options else NO for option in ASKED}
        return renewed(folder, {"period": str(self.dates.count), FIRST_DAY: iso(self.dates.first), **read})

    def leg(self, it: Flown) -> Tuple[object, ...]:
        """Returns the record of a leg, with its day where there are several."""
        day = [it.day] if self.dates.count > 1 else []
        return it.name, *day, it.leg.origin, clock(it.minute), it.leg.destination, clock(it.minute + it.block)

    def told(self) -> Iterator[str]:
        """Returns what standard error is told, in lines."""
        stations, types = len(self.stations), len({it.leg.type for it in self.flown})
        yield f"{len(self.flown)} legs depart {self.dates} in UTC: {stations} stations, {types} aircraft types"
        if not self.flown:
            yield f"the file is valid {', '.join(map(str, self.schedule.carriers))}"
        if self.left_out:
            yield "left out: " + ", ".join(f"{count} {why}" for why, count in self.left_out.items())
        if self.unjudged:
            yield f"the plan as filed doesn't say how many aircraft it uses: {self.unjudged}"
            yield f"so fleets.csv has {MOST_AIRCRAFT} of each: write how many there are, or give --fleets"
            if self.unjudged.startswith("too many"):
                yield "no fleet may have more: ask for fewer legs, with --types, --stations-only or --service"
            yield from self.unbalanced()
            if self.unjudged.startswith("unbalanced") and self.dates.count == 1:
                yield "a week may be balanced where a date isn't: --week"
        elif self.sources.fleets is None and self.fleets:
            yield "aircraft that the plan as filed uses: " + ", ".join(f"{fleet} {count}" for fleet, count, _ in self.fleets)
        allowed = {(flight, fleet) for flight, fleet, _ in self.costs}
        lacking = [it.name for it in self.flown if (it.name, it.fleet) not in allowed]
        if lacking:
            path = self.sources.figured.paths.types if self.sources.figured else self.sources.costs
            yield f"{len(lacking)} legs may not be flown by their filed type by {path}, the first is {lacking[0]}"
        if self.priced:
            shifts = [(it[0], int(it[1])) for it in self.records_of("windows")]
            yield from self.priced.told(shifts, {it.name: it.fleet for it in self.flown})

    def told_of_asked(self) -> Iterator[str]:
        """Tells of changes, onward flights, and the tables that options of the program have read."""
        yield from self.charged.told()
        if self.sources.onward_value is not None:
            yield onward.told(self.schedule, self.flown, self.dates)
        for it in self.asked:
            yield f"{it.table} has {len(it.records)} records, for calls with --{it.option}"
            if it.unknown:
                yield f"{len(it.unknown)} flights of {it.path} aren't among these legs: {some(it.unknown)}"

    def unbalanced(self) -> Iterator[str]:
        """Tells the aircraft types that don't leave a station as often as they come to it."""
        more = Counter((it.fleet, it.leg.destination) for it in self.flown)
        more.subtract((it.fleet, it.leg.origin) for it in self.flown)
        lacks = sorted((*it, count) for it, count in more.items() if count)
        if lacks:
            yield f"arrivals less departures: {some([f'{fleet} at {station} {count:+}' for fleet, station, count in lacks])}"


def encoded(name: str, records: Iterable[Iterable[object]]) -> str:
    """Returns the text of a table with its first header."""
    return text_of(HEADERS[name], records)


def make_tables(schedule: Schedule, folder: str, dates: Dates, choice: Choice, sources: Sources, keeping: Keeping = Keeping()) -> List[str]:
    """Writes the tables of some dates into a folder, and returns what is told of them. What the caller has changed there stays."""
    want_no_source(folder, MADE, keeping.reads)
    tables = Tables(schedule, dates, choice, sources)
    left = [it for option, it in ASKED.items() if option not in sources.options] + ([] if sources.figured else [PARTED])
    older = [it for it in left if os.path.lexists(os.path.join(folder, it))]
    texts = {**tables.texts(), SETTINGS: tables.settings(folder)}

    def want() -> None:
        if not keeping.is_anyway:
            want_as_made(folder, texts, made.Made.read(folder).sums)

    write_tables(folder, {**texts, made.NAME: tables.made(texts)}, want)
    return [*tables.told(), *tables.told_of_asked(), *(f"{it} stays in {folder} as it was" for it in older)]
