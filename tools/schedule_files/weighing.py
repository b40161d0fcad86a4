"""Whether the fleets can fly a schedule file as a plan leaves it: week by week as one that repeats, and through the weeks as they follow each
other."""

from typing import Dict, Iterator, List, NamedTuple, Optional, Sequence, Set

from fleetplan.times import DAY
from schedule_files.counting import Counter
from schedule_files.days import WEEK, Dates, iso
from schedule_files.reading import Schedule
from schedule_files.walking import Walk, repeated, unbalanced_place
from schedule_files.weeks import LATEST, Scope, Season, Week, Weeks, flights_of, season_of

# How many days before a single date its week begins, and how many weeks before and behind that of a plan may change with it.
BEFORE, BESIDE = 3, 2
# What stands in the place of a count that there isn't.
UNKNOWN = "-"


class Verdict(NamedTuple):
    """What is told of a file, and what its fleets lack: nothing where they can fly it."""

    told: Sequence[str]
    lacks: Sequence[str]


class Weighing:
    """A file as it is and as a plan leaves it, week by week: those in which they differ are judged."""

    def __init__(self, filed: Schedule, written: Schedule, scope: Scope, dates: Dates, is_season: bool) -> None:
        self.schedules, self.scope = (filed, written), scope
        self.season: Season = season_of(self.schedules, scope) or Season(dates.first, dates.first, False)
        own = season_of([filed], scope)
        self.filed_season = own or self.season
        self.first = dates.first if dates.count == WEEK else dates.first - BEFORE
        numbers = range(-BESIDE, BESIDE + 1)
        if is_season:
            numbers = range((self.season.first - 1 - self.first) // WEEK - 1, (self.season.last + LATEST - self.first) // WEEK + 2)
        self.filed, self.written = (Weeks(it, scope, self.first, numbers) for it in self.schedules)
        self.changed = [it for it in numbers if self.filed[it].shapes != self.written[it].shapes]
        self.counter = Counter(scope)
        self.told: List[str] = []
        self.lacks: Dict[str, str] = {}

    def weigh(self) -> Verdict:
        """Judges the weeks that differ, each kind of them once, their borders, and all together."""
        if self.changed:
            for numbers in self.kinds():
                self.weigh_week(numbers)
            self.told.extend(self.borders())
            self.weigh_all()
        return Verdict(self.told, list(self.lacks.values()))

    def kinds(self) -> List[List[int]]:
        """Returns the numbers of the weeks that differ, those together that are equal before and behind the plan."""
        found: Dict[object, List[int]] = {}
        for it in self.changed:
            found.setdefault((self.filed[it].key, self.written[it].key, self.repeats(it)), []).append(it)
        return list(found.values())

    def repeats(self, number: int) -> bool:
        """Returns whether a week may follow one like it: as filed it lies within the season, and each fleet comes to each station as often
        as it leaves it, which it doesn't where flights begin or end."""
        week, season = self.filed[number], self.filed_season
        is_within = season.first <= week.first and (season.is_open or week.first + WEEK - 1 <= season.last)
        return is_within and not any(map(week.balance, week.shapes))

    def fleets_of(self, numbers: Sequence[int]) -> List[str]:
        """Returns the fleets whose flights differ in some weeks."""
        return [fleet for fleet in self.scope.fleets if any(self.filed[it].shapes.get(fleet) != self.written[it].shapes.get(fleet) for it in numbers)]

    def weigh_week(self, numbers: Sequence[int]) -> None:
        """Judges a week that stands for those that are equal."""
        number = numbers[0]
        filed, written = self.filed[number], self.written[number]
        before, behind = self.counter.needs(filed), self.counter.needs(written)
        others = f" and {len(numbers) - 1} weeks like these" if len(numbers) > 1 else ""
        pairs = ((it, before.counts.get(it, UNKNOWN), behind.counts.get(it, UNKNOWN)) for it in self.scope.fleets)
        counts = [f"{fleet} {one} {other} {self.scope.fleets[fleet].aircraft}" for fleet, one, other in pairs]
        span = f"in the 7 days from {iso(written.first)}{others}"
        self.told.append(f"aircraft {span}, as filed, with the plan and in fleets.csv: {', '.join(counts)}")
        self.told.extend(f"{line} {span}" for line in self.by_codes(written))
        if not self.repeats(number):
            self.told.append(f"the 7 days from {iso(written.first)} don't repeat as filed: they are judged by those beside them alone")
            return
        for fleet in self.fleets_of([number]):
            most, count = self.scope.fleets[fleet].aircraft, behind.counts.get(fleet)
            if count is not None and count > most:
                self.lack(fleet, f"{fleet} would need {count} aircraft {span}, and has {most}", repeated(written, fleet).beyond(most))
            elif count is None and written.balance(fleet):
                more = ", ".join(f"{station} {count:+}" for station, count in written.balance(fleet).items())
                place = repeated(written, fleet).beyond(most) or unbalanced_place(written, fleet)
                self.lack(fleet, f"{fleet} would not come back {span}, arrivals less departures {more}", place)
            elif count is None:
                self.lack(fleet, f"{fleet} can't be judged {span}: {behind.reasons[fleet]}", None)

    def by_codes(self, week: Week) -> Iterator[str]:
        """Tells how many aircraft of each of its codes a family needs for a week, where none flies for another."""
        for fleet in sorted(set(self.scope.choice.families.values())):
            counts = []
            for code in sorted({it.leg.type for it in week.of(fleet)}):
                ends = [(it.leg.origin, it.leg.destination) for it in week.of(fleet) if it.leg.type == code]
                is_balanced = sorted(it for it, _ in ends) == sorted(it for _, it in ends)
                counts.append(f"{code} {repeated(week, fleet, code).need if is_balanced else UNKNOWN}")
            yield f"by its codes, each alone, {fleet} needs {', '.join(counts) or 'none'}"

    def lack(self, fleet: str, what: str, place: Optional[object]) -> None:
        """Notes what a fleet lacks, the first of it alone."""
        self.lacks.setdefault(fleet, f"{what}{f': {place}' if place else ''}")

    def borders(self) -> Iterator[str]:
        """Tells what stands at stations where a week ends and another one begins, of fleets that the plan changes in one of them."""
        known: Set[object] = set()
        numbers = sorted({it for number in self.changed for it in (number, number + 1)})
        for number in numbers:
            if number - 1 not in self.written.own or number not in self.written.own:
                continue
            before, behind = self.written[number - 1], self.written[number]
            fleets = [it for it in self.fleets_of([number - 1, number]) if before.shapes.get(it) != behind.shapes.get(it)]
            key = before.key, behind.key
            if not fleets or key in known or not (before.flights and behind.flights):
                continue
            known.add(key)
            yield f"aircraft at the border of {iso(behind.first)}, and wanted behind it: {'; '.join(map_of(before, behind, it) for it in fleets)}"

    def weigh_all(self) -> None:
        """Judges the weeks as they follow each other, from the one before the first that differs to the one behind the last. Where they leave
        other aircraft at stations than as filed, all weeks behind them are judged too."""
        for fleet in self.fleets_of(self.changed):
            first, last = self.filed.day(self.changed[0] - 1), self.filed.day(self.changed[-1] + 2) - 1
            if self.moves(fleet):
                last = max(last, self.season.last + LATEST)
            before, behind = (walk_of(it, self.scope, fleet, first, last) for it in self.schedules)
            most = max(self.scope.fleets[fleet].aircraft, before.need)
            if behind.need > most:
                what = f"{fleet} would need {behind.need} aircraft from {iso(first)} to {iso(last)}, as filed {before.need}"
                self.lack(fleet, f"{what}, and has {self.scope.fleets[fleet].aircraft}", behind.beyond(most))

    def moves(self, fleet: str) -> bool:
        """Returns whether the weeks that differ leave aircraft of a fleet at other stations than as filed."""
        net: Dict[str, int] = {}
        for weeks, sign in ((self.filed, -1), (self.written, 1)):
            for number in self.changed:
                for station, count in weeks[number].balance(fleet).items():
                    net[station] = net.get(station, 0) + sign * count
        return any(net.values())


def walk_of(schedule: Schedule, scope: Scope, fleet: str, first: int, last: int) -> Walk:
    """Returns what a fleet needs from a day to another, both with it."""
    flights, earlier = (flights_of(schedule, scope, *days, [fleet]) for days in ((first, last), (first - WEEK, first - 1)))
    return Walk(flights, DAY * first, earlier)


def map_of(before: Week, behind: Week, fleet: str) -> str:
    """Returns how many aircraft of a fleet stand at stations where a week ends, and how many the next one wants, each as one that repeats."""
    stand, wanted = (repeated(it, fleet).at_stations() for it in (before, behind))
    codes = [it for it in sorted({*stand, *wanted}) if stand.get(it) != wanted.get(it)]
    return f"{fleet} {', '.join(f'{it} {stand.get(it, 0)} {wanted.get(it, 0)}' for it in codes) or 'as many at each station'}"


def weigh(filed: Schedule, written: Schedule, scope: Scope, dates: Dates, is_season: bool) -> Verdict:
    """Returns whether fleets can fly a file as a plan of these dates leaves it."""
    return Weighing(filed, written, scope, dates, is_season).weigh()
