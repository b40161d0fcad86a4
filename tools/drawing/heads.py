"""What stands above the charts: how good the plan is, its figures, and how it differs from another one."""

from dataclasses import dataclass
from typing import List, Optional, Tuple

from drawing.compared import Change, Comparison
from drawing.figures import Figures
from drawing.plans import Fleet, Plan
from drawing.telling import named


@dataclass(frozen=True)
class Verdict:
    """How good a plan is, as far as a program has said: its kind (good, warn or none), in a word or two, and in a sentence."""

    kind: str
    head: str
    more: str


@dataclass(frozen=True)
class Fact:
    """A figure that stands above all, with what belongs to it."""

    name: str
    value: str
    more: str = ""


@dataclass(frozen=True)
class ChangeRow:
    """A leg that differs, in words."""

    change: Change
    start: str
    end: str
    fleets: Tuple[str, str]
    departs: Tuple[str, str]


def verdict_of(plan: Plan) -> Verdict:
    """Returns how good the plan is."""
    if plan.proof:
        gap = plan.cost - plan.proof.bound
        if gap == 0:
            return Verdict("good", "Cheapest plan.", "It is proved that no legal plan costs less.")
        parts = f", {100 * gap / plan.cost:.2g} in 100" if plan.cost > 0 else ""
        more = f"No legal plan costs less than {plan.proof.bound:,}: at most {gap:,} could be saved{parts}."
        return Verdict("", "Legal plan.", more)
    if plan.verdict:
        return Verdict("warn", "Not a legal plan.", f"judge says: {plan.verdict}")
    if plan.asker.is_there:
        return Verdict("", "Legal plan.", "Whether a cheaper one is legal isn't known here: no proof that holds stands beside it.")
    return Verdict("", "A plan.", "Nobody has judged it: the program isn't built.")


def facts_of(plan: Plan, total: Figures) -> List[Fact]:
    """Returns the figures that stand above all."""
    period = plan.wanted.period
    facts = [Fact("Cost a day" if period == 1 else f"Cost in {period} days", f"{plan.cost:,}")]
    if plan.proof and plan.proof.bound != plan.cost:
        facts.append(Fact("No legal plan below", f"{plan.proof.bound:,}"))
    facts += [
        Fact("Aircraft", f"{total.used}", f"of {total.has}"),
        Fact("Legs", f"{total.legs}", f"and {len(plan.left_out)} left out" if plan.left_out else ""),
        Fact("Block hours a day", f"{total.hours:.1f}", f"{total.each:.1f} an aircraft" if total.each else ""),
        Fact("Day start", plan.calendar.clock(0), "UTC"),
    ]
    if plan.wanted.first is not None:
        facts.append(Fact("From", plan.wanted.first.isoformat(), f"{plan.days} days" if plan.days > 1 else "one day"))
    elif period > 1:
        facts.append(Fact("Period", f"{period} days"))
    return facts


def changes_of(plan: Plan, comparison: Comparison) -> List[ChangeRow]:
    """Returns the legs that differ, in words."""
    moment = plan.calendar.moment if plan.wanted.first is None else plan.calendar.clock
    found = []
    for it in comparison.changes:
        leg = plan.schedule.legs[it.flight]
        fleets = (named(it.fleets[0]), named(it.fleets[1]))
        found.append(ChangeRow(it, leg.start, leg.end, fleets, (moment(it.departs[0]), moment(it.departs[1]))))
    return found


def comparison_words(plan: Plan, it: Comparison) -> str:
    """Returns a comparison in some sentences."""
    count = len(it.changes)
    are = "leg differs" if it.common == 1 else "legs differ"
    told = [f"{count} of {it.common} {are}: {len(it.refleeted)} in fleet, {len(it.moved)} in time." if count else "No leg differs."]
    if it.cost is None:
        told.append("The plan there has legs without a cost, so there is no difference of both.")
    else:
        more = plan.cost - it.cost
        told.append(f"The plan there costs {it.cost:,}, this one {f'{abs(more):,} ' + ('less' if more < 0 else 'more') if more else 'as much'}.")
    for what, flights in (("Only here", it.only_here), ("Only there", it.only_there)):
        told += [f"{what}: {', '.join(flights)}."] if flights else []
    return " ".join(told)


def rotation_words(fleet: Fleet) -> str:
    """Returns what became of a fleet's rotation, as its chart shows it."""
    rotation = fleet.rotation
    if rotation and rotation.days:
        days = "a day" if rotation.days == 1 else f"{rotation.days} days"
        return f"one tour of {len(rotation.tour)} legs in {days}{'' if rotation.keeps else ', without its chosen through flights'}"
    return f"no tour: {fleet.words}" if fleet.words else "no rotation.csv"


def fleet_words(fleet: Fleet, figures: Figures) -> List[str]:
    """Returns what stands beside a fleet's name."""
    spare: Optional[str] = f"{fleet.spare} more in reserve" if fleet.spare else None
    legs = f"{figures.legs} legs, {figures.hours:.1f} block hours a day"
    return [it for it in (f"{fleet.used} of {fleet.has} aircraft", spare, legs, rotation_words(fleet)) if it]
