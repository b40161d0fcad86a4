"""The page of the parts: what a chosen leg costs with each fleet, and the costs of all legs."""

import json
import os
from html import escape
from typing import Any, Dict, List, NamedTuple, Optional

from markupsafe import Markup

from costing.amounts import halves_up, written
from costing.choosing import Costs
from costing.legs import Leg
from costing.making import thousandths
from costing.telling import Sums
from drawing import colours
from drawing.library import Library
from drawing.templating import environment, script, styles
from fleetplan.times import clock

# Pixels that the style of a plan's charts has, of which there are none here.
PIXELS = {"width": 1104, "tall": 22, "names": 92}
# The script has money in hundredths.
HUNDREDTHS = 100
# What the parts are called, in their order.
NAMES = ("Departure", "Minutes", "Fuel", "Fee", "Spill")


class Fact(NamedTuple):
    """A figure that stands above all."""

    name: str
    value: str


def page(costs: Costs, folder: str, sums: Optional[Sums], library: Optional[Library]) -> str:
    """Returns the page of a folder, which needs nothing beside itself; with the figures of its plan, where there is one."""
    env = environment()
    text: str = env.get_template("costs.html").render(
        name=os.path.basename(os.path.abspath(folder)),
        rules=Markup(colours.rules()),
        chart_style=styles(env, "chart.css"),
        page_style=styles(env, "page.css", **PIXELS),
        own_style=styles(env, "costs.css"),
        facts=facts(costs, sums),
        parts=NAMES,
        fleets=costs.fleets,
        ways=[it.way for it in costs.legs],
        rows=[row(costs, it) for it in costs.legs],
        library=library,
        library_text=Markup(library.text) if library else "",
        data=data(costs) if library else "",
        script=script("costs.js") if library else "",
    )
    return text + "\n"


def facts(costs: Costs, sums: Optional[Sums]) -> List[Fact]:
    """Returns the figures that stand above all."""
    found = [Fact("Legs", f"{len(costs.legs):,}"), Fact("Fleets", str(len(costs.fleets))), Fact("Pairs", f"{len(costs.pairs):,}")]
    if sums is not None:
        load = "none" if sums.load is None else f"{float(sums.load):.3f}"
        found += [
            Fact("The plan's operating cost", f"{sums.whole(sums.operating):,}"),
            Fact("Its spill cost", f"{sums.whole(sums.spill):,}"),
            Fact("Spilled passengers", thousandths(sums.spilled)),
            Fact("Load factor", load),
        ]
    return found


def row(costs: Costs, leg: Leg) -> Markup:
    """Returns the row of a leg in the table of all."""
    demand, least = costs.pricer.demands.of[leg.flight], costs.least(leg)
    cells = [
        f"<th scope=\"row\">{escape(leg.flight)}</th><td>{escape(leg.start)}</td><td>{clock(leg.departure)}</td><td>{escape(leg.end)}</td>",
        f'<td>{clock(leg.departure + leg.block)}</td><td class="n">{leg.block}</td><td class="n">{written(demand.mean)}</td>',
        f'<td class="n">{written(demand.sd)}</td>',
    ]
    for fleet in costs.fleets:
        pair = costs.pairs.get((leg.flight, fleet))
        if pair is None:
            cells.append(f'<td class="n no" title="{escape(costs.refusals[leg.flight, fleet])}">–</td>')
        else:
            number = f"{pair.cost:,}"
            cells.append(f'<td class="n">{f"<b>{number}</b>" if pair.cost == least else number}</td>')
    return Markup(f"<tr>{''.join(cells)}</tr>")


def data(costs: Costs) -> Markup:
    """Returns what the script needs, as JSON that may stand in a page."""
    found = {
        "parts": NAMES,
        "fleets": [[it, float(costs.figures.types[it].seats)] for it in costs.fleets],
        "legs": [_leg(costs, it) for it in costs.legs],
    }
    return Markup(json.dumps(found, separators=(",", ":")).replace("<", "\\u003c").replace("&", "\\u0026"))


def _leg(costs: Costs, leg: Leg) -> Dict[str, Any]:
    """Returns a leg for the script."""
    demand, unit = costs.pricer.demands.of[leg.flight], costs.pricer.unit
    cells: List[object] = []
    for fleet in costs.fleets:
        pair = costs.pairs.get((leg.flight, fleet))
        if pair is None:
            cells.append(costs.refusals[leg.flight, fleet])
        else:
            cells.append([pair.cost, pair.spilled, *(halves_up(HUNDREDTHS * it, unit) for it in pair.parts)])
    return {"block": leg.block, "mean": float(demand.mean), "sd": float(demand.sd), "worth": float(demand.worth), "cells": cells}
