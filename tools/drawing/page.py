"""The page of a plan, and the chart of one fleet, by the templates beside this file."""

from dataclasses import dataclass
from typing import Any, Dict, List, Optional

from markupsafe import Markup

from drawing import charts, colours, figures, grounds, heads
from drawing.calendars import Calendar
from drawing.charts import Bar, Chart, Drawer, Scale
from drawing.flights import Chain, Departure, window
from drawing.library import Library
from drawing.plans import Fleet, Plan, Row
from drawing.templating import environment, script, signed, styles
from drawing.telling import Leg, Teller, legs_of, legs_out
from fleetplan.tables import NO_FLEET
from fleetplan.times import DAY

# Pixels of the rows of a chart that stands by itself.
ALONE = 1104
# What the script has to know of the charts: pixels, and letters. A row has 950 pixels on paper (A4).
SIZES: Dict[str, Any] = {
    "names": charts.NAMES,
    "width": charts.WIDTH,
    "paper": 950,
    "bar": charts.BAR,
    "above": charts.ABOVE,
    "marked": charts.MARKED,
    "below": charts.BELOW,
    "tight": charts.TIGHT,
    "roomy": charts.ROOMY,
    "gap": charts.GAP,
    "small": charts.SMALL,
    "heights": charts.HEIGHTS,
    "flights": [[it.size, it.weight, it.beside, it.kind] for it in charts.FLIGHTS],
}


@dataclass
class Drawn:
    """A fleet as it is drawn."""

    fleet: Fleet
    chart: Chart
    by_day: Optional[Chart]
    told: List[str]

    @property
    def is_short(self) -> bool:
        """Returns whether it stays together on paper."""
        return len((self.by_day or self.chart).lanes) <= charts.TOGETHER[True]


@dataclass
class Few:
    """A station where one aircraft stands once."""

    station: grounds.Station
    fleet: str
    first: str
    last: str


class Pages:
    """Makes pages of a plan."""

    def __init__(self, plan: Plan, pixels: int = charts.WIDTH) -> None:
        self.plan = plan
        self.palette = colours.Palette(plan.schedule.aircraft)
        self.teller = Teller(plan, self.palette)
        self.drawer = Drawer(plan.calendar, plan.schedule.maintains, plan.least_night, self.teller.told, pixels)
        self.env = environment()
        self.env.globals.update(
            plan=plan,
            signed=signed,
            names=charts.NAMES,
            rules=Markup(colours.rules()),
            chart_style=styles(self.env, "chart.css"),
            fleet_kind=lambda fleet: self.palette.kind(fleet) + (" hatched" if self.palette.is_hatched(fleet) else ""),
        )

    def page(self, library: Optional[Library]) -> str:
        """Returns the page, which needs nothing beside itself."""
        plan, tall = self.plan, charts.AXES[self.plan.days > 1]
        legs = legs_of(plan, self.teller)
        counted = figures.figures_of(plan)
        drawn = [self.fleet(it.fleet, it) for it in counted if it.fleet]
        rows = rows_left_out(plan)
        out = legs_out(self.teller, rows, len(legs))
        left_out = self.drawer.chart("Left out", rows, plan.days * DAY) if rows else None
        bars = self.numbered([*(chart for it in drawn for chart in (it.chart, it.by_day)), left_out])
        total = figures.total_of(counted, plan)
        return self.env.get_template("page.html").render(
            axis_tall=tall,
            page_style=styles(self.env, "page.css", width=charts.WIDTH, tall=tall),
            verdict=heads.verdict_of(plan),
            facts=heads.facts_of(plan, total),
            figures=counted,
            total=total,
            left_out_cost=figures.left_out_cost(plan),
            unused=[it for it in plan.schedule.aircraft if not plan.flown_by(it)],
            changes=heads.changes_of(plan, plan.comparison) if plan.comparison else [],
            comparison_words=heads.comparison_words(plan, plan.comparison) if plan.comparison else "",
            drawn=drawn,
            left_out=left_out,
            kinds={kind for bar in bars for kind in bar.kinds.split()},
            has_short=any("short" in shape.kind for it in drawn for lane in it.chart.lanes for shape in lane.shapes),
            legs=legs,
            out=out,
            idle=[it for fleet in plan.fleets for it in fleet.idle()],
            library=library,
            library_text=Markup(library.text) if library else "",
            data=self.data([*legs, *out], bars, tall),
            script=script("page.js") if library else "",
            **self.stations(),
        )

    def picture(self, fleet: Fleet) -> str:
        """Returns the chart of one fleet alone, which needs nothing beside itself: its rows, or its days where it flies several."""
        chart = self.drawer.chart(f"{fleet.name}: {heads.rotation_words(fleet)}", fleet.by_day or fleet.rows, DAY, fleet.ties)
        return self.env.get_template("plan.svg").render(chart=chart, width=ALONE, tall=chart.tall)

    def fleet(self, fleet: Fleet, counted: figures.Figures) -> Drawn:
        """Returns a fleet as it is drawn."""
        words = heads.rotation_words(fleet)
        chart = self.drawer.chart(f"{fleet.name}: {words}", fleet.rows, self.plan.days * DAY, fleet.ties)
        by_day = self.drawer.chart(f"{fleet.name}, day by day: {words}", fleet.by_day, DAY, fleet.ties) if fleet.by_day else None
        return Drawn(fleet, chart, by_day, heads.fleet_words(fleet, counted))

    def numbered(self, drawn: List[Optional[Chart]]) -> List[Bar]:
        """Returns the bars of charts in their order, and gives each the number of its flight."""
        bars = [bar for chart in drawn if chart for lane in chart.lanes for bar in lane.bars]
        for bar in bars:
            bar.number = self.teller.numbers.get((bar.flown.leg.flight, bar.key), -1)
        return bars

    def stations(self) -> Dict[str, Any]:
        """Returns the stations with a chart, the axis of each, and those where one aircraft stands once."""
        plan, wanted = self.plan, self.plan.wanted
        calendar = Calendar(wanted.day_start, wanted.period, wanted.period)
        pictures = [grounds.picture(it, plan.schedule, self.palette, calendar) for it in grounds.stations_of(plan.schedule, plan.choice)]
        scale = Scale(plan.schedule.minutes)
        axis = Chart("", plan.schedule.minutes, [], charts.ticks(calendar, scale), charts.day_names(calendar, scale), False, 0, 0)
        if axis.day_names:
            axis.ticks = [(x, kind, "") for x, kind, _ in axis.ticks]
        few = [
            Few(it.station, stand.fleet, calendar.moment(stand.first), calendar.moment(stand.last))
            for it in pictures
            for stand in it.station.stands
            if len(it.blocks) == 1
        ]
        return {"stations": [it for it in pictures if len(it.blocks) > 1], "station_chart": axis, "few": few}

    def data(self, legs: List[Leg], bars: List[Bar], tall: int) -> Dict[str, Any]:
        """Returns what the script needs: the flights in words, and the bars in the order of the page."""
        wanted = self.plan.wanted
        return {
            "size": {**SIZES, "axis": tall},
            "dayStart": wanted.day_start,
            "period": wanted.period,
            "first": wanted.first.isoformat() if wanted.first else None,
            "legs": [vars(it) for it in legs],
            "bars": [bar_data(it, self.plan.calendar) for it in bars],
        }


def bar_data(it: Bar, calendar: Calendar) -> List[Any]:
    """Returns a bar for the script: minutes, whether it has its departure and its arrival, and its words."""
    leg, flown = it.flown.leg, it.flown
    words = [leg.flight, leg.start, calendar.clock(flown.departs), leg.end, calendar.clock(flown.lands), it.mark]
    return [it.first, it.last, it.limit, int(it.departs), int(it.lands), *words]


def rows_left_out(plan: Plan) -> List[Row]:
    """Returns a row for each flight that is left out, on each day of the chart that it would depart on."""
    rows = []
    for flight in plan.left_out:
        leg = plan.schedule.legs[flight]
        minutes = [leg.departure + turn * plan.schedule.minutes for turn in range(-(-plan.days // plan.wanted.period))]
        chain = Chain([Departure(leg, NO_FLEET, it, leg.block) for it in minutes if it < plan.days * DAY])
        row = Row(flight, "", window(chain, 0, plan.days * DAY))
        row.window.grounds.clear()
        rows.append(row)
    return rows
