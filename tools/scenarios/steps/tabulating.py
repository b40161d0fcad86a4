"""A table of what changes cost, from a summary: a row is a change, and a column what it is compared with."""

from typing import Dict, List, Sequence, Tuple

from steps.reading import Line, in_thousands, markdown, thousands
from steps.rows import OPTIMAL
from steps.sums import IN_SUM
from steps.telling import AS_IT_IS

MARK = "\\*"
WHY = f"{MARK} A fleet has no tour, or none was found, so this plan can't be flown as asked."


def table_of(lines: Sequence[Line]) -> List[str]:
    """Returns the table as lines of Markdown, and a line below it where a plan has no tour for a fleet."""
    scenarios, sums = [it for it in lines if not it.is_sum], {it["changes"]: it for it in lines if it.is_sum}
    named = {it["base"] for it in scenarios}
    bases = [it for it in scenarios if it["scenario"] in named]
    cells = cells_of(scenarios)
    changes = list(dict.fromkeys(it["changes"] for it in scenarios if not it.is_base))
    own = [IN_SUM] if sums else []
    rows = [["", *(it["scenario"] for it in bases), *own]]
    if sums:
        rows.append(["times", *(it["times"] for it in bases), sums[AS_IT_IS]["times"]])
    rows.append([AS_IT_IS, *map(cost_told, bases), *([cost_told(sums[AS_IT_IS])] if sums else [])])
    for change in changes:
        row = [cells.get((change, base["scenario"]), "") for base in bases]
        rows.append([change, *row, *([difference_told(sums[change]) if change in sums else ""] if sums else [])])
    marked = any(MARK in cell for row in rows[1:] for cell in row[1:])
    return [*markdown(rows), *(["", WHY] if marked else [])]


def cells_of(scenarios: Sequence[Line]) -> Dict[Tuple[str, str], str]:
    """Returns the differences by change and base. Where several scenarios have both all are told."""
    found: Dict[Tuple[str, str], List[str]] = {}
    for it in scenarios:
        if not it.is_base:
            found.setdefault((it["changes"], it["base"]), []).append(difference_told(it))
    return {key: ", ".join(texts) for key, texts in found.items()}


def cost_told(line: Line) -> str:
    """Returns what a scenario costs, where that is its least cost; else how it ended and between what that lies."""
    if line.cost is None or line.bound is None:
        return f"{line['outcome'] or 'unknown'}{f', at least {thousands(line.bound)}' if line.bound is not None else ''}"
    told = thousands(line.cost) if line["outcome"] == OPTIMAL else f"{thousands(line.bound)} to {thousands(line.cost)}"
    return told + mark(line)


def difference_told(line: Line) -> str:
    """Returns by how much a scenario costs more than its base, or how it ended where that isn't known."""
    return (in_thousands(line["cost difference"]) or line["outcome"] or "unknown") + mark(line)


def mark(line: Line) -> str:
    """Returns the mark of a plan that can't be flown as asked."""
    return f" {MARK}" if line["no tour"] else ""
