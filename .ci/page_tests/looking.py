"""What is looked for in a page, by scripts that run in it."""

from typing import List, Tuple

# The words in the charts that are in sight, with their boxes, by chart.
LABELS = """
return Array.from(document.querySelectorAll('.chart.rows svg.plot, .station svg.plot, .top-axis svg'), (plot) =>
  Array.from(plot.querySelectorAll('text'), (it) => [it.textContent, it.getBoundingClientRect()])
    .filter(([, box]) => box.width > 0)
    .map(([text, box]) => [text, box.left, box.top, box.right, box.bottom]));
"""
# The flights that are drawn in the rows of aircraft, each with its date, as often as they stand there.
LEGS = """
return Array.from(document.querySelectorAll('.by-aircraft .leg'), (it) => [it.dataset.flight, it.dataset.date]);
"""
SEEK = """
const field = document.getElementById('search');
field.value = arguments[0];
field.dispatchEvent(new Event('input'));
"""
# How much of each label may lie over another one: browsers round.
MARGIN = 0.6


# A text with its left, upper, right and lower end.
Label = Tuple[str, float, float, float, float]


def overlapping(labels: List[Label]) -> List[Tuple[str, str]]:
    """Returns the pairs of labels of a chart whose boxes overlap."""
    found = []
    ordered = sorted(labels, key=lambda it: (it[1], it[2]))
    for at, (text, left, top, right, bottom) in enumerate(ordered):
        for other, start, high, end, low in ordered[at + 1 :]:
            if start >= right - MARGIN:
                break
            if min(bottom, low) - max(top, high) > MARGIN and min(right, end) - max(left, start) > MARGIN:
                found.append((text, other))
    return found
