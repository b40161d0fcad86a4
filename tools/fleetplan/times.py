"""Times of the day, and minutes."""

import re

# The minutes of a day.
DAY = 1440


def minute_of(text: str) -> int:
    """Returns the minute of the day that HH:MM tells, or raises ValueError where it isn't of this form."""
    found = re.fullmatch("([01][0-9]|2[0-3]):([0-5][0-9])", text)
    if not found:
        raise ValueError(f"{text} is no time HH:MM")
    return 60 * int(found[1]) + int(found[2])


def clock(minute: int) -> str:
    """Returns a minute, counted from the midnight of any day, as HH:MM."""
    minute %= DAY
    return f"{minute // 60:02}:{minute % 60:02}"
