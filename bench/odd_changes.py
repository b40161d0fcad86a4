"""Random words of calls, and random changes of words and files, for bench/hostile."""

import random
import re
from pathlib import Path
from typing import List, Sequence

from shared import HEADERS, text_of

from fleetplan.tables import LOCATED

NUMBERS = [
    "0", "-0", "00", "1", "-1", "+1", "2", "29", "31", "481", "500", "501", "600", "601", "5", "-5", "05", "720", "-720", "721", "1439", "1440",
    "1441", "65536",
    "4294967296", "1000000000000", "1000000000001", "-1000000000001", "18446744073709551615", "18446744073709551616",
    str(10**18), str(10**18 + 1), str(10**30), str(10**30 + 1), str(2**127 - 1), str(2**127), str(-(2**127) + 1),
    "9" * 20, "9" * 21, "9" * 40,
]
BYTES = [b"\0", b"\r", b"\n", b"\r\n", b'"', b",", b" ", b"\t", b"\xff", b"\xef\xbb\xbf", b"\xc3\x9c", b";", b"-", b"x"]
PROOF_LINES = [
    b"sole", b"end", b"plan no", b"plan yes", b"priced", b"refuted", b"bare", b"trim", b"split", b"scale 1", b"scale 0",
    b"mixed 1", b"mixed 2", b"weight", b"rent", b"at", b"open nodes", b"open pivots 0", b"open grew 1 2 3",
    b"open lift 4 5", b"fleet proof 1", b"fleet proof 2", b"fleet proof 3", b"charge", b"charge AAA 1 1", b"charge HUB 1 2",
    b"charge SAA 2 1", b"trim FP3 A320 5", b"split FF1 -", b"split CH1 - 0", b"weight FP3 A320 10 1", b"weight FF1 - 1", b"",
]
WORDS = [
    "--day-start", "--days", "--visits", "--nodes", "--pivots", "--all-pivots", "--json", "--through-max", "--period", "--windows", "--optional",
    "--search", "--search=free", "--search=fixed", "free", "--", "-", "--help", "-h",
    "help", "judge", "solve", "check", "tails", "due", "make", "whatif", "F1", "00:00", "03:00", "24:00", "2026-02-28", "2026-02-29",
    "9999-12-31", "366", "367", "", "--days=3", "--json=true", "--windows=1", "-5", "--day-start=09:00", "--period=2", "\udcff", "d/../d", "e",
    "--first-day", "--first-day=2026-02-27", "--least-night", "--least-night=600",
]


def with_bytes(draw: random.Random, text: bytes) -> bytes:
    """Odd bytes stand in the text, or in the place of some."""
    place = draw.randrange(len(text) + 1)
    cut = draw.choice([0, 0, 1, 1, 2, 8])
    return text[:place] + draw.choice(BYTES) + text[place + cut:]


def with_number(draw: random.Random, text: bytes) -> bytes:
    """Another number stands in the place of one."""
    found = list(re.finditer(rb"-?\d+", text))
    if not found:
        return with_bytes(draw, text)
    one = draw.choice(found)
    return text[: one.start()] + draw.choice(NUMBERS).encode() + text[one.end() :]


def with_word(draw: random.Random, text: bytes) -> bytes:
    """A word stands in the place of another one of the file."""
    found = list(re.finditer(rb"[A-Za-z0-9:]+", text))
    if len(found) < 2:
        return with_bytes(draw, text)
    one, other = draw.choice(found), draw.choice(found)
    return text[: one.start()] + other.group() + text[one.end() :]


def with_lines(draw: random.Random, text: bytes) -> bytes:
    """A line goes, comes twice, or stands elsewhere."""
    lines = text.split(b"\n")
    here, there = draw.randrange(len(lines)), draw.randrange(len(lines))
    change = draw.randrange(4)
    if change == 0:
        del lines[here]
    elif change == 1:
        lines.insert(there, lines[here])
    elif change == 2:
        lines[here], lines[there] = lines[there], lines[here]
    else:
        lines.insert(here, draw.choice(PROOF_LINES))
    return b"\n".join(lines)


def cut_off(draw: random.Random, text: bytes) -> bytes:
    """The text ends early."""
    return text[: draw.randrange(len(text) + 1)]


def many_lines(draw: random.Random, text: bytes) -> bytes:
    """A line of the file many times."""
    lines = text.split(b"\n")
    here = draw.randrange(len(lines))
    return b"\n".join(lines[:here] + [lines[here]] * draw.choice([50, 2_000, 20_001]) + lines[here:])


CHANGES = [with_bytes] * 6 + [with_number] * 8 + [with_word] * 8 + [with_lines] * 8 + [cut_off] + [many_lines]


def changed(draw: random.Random, text: bytes) -> bytes:
    """The text with one to four changes."""
    for _ in range(draw.choice([1, 1, 1, 1, 2, 2, 3, 4])):
        text = draw.choice(CHANGES)(draw, text)
    return text


def changed_words(draw: random.Random, words: List[str]) -> List[str]:
    # A schedule of some hundred made legs takes longer than a run may.
    """The words of a call with one to three changes."""
    numbers = [number for number in NUMBERS if words[0] != "make" or number not in ("500", "600")]
    for _ in range(draw.randint(1, 3)):
        place, change = draw.randrange(len(words) + 1), draw.randrange(3)
        if change == 0 or not words:
            words.insert(place, draw.choice(WORDS + numbers))
        elif change == 1:
            words[min(place, len(words) - 1)] = draw.choice(WORDS + numbers)
        else:
            del words[min(place, len(words) - 1)]
    return words


def words_of(draw: random.Random, command: str, reading: Sequence[str], folder: Path) -> List[str]:
    """The words of a call of a command."""
    if command == "make":
        return [command, "d", str(draw.randint(1, 99)), str(draw.choice([2, 4, 8, 20]))]
    words = [command, "d", *reading]
    if command in ("tails", "due"):
        words[2:2] = ["2026-02-28", str(draw.randint(1, 3))]
        words += draw.choice([[], [], ["--least-night", draw.choice(["1", "36", "600", "1440"])]])
    if command == "whatif":
        words[2:2] = [draw.choice([*fleets_in(folder), "F3"]), str(draw.choice([0, 1, 2, 500]))]
    if command == "solve":
        words += ["--nodes", str(draw.choice([0, 1, 20])), "--pivots", str(draw.choice([0, 3, 2_000]))]
        words += draw.choice([[], [], ["--all-pivots"]])
        words += draw.choice([[], ["--search", "free"]])
    return words


def fleets_in(folder: Path) -> List[str]:
    """The names of the folder's fleets."""
    return [line.split(",")[0] for line in (folder / "fleets.csv").read_text().splitlines()[1:]]


def tails_of(draw: random.Random, folder: Path) -> bytes:
    """Some tails of the folder's fleets, at times with their places."""
    fleets, header = fleets_in(folder), draw.choice([HEADERS["tails.csv"], LOCATED])
    places = ["", *(line.split(",")[0] for name in ("stations", "legs") for line in (folder / f"{name}.csv").read_text().splitlines()[1:])]
    rows = [[f"T{number}", draw.choice(fleets), draw.randint(1, 4), draw.choice(places)] for number in range(draw.randint(0, 4))]
    return text_of(header, [it[: len(header)] for it in rows]).encode()
