"""Each refusal: one line that says where and what, status 6, 7 or 2, and nothing written."""

from pathlib import Path
from typing import Dict, List, Tuple

import pytest
from schedule_lines import ZEROS, carrier, header, leg, numbered, segment, text, trailer
from ssim_tests.trying import call, standing

DATE = "2026-11-30"
LEG = leg("ZZ", 1, "ZRH 0800 +0100 LHR 0950 +0000", "320")
OTHER = leg("ZZ", 2, "LHR 1100 +0000 ZRH 1250 +0100", "320")
# Lines 1 to 8: a header, zeros, a carrier, a leg with its segment data, a leg, zeros, the trailer.
LINES = numbered([header(), ZEROS, carrier("ZZ"), LEG, segment(LEG, "010", "XY 7001"), OTHER, ZEROS, trailer("ZZ")])
DATE_FORM = "a date as 05NOV26"
AT_TIMES = "bytes 44 to 52, 58 to 70 and 193 to 194"
# Of each case the line that is changed, the first byte, the text there, and what is told of it.
CHANGES = (
    (1, 2, "B", 'title is "BIRLINE STANDARD SCHEDULE DATA SET" (bytes 2 to 35), it should be AIRLINE STANDARD SCHEDULE DATA SET'),
    (1, 1, "2", 'record type is "2" (byte 1), it should be 1, the header'),
    (1, 195, "000002", 'serial number is "000002" (bytes 195 to 200), it should be 000001'),
    (2, 9, "1", 'record type is "0" (byte 1), it should be 2, a carrier'),
    (3, 2, "X", 'time mode is "X" (byte 2), it should be U for UTC or L for local time'),
    (3, 3, "Z ", 'airline is "Z  " (bytes 3 to 5), it should be two or three letters A to Z and digits'),
    (3, 11, "X26", 'season is "X26" (bytes 11 to 13), it should be S or W and two digits, or blank'),
    (3, 15, "31FEB27", 'first date of validity is "31FEB27" (bytes 15 to 21), it should be a day of the calendar'),
    (3, 22, "24OCT26", 'last date of validity is "24OCT26" (bytes 22 to 28), it should be 25OCT26 or later'),
    (3, 29, "00XXX00", f'creation date is "00XXX00" (bytes 29 to 35), it should be {DATE_FORM}, or blank'),
    (4, 1, "6", 'record type is "6" (byte 1), it should be 3, a leg, or 5, the trailer'),
    (4, 2, "1", 'operational suffix is "1" (byte 2), it should be a letter or a blank'),
    (4, 3, "YY", 'airline is "YY " (bytes 3 to 5), it should be ZZ as in line 3'),
    (4, 6, "1 00", 'flight number is "1 00" (bytes 6 to 9), it should be one to four digits, at the right end'),
    (4, 10, "A1", 'itinerary variation is "A1" (bytes 10 to 11), it should be two digits'),
    (4, 12, "00", 'leg sequence is "00" (bytes 12 to 13), it should be 01 to 99'),
    (4, 14, " ", 'service type is " " (byte 14), it should be a letter'),
    (4, 15, "00XXX00", f'first date of the period is "00XXX00" (bytes 15 to 21), it should be {DATE_FORM}'),
    (4, 15, "31NOV26", 'first date of the period is "31NOV26" (bytes 15 to 21), it should be a day of the calendar'),
    (4, 22, "27MAI27", f'last date of the period is "27MAI27" (bytes 22 to 28), it should be {DATE_FORM}, or 00XXX00'),
    (4, 22, "24OCT26", 'last date of the period is "24OCT26" (bytes 22 to 28), it should be 25OCT26 or later'),
    (4, 29, "2134567", 'days of operation is "2134567" (bytes 29 to 35), it should be each day\'s digit in its place or a blank, one digit at least'),
    (4, 29, " " * 7, 'days of operation is "       " (bytes 29 to 35), it should be each day\'s digit in its place or a blank, one digit at least'),
    (4, 36, "3", 'frequency rate is "3" (byte 36), it should be a blank, or 2 for every second week'),
    (4, 37, "ZR1", 'departure station is "ZR1" (bytes 37 to 39), it should be three letters A to Z'),
    (4, 40, "0860", 'passengers\' time of departure is "0860" (bytes 40 to 43), it should be 0000 to 2400, or blank'),
    (4, 44, "2401", 'aircraft\'s time of departure is "2401" (bytes 44 to 47), it should be 0000 to 2400'),
    (4, 48, "+0160", 'departure\'s variation from UTC is "+0160" (bytes 48 to 52), it should be + or -, and hours and minutes to 1459'),
    (4, 55, "ZRH", 'arrival station is "ZRH" (bytes 55 to 57), it should be another than the departure station'),
    (4, 58, "08:0", 'aircraft\'s time of arrival is "08:0" (bytes 58 to 61), it should be 0000 to 2400'),
    (4, 58, "0700", f"the leg takes 0 minutes from departure to arrival ({AT_TIMES}), it should be 1 to 1439 minutes"),
    (4, 66, " 0000", 'arrival\'s variation from UTC is " 0000" (bytes 66 to 70), it should be + or -, and hours and minutes to 1459'),
    (4, 73, "32 ", 'aircraft type is "32 " (bytes 73 to 75), it should be three letters A to Z and digits'),
    (4, 128, "?", 'itinerary variation overflow is "?" (byte 128), it should be a letter, a digit or a blank'),
    (4, 149, "1", 'operating airline disclosure is "1" (byte 149), it should be a letter or a blank'),
    (4, 193, "8", 'departure\'s date variation is "8" (byte 193), it should be 0 to 7, A for the day before, or a blank'),
    (4, 194, "1", f"the leg takes 1610 minutes from departure to arrival ({AT_TIMES}), it should be 1 to 1439 minutes"),
    (4, 195, "000009", 'serial number is "000009" (bytes 195 to 200), it should be 000003'),
    (5, 6, "0002", 'the flight and its leg are " ZZ 00020101J" (bytes 2 to 14), it should be " ZZ 00010101J" as in line 4'),
    (5, 28, "A", 'itinerary variation overflow is "A" (byte 28), it should be " " as in line 4'),
    (5, 31, "1 0", 'data element identifier is "1 0" (bytes 31 to 33), it should be three digits'),
    (6, 9, "1", "ZZ 1, variation 01, leg 1 stands twice (bytes 2 to 13 and 128), it should be another than in line 4"),
    (6, 38, "\xc4", 'departure station is "L\\xc4R" (bytes 37 to 39), it should be three letters A to Z'),
    (8, 3, "YY", 'airline is "YY " (bytes 3 to 5), it should be ZZ as in line 3'),
    (8, 6, "1OCT26 ", f'release date is "1OCT26 " (bytes 6 to 12), it should be {DATE_FORM}, or blank'),
    (8, 188, "000004", 'serial number check is "000004" (bytes 188 to 193), it should be 000005, the last serial number before it'),
    (8, 194, "X", 'end code is "X" (byte 194), it should be C where a carrier follows, or E'),
    (8, 1, "3", 'record type is "3" (byte 1), it should be 5, the trailer, behind lines of zeros'),
)
# Of each case the lines, and what is told of which line.
WHOLES: Dict[str, Tuple[List[str], int, str]] = {
    "a short line": ([*LINES[:3], LINES[3][:-1], *LINES[4:]], 4, "the line has 199 bytes (bytes 1 to 199), it should be 200 bytes long"),
    "no trailer": (LINES[:7], 8, "the file ends (bytes 1 to 200), it should be 5, the trailer, behind lines of zeros"),
    "a carrier that doesn't follow": ([*LINES[:7], LINES[7][:193] + "C" + LINES[7][194:]], 9, "the file ends (bytes 1 to 200), it should be 2, a carrier"),
    "a line behind the end": (
        [*LINES, ZEROS, LINES[3]], 10, 'record type is "3" (byte 1), it should be no record: the one before is the last trailer\'s',
    ),
    "another carrier": (
        numbered([header(), carrier("ZZ"), LEG, trailer("ZZ", "C"), carrier("YY"), trailer("YY")]), 5,
        'airline is "YY " (bytes 3 to 5), it should be ZZ as in line 2, where --airline doesn\'t say which',
    ),
    "a leg of 24 hours": (
        [*LINES[:3], f"{LINES[3][:57]}0700{LINES[3][61:193]}1{LINES[3][194:]}", *LINES[4:]], 4,
        f"the leg takes 1440 minutes from departure to arrival ({AT_TIMES}), it should be 1 to 1439 minutes",
    ),
    "an empty file": ([], 1, "the file is empty (bytes 1 to 200), it should be 1, the header"),
}  # fmt: skip
# Of each case the words behind FILE DIR, the status, and the first line that is told.
WORDS = (
    ("", 2, "usage: tools/ssim tables FILE DIR --date YYYY-MM-DD"),
    (f"--week={DATE} --date {DATE}", 2, "ssim: --date and --week stand both"),
    ("--week 30.11.2026", 2, "ssim: --week 30.11.2026: a day as 2026-11-30 is wanted, of the years 2000 to 2099"),
    ("--date 2026-11-31", 2, "ssim: --date 2026-11-31: a day as 2026-11-30 is wanted, of the years 2000 to 2099"),
    (f"--date {DATE} --date {DATE}", 2, "ssim: --date stands twice"),
    (f"--date {DATE} --surface=yes", 2, "ssim: --surface takes no value"),
    (f"--date {DATE} --types", 2, "ssim: --types wants a value: T,.."),
    (f"--date {DATE} --types 320,32", 2, "ssim: --types 320,32: 32 is none of its form"),
    (f"--date {DATE} --through-value -1", 2, "ssim: --through-value -1: a whole number from 0 to 1000000000000 is wanted"),
    (f"--date {DATE} --fly", 2, "ssim: --fly is no option"),
    (f"--date {DATE} --fleets nothing", 7, "ssim: nothing can't be read: No such file or directory"),
    (f"--date {DATE} --fleets bad", 6, "ssim: bad record 1: fleet;aircraft, it should be fleet,aircraft,turn"),
    (f"--date {DATE} --fleets few", 6, 'ssim: season line 4: aircraft type is "320" (bytes 73 to 75), it should be one of few'),
    (f"--date {DATE} --stations alone", 6, 'ssim: season line 4: arrival station is "LHR" (bytes 55 to 57), it should be one of alone'),
    (f"--date {DATE} --costs none", 6, "ssim: none has no record of 320, it should have one of each fleet"),
    (f"--date {DATE} --costs odd", 6, 'ssim: odd record 2: closed is "ZRH,LHR": a station code is exactly 3 letters A to Z'),
)  # fmt: skip
FILES = {
    "bad": "fleet;aircraft\n",
    "few": "fleet,aircraft,turn\nE90,1,30\n",
    "alone": "code,extra,maintenance\nZRH,0,no\n",
    "none": "fleet,departure,minute,longest,closed\nE90,1,1,,\n",
    "odd": 'fleet,departure,minute,longest,closed\n320,1,1,,"ZRH,LHR"\n',
}


def refused(folder: Path, data: bytes, words: str) -> Tuple[int, str, bool]:
    """Calls `tables` on a file, and returns the status, what was told, and whether nothing was written."""
    (folder / "season").write_bytes(data)
    for name, held in FILES.items():
        (folder / name).write_text(held, encoding="ascii")
    before = standing(folder)
    status, told = call("tables", folder / "season", folder / "day", *(str(folder / it) if it in FILES else it for it in words.split()))
    return status, told.replace(f"{folder}/", ""), standing(folder) == before


@pytest.mark.parametrize("number, at, put, why", CHANGES, ids=[f"line {it[0]} byte {it[1]} {it[2]!r}" for it in CHANGES])
def test_line(number: int, at: int, put: str, why: str, scratch: Path) -> None:
    """A line with other bytes is refused by its number and its bytes."""
    lines = list(LINES)
    lines[number - 1] = lines[number - 1][: at - 1] + put + lines[number - 1][at - 1 + len(put) :]
    assert refused(scratch, text(lines).encode("latin-1"), f"--date {DATE} --fleets few") == (6, f"ssim: season line {number}: {why}\n", True)


@pytest.mark.parametrize("name", WHOLES)
def test_file(name: str, scratch: Path) -> None:
    """A file whose lines don't follow each other is refused by the line."""
    lines, number, why = WHOLES[name]
    assert refused(scratch, text(lines).encode("ascii"), f"--date {DATE}") == (6, f"ssim: season line {number}: {why}\n", True)


@pytest.mark.parametrize("words, status, line", WORDS, ids=[it[0] for it in WORDS])
def test_words(words: str, status: int, line: str, scratch: Path) -> None:
    """Words, and the files that they name, are refused by name."""
    came, told, is_same = refused(scratch, text(LINES, "\n").encode("ascii"), words)
    assert (came, told.splitlines()[0][: len(line)], is_same) == (status, line, True)


def test_missing_file(scratch: Path) -> None:
    """A schedule file that isn't there is told."""
    line = f"ssim: {scratch}/away can't be read: No such file or directory\n"
    assert call("tables", scratch / "away", scratch / "day", "--date", DATE) == (7, line)
    assert not (scratch / "day").exists()
