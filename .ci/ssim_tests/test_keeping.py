"""What a caller has typed stays, and files of two dates don't read together."""

import os
import shutil
import threading
from pathlib import Path
from typing import Any, Tuple
from unittest import mock

import pytest
from schedule_lines import leg, text
from ssim_tests.test_plans import WAY, file_of
from ssim_tests.trying import call, records, standing

FLEETS = "fleet,aircraft,turn\n320,9,30\nE90,9,30\n"
STATIONS = "code,extra,maintenance\nLHR,0,no\nZRH,5,yes\nAAA,0,no\n"
SUNDAY, MONDAY = "2026-11-29", "2026-11-30"
ANYWAY = "it stays, and nothing is written; --anyway writes all"


@pytest.fixture(autouse=True)
def laid(scratch: Path) -> None:
    """A season of a flight each day, and files of the caller's."""
    legs = file_of(leg("ZZ", 1, WAY, "320"), leg("ZZ", 2, "LHR 1100 +0000 ZRH 1250 +0100", "320"))
    (scratch / "season").write_bytes(text(legs).encode("ascii"))
    (scratch / "fleets").write_text(FLEETS, encoding="ascii")
    (scratch / "stations").write_text(STATIONS, encoding="ascii")


def tables(folder: Path, date: str = MONDAY, *words: object, fleets: str = "fleets") -> Tuple[int, str]:
    """Makes the tables of a date."""
    status, told = call("tables", folder / "season", folder / "day", "--date", date, "--fleets", folder / fleets, *words)
    return status, told.replace(f"{folder}/", "")


@pytest.mark.parametrize("name", ["fleets.csv", "stations.csv", "legs.csv", "costs.csv", "throughs.csv", "names.csv"])
def test_what_is_mended_stays(name: str, scratch: Path) -> None:
    """A file that isn't as it was made stays, with all others; --anyway writes them."""
    tables(scratch)
    path = scratch / "day" / name
    path.write_text(path.read_text(encoding="ascii") + "\n", encoding="ascii")
    before = standing(scratch / "day")
    assert tables(scratch, SUNDAY) == (7, f"ssim: {name} of day isn't as tables made it: {ANYWAY}\n")
    assert standing(scratch / "day") == before
    assert tables(scratch, SUNDAY, "--anyway")[0] == 0
    assert standing(scratch / "day")["names.csv"] != before["names.csv"]
    assert tables(scratch)[0] == 0


def test_what_others_made_stays(scratch: Path) -> None:
    """Files of a folder that tells no sums are the caller's, and a plan isn't: solve writes it too."""
    (scratch / "day").mkdir()
    (scratch / "day" / "costs.csv").write_text("mine", encoding="ascii")
    (scratch / "day" / "fleets.csv").write_text(FLEETS, encoding="ascii")
    assert tables(scratch) == (7, f"ssim: costs.csv of day isn't as tables made it: {ANYWAY}\n")
    assert sorted(os.listdir(scratch / "day")) == ["costs.csv", "fleets.csv"]
    (scratch / "day" / "costs.csv").unlink()
    assert tables(scratch)[0] == 0
    (scratch / "day" / "plan.csv").write_text("flight,fleet\nZZ1,E90\nZZ2,E90\n", encoding="ascii")
    assert tables(scratch)[0] == 0
    assert records(scratch / "day", "plan.csv") == ["ZZ1,320", "ZZ2,320"]


@pytest.mark.parametrize("option, name", [("stations", "stations.csv"), ("fleets", "fleets.csv"), ("costs", "costs.csv")])
def test_a_source_isnt_a_target(option: str, name: str, scratch: Path) -> None:
    """A file that a call reads isn't written over, by whichever path it is named."""
    shutil.copytree(scratch, scratch / "kept")
    tables(scratch, MONDAY, "--stations", scratch / "stations")
    before = standing(scratch / "day")
    (scratch / "link").symlink_to(scratch / "day")
    for place in ("day", "day/../day", "link"):
        words = ["--stations", scratch / "stations"] if option != "stations" else []
        given = f"{place}/{name}"
        came = call("tables", scratch / "season", scratch / "day", "--date", MONDAY, *words, f"--{option}", scratch / given, "--anyway")
        line = f"ssim: {given} can't be written: this call reads it, so it should be a file of another folder\n"
        assert (came[0], came[1].replace(f"{scratch}/", "")) == (7, line)
        assert standing(scratch / "day") == before


@pytest.mark.parametrize("kind", ["device", "pipe", "folder", "link to a device"])
def test_a_plan_is_a_file(kind: str, scratch: Path) -> None:
    """A plan isn't put in the place of what is no file; a link stays one."""
    tables(scratch)
    new = scratch / "new"
    if kind == "folder":
        new.mkdir()
    elif kind == "pipe":
        os.mkfifo(new)
    elif kind == "link to a device":
        new.symlink_to("/dev/null")
    else:
        new = Path("/dev/null")
    before = os.lstat(new)
    status, told = call("plan", scratch / "season", scratch / "day", new)
    assert (status, told) == (7, f"ssim: {new} can't be written: it is {'a folder' if kind == 'folder' else 'no file'}\n")
    assert os.lstat(new) == before
    (scratch / "there").symlink_to("target")
    assert call("plan", scratch / "season", scratch / "day", scratch / "there")[0] == 0
    assert os.readlink(scratch / "there") == "target"
    assert (scratch / "target").read_bytes() == (scratch / "season").read_bytes()


@pytest.mark.parametrize("name", ["plan.csv", "names.csv", "legs.csv", "costs.csv"])
def test_a_plan_isnt_a_table(name: str, scratch: Path) -> None:
    """A plan isn't written over a file of the folder that it is of."""
    tables(scratch)
    before = standing(scratch / "day")
    for place in (scratch / "day" / name, scratch / "day" / ".." / "day" / name):
        status, told = call("plan", scratch / "season", scratch / "day", place)
        assert status == 7 and "this call reads it" in told
    assert standing(scratch / "day") == before


def test_names_of_another_date(scratch: Path) -> None:
    """A names.csv that wasn't made with the others is refused, though the legs of both dates are the same."""
    tables(scratch, SUNDAY)
    older = standing(scratch / "day")
    tables(scratch, MONDAY)
    assert standing(scratch / "day")["legs.csv"] == older["legs.csv"]
    (scratch / "day" / "names.csv").write_bytes(older["names.csv"])
    status, told = call("plan", scratch / "season", scratch / "day", scratch / "new")
    line = "ssim: day/names.csv isn't of this day/legs.csv, it should be as tools/ssim tables made both\n"
    assert (status, told.replace(f"{scratch}/", "")) == (6, line)
    assert not (scratch / "new").exists()


@pytest.mark.parametrize("number", range(1, 10))
def test_two_calls_at_once(number: int, scratch: Path) -> None:
    """Two calls for one folder, of which one waits before a rename: the folder is that of one, of the other, or doesn't read."""
    tables(scratch, SUNDAY)
    whole = [standing(scratch / "day")]
    tables(scratch, MONDAY)
    whole.append(standing(scratch / "day"))
    real, seen, ended = os.replace, [], []
    second = threading.Thread(target=lambda: ended.append(tables(scratch, MONDAY)))

    def waiting(*words: Any) -> None:
        if threading.current_thread() is not second:
            seen.append(words)
            if len(seen) == number:
                second.start()
                # Who isn't kept out has ended by then.
                second.join(0.4)
        real(*words)
        stand = {it: data for it, data in standing(scratch / "day").items() if not it.startswith(".")}
        assert "legs.csv" not in stand or stand in whole

    with mock.patch.object(os, "replace", waiting):
        assert tables(scratch, SUNDAY)[0] == 0
        second.join(30)
    assert [status for status, _ in ended] == [0]
    assert standing(scratch / "day") == whole[1]
