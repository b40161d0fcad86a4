"""What a run of scenarios tells before it begins: their number and about the time, pictures that are left out, and a lock that stands there."""

from pathlib import Path
from typing import Dict, List, Optional, Tuple

import pytest
from fleetplan.errors import Unread
from scenario_tests.laid import FAULT, lay_ended, optimal
from steps.starting import Wanted, forecast, is_dry, is_done, locked, own_seconds, undrawn, wants_pictures

# What config.yaml says of pictures, how many scenarios there are, whether they are drawn, and whether it is told that they aren't.
PICTURES: List[Tuple[object, int, bool, bool]] = [
    ("", 200, True, False), ("", 201, False, True), (None, 201, False, True), (True, 201, True, False), (False, 5, False, False),
    (False, 201, False, False), ("True", 201, True, False), ("false", 5, False, False),
]  # fmt: skip


@pytest.mark.parametrize("asked, number, is_drawn, is_told", PICTURES)
def test_pictures(asked: object, number: int, is_drawn: bool, is_told: bool) -> None:
    """More than 200 scenarios are drawn only where that is asked for, and it is told that they aren't."""
    assert (wants_pictures(asked, number), undrawn(asked, number) is not None) == (is_drawn, is_told)


def test_pictures_that_are_neither() -> None:
    """Another word about pictures is refused, and not taken for one of both."""
    with pytest.raises(Unread) as error:
        wants_pictures("maybe", 5)
    assert str(error.value) == "pictures: maybe in config.yaml is none of true, false and nothing"


@pytest.mark.parametrize("words, wanted", [
    ("-n", True), ("--dry-run --cores 4", True), ("-np", True), ("--directory run -s Snakefile --cores 4", False), ("--nolock", False),
])  # fmt: skip
def test_dry_run(words: str, wanted: bool) -> None:
    """A call asks what would be done by --dry-run, or -n."""
    assert is_dry(["snakemake", *words.split()]) == wanted


PLAIN, WHOLE = Wanted(2000, 3, False, False), Wanted(2000, 3, True, True)


def test_seconds_of_a_scenario() -> None:
    """A scenario takes the engine and a tenth of a second a step beside what is solved; more with a picture and with questions."""
    assert own_seconds(PLAIN) == pytest.approx(0.5)
    assert own_seconds(WHOLE) == pytest.approx(0.2 + 5 * 0.1 + 0.4 + 6 * 0.03)


def lay(folder: Path, seconds: Dict[str, Optional[float]]) -> Dict[str, Wanted]:
    """Lays scenarios whose solve took these seconds and whose check took a quarter of one, or that weren't done, and returns what is wanted of
    each."""
    for name, it in seconds.items():
        if it is not None:
            lay_ended(folder / name, optimal(70))
            answer = folder / name / "solved" / "answer.json"
            answer.write_text(answer.read_text(encoding="utf-8").replace('"seconds": 1.5', f'"seconds": {it}'), encoding="utf-8")
    return dict.fromkeys(seconds, PLAIN)


def test_forecast_by_size(scratch: Path) -> None:
    """Where nothing stands, the time is reckoned by the size of the tables: four times as long for twice as many pairs."""
    rest = "by the size of the tables alone, and much more where plans are hard to find"
    # 0.3 + 0.5 seconds each.
    told = forecast(lay(scratch, {f"s{it}": None for it in range(1000)}), str(scratch), 4)
    assert told == f"1,000 scenarios, 1,000 of them to do: about 4 minutes with 4 cores, of which solving takes 38 % ({rest})."
    # 1.2 + 0.5 seconds each.
    told = forecast({f"s{it}": PLAIN._replace(pairs=4000) for it in range(10)}, str(scratch), 1)
    assert told == f"10 scenarios, 10 of them to do: about 17 seconds with 1 core, of which solving takes 71 % ({rest})."
    # 120.5 seconds each, in hours that have begun.
    told = forecast({f"s{it}": PLAIN._replace(pairs=40000) for it in range(100)}, str(scratch), None)
    assert told.startswith("100 scenarios, 100 of them to do: about 4 hours of the processor, shared among its machines, of which solving")


def test_forecast_by_what_stands(scratch: Path) -> None:
    """Where some stand, the others are reckoned to take as long as these did in the mean."""
    told = forecast(lay(scratch, {"a": 9.75, "b": 29.75, "c": None, "d": None, "e": None}), str(scratch), 2)
    # 3 * (20 + 0.5 + 0.25 of each check) / 2 seconds.
    assert told == "5 scenarios, 3 of them to do: about 31 seconds with 2 cores, of which solving takes 98 % (as the 2 that stand there)."
    told = forecast(lay(scratch / "all", {"a": 1}), str(scratch / "all"), 2)
    assert told == "1 scenario, and all stand there. What is old is done anew."


def test_what_lacks(scratch: Path) -> None:
    """A scenario is done where all that is wanted stands there."""
    lay_ended(scratch / "one", optimal(70))
    assert is_done(str(scratch / "one"), PLAIN) and not is_done(str(scratch / "one"), WHOLE)
    (scratch / "one" / "sizes.json").touch()
    (scratch / "one" / "drawn").mkdir()
    assert is_done(str(scratch / "one"), WHOLE) and not is_done(str(scratch / "two"), PLAIN)


def test_answers_that_tell_no_time(scratch: Path) -> None:
    """A fault, and an answer that is torn, tell no time and end nothing."""
    wanted = lay(scratch, {"a": 1, "b": None})
    lay_ended(scratch / "fault", FAULT)
    (scratch / "a" / "solved" / "answer.json").write_text('{"seco', encoding="utf-8")
    assert "by the size" in forecast({**wanted, "fault": PLAIN, "torn": PLAIN}, str(scratch), 1)


CALL = ["/usr/bin/snakemake", "-s", "tools/scenarios/Snakefile", "--directory", "my run"]


def test_lock() -> None:
    """Where a lock stands, the call that takes it away is told; not where the words deal with it."""
    told = str(locked([".snakemake/locks/0.input.lock"], CALL))
    assert "    snakemake -s tools/scenarios/Snakefile --directory 'my run' --unlock\n" in told and "scancel --name=fleetplan" in told
    assert locked([], CALL) is None
    for word in ("--unlock", "--nolock", "-n"):
        assert locked(["0.input.lock"], [*CALL, word]) is None
