"""Pages in a real browser: all flights are there, no label covers another one, and search, zoom and clicks work."""

import os
import re
import time
from collections import Counter
from pathlib import Path
from typing import Any, List, Tuple

import pytest
from page_tests.browsing import Browser
from page_tests.counting import rows, wanted_legs
from page_tests.looking import LABELS, LEGS, SEEK, overlapping
from page_tests.plans import KINDS, Desk, draw, run

# The key, as WebDriver names it.
ESCAPE = "\ue00c"
WIDTHS = (1280, 400)
SCHEMES = ("light", "dark")


@pytest.mark.parametrize("scheme", SCHEMES)
@pytest.mark.parametrize("width", WIDTHS)
@pytest.mark.parametrize("name", KINDS)
def test_page(browser: Browser, desk: Desk, name: str, width: int, scheme: str) -> None:
    """No script fails, each flight stands once on each date, no label covers another one, and the page fits its window."""
    drawn = desk.drawn(name)
    browser.open(drawn.page, width, scheme)
    assert browser.errors() == []
    assert browser.ask("return document.querySelector('.scroller').dataset.ready") == "yes"
    assert Counter(tuple(it) for it in browser.ask(LEGS)) == wanted_legs(drawn)
    assert_apart(browser)
    assert browser.ask("return document.documentElement.scrollWidth") <= width
    dark = browser.ask("return getComputedStyle(document.body).backgroundColor")
    assert (dark == "rgb(255, 255, 255)") == (scheme == "light")


def assert_apart(browser: Browser) -> None:
    """No two labels that are in sight lie over one another."""
    for labels in browser.ask(LABELS):
        assert overlapping(labels) == []


@pytest.mark.parametrize("name", ["hub-day", "week", "season"])
def test_narrow(browser: Browser, desk: Desk, name: str) -> None:
    """At 400 pixels the chart scrolls, and its letters are as large as at 1280."""
    sizes = []
    for width in WIDTHS:
        browser.open(desk.drawn(name).page, width)
        sizes.append(browser.ask("return [...new Set(Array.from(document.querySelectorAll('.name'), (it) => getComputedStyle(it).fontSize))]"))
    assert sizes[0] == sizes[1] == ["12px"]
    pane = browser.ask("const it = document.querySelector('.scroller'); return [it.scrollWidth, it.clientWidth]")
    assert pane[0] > 2 * pane[1]


@pytest.mark.parametrize("name", ["hub-day", "week", "season"])
def test_zoom(browser: Browser, desk: Desk, name: str) -> None:
    """Zoomed by steps and back, more and more labels have room, and none covers another one."""
    browser.open(desk.drawn(name).page)
    counts = []
    for button in ("closer", "closer", "closer", "farther", "whole"):
        browser.find(f"#{button}").click()
        browser.settle()
        assert_apart(browser)
        counts.append(browser.ask("return document.querySelectorAll('.by-aircraft .leg text').length"))
    assert counts[0] <= counts[1] <= counts[2] >= counts[4]
    # Of a small plan all labels may have room at once, by the letters of the browser.
    assert name == "hub-day" or counts[2] > counts[4]
    assert browser.errors() == []


def test_drag(browser: Browser, desk: Desk) -> None:
    """A drag moves the chart in time, and so does its own scrolling; a zoom afterwards keeps the middle."""
    from selenium.webdriver import ActionChains

    browser.open(desk.drawn("season").page)
    for _ in range(4):
        browser.find("#closer").click()
    pane = browser.find(".scroller")
    left = "return document.querySelector('.scroller').scrollLeft"
    browser.ask("arguments[0].scrollIntoView({block: 'center'}); arguments[0].scrollLeft = 1000", pane)
    browser.settle()
    chain: Any = ActionChains
    chain(browser.driver).move_to_element_with_offset(pane, 100, 0).click_and_hold().move_by_offset(-240, 0).release().perform()
    browser.settle()
    assert abs(browser.ask(left) - 1240) <= 2
    width, inside = browser.ask("const it = document.querySelector('.scroller'); return [it.scrollWidth - 96, it.clientWidth - 96]")
    middle = (browser.ask(left) + inside / 2) / width
    browser.find("#farther").click()
    browser.settle()
    width = browser.ask("return document.querySelector('.scroller').scrollWidth - 96")
    assert abs((browser.ask(left) + inside / 2) / width - middle) < 0.01
    assert_apart(browser)


@pytest.mark.parametrize("width", WIDTHS)
def test_one_day(browser: Browser, desk: Desk, width: int) -> None:
    """One day of a week has stations and times on its bars, in a narrow window too."""
    browser.open(desk.drawn("week").page, width)
    browser.find("#day").click()
    browser.settle()
    assert browser.ask("return document.querySelectorAll('.by-aircraft .leg .time').length") > 168
    assert_apart(browser)


@pytest.mark.parametrize("name", ["week", "season", "tails"])
def test_days(browser: Browser, desk: Desk, name: str) -> None:
    """Day by day all flights have their numbers, and no label covers another one."""
    browser.open(desk.drawn(name).page)
    browser.find("label[for=by-day]").click()
    browser.settle()
    assert_apart(browser)
    assert browser.ask("return document.querySelectorAll('.by-aircraft .plot')[0].getBoundingClientRect().width") == 0
    bars = browser.ask("return Array.from(document.querySelectorAll('.by-day .leg'), (it) => it.querySelectorAll('.flight, .over').length)")
    assert sum(bars) >= 0.9 * len(bars) > 0


def test_search(browser: Browser, desk: Desk) -> None:
    """A flight, a station and an aircraft are found: in the chart, in the table, and in their number."""
    browser.open(desk.drawn("hub-day").page)
    cases: List[Tuple[str, List[str]]] = [("fp110", ["FP110"]), ("no such", [])]
    for text, wanted in cases:
        browser.ask(SEEK, text)
        assert browser.ask("return Array.from(document.querySelectorAll('.leg.hit'), (it) => it.dataset.flight)") == wanted
        shown = browser.ask("return document.querySelectorAll('#flights tbody tr:not([hidden])').length")
        assert shown == len(wanted)
    browser.ask(SEEK, "LHR")
    at_station = {it[0] for it in rows(desk.drawn("hub-day").folder / "legs.csv") if "LHR" in it}
    assert set(browser.ask("return Array.from(document.querySelectorAll('.leg.hit'), (it) => it.dataset.flight)")) == at_station
    assert browser.find("#found").text == f"{len(at_station)} flights"
    browser.ask(SEEK, "E190/2")
    assert 0 < browser.ask("return document.querySelectorAll('.leg.hit').length") < 26
    browser.ask(SEEK, "")
    assert browser.ask("return document.querySelectorAll('.seeking').length") == 0


def test_search_comes_there(browser: Browser, desk: Desk) -> None:
    """A flight that is found comes into sight, also in a window that is narrow."""
    browser.open(desk.drawn("week").page, 400)
    browser.ask(SEEK, "L3D6")
    browser.settle()
    box = browser.ask("const it = document.querySelector('.by-aircraft .leg.hit .bar').getBoundingClientRect(); return [it.left, it.right]")
    assert 0 <= box[0] and box[1] <= 400


def test_click(browser: Browser, desk: Desk) -> None:
    """A click on a flight tells its cost by fleet, and its neighbours."""
    drawn = desk.drawn("hub-day")
    browser.open(drawn.page)
    browser.find(".by-aircraft .leg[data-flight=FP119] .flight").click()
    told = browser.find("#details").text
    for flight, fleet, cost in rows(drawn.folder / "costs.csv"):
        if flight == "FP119":
            assert fleet in told and f"{int(cost):,}" in told
    assert "FP113" not in told and "Then: FP125" in told
    browser.find("#details .close").click()
    assert not browser.find("#details").is_displayed()


def test_keyboard(browser: Browser, desk: Desk) -> None:
    """The table has a button for each flight, which tells the same as a click; Escape closes it."""
    browser.open(desk.drawn("hub-day").page)
    button = browser.find("#flights tbody button")
    assert button.text in browser.ask("return arguments[0].closest('tr').textContent", button)
    button.send_keys("\n")
    assert button.text in browser.find("#details h3").text
    button.send_keys(ESCAPE)
    assert not browser.find("#details").is_displayed()


def test_paper(browser: Browser, desk: Desk) -> None:
    """On paper a week stands day by day, with times, and no fleet that fits on a page is parted."""
    browser.open(desk.drawn("week").page)
    browser.driver.execute_cdp_cmd("Emulation.setEmulatedMedia", {"media": "print"})
    browser.ask("window.dispatchEvent(new Event('beforeprint'))")
    assert browser.ask("return getComputedStyle(document.querySelector('.by-aircraft')).display") == "none"
    assert browser.ask("return getComputedStyle(document.querySelector('.chunk')).breakInside") == "avoid"
    assert browser.ask("return document.querySelectorAll('.by-day .time').length") > 168
    browser.driver.execute_cdp_cmd("Emulation.setEmulatedMedia", {"media": ""})


def test_without_script(browser: Browser, desk: Desk, tmp_path: Path) -> None:
    """Without a script all flights stand in the table, and the labels of the chart lie apart."""
    drawn = desk.drawn("hub-day")
    text = drawn.page.read_text(encoding="utf-8")
    page = tmp_path / "plain.html"
    page.write_text(re.sub("<script.*?</script>", "", text, flags=re.S), encoding="utf-8")
    browser.open(page)
    assert_apart(browser)
    cells = browser.ask("return Array.from(document.querySelectorAll('#flights tbody th'), (it) => it.textContent)")
    assert sorted(cells) == sorted(flight for flight, _ in wanted_legs(drawn))


def test_speed(browser: Browser, tmp_path: Path, program: str) -> None:
    """1,000 legs are drawn, opened and searched within two seconds: of the processor to draw them, since others may be at work."""
    folder = tmp_path / "large"
    folder.mkdir()
    run([program, "make", str(folder), "7", "1000"])
    began = os.times()
    draw(folder)
    ended = os.times()
    drawing = ended.children_user + ended.children_system - began.children_user - began.children_system
    opening = min(opened(browser, folder / "plan.html") for _ in range(3))
    assert browser.ask("return document.querySelectorAll('.by-aircraft .leg.hit').length") == 1
    if os.getloadavg()[0] > (os.cpu_count() or 1):
        pytest.skip(f"others are at work, so {drawing:.1f} seconds to draw and {opening:.1f} to open say nothing")
    assert drawing + opening < 2, f"it took {drawing:.1f} seconds to draw, and {opening:.1f} to open and search"


def opened(browser: Browser, page: Path) -> float:
    """Returns the seconds in which a page is opened and searched."""
    began = time.monotonic()
    browser.open(page)
    browser.ask(SEEK, "R499")
    browser.settle()
    return time.monotonic() - began
