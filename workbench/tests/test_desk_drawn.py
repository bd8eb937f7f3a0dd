"""What the desk draws of its verdicts, and takes of what is selected, in headless Chromium."""

from __future__ import annotations

from collections.abc import Iterator
from pathlib import Path
from typing import Any

import pytest
from conftest import EXAMPLES
from desk_browsing import Page, keys, opened_browser
from desk_plans import PAIR
from desk_running import running
from test_cut_off import ROUND

pytestmark = pytest.mark.alone


@pytest.fixture(scope="module")
def browser() -> Iterator[Any]:
    """A browser for all tests."""
    yield from opened_browser()


def test_who_may_oscillate_is_drawn_and_is_no_loop(browser: Any, folder: Path) -> None:
    (folder / "pair.toml").write_bytes(PAIR)
    with running("pair.toml", folder=folder) as desk:
        page = Page(browser, desk.address)
        page.judged(0)
        assert page.strip()[:2] == ["good accepted: no timing loop can form", "bad may oscillate: L>B, L>A"]
        assert page.red() > 200
        words = "desk.picture.draw(desk.run, -1); return desk.picture.words.map(([, , word]) => word)"
        assert "may oscillate" in page.run(words) and "may LOOP" not in page.run(words)
        page.click("agree")
        assert page.said("chosen-head") == "link L"
        assert page.said("said") == page.run("return document.getElementById('agree').title") != ""


def test_values_and_commands_of_what_is_selected(browser: Any, folder: Path) -> None:
    (folder / "plan.toml").write_bytes((EXAMPLES / "inventory" / "plan.toml").read_bytes())
    with running("plan.toml", folder=folder) as desk:
        values_and_commands(Page(browser, desk.address))


def values_and_commands(page: Page) -> None:
    """Changes a time and a floor of an element, and locks an input out."""
    page.judged(0)
    page.point(page.element("agg-2"))
    field = page.browser.find_element("css selector", "#form [data-key=holdoff]")
    field.clear()
    field.send_keys("700", keys.Keys.TAB)
    page.judged(1)
    page.browser.find_element("css selector", "#form [data-key=floor] option[value=QL-SSU-A]").click()
    page.judged(2)
    found = page.run("return desk.network.elements.find(one => one.name === 'agg-2')")
    assert (found["holdoff"], found["floor"]) == (700, "QL-SSU-A")
    page.point(page.link("R3"))
    page.browser.find_element("css selector", "#commands summary").click()
    page.browser.find_element("xpath", "//div[@id='commands']//button[text()='lockout R3>agg-2']").click()
    page.judged(3)
    assert page.said("events").endswith(" lockout R3>agg-2 drop")
    place = "desk.network.elements.findIndex(one => one.name === 'agg-2')"
    page.run("desk.goTo(desk.run.moments.length - 1)")
    assert page.run(f"return desk.run.inputName(desk.run.input[{place}])") == "R2>agg-2"
    page.run("desk.goTo(0)")
    assert page.run(f"return desk.run.inputName(desk.run.input[{place}])") != "R2>agg-2" and page.errors() == []


def test_all_that_failures_cut_off_are_drawn(browser: Any, folder: Path) -> None:
    """A ring of four that takes its timing in one direction: without L1 nobody but A is served, without L3 D alone isn't."""
    (folder / "round.toml").write_text(ROUND)
    with running("round.toml", folder=folder) as desk:
        page = Page(browser, desk.address)
        page.judged(0)
        page.until("desk.said.cut")
        assert page.strip()[2] == "mind link L1 cuts off B and 2 more, though a path remains; 4 failures more"
        dashed = {name: page.framed(name) for name in "ABCD"}
        assert dashed["A"] == 0 and min(dashed[name] for name in "BCD") > 50
        page.click("protected")
        page.until("desk.gapShown")
        assert page.said("said") == "link L1 cuts off B, C and D, though a path remains (1 of 5)"
        assert all(page.framed(name) > dashed[name] * 1.2 for name in "BCD")
        assert page.framed("A") < 50  # (the link that fails, which is drawn broad, begins there)
        page.click("protected")
        page.until("desk.gapShown && desk.gapShown.name === 'L2'")
        assert page.said("said") == "link L2 cuts off C and D, though a path remains (2 of 5)"
        assert page.run("return [...desk.picture.marks.now].map(place => desk.network.elements[place].name)") == [
            "C",
            "D",
        ]
        # (D takes A as well, and whoever lost the way round one side has the other)
        for number, (link, key) in enumerate((("L4", "priority_a"), ("L3", "priority_a"), ("L2", "priority_a")), 1):
            row = {"kind": "value", "section": "link", "name": link, "key": key, "value": 2}
            page.run("desk.edit(arguments[0])", row)
            page.judged(number)
        page.until("desk.said.cut && desk.saidOf === 3")
        assert page.strip()[2].startswith("good protected") and {page.framed(name) for name in "ABCD"} == {0}
        assert page.errors() == []
