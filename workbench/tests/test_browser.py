"""The page in a real browser, headless Chromium by selenium, where Debian's chromium, chromium-driver and python3-selenium are."""

from __future__ import annotations

import base64
import json
import random
import re
import shutil
import statistics
from collections.abc import Iterator
from pathlib import Path
from typing import Any

import pytest
from conftest import EXAMPLES, murdjohe, started
from desk_browsing import actions, keys, opened_browser

from murdjohe.answers import api
from murdjohe.answers.reports import Change, Report
from murdjohe.network import plan_file, wiring
from murdjohe.picture import page_data, pages, places
from murdjohe.runs import moments, rehearsals, spans
from murdjohe.runs.moments import Event

pytestmark = pytest.mark.alone

MESH = EXAMPLES / "mesh"
# Generous limits in milliseconds, for a busy machine; on a quiet one it is a fraction of them.
FIRST_PAINT, STEP = 20_000, 1_000


@pytest.fixture(scope="module")
def browser() -> Iterator[Any]:
    yield from opened_browser("1400,1000")


def page_of(folder: Path, *words: str) -> str:
    """The page of some works, as the command writes it."""
    ran = murdjohe("report", *words, "-o", str(folder / "page.html"))
    assert ran.status == 0, ran.err
    return (folder / "page.html").as_uri()


@pytest.fixture(scope="module")
def works(tmp_path_factory: pytest.TempPathFactory) -> str:
    """The page of the works on the mesh, with all cuts."""
    words = [str(MESH / "redundant.toml"), str(MESH / "works.csv"), "--cuts"]
    return page_of(tmp_path_factory.mktemp("works"), *words)


def said(browser: Any, name: str) -> str:
    """The text of a part of the page."""
    text: str = browser.execute_script("return document.getElementById(arguments[0]).textContent", name)
    return text


def shown(browser: Any) -> list[list[str]]:
    """What the table of elements shows now: name, level and state, input."""
    script = "return [...document.querySelectorAll('#elements tr')].map(row => [...row.children].slice(0, 3).map(cell => cell.textContent))"
    rows: list[list[str]] = browser.execute_script(script)
    return rows


def test_it_opens_without_an_error_or_a_request(browser: Any, works: str) -> None:
    browser.get_log("performance")
    browser.get(works)
    assert browser.title == "redundant.toml, works.csv" and said(browser, "title") == browser.title
    assert browser.get_log("browser") == []
    sent = [json.loads(row["message"])["message"] for row in browser.get_log("performance")]
    urls = {row["params"]["request"]["url"] for row in sent if row["method"] == "Network.requestWillBeSent"}
    assert urls <= {works, "data:,"}


def test_the_slider_goes_to_each_change_of_the_report(browser: Any, works: str) -> None:
    browser.get(works)
    report = api.sim(MESH / "redundant.toml", MESH / "works.csv", "36m").result
    wired = wiring.wiring_of(plan_file.read(str(MESH / "redundant.toml")).network)
    slider = "const slider = document.getElementById('slider'); slider.value = arguments[0]; slider.dispatchEvent(new Event('input'))"
    times: list[int] = browser.execute_script("return page.run.moments")
    assert {change.at for change in report.changes} <= set(times)
    for moment, at in enumerate(times):
        browser.execute_script(slider, moment)
        own = moments.shown_at(wired, report.changes, at)
        rows = [[name, f"{one.level} {one.state}", one.input or "none"] for name, one in own.items()]
        assert shown(browser) == rows
        assert said(browser, "time") == rehearsals.clock(at)


def test_a_click_on_an_element_shows_its_trace(browser: Any, works: str) -> None:
    browser.get(works)
    browser.execute_script("page.goTo(0); page.goTo(page.run.moments.length - 1)")
    canvas = browser.find_element("id", "picture")
    number = browser.execute_script("return page.network.elements.findIndex(element => element.name === 'cell-3')")
    x, y = browser.execute_script("return page.picture.spot(page.network.elements[arguments[0]])", number)
    size = canvas.size
    move = actions.ActionChains(browser).move_to_element_with_offset(
        canvas, x - size["width"] / 2, y - size["height"] / 2
    )
    move.click().perform()
    assert said(browser, "chosen").startswith(
        "cell-3: QL-PRC, locked; takes A4>cell-3, timing over 2 lines from the source"
    )
    assert said(browser, "way") == "A4>cell-3S2>hub-south"
    assert canvas.get_attribute("title").startswith("cell-3: ")


def test_the_map_of_cases_shows_a_case(browser: Any, works: str) -> None:
    browser.get(works)
    rows = browser.find_elements("css selector", "#cases tr")
    assert [row.find_element("css selector", "button").text for row in rows] == "C N1 S2 H A1 A2 A3 A4".split()
    strip = rows[1].find_element("css selector", "canvas")
    browser.execute_script("arguments[0].scrollIntoView()", strip)
    actions.ActionChains(browser).move_to_element(strip).click().perform()
    assert said(browser, "title") == "N1 down alone"
    assert "hub-south" in said(browser, "chosen")  # (the middle one of seven elements)
    report = api.sim(MESH / "redundant.toml", b"at,what,target,value\n60000,down,N1,\n", 400_000).result
    own = moments.shown_at(
        wiring.wiring_of(plan_file.read(str(MESH / "redundant.toml")).network), report.changes, 400_000
    )
    assert [row[2] for row in shown(browser)] == [one.input or "none" for one in own.values()]
    browser.find_element("id", "back").click()
    assert said(browser, "title") == "redundant.toml, works.csv"


def test_the_keyboard_is_enough(browser: Any, works: str) -> None:
    browser.get(works)
    body = browser.find_element("css selector", "body")
    first = said(browser, "time")
    body.send_keys(keys.Keys.HOME)
    assert said(browser, "time") == "00:00:00.000"
    for _ in range(3):
        body.send_keys(keys.Keys.ARROW_RIGHT)
    assert said(browser, "place").startswith("moment 4 of ")
    body.send_keys(keys.Keys.ARROW_LEFT)
    assert said(browser, "place").startswith("moment 3 of ")
    for _ in range(40):  # (on to the first name of the table, which is taken by Enter)
        actions.ActionChains(browser).send_keys(keys.Keys.TAB).perform()
        if browser.switch_to.active_element.get_attribute("class") == "name":
            break
    browser.switch_to.active_element.send_keys(keys.Keys.ENTER)
    assert said(browser, "chosen").startswith("core-1: QL-PRC, locked; takes clock-1")
    body.send_keys(keys.Keys.ESCAPE)
    assert said(browser, "chosen").startswith("Nothing is selected")
    assert first == "00:01:00.000" and browser.get_log("browser") == []


def test_the_summary_goes_to_its_moments(browser: Any, works: str) -> None:
    browser.get(works)
    rows = browser.find_elements("css selector", "#worst li")
    assert rows and rows[0].text.partition(" ")[2].startswith("no element is without a source at the end")
    for row in rows:
        button = row.find_element("css selector", "button")
        button.click()
        assert said(browser, "time") == button.text
    assert browser.get_log("browser") == []


def test_a_screen_reader_has_names_and_a_status(browser: Any, works: str) -> None:
    browser.get(works)
    script = """return [...document.querySelectorAll('button, input, canvas#picture, [tabindex="0"]')].filter(
      node => !(node.textContent.trim() || node.getAttribute('aria-label'))).map(node => node.outerHTML)"""
    assert browser.execute_script(script) == []
    assert browser.find_element("id", "said").get_attribute("role") == "status"
    assert browser.find_element("id", "slider").get_attribute("aria-valuetext") == said(browser, "time")
    assert browser.execute_script("return document.documentElement.lang") == "en"
    assert len(browser.find_elements("css selector", "[role=columnheader]")) == 8


def test_a_loop_is_red_and_said(browser: Any, folder: Path) -> None:
    ring = EXAMPLES / "ring"
    browser.get(page_of(folder, str(ring / "plan.toml"), str(ring / "events.csv"), "--until", "2m"))
    assert "a TIMING LOOP stands; 3 follow no source" in said(browser, "said")
    script = """const {width, height} = page.picture.canvas, pen = page.picture.context;
      const dots = pen.getImageData(0, 0, width, height).data; let red = 0;
      for (let place = 0; place < dots.length; place += 4) if (dots[place] > 190 && dots[place + 1] < 20 && dots[place + 2] < 20) red++;
      return red"""
    assert browser.execute_script(script) > 500


def test_it_prints_on_a4(browser: Any, works: str, folder: Path) -> None:
    browser.get(works)
    wish = {"preferCSSPageSize": True, "printBackground": True}
    data = base64.b64decode(browser.execute_cdp_cmd("Page.printToPDF", wish)["data"])
    (folder / "page.pdf").write_bytes(data)
    assert data.startswith(b"%PDF")
    sizes = {tuple(map(float, found)) for found in re.findall(rb"/MediaBox\s*\[0 0 ([\d.]+) ([\d.]+)\]", data)}
    assert all(abs(width - 595) < 2 and abs(height - 842) < 2 for width, height in sizes) and len(sizes) == 1
    if shutil.which("pdftotext"):
        text = started(["pdftotext", str(folder / "page.pdf"), "-"]).out.decode()
        assert "redundant.toml, works.csv" in text and "accepted: no loop is possible" in text
        # (no value is cut: level, state, line and time of each element stand whole on the paper)
        words = text.split()
        assert "…" not in text and "Summary," in words
        for _, shows, takes in shown(browser):
            assert all(word in text.replace("\n", "") for word in (*shows.split(), takes)), takes


def large_page(folder: Path) -> str:
    """The page of 2,000 elements with 20,000 changes, which no program made."""
    plan = plan_file.taken("ladder", api.gen(2000).result.text.encode())
    wired = wiring.wiring_of(plan.network)
    inputs: dict[str, list[str]] = {name: [] for name in wired.elements}
    for line in wired.lines.values():
        inputs[line.receiver] += [line.name] if line.priority else []
    for source, at in wired.sources.items():
        inputs[at].append(source)
    chance, time = random.Random(1), 0
    rows = [Change(0, name, "auto", own[0], "QL-PRC", "locked") for name, own in inputs.items()]
    while len(rows) < 20_000:
        time += chance.randrange(4) * 10
        name, level = chance.choice(wired.elements), chance.choice(["QL-PRC", "QL-SSU-A", "QL-SEC"])
        rows.append(Change(time, name, "auto", chance.choice(inputs[name]), level, "locked"))
    report = Report(tuple(rows), (), (), (), True, None)
    losses = [spans.Loss(name, "QL-PRC", 5, "QL-SEC", 7, 3) for name in wired.elements]
    events = tuple(Event(at, "down", "S1", "") for at in range(1000, time, 5000))
    found = rehearsals.Rehearsal(time + 1000, wired, events, 0, report, [], [], losses, time)
    layout = places.layout_of(plan.network, None, None)
    data = page_data.data_of(plan, found, layout, 0, "large")
    (folder / "page.html").write_bytes(pages.page("large", data, []))
    return (folder / "page.html").as_uri()


def test_two_thousand_elements_and_twenty_thousand_changes_move(browser: Any, folder: Path) -> None:
    browser.get(large_page(folder))
    painted = browser.execute_script("return performance.getEntriesByName('first-contentful-paint')[0].startTime")
    loaded = browser.execute_script("return performance.getEntriesByType('navigation')[0].loadEventEnd")
    script = """const done = arguments[0], slider = document.getElementById('slider'), times = [];
      const step = () => { const start = performance.now();
        slider.value = Number(slider.value) + (times.length % 7 ? 1 : 300);
        slider.dispatchEvent(new Event('input')); document.body.offsetHeight;
        times.push(performance.now() - start); times.length < 40 ? setTimeout(step, 30) : done(times); };
      step()"""
    times = browser.execute_async_script(script)
    print(f"first paint {painted:.0f} ms, loaded {loaded:.0f} ms, step {statistics.median(times):.1f} ms")
    assert painted < loaded < FIRST_PAINT and statistics.median(times) < STEP
    assert browser.get_log("browser") == []
