"""The desk in a real browser, headless Chromium by selenium, where Debian's chromium, chromium-driver and python3-selenium are."""

from __future__ import annotations

import base64
import json
import shutil
import signal
import statistics
from collections.abc import Iterator
from pathlib import Path
from typing import Any

import pytest
from conftest import EXAMPLES, murdjohe, started
from desk_browsing import Page, keys, killed, opened_browser
from desk_running import Running, running

from murdjohe.answers import api
from murdjohe.network import plan_file, wiring
from murdjohe.runs import moments

pytestmark = pytest.mark.alone

INVENTORY = EXAMPLES / "inventory"
TABLES = {"element": "elements.csv", "link": "links-first.csv", "source": "sources.csv"}
# Generous limits in milliseconds, for a busy machine; on a quiet one it is a fraction of them.
VERDICTS, FRAME = 5_000, 400


@pytest.fixture(scope="module")
def browser() -> Iterator[Any]:
    """A browser for all tests."""
    yield from opened_browser()


@pytest.fixture
def first(folder: Path) -> Iterator[Running]:
    """A desk with the first plan of the inventory, in which timing may go round."""
    (folder / "first.toml").write_bytes((INVENTORY / "first.toml").read_bytes())
    with running("first.toml", folder=folder) as desk:
        yield desk


@pytest.fixture
def night(folder: Path) -> Iterator[Running]:
    """A desk with the plan of the inventory and the works of a night."""
    for name in ("plan.toml", "works.csv"):
        (folder / name).write_bytes((INVENTORY / name).read_bytes())
    with running("plan.toml", "works.csv", folder=folder) as desk:
        yield desk


def give_tables(page: Page) -> None:
    """Chooses the tables of the inventory."""
    for kind, name in TABLES.items():
        page.browser.find_element("id", f"table-{kind}").send_keys(str(INVENTORY / name))


def test_from_tables_to_orders_by_pointing_alone(browser: Any, folder: Path) -> None:
    with running(folder=folder) as desk:
        page = Page(browser, desk.address)
        assert page.strip()[0] == "waits no plan yet" and "The desk is empty" in page.said("said")
        page.click("tables-open")
        give_tables(page)
        page.click("tables-take")
        page.judged(1)
        ring = "R1>agg-1 → R2>agg-2 → R3>core-b → R4>agg-3 → R5>agg-4 → R6>core-a → R1>agg-1"
        assert page.strip()[0] == f"bad a timing loop may form: {ring}" and page.red() > 500
        page.click("repair")
        page.until("desk.proposal")
        assert page.said("proposal-rows") == "R4>core-b: none, which was 3R6>core-a: none, which was 3"
        page.click("take")
        page.judged(2)
        repaired = page.strip()
        assert [one.split()[0] for one in repaired] == ["good"] * 4 and page.red() < 50
        page.click("undo")
        page.judged(3)
        assert page.strip()[0].startswith("bad a timing loop") and page.red() > 500
        page.click("redo")
        page.judged(4)
        assert page.strip() == repaired
        page.click("orders-open")
        page.until("document.getElementById('orders-text').textContent")
        assert page.said("orders-text").startswith("core-a\n  1st  source gnss-a (priority 1)\n  2nd  R1 from agg-1")
        page.press(keys.Keys.ESCAPE)
        save_all(page)
        assert page.errors() == []
    assert murdjohe("diff", "plan.toml", str(INVENTORY / "plan.toml"), folder=folder).out == b""
    ran = murdjohe("orders", "plan.toml", "--csv", folder=folder)
    assert (ran.status, ran.out) == (0, (folder / "orders.csv").read_bytes())


def save_all(page: Page) -> None:
    """Saves the plan and the orders under names of their own."""
    page.click("save-open")
    for kind, name in (("plan", "plan.toml"), ("orders", "orders.csv")):
        field = page.browser.find_element("id", f"save-{kind}")
        field.clear()
        field.send_keys(name)
        page.browser.find_element("css selector", f"[data-save={kind}]").click()
        page.until(f"document.getElementById('save-said').textContent.startsWith('{name} written')")
    page.press(keys.Keys.ESCAPE)


def test_from_tables_to_orders_by_keyboard_alone(browser: Any, folder: Path) -> None:
    with running(folder=folder) as desk:
        page = Page(browser, desk.address)
        page.judged(0)
        page.tab_to("node.id === 'tables-open'")
        page.press(keys.Keys.ENTER)
        give_tables(page)  # (the window in which a file is chosen is the browser's own)
        page.tab_to("node.id === 'tables-take'")
        page.press(keys.Keys.ENTER)
        page.judged(1)
        for name in ("repair", "take"):
            page.tab_to(f"node.id === '{name}'")
            page.press(keys.Keys.ENTER)
            page.until("desk.proposal" if name == "repair" else "desk.number === 2")
        page.judged(2)
        page.tab_to("node.id === 'picture'")
        page.press(keys.Keys.ARROW_RIGHT, keys.Keys.ARROW_DOWN)
        page.until("desk.thing && desk.thing.kind === 'element'")
        page.press(keys.Keys.ENTER)
        page.tab_to("(node.dataset.key || '').includes('>')")
        page.press(keys.Keys.ARROW_UP, keys.Keys.ENTER)
        page.judged(3)
        page.press(keys.Keys.TAB)
        page.tab_to("node.id === 'undo'")
        page.press(keys.Keys.ENTER)
        page.judged(4)
        page.tab_to("node.id === 'save-open'")
        page.press(keys.Keys.ENTER)
        for kind in ("plan", "orders"):
            page.tab_to(f"node.id === 'save-{kind}'")
            page.press(keys.Keys.ENTER)
            page.until(
                f"document.getElementById('save-said').textContent.startsWith('untitled{'.toml' if kind == 'plan' else '-orders.csv'}')"
            )
    assert murdjohe("diff", "untitled.toml", str(INVENTORY / "plan.toml"), folder=folder).out == b""
    assert (folder / "untitled-orders.csv").exists()


def test_a_priority_is_changed_where_it_stands(browser: Any, first: Running) -> None:
    page = Page(browser, first.address)
    page.judged(0)
    page.point(page.badge("R6>core-a"))
    assert page.run("return document.activeElement.id") == "badge"
    page.press("0", keys.Keys.ENTER)
    page.judged(1)
    assert page.strip()[0].startswith("bad a timing loop may form: R1>core-a → R6>agg-4")
    page.point(page.badge("R4>core-b"))
    page.press("0", keys.Keys.ENTER)
    page.judged(2)
    assert page.strip()[0] == "good accepted: no timing loop can form"
    assert page.strip()[2].startswith("good protected") and "link R4" == page.said("chosen-head")


def test_elements_links_and_sources_come_and_go(browser: Any, first: Running, folder: Path) -> None:
    page = Page(browser, first.address)
    page.judged(0)

    def add(kind: str, number: int, **fields: str) -> None:
        page.run("desk.openAdd(arguments[0], null)", kind)
        for name, text in fields.items():
            field = page.browser.find_element("id", f"add-{name}")
            field.clear()
            field.send_keys(text)
        page.click("add-take")
        page.judged(number)

    add("element", 1, name="lab-1")
    add("link", 2, name="X1", a="lab-1", b="core-a")
    add("source", 3, name="cs", at="lab-1")
    page.press(keys.Keys.ESCAPE)
    assert page.said("size") == "11 elements, 13 links, 3 sources"
    page.point(page.element("lab-1"))
    assert page.said("chosen-head") == "element lab-1"
    page.run("[...document.querySelectorAll('#form button')].find(one => one.textContent === 'Take it away').click()")
    page.judged(4)
    assert page.said("size") == "10 elements, 12 links, 2 sources"
    page.control("z")
    page.judged(5)
    assert page.said("size") == "11 elements, 13 links, 3 sources" and page.errors() == []


def test_a_night_of_works_with_why_beside_it(browser: Any, night: Running, folder: Path) -> None:
    page = Page(browser, night.address)
    page.judged(0)
    assert page.said("events").count("drop") == 6
    page.run("document.getElementById('at').value = '5m'")
    page.browser.find_element("css selector", "[value=fail]").click()
    page.point(page.source("gnss-a"))  # (the receiver is lost in the middle of the works)
    page.judged(1)
    report = api.sim(folder / "plan.toml", INVENTORY / "loss.csv", page.run("return desk.run.until")).result
    wired = wiring.wiring_of(plan_file.read(str(folder / "plan.toml")).network)
    times: list[int] = page.run("return desk.run.moments")
    assert {change.at for change in report.changes} <= set(times)
    page.run("desk.goTo(desk.run.moments.findLastIndex(at => at <= 310000))")
    shown = moments.shown_at(wired, report.changes, times[page.run("return desk.run.moment")])
    levels = page.run("return [...desk.run.level].map(level => desk.network.levels[level].name)")
    assert levels == [one.level for one in shown.values()] and "QL-SSU-A" in levels
    page.browser.find_element("css selector", "[value=select]").click()
    page.browser.find_element("css selector", "#why-part summary").click()
    page.point(page.element("agg-1"))
    page.until("document.getElementById('why').textContent.includes('What brought it about')")
    assert page.said("why").startswith("At 00:05:") and "agg-1 takes R1>agg-1 from core-a" in page.said("why")
    page.run("[...document.querySelectorAll('#events button')].at(-1).click()")
    page.judged(2)
    assert page.errors() == []


def test_times_of_day(browser: Any, folder: Path) -> None:
    (folder / "plan.toml").write_bytes((INVENTORY / "plan.toml").read_bytes())
    (folder / "works.csv").write_text("at,what,target,value\n23:10,down,R3,\n00:30,up,R3,\n")
    with running("plan.toml", "works.csv", "--start", "23:00", folder=folder) as desk:
        page = Page(browser, desk.address)
        page.judged(0)
        assert page.said("events") == "23:10:00.000 down R3 drop00:30:00.000 up R3 drop"
        page.run("document.getElementById('at').value = '23:20'; desk.happen([['down', 'gnss-a', '']])")
        page.judged(1)
        assert page.said("said") == "at 23:20:00.000 down gnss-a"
        assert page.run("return desk.run.events.map(event => event.at)") == [600_000, 1_200_000, 5_400_000]


def test_all_failures_as_a_map(browser: Any, night: Running) -> None:
    page = Page(browser, night.address)
    page.judged(0)
    page.click("failures-open")
    page.until("document.querySelectorAll('#cases tr').length")
    rows = page.run(
        "return [...document.querySelectorAll('#cases tr')].map(row => [...row.children].slice(0, 3).map(cell => cell.textContent).join(' '))"
    )
    assert rows[:2] == ["R1 link 0", "R2 link 0"] and "M3 link 1" in rows and "radio bundle 2" in rows
    page.browser.find_element("xpath", "//tbody[@id='cases']//button[text()='M3']").click()
    page.judged(1)
    assert "down M3" in page.said("events") and "link M3 fails" in page.said("log")


def test_nothing_is_lost_when_browser_and_server_are_gone(browser: Any, first: Running, folder: Path) -> None:
    other = next(opened_browser())
    try:
        page = Page(other, first.address)
        page.point(page.badge("R6>core-a"))
        page.press("0", keys.Keys.ENTER)
        page.judged(1)
    finally:
        killed(other)  # (the page is gone, without a word)
    page = Page(browser, first.address)
    page.judged(1)
    assert page.said("title") == "first.toml (not saved)" and not page.run(
        "return document.getElementById('undo').disabled"
    )
    first.ended(signal.SIGKILL)
    page.until("document.getElementById('said').textContent.startsWith(\"The server doesn't answer. Nothing is lost\")")
    with running("first.toml", folder=folder) as again:
        page = Page(browser, again.address)
        page.judged(1)
        assert "What wasn't saved was found again: 1 change" in page.said("said")
        assert page.run("return desk.network.lines.find(one => one.name === 'R6>core-a').priority") == 0
        page.click("undo")
        page.judged(2)
        assert page.run("return desk.network.lines.find(one => one.name === 'R6>core-a').priority") == 3


def test_two_pages_on_one_desk(browser: Any, first: Running) -> None:
    one = Page(browser, first.address)
    mine = browser.current_window_handle
    one.judged(0)
    browser.switch_to.new_window("tab")
    theirs = browser.current_window_handle
    try:
        other = Page(browser, first.address)
        other.judged(0)
        other.run("desk.edit({kind: 'value', section: 'link', name: 'R6', key: 'priority_a', value: 9})")
        other.judged(1)
        browser.switch_to.window(mine)
        one.judged(1)  # (it is told)
        one.run("desk.number = 0; desk.edit({kind: 'value', section: 'link', name: 'R6', key: 'priority_a', value: 4})")
        one.until("document.getElementById('conflict').open")
        assert one.said("conflict-since") == "priority_a of link R6: 9"
        one.judged(1)
        one.click("again")
        one.judged(2)
        assert one.run("return desk.network.lines.find(one => one.name === 'R6>agg-4').priority") == 4
    finally:
        browser.switch_to.window(theirs)
        browser.close()
        browser.switch_to.window(mine)


def test_names_roles_and_requests(browser: Any, first: Running) -> None:
    browser.get_log("performance")
    page = Page(browser, first.address)
    page.judged(0)
    assert page.errors() == [] and page.run("return location.search") == ""
    sent = [json.loads(row["message"])["message"] for row in browser.get_log("performance")]
    urls = {row["params"]["request"]["url"] for row in sent if row["method"] == "Network.requestWillBeSent"}
    assert all(url.startswith((first.base, "data:")) for url in urls)
    page.point(page.element("core-a"))
    script = """return [...document.querySelectorAll('button, input, select, canvas, [tabindex="0"]')].filter(node =>
      !(node.textContent.trim() || node.getAttribute('aria-label') || node.closest('label'))).map(node => node.outerHTML)"""
    assert page.run(script) == []
    assert page.run("return document.documentElement.lang") == "en"
    assert page.browser.find_element("id", "said").get_attribute("role") == "status"
    inline = "const node = document.createElement('script'); node.textContent = 'window.stranger = 1'; document.body.append(node); return window.stranger"
    assert page.run(inline) is None
    outside = (
        "const done = arguments[0]; fetch('http://127.0.0.1:1/').then(() => done('went out'), () => done('stayed'))"
    )
    assert browser.execute_async_script(outside) == "stayed"
    said = page.errors()
    assert all("Content Security Policy" in message for message in said), said


def test_dark_light_and_print(browser: Any, first: Running, folder: Path) -> None:
    page = Page(browser, first.address)
    page.judged(0)
    paper = "desk.picture.draw(desk.run, -1); const pen = desk.picture.context; return [...pen.getImageData(2, 2, 1, 1).data].slice(0, 3)"
    assert page.run(paper) == [255, 255, 255]
    browser.execute_cdp_cmd(
        "Emulation.setEmulatedMedia", {"features": [{"name": "prefers-color-scheme", "value": "dark"}]}
    )
    try:
        page.until("desk.picture.tones.paper !== '#ffffff'")
        assert page.run(paper) == [0x16, 0x18, 0x1C]
        assert page.run("return getComputedStyle(document.body).backgroundColor") == "rgb(22, 24, 28)"
        wish = {"preferCSSPageSize": True, "printBackground": True}
        data = base64.b64decode(browser.execute_cdp_cmd("Page.printToPDF", wish)["data"])
    finally:
        browser.execute_cdp_cmd("Emulation.setEmulatedMedia", {"features": []})
    (folder / "page.pdf").write_bytes(data)
    assert data.startswith(b"%PDF")
    if shutil.which("pdftotext"):
        text = started(["pdftotext", "-layout", str(folder / "page.pdf"), "-"]).out.decode()
        assert "a timing loop may form" in text and "R6>agg-4 1" in text and "Nominate" not in text


def test_two_thousand_elements(browser: Any, folder: Path) -> None:
    ladder = api.gen(2000).result.text
    (folder / "large.toml").write_bytes(ladder if isinstance(ladder, bytes) else ladder.encode())
    with running("large.toml", folder=folder) as desk:
        page = Page(browser, desk.address)
        page.judged(0)
        for number in range(8):
            page.run(
                "desk.edit({kind: 'value', section: 'link', name: arguments[0], key: 'priority_b', value: 9})",
                f"S{100 + number}",
            )
            page.judged(number + 1)
        times = page.run("return desk.times")
        script = """const done = arguments[0], frames = [];
          const step = () => { desk.picture.view = {...desk.picture.view, x: desk.picture.view.x + 3}; const start = performance.now();
            desk.picture.draw(desk.run, 5); frames.push(performance.now() - start);
            frames.length < 30 ? requestAnimationFrame(step) : done(frames); };
          step()"""
        frames = browser.execute_async_script(script)
        print(f"verdicts {statistics.median(times):.0f} ms, frame {statistics.median(frames):.1f} ms")
        assert len(times) == 8 and statistics.median(times) < VERDICTS and statistics.median(frames) < FRAME
        assert page.errors() == []


def test_twenty_thousand_elements_open_by_region(browser: Any, folder: Path) -> None:
    ladder = api.gen(20_000).result.text
    (folder / "large.toml").write_bytes(ladder if isinstance(ladder, bytes) else ladder.encode())
    with running("large.toml", folder=folder) as desk:
        page = Page(browser, desk.address)
        page.until("desk.said.loop && desk.said.agree && desk.said.chains")
        count = page.run("return desk.network.elements.length")
        assert 60 <= count <= 400 and page.run("return desk.isMap") and "a click opens it" in page.said("said")
        page.point(page.run("return desk.picture.spot(desk.network.elements[3])"))
        page.until("!desk.isMap && desk.network.elements.length > 100 && desk.runOf === 0")
        name = page.run("return desk.network.lines.find(one => one.priority).link")
        page.run("desk.edit({kind: 'value', section: 'link', name: arguments[0], key: 'priority_b', value: 9})", name)
        page.until("desk.number === 1 && desk.said.loop")
        assert page.strip()[0] == "good accepted: no timing loop can form"
        page.click("all-regions")
        page.until("desk.isMap")
        assert page.errors() == []
