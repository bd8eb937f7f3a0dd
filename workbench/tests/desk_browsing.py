"""A browser at a desk: what tests of the page point at, press and read."""

from __future__ import annotations

import os
import shutil
import signal
import time
from collections.abc import Iterator
from pathlib import Path
from typing import Any

import pytest

webdriver = pytest.importorskip("selenium.webdriver", reason="there is no selenium (Debian: python3-selenium)")
service = pytest.importorskip("selenium.webdriver.chrome.service")
actions = pytest.importorskip("selenium.webdriver.common.action_chains")
keys = pytest.importorskip("selenium.webdriver.common.keys")
CHROMIUM, DRIVER = shutil.which("chromium"), shutil.which("chromedriver")
if CHROMIUM is None or DRIVER is None:
    pytest.skip("there is no chromium with its driver (Debian: chromium, chromium-driver)", allow_module_level=True)
OPTIONS = ("--headless=new", "--no-sandbox", "--disable-dev-shm-usage")
PATIENCE = 60.0  # seconds, for a busy machine
JUDGED = "desk.number >= 0 && ['loop', 'agree', 'protected', 'chains', 'run'].every(name => desk.said[name])"


def opened_browser(size: str = "1500,1000") -> Iterator[Any]:
    """A browser that keeps what its console says and which requests it makes."""
    options = webdriver.ChromeOptions()
    options.binary_location = CHROMIUM
    for option in (*OPTIONS, f"--window-size={size}"):
        options.add_argument(option)
    options.set_capability("goog:loggingPrefs", {"browser": "ALL", "performance": "ALL"})
    driver = webdriver.Chrome(service=service.Service(DRIVER), options=options)
    driver.set_script_timeout(PATIENCE)
    yield driver
    driver.quit()


def started_by(top: int) -> list[int]:
    """A process, and all that it and those started."""
    children: dict[int, list[int]] = {}
    for path in Path("/proc").glob("[0-9]*/stat"):
        try:
            children.setdefault(int(path.read_text().rpartition(") ")[2].split()[1]), []).append(int(path.parent.name))
        except OSError:  # (it has ended meanwhile)
            continue
    found = [top]
    for number in found:
        found += children.get(number, [])
    return found


def killed(driver: Any) -> None:
    """Kills a browser and its driver, as a machine does that goes down."""
    for number in started_by(driver.service.process.pid):
        try:
            os.kill(number, signal.SIGKILL)
        except ProcessLookupError:
            continue
    driver.service.process.wait(timeout=20)


class Page:
    """The page of a desk in a browser."""

    def __init__(self, browser: Any, address: str) -> None:
        self.browser = browser
        self.base = address.partition("?")[0]
        browser.get("about:blank")
        browser.get_log("browser")  # (of the page before)
        browser.get(address)
        self.until("window.desk && document.body.dataset.ready === 'yes'")

    def run(self, script: str, *given: Any) -> Any:
        """What a script gives."""
        return self.browser.execute_script(script, *given)

    def until(self, condition: str) -> None:
        """Waits until something holds in the page."""
        end = time.monotonic() + PATIENCE
        while not self.run(f"return !!({condition})"):
            assert time.monotonic() < end, (condition, self.strip(), self.said("said"))
            time.sleep(0.03)

    def judged(self, number: int) -> None:
        """Waits until a state is shown with all of its verdicts and its run."""
        self.until(f"desk.number === {number} && {JUDGED} && desk.runOf === {number}")

    def said(self, name: str) -> str:
        """The text of a part of the page."""
        text: str = self.run("return document.getElementById(arguments[0]).textContent", name)
        return text

    def strip(self) -> list[str]:
        """The verdicts, each with its state."""
        script = "return [...document.querySelectorAll('#strip button')].map(one => `${one.dataset.state} ${one.textContent}`)"
        found: list[str] = self.run(script)
        return found

    def click(self, name: str) -> None:
        """Clicks a part of the page."""
        self.browser.find_element("id", name).click()

    def point(self, spot: list[float]) -> None:
        """Clicks a place of the picture."""
        canvas = self.browser.find_element("id", "picture")
        self.run("arguments[0].scrollIntoView({block: 'nearest'})", canvas)
        size = canvas.size
        chain = actions.ActionChains(self.browser)
        chain.move_to_element_with_offset(
            canvas, spot[0] - size["width"] / 2, spot[1] - size["height"] / 2
        ).click().perform()

    def element(self, name: str) -> list[float]:
        """Where an element stands on the picture."""
        script = "return desk.picture.spot(desk.network.elements.find(one => one.name === arguments[0]))"
        found: list[float] = self.run(script, name)
        return found

    def source(self, name: str) -> list[float]:
        """Where a source stands on the picture."""
        found: list[float] = self.run(
            "return desk.picture.spot(desk.network.sources.find(one => one.name === arguments[0]))", name
        )
        return found

    def link(self, name: str) -> list[float]:
        """The middle of a link on the picture."""
        script = """const cable = desk.picture.cables.find(one => desk.network.lines[one.lines[0]].link === arguments[0]);
          return [0, 1].map(side => (cable.start[side] + cable.end[side]) / 2)"""
        found: list[float] = self.run(script, name)
        return found

    def badge(self, line: str) -> list[float]:
        """Where the priority of a line stands on the picture."""
        script = "return desk.picture.badgeSpot(desk.network.lines.findIndex(one => one.name === arguments[0]))"
        found: list[float] = self.run(script, line)
        return found

    def press(self, *pressed: str) -> None:
        """Presses keys, or writes."""
        chain = actions.ActionChains(self.browser)
        for key in pressed:
            chain.send_keys(key)
        chain.perform()

    def control(self, key: str) -> None:
        """Presses a key with the control key."""
        chain = actions.ActionChains(self.browser)
        chain.key_down(keys.Keys.CONTROL).send_keys(key).key_up(keys.Keys.CONTROL).perform()

    def tab_to(self, condition: str) -> None:
        """Goes on by the tabulator up to what a condition holds of."""
        for _ in range(250):
            if self.run(f"const node = document.activeElement; return !!({condition})"):
                return
            self.press(keys.Keys.TAB)
        raise AssertionError(condition)

    def red(self) -> int:
        """How many dots of the picture are red."""
        script = """const {width, height} = desk.picture.canvas, pen = desk.picture.context;
          const dots = pen.getImageData(0, 0, width, height).data; let red = 0;
          for (let place = 0; place < dots.length; place += 4) if (dots[place] > 190 && dots[place + 1] < 20 && dots[place + 2] < 20) red++;
          return red"""
        self.run("desk.picture.draw(desk.run, desk.selected)")
        count: int = self.run(script)
        return count

    def framed(self, name: str) -> int:
        """How many dots at the box of an element have the colour of those that a failure cuts off."""
        script = """const picture = desk.picture, [x, y] = picture.spot(desk.network.elements.find(one => one.name === arguments[0]));
          desk.mark(); picture.draw(desk.run, desk.selected);
          const [wide, high] = picture.size.map(side => side + 14);
          const dots = picture.context.getImageData(...[x - wide / 2, y - high / 2, wide, high].map(side => Math.round(side * picture.dots))).data;
          let count = 0;
          for (let place = 0; place < dots.length; place += 4) if (dots[place] > 215 && Math.abs(dots[place + 1] - 112) < 12 && dots[place + 2] < 20) count++;
          return count"""
        count: int = self.run(script, name)
        return count

    def errors(self) -> list[str]:
        """The errors that the console tells of this page; those of a desk before, which has ended, may come late."""
        rows = [row["message"] for row in self.browser.get_log("browser") if row["level"] == "SEVERE"]
        return [row for row in rows if row.startswith(self.base) or not row.startswith("http://127.0.0.1:")]
