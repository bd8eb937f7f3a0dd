"""`capture compare --junit` and `--html`: checks of a device that is played by a script, for a pipeline and for people."""

from __future__ import annotations

import hashlib
from html.parser import HTMLParser
from pathlib import Path
from xml.etree import ElementTree

import pytest
from conftest import Ran, murdjohe
from test_capture_compare import BENCH, CABLES, WORDS, compared, late, late_by, played

KINDS = ["nothing is missing", "nothing is late", "each level is right", "nothing is unexpected"]
KINDS.append("not too many messages")
LATE = "3500 ms, 10:03:03.500, frame 25: QL-DNU (do-not-use) had to be said, and came 600 ms later"


def suite_of(folder: Path) -> ElementTree.Element:
    """The one suite of the file of JUnit, whose counts are those of its cases."""
    top = ElementTree.parse(folder / "junit.xml").getroot()
    assert top.tag == "testsuites" and len(top) == 1
    (suite,) = top
    cases = suite.findall("testcase")
    failures = sum(case.find("failure") is not None for case in cases)
    for one in (top, suite):
        assert [int(one.get(name, "-1")) for name in ("tests", "failures", "errors")] == [len(cases), failures, 0]
    return suite


def failed(suite: ElementTree.Element) -> dict[tuple[str, str], str]:
    """The cases that fail, with what they say."""
    return {
        (case.get("classname", ""), case.get("name", "")): failure.text or ""
        for case in suite.iter("testcase")
        if (failure := case.find("failure")) is not None
    }


def test_a_right_device_passes_each_case(folder: Path) -> None:
    ran = compared(folder, played(), "--junit", "junit.xml", "--reaction", "50ms")
    suite = suite_of(folder)
    assert ran.status == 0 and failed(suite) == {}
    names = [(case.get("classname"), case.get("name")) for case in suite.iter("testcase")]
    lines = [f"{cable}>tester" for cable in sorted(CABLES)]
    wanted = [(line, name) for line in lines for name in [*KINDS, "any change is told within 50 ms"]]
    assert names == [*wanted, ("capture", "all of it was compared")]
    assert suite.get("timestamp") == "2025-11-28T10:03:00" and suite.get("time") == "8.600"
    times = [case.get("time") for case in suite.iter("testcase") if "within" in (case.get("name") or "")]
    assert times == ["0.020"] * 3
    digest = hashlib.sha256((folder / "bench.pcapng").read_bytes()).hexdigest()
    values = {one.get("name"): one.get("value") for one in suite.iter("property")}
    assert values["capture"] == f"bench.pcapng, sha256 {digest}" and values["tolerance"] == "100 ms"


def test_a_late_device_fails_one_case(folder: Path) -> None:
    assert compared(folder, late(), "--junit", "junit.xml").status == 1
    assert failed(suite_of(folder)) == {("east>tester", "nothing is late"): LATE}
    # (what may differ is told, and no failure)
    assert compared(folder, late(), "--junit", "junit.xml", "--force", "--most", "1").status == 0
    suite = suite_of(folder)
    assert failed(suite) == {} and [one.text for one in suite.iterfind("testcase/system-out")] == [LATE]


def test_slow_reactions_fail_their_cases(folder: Path) -> None:
    ran = compared(folder, late_by(60), "--junit", "junit.xml", "--reaction", "50", "--median", "100")
    assert ran.status == 1
    assert failed(suite_of(folder)) == {
        (f"{cable}>tester", "any change is told within 50 ms"): "after 80 ms" for cable in CABLES
    }


class Page(HTMLParser):
    """The text of a page, and what it asks for from outside."""

    def __init__(self, text: str) -> None:
        super().__init__()
        self.texts: list[str] = []
        self.asked: list[str] = []
        self.feed(text)

    def handle_data(self, data: str) -> None:
        self.texts.append(data.strip())

    def handle_starttag(self, tag: str, attrs: list[tuple[str, str | None]]) -> None:
        self.asked += [value for name, value in attrs if name in ("src", "href") and value]


def test_the_page_has_the_verdict_and_all_of_it(folder: Path) -> None:
    ran = compared(folder, late(), "--html", "page.html")
    text = (folder / "page.html").read_text()
    page = Page(text)
    assert ran.status == 1 and page.asked == [] and "{{" not in text and "{%" not in text
    assert "fail: 1 difference" in page.texts
    row = page.texts.index("3500")
    cells = [one for one in page.texts[row : row + 20] if one][:6]
    words = "QL-DNU (do-not-use) had to be said, and came 600 ms later"
    assert cells == ["3500", "10:03:03.500", "25", "east>tester", "late", words]
    assert "fail: 1 difference" in page.texts and page.texts.count("pass") == 3 * len(KINDS)
    compared(folder, played(), "--html", "page.html", "--force")
    right = Page((folder / "page.html").read_text()).texts
    assert "pass: no differences" in right and "None." in right


def test_names_are_text_in_both(folder: Path) -> None:
    """A file's name is no markup, whatever it is."""
    ran = compared(folder, played())
    name = "<b>&\x1b'\".pcapng"
    (folder / name).write_bytes((folder / "bench.pcapng").read_bytes())
    words = ["capture", "compare", str(BENCH / "plan.toml"), "device", name, *WORDS, "--events", "events"]
    ran = murdjohe(*words, "--from", "0", "--junit", "junit.xml", "--html", "page.html", folder=folder)
    assert ran.status == 0
    values = {one.get("name"): one.get("value") for one in suite_of(folder).iter("property")}
    assert (values["capture"] or "").startswith("<b>&\\x1b'\".pcapng, sha256 ")
    texts = Page((folder / "page.html").read_text()).texts
    assert any(one.startswith("<b>&\\x1b'\".pcapng, sha256 ") for one in texts)


@pytest.mark.parametrize("option", ["--junit", "--html"])
def test_files_that_are_there_are_not_lost(folder: Path, option: str) -> None:
    (folder / "kept").write_text("kept")
    ran: Ran = compared(folder, played(), option, "kept")
    assert (ran.status, ran.out) == (22, b"") and (folder / "kept").read_text() == "kept"
    assert compared(folder, played(), option, "bench.pcapng", "--force").status == 22
    assert compared(folder, played(), "--junit", "one", "--html", "one").status == 2
