"""What `capture compare` found as checks that pass or fail, for a file of JUnit and a page of HTML."""

from __future__ import annotations

import hashlib
import os
from collections.abc import Iterator
from dataclasses import dataclass
from datetime import UTC, datetime
from pathlib import Path
from xml.etree import ElementTree

import murdjohe
from murdjohe.capture import device
from murdjohe.capture.capture_files import SECOND
from murdjohe.capture.device import Finding, Reaction
from murdjohe.capture.lab_lines import MILLISECOND
from murdjohe.capture.lab_report import Comparison, verdict
from murdjohe.capture.talk_report import said
from murdjohe.core import program, streams

PAGE = Path(__file__).parent / "page" / "compare.html"
# What each kind of difference is a failure of.
NAMES = {
    device.MISSING: "nothing is missing",
    device.LATE: "nothing is late",
    device.WRONG: "each level is right",
    device.UNEXPECTED: "nothing is unexpected",
    device.TOO_MANY: "not too many messages",
}
WHOLE = "capture"  # in place of a line, for what is said of all of it


@dataclass(frozen=True)
class Check:
    """Something that was looked at on a line: what was found against it, and whether it fails by that; in seconds the time that it
    is about, where it is about one."""

    line: str
    name: str
    against: tuple[str, ...]
    is_failed: bool
    seconds: float | None = None

    @property
    def result(self) -> str:
        """How it came out, in words."""
        if not self.against:
            return "pass"
        return f"{'fail' if self.is_failed else 'pass'}: {said(len(self.against), 'difference')}"


def against(done: Comparison, finding: Finding) -> str:
    """A difference as a line of text."""
    at = done.clock.of_day((done.bench.zero or 0) + finding.at * MILLISECOND, 3)
    frame = f", frame {finding.frame}" if finding.frame else ""
    return f"{finding.at} ms, {at}{frame}: {finding.words}"


def slow(done: Comparison, one: Reaction) -> Iterator[Check]:
    """The checks of a line's reaction times, where limits were asked."""
    asked = done.asked
    for name, time, most in (
        ("any change", one.greatest, asked.reaction),
        ("the middle change", one.middle, asked.median),
    ):
        if most is not None:
            late = (f"after {time} ms",) if time is not None and time > most else ()
            seconds = None if time is None else time / 1000
            yield Check(one.line, f"{name} is told within {most} ms", late, bool(late), seconds)


def checks(done: Comparison) -> list[Check]:
    """All that was looked at: five kinds of differences on each line, the reaction times that were asked, and the whole."""
    found = done.found
    is_failed = len(found.findings) > found.most
    all_of_it: list[Check] = []
    for one in found.reactions:
        for what, name in NAMES.items():
            its = [finding for finding in found.findings if (finding.line, finding.what) == (one.line, what)]
            all_of_it.append(Check(one.line, name, tuple(against(done, finding) for finding in its), is_failed))
        all_of_it += slow(done, one)
    why = () if found.why is None else (f"compared up to {found.limits.end} ms alone: {found.why}",)
    damage = () if done.taken.damage is None else (f"{done.asked.file}: {done.taken.damage}",)
    return [*all_of_it, Check(WHOLE, "all of it was compared", (*why, *damage), True)]


def digest_of(path: str) -> str | None:
    """The checksum of a file that is read; None of standard input, and of what is no plain file."""
    if not os.path.isfile(path):
        return None
    with open(path, "rb") as file:
        return hashlib.file_digest(file, "sha256").hexdigest()


def facts(done: Comparison) -> list[tuple[str, str]]:
    """What was compared, with which limits and by which program."""
    asked, found = done.asked, done.found
    files = [("plan", asked.plan), ("capture", asked.file), ("events", asked.events)]
    sums = [
        (name, f"{path}{f', sha256 {digest}' if (digest := digest_of(path)) else ''}") for name, path in files if path
    ]
    limits = [("differences that may be", str(found.most)), ("messages a second", str(asked.rate))]
    times = [("--reaction", asked.reaction), ("--median", asked.median)]
    return [
        *sums,
        ("lines", ", ".join(asked.lines)),
        ("compared", f"{said(found.messages, 'message')}, from {found.limits.begin} to {found.limits.end} ms"),
        ("tolerance", f"{asked.tolerance} ms"),
        *limits,
        *((name, f"{time} ms") for name, time in times if time is not None),
        ("program", f"{program.NAME}, sha256 {digest_of(program.find())}"),
        ("workbench", f"murdjohe {murdjohe.__version__}"),
    ]


def case_of(check: Check) -> ElementTree.Element:
    """A check as a case of JUnit."""
    case = ElementTree.Element("testcase", classname=streams.printable(check.line), name=streams.printable(check.name))
    if check.seconds is not None:
        case.set("time", f"{check.seconds:.3f}")
    if check.against:
        text = "\n".join(map(streams.printable, check.against))
        if check.is_failed:
            message = streams.printable(check.against[0])
            ElementTree.SubElement(case, "failure", message=message, type="difference").text = text
        else:
            ElementTree.SubElement(case, "system-out").text = text
    return case


def as_junit(done: Comparison) -> bytes:
    """The file of JUnit: a suite for the device, a case for each check."""
    cases = [case_of(check) for check in checks(done)]
    failures = sum(case.find("failure") is not None for case in cases)
    counts = {"tests": str(len(cases)), "failures": str(failures), "errors": "0", "skipped": "0"}
    name = streams.printable(f"{done.asked.element} of {done.asked.plan}")
    suite = ElementTree.Element("testsuite", {"name": name, **counts})
    if done.bench.zero is not None:
        when = datetime.fromtimestamp(done.bench.zero // SECOND, UTC)
        suite.set("timestamp", when.strftime("%Y-%m-%dT%H:%M:%S"))
    suite.set("time", f"{(done.found.limits.end - done.found.limits.begin) / 1000:.3f}")
    properties = ElementTree.SubElement(suite, "properties")
    for fact, value in facts(done):
        ElementTree.SubElement(properties, "property", name=fact, value=streams.printable(value))
    suite.extend(cases)
    ElementTree.SubElement(suite, "system-out").text = "\n".join(map(streams.printable, done.said))
    suites = ElementTree.Element("testsuites", counts)
    suites.append(suite)
    ElementTree.indent(suites)
    text = ElementTree.tostring(suites, "unicode")
    return f'<?xml version="1.0" encoding="UTF-8"?>\n{text}\n'.encode("utf-8", "backslashreplace")


def as_page(done: Comparison) -> bytes:
    """The page: one file that asks for nothing from outside, and prints on A4."""
    from jinja2 import Environment, StrictUndefined

    room = Environment(autoescape=True, undefined=StrictUndefined, trim_blocks=True, lstrip_blocks=True)
    zero = done.bench.zero or 0
    rows = [
        finding._asdict()
        | {"time": done.clock.of_day(zero + finding.at * MILLISECOND, 3), "frame": finding.frame or "-"}
        for finding in done.found.findings
    ]
    reactions = [
        {name: "-" if value is None else value for name, value in vars(one).items()} for one in done.found.reactions
    ]
    text = room.from_string(PAGE.read_text(encoding="utf-8")).render(
        asked=done.asked,
        verdict="pass" if done.is_passed else "fail",
        sentence=verdict(done.found).rstrip("\n"),
        checks=checks(done),
        findings=rows,
        reactions=reactions,
        facts=[(name, streams.printable(value)) for name, value in facts(done)],
        said=[streams.printable(one) for one in done.said],
    )
    return (text + "\n").encode("utf-8", "backslashreplace")
