"""Which frame of a capture went over which line of a plan, and what an element received, as `node` takes it."""

from __future__ import annotations

import re
import sys
from bisect import bisect_right
from collections.abc import Iterable
from typing import NamedTuple

from murdjohe.capture.esmc import Capture, Heard
from murdjohe.core import documents
from murdjohe.core.faults import Wrong, unusable
from murdjohe.core.forms import DAY_MS
from murdjohe.plan.plan_lines import PlanLines

MILLISECOND = 1_000_000  # nanoseconds
LONGEST_TIME = 12  # digits of the milliseconds of an event
SOURCE = re.compile(r"[0-9a-f]{12}")


class Where(NamedTuple):
    """The frames of a line: those of a source address, on an interface; empty where any will do."""

    line: str
    source: str
    port: str

    def has(self, frame: Heard) -> bool:
        return self.source in ("", frame.says.source) and self.port in ("", frame.port)


class Message(NamedTuple):
    """A frame on a line, in its millisecond from the zero of a comparison on; its octets as hexadecimal digits, and which packet of
    the capture it is, from 1 on: 0 for one that had to be sent."""

    at: int
    line: str
    kind: str
    level: str
    octets: str
    number: int = 0


def where_of(word: str) -> Where:
    """The frames that `LINE=SOURCE`, `LINE=@PORT` or `LINE=SOURCE@PORT` names. Raises Wrong."""
    line, equals, rest = word.partition("=")
    address, _, port = rest.partition("@")
    source = address.replace(":", "").replace("-", "").lower()
    if not equals or ">" not in line or not (source or port):
        raise Wrong(
            f'--line: "{word}" is none of LINE=SOURCE, LINE=@PORT and LINE=SOURCE@PORT, as L1>B=02:00:00:00:00:01'
        )
    if source and not SOURCE.fullmatch(source):
        raise Wrong(f'--line: "{address}" is no source address: six bytes, as 02:00:00:00:00:01')
    return Where(line, source, port)


def nominated(plan: PlanLines, line: str) -> bool:
    """Whether a line of the plan has a priority at its end."""
    number, end = plan.lines_of()[line]
    return bool(plan.row("link", number).get(f"priority_{end}", 0))


def sorted_lines(plan: PlanLines, element: str, wheres: Iterable[Where]) -> tuple[set[str], set[str]]:
    """The lines into the element and out of it, of those that are named. Raises Wrong where one is neither."""
    lines = plan.lines_of()
    into: set[str] = set()
    out: set[str] = set()
    for line in (where.line for where in wheres):
        if line not in lines:
            raise Wrong(f'--line: the plan has no line "{line}"{documents.hint(line, lines)}')
        number, end = lines[line]
        link = plan.row("link", number)
        if element not in (link.get("a"), link.get("b")):
            own = [name for name in lines if element in name.split(">")] or list(lines)
            raise Wrong(f'--line: "{line}" is no line of {element}{documents.hint(line, own)}')
        (into if link.get(end) == element else out).add(line)
    return into, out


def apart(wheres: list[Where]) -> list[Where]:
    """The same. Raises Wrong where the frames of two lines can't be told apart."""
    seen: dict[tuple[str, str], str] = {}
    for where in wheres:
        other = seen.setdefault((where.source, where.port), where.line)
        if other != where.line:
            what = f"source {where.source}" if where.source else f"interface {where.port}"
            remedy = f"name the interface of each too, as {where.line}={where.source}@eth1"
            if where.port:
                remedy = f"name the source of each too, as {where.line}=020000000001@{where.port}"
            raise Wrong(
                f"--line: {other} and {where.line} have the same {what}, so whose its frames are isn't known; {remedy}"
            )
    return wheres


class Bench:
    """What a capture holds of the lines that are named; times are milliseconds from the first packet on."""

    def __init__(self, wheres: list[Where]) -> None:
        # (who says more of a frame goes first, so that an interface alone has what no source on it has)
        self.wheres = sorted(apart(wheres), key=lambda where: (not where.source, not where.port))
        self.zero: int | None = None  # nanoseconds since 1970 began, a whole millisecond
        self.messages: list[Message] = []
        self.sources: dict[str, set[str]] = {}  # who speaks on each line
        self.outside = 0  # frames before the first packet
        self.others: dict[tuple[str, str], int] = {}  # frames of sources that no line has, by interface and source

    def take(self, capture: Capture) -> None:
        """Takes in the frames of a capture. Raises Wrong, and what `api` raises."""
        for frame in capture.heard():
            if self.zero is None:
                self.zero = (capture.first or 0) // MILLISECOND * MILLISECOND
            where = next((where for where in self.wheres if where.has(frame)), None)
            if where is None:
                who = (frame.port, frame.says.source)
                self.others[who] = self.others.get(who, 0) + 1
                continue
            self.sources.setdefault(where.line, set()).add(frame.says.source)
            # (a day's messages are few different frames, each kept once)
            at, says = (frame.time - self.zero) // MILLISECOND, frame.says
            if at >= 0:
                octets = sys.intern(frame.octets.hex())
                self.messages.append(Message(at, where.line, says.kind, says.level, octets, frame.number))
            else:
                self.outside += 1
        self.messages.sort(key=lambda message: message.at)


def within_a_day(messages: list[Message]) -> list[Message]:
    """Those of a day, which is all that a list of `node` may have; they are in order of time."""
    return messages[: bisect_right(messages, DAY_MS, key=lambda message: message.at)]


def events_of(name: str, text: str) -> list[tuple[int, str]]:
    """Lines of `node` that aren't frames, each with its millisecond. Raises Wrong where one has none."""
    found = []
    for number, line in enumerate(text.splitlines(), start=1):
        at = line.partition(",")[0]
        if line and not (at.isascii() and at.isdigit() and len(at) <= LONGEST_TIME):
            raise unusable(
                f"{name}:{number}: `{line[:60]}`: it doesn't begin with milliseconds; write AT,WORD,TARGET,VALUE"
            )
        if line:
            found.append((int(at), line))
    return found


def received(messages: Iterable[Message], lines: set[str], events: Iterable[tuple[int, str]] = ()) -> str:
    """What an element received over these lines, and what else was done to it, as the file that `node` takes."""
    rows = [
        (message.at, f"{message.at},frame,{message.line},{message.octets}")
        for message in messages
        if message.line in lines
    ]
    rows += events
    rows.sort(key=lambda row: row[0])
    return "".join(f"{line}\n" for _, line in rows)
