"""A device compared with the rules, as `capture compare` does it: the program is asked, and what differs is told."""

from __future__ import annotations

import json
from collections.abc import Iterator
from dataclasses import asdict, dataclass

from murdjohe.answers import api
from murdjohe.capture import device, lab_lines, soak, talk_report
from murdjohe.capture.clock_times import Clock
from murdjohe.capture.device import Finding, Limits, Reaction
from murdjohe.capture.esmc import Capture
from murdjohe.capture.lab_lines import MILLISECOND, Bench, Message
from murdjohe.capture.talk_report import said
from murdjohe.core import columns, files, program
from murdjohe.core.documents import Document
from murdjohe.core.faults import Wrong
from murdjohe.core.inputs import STDIN
from murdjohe.plan.plan_lines import PlanLines

SOURCES = 8  # sources that a sentence names


@dataclass(frozen=True)
class Asked:
    """What is to be compared: the element of a plan with the frames of a capture, by lines; times are milliseconds. How many
    differences may be, how long a change may take to be told, at most and in the middle, and how many information messages a second
    may come."""

    plan: str
    element: str
    file: str
    lines: tuple[str, ...]
    local: bool
    events: str | None
    tolerance: int
    begin: int
    until: int | None
    most: int = 0
    reaction: int | None = None
    median: int | None = None
    rate: float = 1.1


@dataclass(frozen=True)
class Compared:
    """What came of it, in order of time; how many messages were looked at, and up to which millisecond; which reaction times are
    longer than asked; and why not all was compared, where it wasn't."""

    findings: list[Finding]
    messages: int
    limits: Limits
    reactions: list[Reaction]
    most: int = 0
    slow: tuple[str, ...] = ()
    why: str | None = None

    @property
    def is_passed(self) -> bool:
        """Whether all was compared, no more differs than may, and no reaction is slower."""
        return len(self.findings) <= self.most and not self.slow and self.why is None


def slow_of(reactions: list[Reaction], asked: Asked) -> tuple[str, ...]:
    """Which reaction times of lines are longer than asked, in words."""
    said = []
    for one in reactions:
        for what, time, most in (("greatest", one.greatest, asked.reaction), ("middle", one.middle, asked.median)):
            if time is not None and most is not None and time > most:
                said.append(f"{one.line} told changes after {time} ms ({what}), where {most} ms are asked")
    return tuple(said)


def events_of(path: str | None) -> list[tuple[int, str]]:
    """What else was done to an element, by a file. Raises Wrong."""
    return [] if path is None else lab_lines.events_of(path, files.text(path))


def of_day(bench: Bench, within: list[Message]) -> Iterator[str]:
    """That frames were left out since they came more than a day after the first packet."""
    if more := len(bench.messages) - len(within):
        yield f"{said(more, 'frame')} more than a day after the first packet, left out: `node` takes a day at most"


def of_bench(bench: Bench, lines: set[str], clock: Clock) -> Iterator[str]:
    """What was taken of a capture and what wasn't, a sentence each."""
    counts = {line: sum(message.line == line for message in bench.messages) for line in sorted(lines)}
    if bench.zero is not None:
        yield f"millisecond 0 is {clock.day(bench.zero)} {clock.of_day(bench.zero, 3)} {clock.name}"
    for line, count in counts.items():
        if not count:
            yield f"no frame of the capture is of line {line}"
        elif len(sources := bench.sources[line]) > 1:
            yield f"the frames of line {line} come from {len(sources)} sources: {', '.join(sorted(sources))}; name one"
    if bench.others:
        names = [f"{talk_report.who(*name)} with {said(count, 'frame')}" for name, count in bench.others.items()]
        more = f" and {len(names) - SOURCES} more" if len(names) > SOURCES else ""
        yield f"these sources have no --line and were left out: {', '.join(names[:SOURCES])}{more}"
    if bench.outside:
        yield f"{said(bench.outside, 'frame')} before the first packet, left out"


def levels_of(option: str, frames: set[str]) -> dict[str, tuple[str, str]]:
    """The kind and level that each frame says, by the program."""
    order = sorted(frames)
    rows = api.decode(option, "".join(f"{frame}\n" for frame in order).encode()).result.rows if order else ()
    return {frame: (row.kind, row.level) for frame, row in zip(order, rows)}


@dataclass(frozen=True)
class Wanted:
    """What an element had to send, up to which millisecond that is known, and why no longer where it isn't known to the end."""

    messages: list[Message]
    end: int
    why: str | None = None


def asked_of(asked: Asked, data: bytes, received: str, end: int, limits: soak.Limits) -> Wanted:
    """What the element had to send. Raises Wrong."""

    def replay(text: str, until: int) -> tuple[list[soak.Sent], int]:
        answer = api.node(data, asked.element, text.encode(), until).result
        sent = [soak.Sent(row.at, row.line, row.frame) for row in answer.rows]
        return sent, until if answer.stopped_at is None else answer.stopped_at

    found: list[soak.Sent] = []
    why = None
    try:
        for piece in soak.Soak(soak.rows_of(received), replay, limits).sent(end):
            found += piece
    except soak.Lost as lost:
        end, why = lost.at, str(lost)
    except api.Refused as refused:
        raise Wrong(f"what {asked.element} received is refused: {refused.sentence}") from None
    says = levels_of(PlanLines(Document(asked.plan, data)).option, {one.frame for one in found})
    return Wanted([Message(one.at, one.line, *says[one.frame], one.frame) for one in found], end, why)


def plan_of(asked: Asked) -> tuple[bytes, PlanLines]:
    """The plan and its octets. Raises Wrong, and api.Refused where the program refuses it."""
    data = files.octets(asked.plan)
    api.node(data if asked.plan == STDIN else asked.plan, asked.element, b"", 0)
    return data, PlanLines(Document(asked.plan, data))


def compared(
    asked: Asked, bench: Bench, plan: PlanLines, data: bytes, last: int | None, pieces: soak.Limits = soak.Limits()
) -> Compared:
    """Asks the program what the element had to send, and compares; `last` is the time of the last packet."""
    into, out = lab_lines.sorted_lines(plan, asked.element, bench.wheres)
    if not out:
        raise Wrong(f"--line: none of the lines leads out of {asked.element}, so that nothing can be compared")
    whole = 0 if last is None or bench.zero is None else (last - bench.zero) // MILLISECOND
    end = min(whole if asked.until is None else asked.until, whole)
    taken = {line for line in into if lab_lines.nominated(plan, line)}
    events = [(at, line) for at, line in events_of(asked.events) if at <= end]
    messages = [message for message in bench.messages if message.at <= end]
    text = lab_lines.received(messages, taken, events)
    wanted = asked_of(asked, data, text, end, pieces)
    if asked.begin >= wanted.end:
        at = f"{asked.file} is at its end at {wanted.end} ms"
        raise Wrong(f"nothing can be compared: {at}, and --from is {asked.begin} ms")
    limits = Limits(asked.tolerance, asked.begin, wanted.end, asked.rate)
    sent = [message for message in messages if message.line in out and message.at >= asked.begin]
    findings, reactions = device.looked_at(wanted.messages, messages, out, limits)
    slow = slow_of(reactions, asked)
    return Compared(findings, len(sent), limits, reactions, asked.most, slow, wanted.why)


def remarks(bench: Bench, plan: PlanLines, asked: Asked, found: Compared, clock: Clock) -> Iterator[str]:
    """What a lab engineer should know beside the findings."""
    into, out = lab_lines.sorted_lines(plan, asked.element, bench.wheres)
    yield from of_bench(bench, into | out, clock)
    for line in sorted(into):
        if not lab_lines.nominated(plan, line):
            yield f"{line} is not nominated: what comes over it has no effect"
    for line, (number, end) in plan.lines_of().items():
        is_own = plan.row("link", number).get(end) == asked.element and lab_lines.nominated(plan, line)
        if is_own and line not in into:
            yield f"{line} has no --line: what came over it isn't known, and {asked.element} was asked without it"
    counts = f"{said(found.messages, 'message')} on {said(len(out), 'line')}"
    span = f"from {found.limits.begin} to {found.limits.end} ms"
    yield f"compared: {counts}, {span}, with a tolerance of {asked.tolerance} ms"


@dataclass(frozen=True)
class Comparison:
    """A comparison that was asked for, what came of it, and what there is to say beside it; `taken` is the capture, which may be
    damaged at its end."""

    asked: Asked
    found: Compared
    bench: Bench
    taken: Capture
    clock: Clock
    said: tuple[str, ...]

    @property
    def is_passed(self) -> bool:
        """Whether the device passes, by a capture that isn't damaged."""
        return self.found.is_passed and self.taken.damage is None


def comparison(asked: Asked) -> Comparison:
    """Reads the capture, asks the program and compares. Raises Wrong, and api.Refused where the program refuses the plan."""
    data, plan = plan_of(asked)
    bench = Bench([lab_lines.where_of(word) for word in asked.lines])
    taken = Capture(asked.file, plan.option)
    bench.take(taken)
    if taken.damage and not taken.packets:
        name = "standard input" if asked.file == STDIN else asked.file
        raise Wrong(f"{name}: {taken.damage}", status=program.BAD_FRAMES)
    found = compared(asked, bench, plan, data, taken.last)
    clock = day_of(bench, taken, asked.local)
    said_of = (*remarks(bench, plan, asked, found, clock), *talk_report.of_capture(taken))
    return Comparison(asked, found, bench, taken, clock, said_of)


def verdict(found: Compared) -> str:
    """Whether the device passes."""
    number = said(len(found.findings), "difference") if found.findings else "no differences"
    most = f", {found.most} may be" if found.most else ""
    slow = "".join(f"; {one}" for one in found.slow)
    if found.why is not None:
        slow += f"; compared up to {found.limits.end} ms alone: {found.why}"
    return f"{'pass' if found.is_passed else 'fail'}: {number}{most}{slow}\n"


def reactions_text(found: Compared) -> str:
    """How soon changes were told on each line."""
    rows = [
        [
            one.line,
            str(one.changes),
            *("-" if time is None else str(time) for time in (one.least, one.middle, one.greatest)),
        ]
        for one in found.reactions
    ]
    heads = ["line", "changes told", "least ms", "middle ms", "greatest ms"]
    return "reaction times\n" + "".join(f"{line}\n" for line in columns.table(heads, rows))


def text_of(done: Comparison) -> str:
    """Whether the device passes, the findings as rows with their times of day, and the reaction times."""
    return verdict(done.found) + findings_text(done.bench, done.found, done.clock) + reactions_text(done.found)


def findings_text(bench: Bench, found: Compared, clock: Clock) -> str:
    """The findings as rows with their times of day; nothing where there are none."""
    if not found.findings:
        return ""
    zero = bench.zero or 0
    rows = [
        [str(finding.at), clock.of_day(zero + finding.at * MILLISECOND, 3), str(finding.frame or "-"), finding.line]
        + [finding.what, finding.words]
        for finding in found.findings
    ]
    return "".join(f"{line}\n" for line in columns.table(["ms", "time", "frame", "line", "what", "which"], rows))


def as_json(bench: Bench, found: Compared, said_of: list[str]) -> str:
    """The same as JSON."""
    rows = [finding._asdict() | {"frame": finding.frame or None} for finding in found.findings]
    reactions = [asdict(one) for one in found.reactions]
    passed: dict[str, object] = {"pass": found.is_passed, "slow": found.slow, "reactions": reactions, "why": found.why}
    whole: dict[str, object] = {
        "zero": bench.zero,
        "messages": found.messages,
        "findings": rows,
        **passed,
        "said": said_of,
    }
    return json.dumps(whole, indent=2) + "\n"


def day_of(bench: Bench, capture: Capture, is_local: bool) -> Clock:
    """How times are shown."""
    clock = Clock(is_local)
    clock.spans(bench.zero, capture.last)
    return clock
