"""What `capture read` prints: tables of sources, transitions and silences, and sentences on what was done and left out."""

from __future__ import annotations

import dataclasses
import json
from collections.abc import Iterator

from murdjohe.answers.reports import Frame
from murdjohe.capture.clock_times import Clock, seconds
from murdjohe.capture.esmc import Capture, Heard
from murdjohe.capture.talkers import ASKED_RATE, CROWD, Silence, Talk, Talker
from murdjohe.core.columns import table

ROW = ("source", "kind", "level", "clock", "flags", "eeecs", "eecs")


def said(count: int, one: str, many: str | None = None) -> str:
    """A number of things, as `1 frame` or `2 frames`."""
    return f"{count} {one if count == 1 else many or one + 's'}"


def who(port: str, source: str) -> str:
    """Who speaks: the interface where there is one, and the source address."""
    return f"{port} ({source})" if port else source


def silence(found: Silence, clock: Clock) -> str:
    """A silence as a sentence."""
    length = f"{who(found.port, found.source)} was silent for {seconds(found.length, 1)} s"
    end = ", to the end of the capture" if found.is_last else ""
    return f"{length} from {clock.of_day(found.at, 3)}, after frame {found.frame}{end}"


def row_of(frame: Frame) -> str:
    """The row of a frame as the program writes it."""
    fields = [getattr(frame, name) for name in ROW]
    return ",".join(str(field) for field in fields if field is not None)


def as_row(frame: Heard) -> str:
    """A frame as a row of `pcap-decode`; what is shorter than a microsecond is left out."""
    return f"{frame.time // 1_000_000_000},{frame.time % 1_000_000_000 // 1000},{row_of(frame.says)}\n"


FRAMES_HEAD = "time,after,port,source,kind,level,clock,flags,eeecs,eecs,frame\n"


def as_line(frame: Heard, since: int | None, clock: Clock) -> str:
    """A frame with its time of day, the seconds since the one before of its source, and its number in the capture."""
    port = frame.port.replace(",", " ")
    row = row_of(frame.says) + "," * (4 if frame.says.clock is None else 0)
    after = "" if since is None else seconds(since, 9)
    return f"{clock.of_day(frame.time, 9)},{after},{port},{row},{frame.number}\n"


def rate(talker: Talker) -> str:
    """Information messages a second, marked where that is another rate than is asked."""
    if talker.rate is None:
        return "-"
    return f"{talker.rate:.2f}{' !' if talker.is_off_rate else ''}"


def sources(talk: Talk, clock: Clock) -> list[str]:
    """The table of sources."""
    heads = ["source", "port", "info", "event", "info a second", "from", "to", "first level", "last level"]
    rows = [
        [talker.source, talker.port or "-", str(talker.messages["info"]), str(talker.messages["event"]), rate(talker)]
        + [clock.of_day(talker.first, 3), clock.of_day(talker.last, 3), talker.first_level, talker.level]
        for talker in talk.talkers.values()
    ]
    return table(heads, rows)


def transitions(talk: Talk, clock: Clock) -> list[str]:
    """The table of transitions."""
    heads = ["frame", "time", "source", "port", "from", "to", "by", "after"]
    rows = [
        [str(found.frame), clock.of_day(found.at), found.source, found.port or "-", found.before, found.after]
        + [found.kind, f"{seconds(found.since)} s"]
        for found in talk.transitions
    ]
    return table(heads, rows)


def head(capture: Capture, talk: Talk, clock: Clock, name: str) -> str:
    """What the capture holds in a line."""
    counts = f"{name}: {said(capture.packets, 'packet')}, {said(capture.frames, 'ESMC frame')}"
    if capture.first is None or capture.last is None:
        return counts
    begin, end = clock.of_day(capture.first, 3), clock.of_day(capture.last, 3)
    day = "" if clock.has_days else f"{clock.day(capture.first)} "
    return f"{counts} from {said(len(talk.talkers), 'source')}, {day}{begin} to {end} {clock.name}"


def text(capture: Capture, talk: Talk, clock: Clock, name: str) -> str:
    """The whole report."""
    lines = [head(capture, talk, clock, name)]
    if talk.talkers:
        lines += ["", *sources(talk, clock)]
    if talk.transitions:
        lines += ["", "transitions", *transitions(talk, clock)]
    if talk.silences:
        lines += ["", "silences of more than 5 seconds", *(silence(found, clock) for found in talk.silences)]
    return "".join(f"{line}\n" for line in lines)


def of_capture(capture: Capture) -> Iterator[str]:
    """What was done to frames, and what was left out and why; a sentence each."""
    for done, count in capture.done.items():
        yield f"{said(count, 'frame')} {done}"
    if passed := capture.passed.total():
        reasons = ", ".join(f"{count} {reason}" for reason, count in capture.passed.most_common())
        yield f"{said(passed, 'packet is no ESMC frame', 'packets are no ESMC frames')}: {reasons}"
    if capture.known_elsewhere:
        other = "I" if capture.option == "II" else "II"
        frames = said(capture.known_elsewhere, "frame has a code", "frames have codes")
        yield f"{frames} that option {capture.option} doesn't know and option {other} does: is it --option {other}?"
    if capture.backwards:
        yield f"{said(capture.backwards, 'packet is', 'packets are')} earlier than one before"


def remarks(capture: Capture, talk: Talk, clock: Clock) -> Iterator[str]:
    """The same, and what isn't as it is asked."""
    yield from of_capture(capture)
    if talk.left_out:
        yield f"{talk.left_out} more transitions and silences are counted, and not listed; --frames has all frames"
    yield from off_rates(talk, clock)


def off_rates(talk: Talk, clock: Clock) -> Iterator[str]:
    """Whose messages come at another rate than is asked."""
    for talker in talk.talkers.values():
        if talker.is_off_rate:
            name = who(talker.port, talker.source)
            yield f"{name} sends {talker.rate:.2f} information messages a second, where G.8264 asks {ASKED_RATE:.0f}"
        if talker.crowded is not None:
            at = clock.of_day(talker.crowded, 3)
            yield f"{who(talker.port, talker.source)} sends more than {CROWD} messages within a second, first at {at}"


def as_json(capture: Capture, talk: Talk, said_of: list[str]) -> str:
    """The report as JSON; times are nanoseconds since 1970 began, lengths nanoseconds."""
    names = ("port", "source", "first", "last", "first_level", "level", "rate", "is_off_rate", "crowded")
    talkers = [
        {name: getattr(talker, name) for name in names} | {"messages": dict(talker.messages)}
        for talker in talk.talkers.values()
    ]
    counts = {name: getattr(capture, name) for name in ("packets", "frames", "first", "last", "damage")}
    found = {
        "sources": talkers,
        "transitions": [dataclasses.asdict(found) for found in talk.transitions],
        "silences": [dataclasses.asdict(found) for found in talk.silences],
        "done": dict(capture.done),
        "passed": dict(capture.passed),
        "said": said_of,
    }
    return json.dumps(counts | found, indent=2) + "\n"
