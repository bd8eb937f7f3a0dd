"""What `capture watch` prints of a live capture: frames as they come, and sentences on what changes."""

from __future__ import annotations

import json
from typing import Any

from murdjohe.capture.clock_times import Clock, seconds
from murdjohe.capture.esmc import Heard
from murdjohe.capture.live import Again, Begun, Quiet, Said, Spoken
from murdjohe.capture.talk_report import who
from murdjohe.core import row_tables

HEAD = f"{'frame':>7}  {'time':<12}  {'after':>9}  {'kind':<5}  {'level':<10}  source\n"


def as_row(said: Spoken, clock: Clock) -> str:
    """A frame in a row for people."""
    frame = said.frame
    after = "" if said.since is None else f"{seconds(said.since, 3)} s"
    time = clock.of_day(frame.time, 3)
    name = who(frame.port, frame.says.source)
    return f"{frame.number:>7}  {time:<12}  {after:>9}  {frame.says.kind:<5}  {frame.says.level:<10}  {name}\n"


def name_of(frame: Heard) -> str:
    return who(frame.port, frame.says.source)


def sentence(said: Said, clock: Clock) -> str | None:
    """What is told at once; None of a frame that brought nothing new."""
    if isinstance(said, Spoken):
        return None
    if isinstance(said, Quiet):
        since = f"since {clock.of_day(said.at, 3)}, after frame {said.number}"
        return f"{who(said.port, said.source)} has been silent for more than 5 seconds, {since}"
    if isinstance(said, Begun):
        frame = said.frame
        return f"{clock.of_day(frame.time, 3)} {name_of(frame)} is heard, with {frame.says.level}, frame {frame.number}"
    if isinstance(said, Again):
        frame, after = said.frame, f"after {seconds(said.length, 1)} s of silence"
        return f"{clock.of_day(frame.time, 3)} {name_of(frame)} speaks again, {after}, frame {frame.number}"
    by = f"by an {'event' if said.kind == 'event' else 'information'} message"
    levels = f"says {said.after} in place of {said.before}"
    return f"{clock.of_day(said.at, 3)} {who(said.port, said.source)} {levels}, {by}, frame {said.frame}"


def values(said: Said) -> dict[str, Any]:
    """The same as JSON has it; times are nanoseconds since 1970 began."""
    if isinstance(said, Spoken):
        says = {name: getattr(said.frame.says, name) for name in ("kind", "level", "clock", "flags", "eeecs", "eecs")}
        return {"what": "frame", **place(said.frame), **says, "since": said.since}
    if isinstance(said, Begun):
        return {"what": "heard", **place(said.frame), "level": said.frame.says.level}
    if isinstance(said, Quiet):
        return {
            "what": "silent",
            "frame": said.number,
            "time": said.at,
            "port": said.port or None,
            "source": said.source,
        }
    if isinstance(said, Again):
        return {"what": "again", **place(said.frame), "silence": said.length}
    where = {"frame": said.frame, "time": said.at, "port": said.port or None, "source": said.source}
    return {"what": "transition", **where, "from": said.before, "to": said.after, "kind": said.kind}


def place(frame: Heard) -> dict[str, Any]:
    """Which frame of a capture it is."""
    return {"frame": frame.number, "time": frame.time, "port": frame.port or None, "source": frame.says.source}


def as_json(found: dict[str, Any]) -> str:
    """A line of JSON."""
    return json.dumps({"json": row_tables.JSON, **found}, ensure_ascii=False) + "\n"
