"""`murdjohe capture watch`: a live capture, told as it comes."""

from __future__ import annotations

import os
import time
from collections.abc import Iterator
from contextlib import contextmanager
from typing import Any

import click

from murdjohe.capture import talk_faults
from murdjohe.commands.capture_options import FAIL_ON, LOCAL, OPTION, ended, is_quiet
from murdjohe.commands.options import Milliseconds
from murdjohe.core import program, streams
from murdjohe.core.faults import Wrong

TYPE_CHECKING = False
if TYPE_CHECKING:
    import threading

    from murdjohe.capture import esmc, live
    from murdjohe.capture.clock_times import Clock
    from murdjohe.capture.talkers import Talk

WAIT = 0.25  # seconds after which it is looked whether somebody is silent
STDIN = "-"


class Stop:
    """Whether the command was told to end, and by which signal; the second time it ends at once."""

    def __init__(self, is_told: threading.Event) -> None:
        self.is_told = is_told
        self.number: int | None = None

    def __call__(self, number: int, _: object) -> None:
        if self.is_told.is_set():
            raise KeyboardInterrupt
        self.number = number
        self.is_told.set()


@contextmanager
def stoppable() -> Iterator[Stop]:
    """Ctrl-C and the signals that tell a process to end have the summary printed first, meanwhile."""
    import signal
    import threading

    stop = Stop(threading.Event())
    heeded = [
        number
        for number in (signal.SIGINT, signal.SIGTERM, signal.SIGHUP)
        if signal.getsignal(number) not in (signal.SIG_IGN, None)
    ]
    before = [(number, signal.signal(number, stop)) for number in heeded]
    try:
        yield stop
    finally:
        for number, handler in before:
            signal.signal(number, handler)


@click.command("watch", short_help="a live capture: frames, changes and silences as they come")
@click.argument("file", type=click.Path(), default=STDIN)
@OPTION
@LOCAL
@click.option("--changes", "what", flag_value="changes", help="without the frames: what changes, and the summary")
@click.option(
    "--rows", "what", flag_value="rows", help="each frame as a row of `pcap-decode`; the summary isn't printed"
)
@click.option("--json", "what", flag_value="json", help="a line of JSON for each frame and change, and for the summary")
@click.option("--for", "length", type=Milliseconds(), help="ends after so long, as 90s or 12h, by this machine's clock")
@FAIL_ON
@click.option("-q", "--quiet", is_flag=True, help="without sentences on standard error")
@click.pass_context
def watch(context: click.Context, file: str, option: str, local: bool, what: str | None, **asked: Any) -> int:
    """Shows a live capture as it comes: each frame, and at once who is heard, changes its level, falls silent and speaks
    again.

    FILE is a pipe to which a capture is written; without it standard input is read. Frames go to standard output, changes to
    standard error. A silence is reported after six and a half seconds, since a packet may be on its way for one. Ctrl-C ends it
    with the summary of `capture read`. It may go on for any time. The proved program decodes each ESMC frame. The status is 0,
    also after Ctrl-C, or 6 if the capture is damaged, or 21 if something is found that --fail-on names.

    \b
      # tcpdump -i eth1 -U -w - ether proto 0x8809 | murdjohe capture watch
      $ echo 1,5,020000000001,info,QL-PRC > rows
      $ murdjohe capture write rows | murdjohe capture watch
    """
    from murdjohe.capture import clock_times, esmc, talkers

    if file == STDIN and os.isatty(0):
        raise Wrong(
            "standard input is a terminal: put `tcpdump -i eth1 -U -w - ether proto 0x8809 |` before the command"
        )
    taken, talk, clock = esmc.Capture(file, option), talkers.Talk(), clock_times.Clock(local)
    what = what or ("json" if context.find_root().params["json"] else None)
    with stoppable() as stop:
        told(context, taken, talk, clock, what, stop, asked["length"])
    said = summed_up(context, taken, talk, clock, what)
    status = ended(context, taken, said)
    if stop.number not in (None, 2):
        return 128 + (stop.number or 0)
    return status or (program.FOUND if talk_faults.found(taken, talk, asked["fail_on"]) else program.DONE)


def told(
    context: click.Context,
    taken: esmc.Capture,
    talk: Talk,
    clock: Clock,
    what: str | None,
    stop: Stop,
    length: int | None,
) -> None:
    """Tells all that comes until the capture is over, or the command is told to end."""
    from murdjohe.capture import live, live_text

    feed, watched = live.Feed(taken.path), live.Watch(taken, talk)
    day = ""
    end = None if length is None else time.monotonic() + length / 1000
    for said in live.watched(feed, watched, stop.is_told, WAIT, end):
        if isinstance(said, live.Spoken) and clock.day(said.frame.time) != day and what != "json":
            if not day and what is None:
                context.obj.put(live_text.HEAD.encode())
            day = clock.day(said.frame.time)
            streams.tell(*([] if is_quiet(context) else [f"{day} {clock.name}"]), colour="yellow")
        put(context, said, clock, what)
    taken.damage = feed.damage
    talk.ended(watched.now(time.monotonic()) if not feed.is_over or stop.number else taken.last)


def put(context: click.Context, said: live.Said, clock: Clock, what: str | None) -> None:
    """Prints or tells one thing."""
    from murdjohe.capture import live, live_text, talk_report

    if what == "json":
        context.obj.put(live_text.as_json(live_text.values(said)).encode("utf-8", "backslashreplace"))
        return
    if isinstance(said, live.Spoken) and what != "changes":
        line = talk_report.as_row(said.frame) if what == "rows" else live_text.as_row(said, clock)
        context.obj.put(line.encode("utf-8", "backslashreplace"))
    sentence = live_text.sentence(said, clock)
    if sentence is not None and not is_quiet(context):
        streams.tell(sentence, colour="yellow")


def summed_up(context: click.Context, taken: esmc.Capture, talk: Talk, clock: Clock, what: str | None) -> list[str]:
    """Prints the summary where it is asked for, and gives what is said besides."""
    import json

    from murdjohe.capture import live_text, talk_report

    clock.spans(taken.first, taken.last)
    said = [*talk_report.remarks(taken, talk, clock), *talk_faults.remarks(taken, talk)]
    if what == "json":
        summary = {"what": "summary", **json.loads(talk_report.as_json(taken, talk, said))}
        context.obj.put(live_text.as_json(summary).encode("utf-8", "backslashreplace"))
    elif what != "rows" and not (taken.damage and not taken.packets):
        name = "standard input" if taken.path == STDIN else taken.path
        before = "\n" if what is None and taken.frames else ""
        context.obj.put((before + talk_report.text(taken, talk, clock, name)).encode("utf-8", "backslashreplace"))
    return said
