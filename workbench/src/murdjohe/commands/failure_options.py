"""What is asked of `failures` and of `survey`: which failures of a plan, when, and with which common events."""

from __future__ import annotations

import os
import re
from collections.abc import Callable
from typing import Any, TypeVar

import click

from murdjohe.commands.options import START, Milliseconds, from_start
from murdjohe.core import forms, times
from murdjohe.core.faults import Wrong
from murdjohe.core.wording import listed, plural
from murdjohe.network import groups
from murdjohe.network.plan_file import PlanFile
from murdjohe.picture import bands
from murdjohe.runs import ends, failure_times, failures, simulation
from murdjohe.runs.ends import Ending
from murdjohe.runs.failure_times import Moment
from murdjohe.runs.failures import KINDS, Failure
from murdjohe.runs.moments import Event

CommandT = TypeVar("CommandT", bound=Callable[..., Any])
OPTIONS = (
    click.option("--links", is_flag=True, help="each link; also if no other kind is asked for"),
    click.option("--bundles", is_flag=True, help="each bundle, with all its links"),
    click.option("--sources", is_flag=True, help="each source"),
    click.option("--elements", is_flag=True, help="each element: its links and sources"),
    click.option(
        "--groups", type=click.Path(), help="each group of a list of parts that fail together: group,kind,part"
    ),
    click.option("--pairs", is_flag=True, help="also each pair of these together"),
    click.option(
        "--at",
        type=Milliseconds(),
        help="when the parts go down; by default 10m, or while the works of --during are in progress",
    ),
    click.option("--during", type=click.Path(), help="an event list whose events are common to all cases"),
    START,
    click.option("--cases", "span", metavar="FROM-TO", help="only these cases, by their numbers from 1 on"),
)


def options(command: CommandT) -> CommandT:
    """The command with the options by which failures are asked for."""
    for option in reversed(OPTIONS):
        command = option(command)
    return command


def within_a_day(time: int | None, word: str) -> None:
    """Raises Wrong where a time is longer than any run."""
    if time is not None and time > forms.DAY_MS:
        raise Wrong(f"{word}: at most a day, 24h")


def with_start(asked: dict[str, Any], until: int | None = None) -> int | None:
    """Turns the time of what is asked into one from the start of the run on, and gives the end as such a one. Raises Wrong."""
    asked["at"] = from_start(asked["at"], asked["start"], "--at")
    within_a_day(asked["at"], "--at")
    end = from_start(until, asked["start"], "--until")
    within_a_day(end, "--until")
    return end


def placed(taken: PlanFile, common: tuple[Event, ...], asked: dict[str, Any], until: int | None) -> Ending:
    """Chooses when what fails goes down, where that isn't said, and gives the end of the runs. Raises Wrong where that is before."""
    bounds = ends.bounds_of(taken) if asked["at"] is None or until is None else ends.Bounds(None, None)
    chosen = failure_times.moment(taken, common, bounds) if asked["at"] is None else Moment(asked["at"])
    asked["at"], asked["why_then"] = chosen.at, chosen.why
    if until is not None and until < chosen.at:
        raise Wrong(
            f"--until: {clock(asked, until)} is before what fails goes down, at {clock(asked, chosen.at)}; say --at too"
        )
    return failure_times.of_failures(taken, common, chosen.at, bounds) if until is None else Ending(until, None)


def clock(asked: dict[str, Any], at: int) -> str:
    """A millisecond as it is told: as a time of day where the run begins at one, and in milliseconds."""
    return f"{times.clock(at, asked['start'] or 0)} ({at:,} ms)"


def mended(found: list[Failure], common: tuple[Event, ...], at: int, until: int) -> list[Event]:
    """The events common to all cases that mend, by the end of the runs, something which a case has taken down before."""
    down = {part for one in found for part in one.down}
    return [
        event for event in common if event.what == "up" and at <= event.at <= until and parts_of(event.target) & down
    ]


def parts_of(target: str) -> set[str]:
    """The link or source that an event is of, by itself or by one of its lines."""
    return {target, target.partition(">")[0]}


def remarks(
    found: list[Failure], common: tuple[Event, ...], asked: dict[str, Any], until: int = forms.DAY_MS
) -> list[str]:
    """When what fails goes down, and which works mend it again, up to the end of the runs where that is known."""
    at = asked["at"]
    why = f", {asked['why_then']}" if asked["why_then"] else ""
    said = [f"what fails goes down at {clock(asked, at)}{why}"]
    again = mended(found, common, at, until)
    if again:
        names = [f"{event.target} at {times.clock(event.at, asked['start'] or 0)}" for event in again]
        cases = {one.name for one in found for event in again if parts_of(event.target) & set(one.down)}
        said.append(
            f"the common events bring up again what {plural(len(cases), 'failure')} took down: `up` of {listed(names)}; after that "
            "these cases are as without the failure"
        )
    return said + times.likely_seconds(at, "--at")


def on_end(asked: dict[str, Any], end: Ending) -> str:
    """Up to when `study` looks at cases, and by what that is chosen."""
    return f"look at them at {clock(asked, end.until)}: {end.why}"


def span_of(words: str | None) -> tuple[int, int | None]:
    """From which case to which, as `1-5000` says. Raises Wrong."""
    if words is None:
        return 1, None
    found = re.fullmatch(r"([1-9][0-9]{0,9})-([1-9][0-9]{0,9})", words, re.ASCII)
    if not found or int(found[2]) < int(found[1]):
        raise Wrong(
            f"--cases: {words!r} is no span of cases, as 1-5000; the first number isn't greater than the second"
        )
    return int(found[1]), int(found[2])


def kinds_of(asked: dict[str, Any]) -> list[str]:
    """The kinds of failures that are asked for."""
    return [kind for kind in KINDS if asked[kind]] or ([] if asked["groups"] else [failures.LINKS])


def asked_of(taken: PlanFile, asked: dict[str, Any]) -> list[Failure]:
    """The failures that are asked for. Raises Wrong where a table of groups has mistakes."""
    found = failures.failures_of(taken.network, kinds_of(asked))
    table = groups.read(asked["groups"], taken).groups if asked["groups"] else ()
    return found + failures.of_groups(table, taken.network)


def words_of(asked: dict[str, Any]) -> str:
    """What is asked for, in some words."""
    table = [os.path.basename(asked["groups"])] if asked["groups"] else []
    pairs = " alone and in pairs" if asked["pairs"] else ""
    during = f", during {os.path.basename(asked['during'])}" if asked["during"] else ""
    return f"{', '.join([*kinds_of(asked), *table])}{pairs} down at {bands.minutes(asked['at'])}{during}"


def common_of(taken: PlanFile, asked: dict[str, Any]) -> tuple[Event, ...]:
    """The events that are common to all cases, where the program takes them. Raises Wrong with its status."""
    if asked["during"] is None:
        return ()
    file = simulation.read_events(asked["during"], asked["start"])
    simulation.report_of(taken, file, 0)
    return file.events
