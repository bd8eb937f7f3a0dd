"""`murdjohe timeline`: the changes of a report over time."""

from __future__ import annotations

from typing import Any

import click

from murdjohe.answers.reports import Loop, Report
from murdjohe.commands.options import START, Milliseconds, free, from_start, put
from murdjohe.core import program, progress, times
from murdjohe.core.faults import Wrong, unusable
from murdjohe.core.inputs import STDIN
from murdjohe.core.wording import plural
from murdjohe.network import wiring
from murdjohe.picture import bands, figures, places, plan_graph, strips, views
from murdjohe.picture.strips import Red, Timeline
from murdjohe.runs import report_file, simulation, spans


def word_of(walk: Loop) -> str:
    """What a closed walk is, as far as its names tell: two lines of other links may be of one bundle."""
    if len(walk) > 2:
        return strips.LOOP
    return strips.PAIR if walk[0].partition(">")[0] == walk[1].partition(">")[0] else strips.CLOSED


def standing(report: Report, end: int) -> list[Red]:
    """The closed walks that stand at the end of a report: each since the last of its elements took its line."""
    found = []
    for walk in report.loops:
        names = [line.rpartition(">")[2] for line in walk]
        start = max(since(report, name) for name in names)
        found += [Red(name, start, end, word_of(walk)) for name in names]
    return found


def since(report: Report, name: str) -> int:
    """From when on an element takes what it takes last."""
    own = [change for change in report.changes if change.element == name]
    later = own[-1].at
    for change in reversed(own):
        if change.input != own[-1].input:
            break
        later = change.at
    return later


def red_of(path: str, report: Report, plan: str | None, end: int) -> list[Red]:
    """The closed walks of a run: all of them where its plan is there, else those that the report names. Raises Wrong."""
    if plan is None:
        return standing(report, end)
    wired = wiring.wiring_of(plan_graph.read_plan(plan))
    views.of_this_plan(path, report, wired)
    found = [(walk, line) for walk in spans.walks_of(wired, report.changes) for line in walk.lines]
    words = {True: strips.PAIR, False: strips.LOOP}
    return [
        Red(wired.lines[line].receiver, walk.start, end if walk.stop is None else walk.stop, words[walk.is_pair])
        for walk, line in found
    ]


def within(red: list[Red], start: int, end: int) -> list[Red]:
    """The closed walks as far as they stand between two milliseconds."""
    there = [one for one in red if one.stop > start and one.start < end]
    return [Red(one.element, max(one.start, start), min(one.stop, end), one.word) for one in there]


def timeline_of(path: str, asked: dict[str, Any]) -> Timeline:
    """What is drawn. Raises Wrong."""
    start, plan, events, fold = asked["start"], asked["plan"], asked["events"], asked["fold"]
    first, until = from_start(asked["first"], start, "--from"), from_start(asked["until"], start, "--until")
    report = report_file.read(path)
    its = simulation.read_events(events, start).events if events else ()
    rows = list(report.changes)
    if not rows:
        raise unusable(f"{path}: nothing changes in it")
    places.small_enough(len({row.element for row in rows}), "`rehearse --csv` writes the changes as a table")
    last = rows[-1].at
    if first is not None:
        rows = bands.rows_from(rows, first)
    count = len({row.element for row in rows})
    if first is None and its and not asked["has_all"]:
        rows = bands.moving(rows, its[0].at)
    end = last + fold if until is None else until
    if end < last:
        raise Wrong(f"--until: the last change is at {last}")
    red = within(red_of(path, report, plan, end), rows[0].at, end)
    marks = tuple(one for one in its if rows[0].at <= one.at <= end)
    up_to = bands.minutes(end) if start is None else times.clock(end, start)
    left_out = count - len({row.element for row in rows})
    title = f"{plan or path}" + (f", {events}" if events else "") + f", up to {up_to}"
    title += f"; {plural(left_out, 'element')} that {'does' if left_out == 1 else 'do'} not change left out" * bool(
        left_out
    )
    return Timeline(title, rows, bands.order_of(report), marks, red, end, fold, start)


@click.command("timeline")
@click.argument("report", type=click.Path())
@click.option(
    "--plan", type=click.Path(), help="the plan of the run: closed walks at any time, and not only at its end"
)
@click.option("--events", type=click.Path(), help="the events of the run, drawn as marks")
@click.option("--from", "first", type=Milliseconds(), help="the picture begins there, with what changes after it")
@click.option("--until", type=Milliseconds(), help="the end of the run; by default a little after the last change")
@click.option(
    "--fold", type=Milliseconds(), default=1000, show_default=True, help="longer times without a change are left out"
)
@click.option("--all", "has_all", is_flag=True, help="also elements that don't change from the first event on")
@START
@click.option("--force", is_flag=True, help="overwrites an existing file")
@click.option("-o", "--output", type=click.Path(), required=True, help="a file that ends in .svg, .png or .pdf")
@click.pass_context
def timeline(context: click.Context, report: str, force: bool, output: str, **asked: Any) -> int:
    """Draws the changes of a report over time: a band for each element, coloured by its quality level.

    REPORT is what `murdjohe sim` printed, or - for standard input. The colours are those of `draw`. A band is hatched while its
    element is in holdover or free-running, or has a forced or manual switch. The input is written in the band if there is room.
    A timing loop is a red strip. If nothing changes for longer than --fold, the rest of that time is left out, and a dotted
    line says how long it is. Close changes are drawn a twentieth of that apart. An existing file is overwritten only with
    --force.

    \b
      $ murdjohe gen 5 > plan.toml
      $ printf 'at,what,target,value\\n60000,down,S1,\\n' > events.csv
      $ murdjohe sim plan.toml events.csv 10m > report
      $ murdjohe timeline report --plan plan.toml --events events.csv --until 10m -o timeline.svg
    """
    ending = "svg" if output == STDIN else figures.ending_of(output)
    if asked["fold"] < 1:
        raise Wrong("--fold: at least 1 millisecond")
    free(output, force, report, asked["plan"], asked["events"])
    drawn = timeline_of(report, asked)
    with progress.watched("timeline"):
        data = strips.picture(drawn, ending)
    put(context, output, data)
    return program.DONE


COMMAND = timeline
