"""`murdjohe rehearse`: works as they will go."""

from __future__ import annotations

import csv
import io
from typing import Any

import click

from murdjohe.commands.options import RESTS, START, Milliseconds, changed_events, free, from_start, output_options, put
from murdjohe.core import forms, plain_json, program, progress, streams
from murdjohe.core.faults import Wrong
from murdjohe.core.inputs import STDIN
from murdjohe.network import plan_file
from murdjohe.runs import rehearsals, simulation, what_if
from murdjohe.runs.rehearsals import Rehearsal


def shown(found: Rehearsal, start: int, form: str, has_all: bool) -> bytes:
    """The rehearsal in one of its forms."""
    if form == "json":
        return plain_json.text(rehearsals.as_data(found, start))
    if form == "csv":
        out = io.StringIO(newline="")
        csv.writer(out, lineterminator="\n").writerows([rehearsals.COLUMNS, *rehearsals.table_of(found, start)])
        return out.getvalue().encode()
    return "".join(f"{line}\n" for line in rehearsals.text_of(found, start, has_all)).encode()


def status_of(found: Rehearsal, limit: int | None = None) -> int:
    """What the command ends with: whoever is worse at the end, or for longer than the limit, has a status of its own."""
    if found.report.stopped_at is not None:
        return program.STOPPED
    if not found.is_smooth:
        return program.REFUTED
    return program.LOSS if found.hurt(limit) else program.DONE


@click.command("rehearse")
@click.argument("plan", type=click.Path())
@click.argument("events", type=click.Path())
@click.option("--until", type=Milliseconds(), help=f"the end of the run; {RESTS}")
@START
@click.option(
    "--limit",
    type=Milliseconds(),
    help="how long an element may be worse at a stretch; by default only what is worse at the end counts",
)
@click.option("--all", "has_all", is_flag=True, help="also the changes before the first event")
@click.option("--csv", "form", flag_value="csv", help="the list of events and changes as a table with commas")
@click.option("--json", "form", flag_value="json", help="JSON: the list, commands, pairs and loops, and losses")
@changed_events
@output_options
@click.pass_context
def rehearse(context: click.Context, plan: str, events: str, form: str | None, **asked: Any) -> int:
    """Shows works as they will go: events and the changes that follow, in one list with times of day.

    The first line says which elements are without a source at the end of the run. In the list, an event stands behind a star.
    Below the list stand the commands that are rejected, with the reason, and those that are taken without effect. Then come
    pairs (two elements that take timing from each other for a moment) and timing loops, with their times. Then comes, for each
    element, since when and for how long it is below the best level that it has had, or follows no source: first the elements
    for which this lasts to the end. The last lines say from when on the network is settled, and whether elements of the plan
    may oscillate.

    Changes, levels and whether the network is settled come from the program: `sim` is run to several milliseconds. Whether a
    command is rejected, and which walks stand in between, follow from these and from the table of commands. A report doesn't
    say why an available input isn't taken. The status is 1 if a command is rejected, a timing loop stands at any time, an event
    comes after the end, or the network isn't settled. Otherwise it is 20 if an element is worse at the end than before, or for
    longer than --limit at a stretch. It is 11 if the program stopped.

    \b
      $ murdjohe gen 5 > plan.toml
      $ printf 'at,what,target,value\\n60000,down,S1,\\n' > events.csv
      $ murdjohe rehearse plan.toml events.csv --start 02:00:00
    """
    if plan == STDIN and events == STDIN:
        raise Wrong("standard input is one file: the plan or the events")
    start, root = asked["start"], context.find_root().params
    until = from_start(asked["until"], start, "--until")
    if until is not None and until > forms.DAY_MS:
        raise Wrong("--until: at most a day, 24h")
    free(asked["output"], asked["force"], plan, events)
    taken, file = plan_file.read(plan), what_if.read(events, start, asked["more"], asked["is_sorted"])
    simulation.report_of(taken, file, 0)  # (events that can't be read are told before their end is looked for)
    with progress.watched("rehearse"):
        found = rehearsals.to_rest(taken, file) if until is None else rehearsals.rehearsed(taken, file, until)
    form = form or ("json" if root["json"] else "")
    put(context, asked["output"], shown(found, start or 0, form, asked["has_all"]))
    if not root["quiet"]:
        streams.tell(*simulation.likely_seconds(file, until), colour="yellow")
    return status_of(found, asked["limit"])


COMMAND = rehearse
