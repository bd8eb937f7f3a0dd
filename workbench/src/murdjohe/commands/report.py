"""`murdjohe report`: a page that shows a run."""

from __future__ import annotations

import os

import click

from murdjohe.commands.options import START, Milliseconds, free, from_start, put
from murdjohe.core import forms, program, progress, streams
from murdjohe.core.faults import Wrong
from murdjohe.core.inputs import STDIN
from murdjohe.network import plan_file
from murdjohe.picture import page_data, pages, places
from murdjohe.runs import rehearsals, simulation


@click.command("report")
@click.argument("plan", type=click.Path())
@click.argument("events", type=click.Path())
@click.option("--until", type=Milliseconds(), help="the end of the run; by default 20 minutes after the last event")
@START
@click.option("--cuts", is_flag=True, help="also each link's failure alone, as a table and a map of cases and elements")
@click.option(
    "--layout", type=click.Choice([places.MAP, places.LAYERED]), help="a map, or layers; by default what suits the plan"
)
@click.option(
    "--places", "table", type=click.Path(), help="a table with the columns name, x and y: the position of each element"
)
@click.option("--force", is_flag=True, help="overwrites an existing file")
@click.option("-o", "--output", type=click.Path(), required=True, help="the page, a file that ends in .html")
@click.pass_context
def report(
    context: click.Context,
    plan: str,
    events: str,
    until: int | None,
    start: int | None,
    cuts: bool,
    layout: str | None,
    table: str | None,
    force: bool,
    output: str,
) -> int:
    """Writes a page that shows a run: one file that opens from disk in any browser and asks for nothing from outside.

    The page shows the network at any moment, by a slider and by the arrow keys from change to change. A click on an element
    shows its state and where it gets its timing from. Below are the list of events and changes, what each element lost, what
    the program says and promises, and checksums. The page prints on A4. The status is 0, or 11 if the program stopped the run,
    or that of what was refused.

    \b
      $ murdjohe gen 5 > plan.toml
      $ printf 'at,what,target,value\\n60000,down,S1,\\n' > events.csv
      $ murdjohe report plan.toml events.csv -o page.html
    """
    until = from_start(until, start, "--until")
    if output != STDIN and not output.endswith(".html"):
        raise Wrong(f"{output}: a page ends in .html")
    if plan == STDIN and events == STDIN:
        raise Wrong("standard input is one file: the plan or the events")
    if until is not None and until > forms.DAY_MS:
        raise Wrong("--until: at most a day, 24h")
    free(output, force, plan, events, table)
    with progress.watched("report"):
        data, status, said = made(plan, events, until, start, cuts, layout, table)
    put(context, output, data)
    if not context.find_root().params["quiet"]:
        streams.tell(*said, colour="yellow")
    return status


def made(
    plan: str, events: str, until: int | None, start: int | None, cuts: bool, layout: str | None, table: str | None
) -> tuple[bytes, int, list[str]]:
    """The page, the status, and what is said beside it. Raises Wrong."""
    taken, file = plan_file.read(plan), simulation.read_events(events, start)
    places.small_enough(len(taken.network.elements), "`rehearse` tells the same run without a picture")
    simulation.report_of(taken, file, 0)  # (events that can't be read are told before their end is looked for)
    found = rehearsals.rehearsed(taken, file, simulation.usual_end(file) if until is None else until)
    title = f"{os.path.basename(taken.name)}, {os.path.basename(file.name)}"
    spots = places.layout_of(taken.network, layout, table)
    cases = page_data.cases_of(taken) if cuts else None
    data = page_data.data_of(taken, found, spots, start or 0, title, cases)
    status = program.DONE if found.report.stopped_at is None else program.STOPPED
    said = [rehearsals.dark_text(found, start or 0)] if found.dark else []
    said += [found.oscillation] if found.oscillation else []
    said += [pages.cuts_text(cases)] if cases and cases.rows else []
    return (
        pages.page(title, data, pages.facts(taken, file, found, start or 0, cases)),
        status,
        said + simulation.likely_seconds(file, until),
    )


COMMAND = report
