"""`murdjohe draw`: a picture of a plan."""

from __future__ import annotations

from dataclasses import replace
from typing import Any

import click

from murdjohe.commands.options import GROUPS, START, Milliseconds, free, from_start, put
from murdjohe.core import program, progress
from murdjohe.core.faults import Wrong
from murdjohe.core.inputs import STDIN
from murdjohe.network import groups, plan_file, wiring
from murdjohe.picture import figures, group_bands, places, plan_graph, views
from murdjohe.picture.places import Layout
from murdjohe.picture.views import View
from murdjohe.plan import side_table
from murdjohe.plan.model import Plan
from murdjohe.runs import report_file, simulation

ENDINGS = (*figures.ENDINGS, "dot")
WAY_OUT = "draw a part by --near ELEMENT, or write a file that ends in .dot, which Graphviz draws"


def view_of(
    plan: str, network: Plan, report: str | None, events: str | None, at: int | None, start: int | None
) -> View:
    """What is drawn of the whole plan. Raises Wrong."""
    if report is None:
        if events is not None or at is not None:
            raise Wrong("--at and --events are of a run: name its report by --report")
        return views.plain_view(plan, network)
    found = views.of_this_plan(report, report_file.read(report), wiring.wiring_of(network))
    rows = simulation.read_events(events, start).events if events else ()
    return views.view_of(plan, network, found, rows, at, start or 0)


def as_dot(network: Plan, view: View, marks: frozenset[str]) -> bytes:
    """The picture as Graphviz reads it."""
    last = {name: [one.mode, one.input or "none", one.level or "", one.state] for name, one in view.shown.items()}
    return plan_graph.picture_of(network, plan_graph.Shown(view.ranks, last, marks, view.groups)).encode()


def rendered(network: Plan, view: View, marks: frozenset[str], ending: str, layout: Layout) -> bytes:
    """The picture of a part of the plan in a format of matplotlib."""
    from murdjohe.picture import sketch

    red = view.red | dict.fromkeys(marks, views.RING)
    part = replace(view, network=network, wired=wiring.wiring_of(network), red=red)
    return sketch.picture(part, layout, ending)


@click.command("draw")
@click.argument("plan", type=click.Path())
@click.option("--certificate", type=click.Path(), help="writes the ranks of this file beside the priorities")
@click.option("--report", type=click.Path(), help="colours elements by their levels in this report of the plan")
@click.option("--at", type=Milliseconds(), help="the millisecond of the report that is drawn; by default its end")
@click.option("--events", type=click.Path(), help="the events of that run, by which links are down before its end")
@click.option(
    "--answer",
    type=click.Path(),
    help="draws the loop, or the place where one could close, in this answer of `rank` or `check` red",
)
@click.option("--near", multiple=True, help="draws only what lies near this element; may be repeated")
@click.option("--links", type=click.IntRange(min=0), default=2, show_default=True, help="how many links are near")
@click.option(
    "--layout", type=click.Choice([places.MAP, places.LAYERED]), help="a map, or layers; by default what suits the plan"
)
@click.option(
    "--places", "table", type=click.Path(), help="a table with the columns name, x and y: the position of each element"
)
@click.option("--ports", type=click.Path(), help="the table of ports; by default PLAN.ports.csv if there is one")
@GROUPS
@START
@click.option("--force", is_flag=True, help="overwrites an existing file")
@click.option("-o", "--output", type=click.Path(), required=True, help="a file that ends in .svg, .png, .pdf or .dot")
@click.pass_context
def draw(context: click.Context, plan: str, report: str | None, force: bool, output: str, **asked: Any) -> int:
    """Draws a plan: elements, sources, links, and the lines that may be taken, as arrows with their priorities.

    With a report each element has the colour of its level. Lines that are taken are thick, and parts that are down are dashed.
    A closed walk is red with the word LOOP, and an element that follows no source is hatched. A plan of up to 30 elements fits
    on a page of A4, of up to 320 on one of A3. 5,000 elements are the most; --near draws a part of a larger plan. A report of
    another plan is refused. With --groups each group of parts that fail together has a colour, as a band along its links and
    round its elements and sources. Ports of the table beside the plan stand behind the priorities. An existing file is
    overwritten only with --force.

    \b
      $ murdjohe gen 5 > plan.toml
      $ murdjohe draw plan.toml -o plan.svg
    """
    at, events, answer = from_start(asked["at"], asked["start"], "--at"), asked["events"], asked["answer"]
    ending = "svg" if output == STDIN else output.rpartition(".")[2]
    if ending not in ENDINGS:
        raise Wrong(f"a picture ends in .svg, .png, .pdf or .dot, not in .{ending}")
    its = asked["groups_path"]
    if its and plan == STDIN:
        raise Wrong("draw --groups: the plan can't come on standard input; name its file")
    free(output, force, plan, asked["certificate"], report, events, answer, asked["table"], its, asked["ports"])
    table = groups.read(its, plan_file.read(plan)).groups if its else ()
    network = plan_graph.read_plan(plan)
    cut = plan_graph.nearby(network, asked["near"], asked["links"])
    if ending != "dot":
        places.small_enough(len(cut.elements), WAY_OUT)
    marks = plan_graph.read_marks(answer)
    view = view_of(plan, network, report, events, at, asked["start"])
    ports = side_table.ports_of(side_table.beside(plan, asked["ports"], network), network)
    ranks = plan_graph.read_ranks(asked["certificate"])
    view = replace(view, ranks=ranks, groups=group_bands.painted(table), ports=ports)
    with progress.watched("draw"):
        if ending == "dot":
            picture = as_dot(cut, view, marks)
        else:
            picture = rendered(cut, view, marks, ending, places.layout_of(cut, asked["layout"], asked["table"]))
    put(context, output, picture)
    return program.DONE


COMMAND = draw
