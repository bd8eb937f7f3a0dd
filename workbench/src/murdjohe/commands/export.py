"""`murdjohe export`: the tables of a plan."""

from __future__ import annotations

import os
from typing import Any

import click
from click.core import ParameterSource

from murdjohe.commands import options
from murdjohe.core import files, program, streams
from murdjohe.core.faults import Wrong
from murdjohe.core.inputs import STDIN
from murdjohe.network import plan_file
from murdjohe.plan import export, graphs, side_table
from murdjohe.plan.graphs import GRAPHML, NODE_LINK
from murdjohe.plan.side_table import Side
from murdjohe.plan.tables import TABLES


def one_file(tables: dict[str, Any], side: Side, only: str | None, form: str | None) -> bytes:
    """One table, or the graph of the plan. Raises Wrong where both are asked for."""
    if only and form:
        raise Wrong("--only and a graph: ask for one of them")
    if form:
        return graphs.written(tables, side, form)
    return export.table_of(tables, (only or "").removesuffix("s"), side)


@click.command("export")
@click.argument("plan", type=click.Path())
@click.option("-o", "--output", type=click.Path(), default=".", show_default=True, help="the folder of the tables")
@click.option(
    "--only",
    type=click.Choice([f"{kind}s" for kind in TABLES]),
    help="writes this table to standard output, or to the file of -o",
)
@click.option("--graphml", "form", flag_value=GRAPHML, help="writes the plan as a graph in GraphML")
@click.option("--node-link", "form", flag_value=NODE_LINK, help="writes the plan as a graph in the JSON of networkx")
@click.option("--force", is_flag=True, help="overwrites existing files")
@click.pass_context
def export_tables(
    context: click.Context, plan: str, output: str, only: str | None, form: str | None, force: bool
) -> int:
    """Writes the tables of a plan, with its priorities: elements.csv, links.csv and sources.csv.

    `murdjohe import` makes the same plan from them, except for comments, spelling and order of keys. Ports and other columns of
    the table beside the plan, PLAN.ports.csv, are columns again. With --graphml or --node-link the plan is one graph, on
    standard output or in the file of -o, with priorities, sources and those columns as attributes.

    \b
      $ murdjohe gen 5 > plan.toml
      $ murdjohe export plan.toml
      $ murdjohe import elements.csv links.csv sources.csv > same.toml
    """
    taken = plan_file.read(plan)
    side = side_table.beside(plan, None, taken.network)
    if only or form:
        is_asked = context.get_parameter_source("output") == ParameterSource.COMMANDLINE
        path = output if is_asked and output != STDIN and not os.path.isdir(output) else None
        files.free([path] if path else [], force, [plan])
        options.put(context, path, one_file(taken.plan.tables, side, only, form))
        return program.DONE
    contents = {os.path.join(output, f"{kind}s.csv"): export.table_of(taken.plan.tables, kind, side) for kind in TABLES}
    files.free(list(contents), force, [plan])
    files.all_written(contents)
    if taken.plan.option == "II" and not context.find_root().params["quiet"]:
        streams.tell("the plan is of option II, which no table says: import them with --option II", colour="yellow")
    return program.DONE


COMMAND = export_tables
