"""`murdjohe import`: a plan of tables."""

from __future__ import annotations

import csv
import io
import os
from typing import Any

import click

from murdjohe.commands import topics
from murdjohe.commands.options import output_options
from murdjohe.core import files, program, streams
from murdjohe.core.faults import Wrong
from murdjohe.core.inputs import STDIN
from murdjohe.core.wording import plural
from murdjohe.network import groups, plan_file
from murdjohe.network.groups import Group
from murdjohe.network.plan_file import PlanFile
from murdjohe.plan import graphs, side_table, tables
from murdjohe.plan.graphs import GRAPHML, NODE_LINK
from murdjohe.plan.tables import PORTS, Made, Settings


def renamed_table(made: Made) -> bytes:
    """The table of old and new names."""
    out = io.StringIO(newline="")
    writer = csv.writer(out, lineterminator="\n")
    writer.writerows([("what", "old", "new"), *made.renamed])
    return out.getvalue().encode()


def notes(made: Made, has_sources: bool, rename: str | None) -> list[str]:
    """What is to be known beside the plan."""
    said = [f"{ignored}: no columns of a plan, and ignored" for ignored in made.ignored]
    number = len(made.renamed)
    if rename:
        said.append(f"{number:,} name{'' if number == 1 else 's'} changed, as {rename} lists them")
    elif number:
        said.append(f"{number:,} name{'' if number == 1 else 's'} changed to what a plan can have; --rename lists them")
    if not has_sources:
        said.append("there is no table of sources: nothing in the plan is a clock yet")
    return said


def groups_path_of(asked: str | None, output: str | None) -> str | None:
    """Where the groups of the links' ducts are written: where that is asked, or beside the plan. Raises Wrong."""
    if asked == STDIN:
        raise Wrong("--groups: standard output is for the plan; name a file")
    if asked is not None or output is None or output == STDIN:
        return asked
    return os.path.splitext(output)[0] + groups.ENDING


def grouped(taken: PlanFile, made: Made, asked: str | None, output: str | None) -> tuple[dict[str, bytes], list[str]]:
    """The table of groups of a column of ducts, by its path, and what is said of it. Raises Wrong."""
    path = groups_path_of(asked, output)
    if made.ducts is None:
        if asked is not None:
            raise Wrong("--groups: the table of links has no column `duct`; --map link.duct=HEADER names another")
        return {}, []
    number = plural(len(made.ducts), "duct")
    if path is None:
        return {}, [f"{number}: a plan has no place for these; -o or --groups writes them as a list of groups"]
    data = groups.text_of(Group(name, tuple(links)) for name, links in made.ducts.items()).encode()
    groups.taken(path, data, taken)
    return {path: data}, [f"{path} has {number} as groups, for `protected`, `protect --groups` and others"]


def beside_plan(made: Made, output: str | None) -> tuple[dict[str, bytes], list[str]]:
    """The table of ports and other columns, by its path, and what is said of it."""
    if not made.cells:
        return {}, []
    number = plural(len(made.cells), "value")
    if output is None or output == STDIN:
        return {}, [
            f"{number} of ports and other columns: a plan has no place for these; with -o they are written beside it"
        ]
    path = side_table.path_of(output)
    return {path: side_table.text_of(made.cells)}, [
        f"{path} has {number} of ports and other columns, for `orders` and `draw`"
    ]


def mapping_in(path: str | None) -> list[str]:
    """The lines of a mapping file, without blank ones and those with `#`. Raises Wrong."""
    lines = files.text(path).splitlines() if path is not None else []
    return [line.strip() for line in lines if line.strip() and not line.startswith("#")]


def clocks_of(pairs: tuple[str, ...]) -> dict[str, str]:
    """The levels of the clocks that are asked for, by their nodes. Raises Wrong."""
    found = {}
    for pair in pairs:
        node, sign, level = pair.rpartition("=")
        if not sign or not node:
            raise Wrong(f"--clock {pair}: it has to be NODE=LEVEL, as Berlin=QL-PRTC")
        found[node] = level
    return found


def made_of_graph(path: str, form: str, option: str, clocks: tuple[str, ...], keeps_extra: bool) -> Made:
    """The plan of a graph. Raises Wrong."""
    graph = graphs.graph_of(path, form, clocks_of(clocks))
    ignored = (
        []
        if keeps_extra or not graph.cells
        else [f"{path}: {', '.join(dict.fromkeys(cell[2] for cell in graph.cells))}"]
    )
    cells = graph.cells if keeps_extra else [cell for cell in graph.cells if cell[2] in PORTS]
    return Made(tables.plan_text(graph.rows, option), graph.renamed, ignored, None, cells)


def on_priorities(taken: PlanFile) -> list[str]:
    """What the program says of the priorities of the plan, where a loop is possible or elements may oscillate."""
    judgement = plan_file.judged(taken)
    if judgement.verdict != plan_file.ACCEPTED:
        ring = judgement.verdict.split()[1:]
        return [f"timing may go round over {' -> '.join([*ring, ring[0]])}: `murdjohe repair` finds what to take away"]
    return judgement.lines


ENCODINGS = (tables.SPREADSHEET, "latin-1", "utf-16")


@click.command("import", epilog="\b\n" + topics.TABLES.replace("\n\n", "\n\n\b\n"))
@click.option("--option", type=click.Choice(["I", "II"]), default="I", help="the network option; by default I")
@click.option(
    "--map", "pairs", multiple=True, metavar="COLUMN=HEADER", help="a column has this header; may be repeated"
)
@click.option("--map-file", type=click.Path(), help="a file with a COLUMN=HEADER on each line, for --map")
@click.option("--encoding", type=click.Choice(ENCODINGS), help="the encoding of the tables, if it isn't UTF-8")
@click.option("--keep-extra", is_flag=True, help="keeps columns that a plan doesn't have in PLAN.ports.csv beside it")
@click.option("--ignore-extra", is_flag=True, help="ignores columns that a plan doesn't have")
@click.option(
    "--rename", type=click.Path(), help="changes names that a plan can't have, and writes the old and new ones"
)
@click.option(
    "--groups", "asked_groups", type=click.Path(), help="writes the links' ducts as a list of groups to this file"
)
@click.option("--netbox", is_flag=True, help="the tables are NetBox's exports of devices and cables")
@click.option("--graphml", "form", flag_value=GRAPHML, help="in place of tables a graph in GraphML")
@click.option("--node-link", "form", flag_value=NODE_LINK, help="in place of tables a graph in the JSON of networkx")
@click.option(
    "--clock", "clocks", multiple=True, metavar="NODE=LEVEL", help="a clock at a node of the graph; again for more"
)
@output_options
@click.argument("elements", type=click.Path())
@click.argument("links", required=False, type=click.Path())
@click.argument("sources", required=False, type=click.Path())
@click.pass_context
def import_tables(
    context: click.Context,
    elements: str,
    links: str | None,
    sources: str | None,
    output: str | None,
    force: bool,
    **asked: Any,
) -> int:
    """Makes a plan from tables of elements, links and sources, as inventories give them.

    A plan without priorities is one for `murdjohe nominate`. All mistakes in the tables are reported at once, each with its
    file, line, column and value, and nothing is written then. A column `duct` of the links becomes a list of groups, beside the
    plan of -o with the ending .groups.csv, or in the file of --groups. Ports (columns `port_a` and `port_b` of the links and
    `port` of the sources) go into a table beside the plan with the ending .ports.csv, and with --keep-extra all other columns
    too. The program verifies the plan, and the command says whether a loop is possible in it, and whether elements may
    oscillate after a failure.

    With --graphml or --node-link the one argument is a graph: its nodes are elements, its edges links. A node's `level` is the
    level of a clock there, as --clock gives it too.
    """
    made, paths = made_by(elements, links, sources, asked)
    data = made.plan.encode()
    taken = plan_file.taken(output or "the plan of these tables", data)
    tabled, said = grouped(taken, made, asked["asked_groups"], output)
    aside, more = beside_plan(made, output)
    filed, rename = None if output == STDIN else output, asked["rename"]
    others = {**tabled, **aside}
    files.free([path for path in (filed, rename, *others) if path], force, paths)
    files.all_written(
        {**({filed: data} if filed else {}), **({rename: renamed_table(made)} if rename else {}), **others}
    )
    if filed is None:
        context.obj.put(data)
    told = notes(made, bool(taken.network.sources), rename) + said + more + on_priorities(taken)
    if not context.find_root().params["quiet"] and told:
        streams.tell(*told, colour="yellow")
    return program.DONE


def made_by(elements: str, links: str | None, sources: str | None, asked: dict[str, Any]) -> tuple[Made, list[str]]:
    """The plan of the tables, or of the graph, and the files that were read. Raises Wrong."""
    if asked["form"]:
        if links is not None:
            raise Wrong(f"--{asked['form']}: a graph is one file; {links} is one too many")
        return made_of_graph(elements, asked["form"], asked["option"], asked["clocks"], asked["keep_extra"]), [elements]
    if asked["clocks"]:
        raise Wrong("--clock: it is of a graph; tables of elements and links have one of sources")
    if links is None:
        raise Wrong("a table of links is missing: import ELEMENTS LINKS [SOURCES]")
    if asked["keep_extra"] and asked["ignore_extra"]:
        raise Wrong("--keep-extra and --ignore-extra: ask for one of them")
    paths = {"element": elements, "link": links} | ({"source": sources} if sources else {})
    headers = tables.mapping_of([*mapping_in(asked["map_file"]), *asked["pairs"]])
    renames, encoding = asked["rename"] is not None, asked["encoding"]
    kept = asked["keep_extra"]
    how = Settings(asked["option"], headers, asked["ignore_extra"], renames, asked["netbox"], kept, encoding)
    return tables.made_of(paths, how), list(paths.values())


COMMAND = import_tables
