"""What an inventory knows besides a plan: ports and other columns, in a table beside the plan, by the kind and name of a row.

The table `kind,name,column,value` stands beside `plan.toml` as `plan.ports.csv`. A link's columns `port_a` and `port_b` are the
ports of its ends; any other column is taken as it is.
"""

from __future__ import annotations

import csv
import io
import os
from collections.abc import Iterable

from murdjohe.core import files
from murdjohe.core.documents import hint
from murdjohe.core.faults import unusable
from murdjohe.plan.model import Plan

ENDING = ".ports.csv"
HEADER = ["kind", "name", "column", "value"]
KINDS = ("element", "link", "source")
SHOWN = 5

# The columns of each row, by its kind and name.
Side = dict[tuple[str, str], dict[str, str]]
Cell = tuple[str, str, str, str]


def path_of(plan: str) -> str:
    """Where the side table of a plan stands."""
    return os.path.splitext(plan)[0] + ENDING


def text_of(cells: Iterable[Cell]) -> bytes:
    """The side table of these cells."""
    out = io.StringIO(newline="")
    csv.writer(out, lineterminator="\n").writerows([HEADER, *cells])
    return out.getvalue().encode()


def names_of(network: Plan) -> dict[str, set[str]]:
    """The names of the rows of a plan, by their kind."""
    return {
        "element": {element.name for element in network.elements},
        "link": {link.name for link in network.links},
        "source": {source.name for source in network.sources},
    }


def wrong_in(cell: list[str], names: dict[str, set[str]], seen: set[tuple[str, ...]]) -> str | None:
    """What is wrong with a row of the table."""
    if len(cell) != len(HEADER):
        return f"the row has {len(cell)} fields; write {', '.join(HEADER)}"
    kind, name, column, _ = cell
    if kind not in KINDS:
        return f"{kind!r} is no kind; the kinds are {', '.join(KINDS)}"
    if name not in names[kind]:
        return f"the plan has no {kind} {name!r}{hint(name, sorted(names[kind]))}"
    return f"{column} of {kind} {name!r} stands above already" if (kind, name, column) in seen else None


def side_of(path: str, text: str, network: Plan) -> Side:
    """The columns of a side table, whose rows are the plan's. Raises Wrong with its mistakes."""
    rows = list(csv.reader(io.StringIO(text, newline="")))
    if not rows or rows[0] != HEADER:
        raise unusable(f"{path}:1: the header has to be {','.join(HEADER)}")
    names, seen, wrong = names_of(network), set[tuple[str, ...]](), list[str]()
    found: Side = {}
    for line, cell in enumerate(rows[1:], start=2):
        if not cell:
            continue
        if what := wrong_in(cell, names, seen):
            wrong.append(f"{path}:{line}: {what}")
            continue
        kind, name, column, value = cell
        seen.add((kind, name, column))
        found.setdefault((kind, name), {})[column] = value
    if wrong:
        more = [f"and {len(wrong) - SHOWN} more"] if len(wrong) > SHOWN else []
        raise unusable(*wrong[:SHOWN], *more)
    return found


def read(path: str, network: Plan) -> Side:
    """The side table in a file. Raises Wrong."""
    return side_of(path, files.text(path), network)


def beside(plan: str, asked: str | None, network: Plan) -> Side:
    """The side table that is asked for, or the one beside the plan, if there is one; nothing otherwise. Raises Wrong."""
    if asked is not None:
        return read(asked, network)
    path = path_of(plan)
    return read(path, network) if os.path.isfile(path) else {}


def ports_of(side: Side, network: Plan) -> dict[str, str]:
    """The port into which each line leads, by the line's name, where it is known."""
    found = {}
    for link in network.links:
        for end in "ab":
            if port := port_of(side, link.name, end):
                found[link.line(end)] = port
    return found


def port_of(side: Side, link: str, end: str) -> str | None:
    """The port of an end of a link, `a` or `b`."""
    return side.get(("link", link), {}).get(f"port_{end}")
