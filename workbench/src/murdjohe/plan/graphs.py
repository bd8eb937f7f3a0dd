"""Topologies as graphs: GraphML, and the JSON of networkx (node-link), read into rows of a plan and written from them.

A node is an element, named by its `label` where each node has one of its own, and else by its identifier. An edge is a link; `name`,
`a` and `b` are taken where they stand there. What `murdjohe export` writes comes back as it was; other graphs have no priorities.
"""

from __future__ import annotations

import io
import json
from collections.abc import Iterable, Mapping
from dataclasses import dataclass, field
from typing import Any

from murdjohe.core import files
from murdjohe.core.faults import unusable
from murdjohe.core.inputs import STDIN
from murdjohe.core.levels import LEVELS
from murdjohe.plan.side_table import Cell
from murdjohe.plan.tables import LONGEST_NAME, NAME, TABLES, legal, new_names

GRAPHML, NODE_LINK = "graphml", "node-link"
SOURCES, LEVEL, LABEL = "sources", "level", "label"
BETWEEN = ";"  # between two sources of a node, each `NAME LEVEL PRIORITY`

Fields = dict[str, str]


@dataclass
class Graph:
    """What a graph says: the rows of a plan by their kind, names that were changed (kind, old, new), and all other attributes."""

    rows: dict[str, list[Fields]]
    renamed: list[tuple[str, str, str]] = field(default_factory=list)
    cells: list[Cell] = field(default_factory=list)


def parsed(path: str, form: str) -> Any:
    """The graph of a file by networkx. Raises Wrong."""
    import networkx

    name = "standard input" if path == STDIN else path
    try:
        if form == GRAPHML:
            return networkx.read_graphml(io.BytesIO(files.octets(path)), force_multigraph=True)
        return networkx.node_link_graph(json.loads(files.text(path)), multigraph=True)
    except (networkx.NetworkXError, ValueError, KeyError, TypeError, AttributeError, SyntaxError) as fault:
        what = "GraphML" if form == GRAPHML else "a graph as networkx writes it (node-link JSON)"
        raise unusable(f"{name}: it isn't {what}: {fault}") from None


def titles_of(nodes: Mapping[Any, Mapping[str, Any]]) -> dict[Any, str]:
    """How each node is called: by its label where these tell them apart, and else by its identifier."""
    labels = [str(data.get(LABEL, "")).strip() for data in nodes.values()]
    if all(labels) and len(set(labels)) == len(labels):
        return dict(zip(nodes, labels))
    return {node: str(node) for node in nodes}


def own_fields(data: Mapping[str, Any], kind: str, but: Iterable[str] = ()) -> Fields:
    """The attributes that are columns of a plan."""
    columns = [column for column in TABLES[kind].all if column not in but]
    return {column: str(data[column]) for column in columns if data.get(column) not in (None, "")}


def sources_of(path: str, element: str, data: Mapping[str, Any]) -> list[Fields]:
    """The sources of a node: those of `sources`, or one of its `level`. Raises Wrong."""
    found = []
    for one in filter(None, (part.strip() for part in str(data.get(SOURCES, "")).split(BETWEEN))):
        words = one.split()
        if len(words) != 3:
            raise unusable(f"{path}: node {element}: sources are written `NAME LEVEL PRIORITY`, not {one!r}")
        found.append({"name": words[0], "at": element, "level": words[1], "priority": words[2]})
    level = str(data.get(LEVEL, ""))
    if not found and any(level in levels for levels in LEVELS.values()):
        found.append({"name": f"clock-{element}"[:LONGEST_NAME], "at": element, "level": level})
    return found


def links_of(path: str, graph: Any, names: Mapping[Any, str]) -> list[tuple[Fields, Mapping[str, Any]]]:
    """The links, each with its attributes; of two arrows in opposite directions one is taken. Raises Wrong."""
    found, arrows = [], set()
    for one, other, data in graph.edges(data=True):
        if one == other:
            raise unusable(f"{path}: an edge joins {names[one]} to itself; a link joins two elements")
        if graph.is_directed() and not data.get("name"):
            if (other, one) in arrows:
                continue
            arrows.add((one, other))
        ends = {"a": str(data.get("a") or names[one]), "b": str(data.get("b") or names[other])}
        if {legal(ends["a"]), legal(ends["b"])} != {legal(names[one]), legal(names[other])}:
            ends = {"a": names[one], "b": names[other]}
        name = str(data.get("name") or f"{ends['a']}-{ends['b']}")
        found.append(({"name": name, **ends, **own_fields(data, "link", ("name", "a", "b", "duct"))}, data))
    return found


def apart(names: list[str], taken: Iterable[str]) -> list[str]:
    """Names that a plan can have, none twice and none of those that are taken: a number behind one that would be."""
    used, found = set(taken), []
    for name in names:
        bare, new, number = legal(name), legal(name), 1
        while new in used:
            number += 1
            new = f"{bare[: LONGEST_NAME - 1 - len(str(number))]}-{number}"
        used.add(new)
        found.append(new)
    return found


def cells_of(kind: str, name: str, data: Mapping[str, Any]) -> list[Cell]:
    """The attributes of a node or an edge that a plan has no place for."""
    known = {*TABLES[kind].all, SOURCES, LEVEL, "id"} - {"port_a", "port_b"}
    return [(kind, name, str(key), str(value)) for key, value in data.items() if key not in known and value is not None]


def graph_of(path: str, form: str, clocks: Mapping[str, str]) -> Graph:
    """The rows of a graph; `clocks` has the levels of sources that are wanted, by the names of nodes. Raises Wrong."""
    graph = parsed(path, form)
    titles = titles_of(graph.nodes)
    new = new_names(list(titles.values()))
    names = {node: new.get(title, title) for node, title in titles.items()}
    made = Graph({"element": [], "link": [], "source": []}, [("element", old, name) for old, name in new.items()])
    unknown = set(clocks) - set(titles.values()) - set(names.values())
    if unknown:
        raise unusable(f"{path}: --clock: there is no node {', '.join(sorted(unknown))}")
    for node, data in graph.nodes(data=True):
        name = names[node]
        level = clocks.get(titles[node], clocks.get(name))
        made.rows["element"].append({"name": name} | own_fields(data, "element", ("name",)))
        made.rows["source"] += sources_of(path, name, data | ({LEVEL: level} if level else {}))
        made.cells += cells_of("element", name, data)
    links = links_of(path, graph, names)
    sources = {row["name"] for row in made.rows["source"]}
    for (row, data), name in zip(links, apart([row["name"] for row, _ in links], sources)):
        made.renamed += [("link", row["name"], name)] if not NAME.fullmatch(row["name"]) else []
        made.cells += cells_of("link", name, data)
        ports = ("port_a", "port_b")
        made.rows["link"].append({key: value for key, value in (row | {"name": name}).items() if key not in ports})
    return made


def written(tables: Mapping[str, Any], side: Mapping[tuple[str, str], Mapping[str, str]], form: str) -> bytes:
    """The graph of a plan, with its priorities, sources, and the columns of its side table."""
    import networkx

    graph = networkx.MultiGraph(option=str(tables.get("option", "I")))
    sources: dict[str, list[str]] = {}
    for row in tables.get("source", []):
        sources.setdefault(row["at"], []).append(f"{row['name']} {row['level']} {row.get('priority', 1)}")
    for row in tables.get("element", []):
        its = {SOURCES: BETWEEN.join(sources[row["name"]])} if row["name"] in sources else {}
        rest = {key: value for key, value in row.items() if key != "name"}
        graph.add_node(row["name"], **rest, **its, **side.get(("element", row["name"]), {}))
    for row in tables.get("link", []):
        graph.add_edge(row["a"], row["b"], key=row["name"], **row, **side.get(("link", row["name"]), {}))
    if form == GRAPHML:
        out = io.BytesIO()
        networkx.write_graphml(graph, out)
        return out.getvalue() + b"\n"
    return json.dumps(networkx.node_link_data(graph), indent=1).encode() + b"\n"
