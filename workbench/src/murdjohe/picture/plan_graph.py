"""A plan as a graph for Graphviz: elements, sources, links, and the lines that may be taken, as arrows."""

from __future__ import annotations

import csv
import tomllib
from collections.abc import Iterable, Iterator
from dataclasses import dataclass, field
from typing import Any

from murdjohe.core import files, toml_reader
from murdjohe.core.faults import Wrong, unusable
from murdjohe.picture import group_bands
from murdjohe.picture.group_bands import Painted
from murdjohe.plan import model
from murdjohe.plan.model import ENDS, Element, Link, Plan, Source
from murdjohe.plan.plan_lines import LIMITS

# Colours of Okabe and Ito: told apart by people who don't tell red from green.
STATES = {"locked": ("#56B4E9", "ellipse"), "holdover": ("#E69F00", "hexagon"), "freerun": ("#FFFFFF", "octagon")}
TAKEN, MARKED, QUIET = "#0072B2", "#D55E00", "#999999"
HEAD = "  rankdir=LR; overlap=false; node [fontname=Helvetica, fontsize=11]; edge [fontname=Helvetica, fontsize=9];"


@dataclass(frozen=True)
class Shown:
    """What is drawn beside the plan: ranks by line, the last (mode, input, level, state) by element, lines in red, and groups of parts
    that fail together."""

    ranks: dict[str, str] = field(default_factory=dict)
    last: dict[str, list[str]] = field(default_factory=dict)
    marks: frozenset[str] = frozenset()
    groups: tuple[Painted, ...] = ()

    def taken(self, element: str) -> str | None:
        """The input that an element takes at the end of the report."""
        return self.last[element][1] if element in self.last else None


def quoted(text: object) -> str:
    return '"' + str(text).replace("\\", "\\\\").replace('"', '\\"') + '"'


def label(words: Iterable[object]) -> str:
    """Words as a label, one a line."""
    return '"' + "\\n".join(quoted(word)[1:-1] for word in words) + '"'


def rows_of(
    plan: dict[str, Any], section: str, texts: tuple[str, ...], fields: tuple[str, ...]
) -> list[dict[str, Any]]:
    """The rows of a section with the keys that a plan has, none of which has a value of another kind. Raises KeyError or TypeError."""
    rows = [{key: row[key] for key in fields if key in row} for row in plan.get(section, [])]
    numbers = [key for key in fields if key in LIMITS]
    for row in rows:
        is_text = all(isinstance(row[key], str) for key in texts)
        if not is_text or not all(isinstance(row.get(key, 0), int) for key in numbers):
            raise TypeError
    return rows


def as_drawn(tables: dict[str, Any]) -> Plan:
    """The plan of some tables, as far as a picture needs them to be right. Raises KeyError, TypeError or AttributeError."""
    return model.plan_of(
        {
            "option": tables.get("option"),
            "element": rows_of(tables, "element", ("name",), Element._fields),
            "link": rows_of(tables, "link", ("name", "a", "b"), Link._fields),
            "source": rows_of(tables, "source", ("name", "at", "level"), Source._fields),
        }
    )


def read_plan(path: str) -> Plan:
    """The plan of a file, as far as a picture needs it to be right. Raises Wrong."""
    try:
        plan = as_drawn(toml_reader.tables(files.text(path)))
    except (tomllib.TOMLDecodeError, RecursionError) as fault:
        raise unusable(f"{path}: it is no TOML document: {fault}") from None
    except (KeyError, TypeError, AttributeError):
        why = "a row lacks a key, or has a value of another kind"
        raise unusable(f"{path}: {why}; let `murdjohe rank` read the plan first") from None
    names, first = set(plan.names()), "let `murdjohe rank` read the plan first"
    for link in plan.links:
        if not {link.a, link.b} <= names:
            raise unusable(f"{path}: link {link.name} joins no two elements; {first}")
    for source in plan.sources:
        if source.at not in names:
            raise unusable(f"{path}: source {source.name} is at no element; {first}")
    return plan


def nearby(plan: Plan, names: Iterable[str], links: int) -> Plan:
    """The plan cut down to what lies within so many links of the named elements; all of it where none is named."""
    near = set(names)
    if not near:
        return plan
    if far := near - set(plan.names()):
        raise Wrong(f"--near: {min(far)} names no element")
    for _ in range(links):
        near |= {end for link in plan.links if {link.a, link.b} & near for end in (link.a, link.b)}
    return Plan(
        plan.option,
        tuple(element for element in plan.elements if element.name in near),
        tuple(link for link in plan.links if {link.a, link.b} <= near),
        tuple(source for source in plan.sources if source.at in near),
    )


def read_ranks(path: str | None) -> dict[str, str]:
    """The rank of each line that a certificate has. Raises Wrong."""
    if not path:
        return {}
    try:
        rows = list(csv.reader(files.text(path).splitlines()))
    except csv.Error as fault:
        raise unusable(f"{path}: it is no CSV: {fault}") from None
    if rows[:1] != [["line", "rank"]]:
        raise unusable(f"{path}: it is no certificate, since it doesn't begin with line,rank")
    return {row[0]: row[1] for row in rows[1:] if len(row) == 2}


def read_marks(path: str | None) -> frozenset[str]:
    """The lines of the ring or fall that an answer names. Raises Wrong."""
    if not path:
        return frozenset()
    words = files.text(path).split()
    if words[:1] not in (["cycle"], ["falls"], ["accepted"], ["line,rank"]):
        raise unusable(f"{path}: it is no answer of rank or check")
    return frozenset(words[1:] if words[0] in ("cycle", "falls") else ())


def node_of(element: Element, shown: Shown) -> str:
    """An element, with its levels and, after a report, its state."""
    own = element.own
    mode, _, level, state = shown.last.get(element.name, ["auto", "none", own, "freerun"])
    colour, shape = STATES.get(state, STATES["freerun"]) if shown.last else ("#FFFFFF", "ellipse")
    said = [element.name, f"own {own}"]
    if element.floor is not None:
        said.append(f"floor {element.floor}")
    if shown.last:
        said.append(f"{level} {state}" + (f" ({mode})" if mode != "auto" else ""))
    name = quoted("e " + element.name)
    return f'  {name} [label={label(said)}, shape={shape}, style=filled, fillcolor="{colour}"];'


def arrow_style(line: str, receiver: str, shown: Shown, priority: int, delay: int) -> str:
    """How an arrow is drawn: its label, red where it is marked, thick where it is taken."""
    rank = f" r{shown.ranks[line]}" if line in shown.ranks else ""
    styles = [f"label={quoted(line.partition('>')[0] + f' p{priority} {delay} ms{rank}')}"]
    if line in shown.marks:
        styles.append(f'color="{MARKED}", style=dashed, penwidth=3')
    elif shown.taken(receiver) == line:
        styles.append(f'color="{TAKEN}", penwidth=3')
    return ", ".join(styles)


def edges_of(link: Link, shown: Shown) -> Iterator[str]:
    """A link: an arrow for each of its lines that may be taken, or a thin line where there is none."""
    is_drawn = False
    for end, begin in ENDS:
        priority = link.priority(end)
        if priority:
            is_drawn = True
            line = link.line(end)
            style = arrow_style(line, link.element(end), shown, priority, link.delay(end))
            yield f'  {quoted("e " + link.element(begin))} -> {quoted("e " + link.element(end))} [{style}];'
    if not is_drawn:
        style = f'dir=none, color="{QUIET}", label={quoted(link.name)}'
        yield f'  {quoted("e " + link.a)} -> {quoted("e " + link.b)} [{style}];'


def bands_of(link: Link, shown: Shown) -> Iterator[str]:
    """A broad line without arrows for each group that has a link."""
    for one in group_bands.along(shown.groups, [link.name]):
        style = f'dir=none, color="{one.colour}", penwidth=8, label={quoted(one.name)}'
        yield f'  {quoted("e " + link.a)} -> {quoted("e " + link.b)} [{style}];'


def source_of(source: Source, shown: Shown) -> Iterator[str]:
    """A source and the arrow to its element."""
    name = quoted("s " + source.name)
    is_taken = shown.taken(source.at) == source.name
    yield f"  {name} [label={label((source.name, source.level))}, shape=box];"
    style = f'label={quoted("p" + str(source.priority))}' + (f', color="{TAKEN}", penwidth=3' if is_taken else "")
    yield f'  {name} -> {quoted("e " + source.at)} [{style}];'


def picture_of(plan: Plan, shown: Shown) -> str:
    """The picture as Graphviz reads it."""
    lines = ["digraph plan {", HEAD]
    lines += [node_of(element, shown) for element in plan.elements]
    for source in plan.sources:
        lines += source_of(source, shown)
    for link in plan.links:
        lines += [*bands_of(link, shown), *edges_of(link, shown)]
    return "\n".join([*lines, "}"]) + "\n"
