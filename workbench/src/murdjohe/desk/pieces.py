"""A plan's text in pieces, a row each, so that one row changes and every other byte stays: comments, order and spelling."""

from __future__ import annotations

import re
from collections.abc import Iterable
from typing import Any, NamedTuple

from murdjohe.core import toml_reader
from murdjohe.core.documents import Document
from murdjohe.core.faults import Wrong
from murdjohe.plan import edits, model
from murdjohe.plan.edits import Edit
from murdjohe.plan.model import Plan, Row
from murdjohe.plan.plan_lines import KEYS, SECTIONS, PlanLines

Value = int | str | None
EMPTY = b"version = 2\n"  # the plan of a desk that begins without one
INLINE, HEADED = "{", "[["  # how a row begins that stands in one value, and one under a head of its own


class Piece(NamedTuple):
    """A part of a plan's text: a row of a section with what it says, or what stands between rows (section is empty then)."""

    section: str
    text: str
    row: Row

    @property
    def name(self) -> str:
        """The name of the row."""
        return str(self.row.get("name", ""))


def pieces_of(data: bytes, name: str) -> list[Piece]:
    """The pieces of a plan that the program takes. Raises Wrong where Python's reader doesn't take it."""
    plan = PlanLines(Document(name, data))
    if plan.fault:
        raise Wrong(f"{name}: the program takes it, and Python's reader doesn't: {plan.fault}")
    regions = sorted(
        (start, end, section, number)
        for section in SECTIONS
        for number, (start, end) in enumerate(plan.regions[section])
    )
    rows = {section: plan.rows(section) for section in SECTIONS}
    found, place = [], 0
    for start, end, section, number in regions:
        if start > place:
            found.append(Piece("", plan.text[place:start], {}))
        found.append(Piece(section, plan.text[start:end], rows[section][number]))
        place = end
    return [*found, Piece("", plan.text[place:], {})] if place < len(plan.text) else found


def text_of(pieces: Iterable[Piece]) -> str:
    """The text of the pieces."""
    return "".join(piece.text for piece in pieces)


def plan_of(pieces: Iterable[Piece], option: str) -> Plan:
    """The plan as the field has it."""
    rows: dict[str, list[Row]] = {section: [] for section in SECTIONS}
    for piece in pieces:
        if piece.section:
            rows[piece.section].append(piece.row)
    return model.plan_of({"option": option, **rows})


def with_rows(plan: Plan, rows: Iterable[Piece]) -> Plan:
    """The plan with other rows in the places of those of their names."""
    made = plan_of(rows, plan.option)
    elements = {row.name: row for row in made.elements}
    links = {row.name: row for row in made.links}
    sources = {row.name: row for row in made.sources}
    return Plan(
        plan.option,
        tuple(elements.get(row.name, row) for row in plan.elements) if elements else plan.elements,
        tuple(links.get(row.name, row) for row in plan.links) if links else plan.links,
        tuple(sources.get(row.name, row) for row in plan.sources) if sources else plan.sources,
    )


def spelled(value: Value) -> str:
    """A value as TOML has it; names and levels have no signs that would need an escape."""
    return f'"{value}"' if isinstance(value, str) else str(value)


def whole(piece: Piece) -> tuple[str, str]:
    """What has to stand before and behind a row so that it is a document by itself."""
    return (f"{piece.section} = [", "]") if piece.text.lstrip().startswith(INLINE) else ("", "")


def added(plan: PlanLines, section: str, key: str, value: Value) -> Edit:
    """The edit that adds a key to the one row of a document, behind the last key of the row that stands before it in the format."""
    keys = list(KEYS[section])
    for anchor in reversed(keys[: keys.index(key)]):
        span = edits.value_of(plan, section, 1, anchor)
        if span is None:
            continue
        if plan.text.startswith(f"{section} = ["):
            return Edit(span[1], span[1], f", {key} = {spelled(value)}")
        return edits.behind(plan.text, span, f"{key} = {spelled(value)}")
    raise Wrong(f"no place is found for the key {key}; write it into the file")


def taken_out(plan: PlanLines, section: str, key: str, span: tuple[int, int]) -> Edit:
    """The edit that takes a key out of the one row of a document: its whole line, or the part up to its comma."""
    if not plan.text.startswith(f"{section} = ["):
        end = plan.text.find("\n", span[1])
        return Edit(plan.text.rfind("\n", 0, span[0]) + 1, len(plan.text) if end < 0 else end + 1, "")
    before = re.search(r",\s*[^,]*$", plan.masked[: span[0]])
    return Edit(before.start() if before else span[0], span[1], "")


def with_values(piece: Piece, values: dict[str, Value]) -> Piece:
    """A row with other values; None takes a key out. What it says is read again. Raises Wrong where that isn't what was meant."""
    front, back = whole(piece)
    plan = PlanLines(Document("the plan", (front + piece.text + back).encode()))
    made = []
    for key, value in values.items():
        span = edits.value_of(plan, piece.section, 1, key)
        if span is None:
            made += [] if value is None else [added(plan, piece.section, key, value)]
        else:
            made.append(taken_out(plan, piece.section, key, span) if value is None else Edit(*span, spelled(value)))
    text = edits.after(plan, made)
    every: dict[str, Value] = {**piece.row, **values}
    meant = {key: value for key, value in every.items() if value is not None}
    if tables_in(text) != {piece.section: [meant]}:
        raise Wrong(
            f"{piece.section} {piece.name}: its row is spelled in a way that can't be edited; change it in the file"
        )
    return Piece(piece.section, text[len(front) : len(text) - len(back)], meant)


def tables_in(text: str) -> dict[str, Any] | None:
    """What a document says; None where it is none."""
    try:
        return toml_reader.tables(text)
    except (ValueError, RecursionError):
        return None


def new_row(section: str, row: Row, feed: str) -> Piece:
    """A new row under a head of its own."""
    keys = [f"{key} = {spelled(row[key])}" for key in KEYS[section] if key in row]
    return Piece(section, feed.join(["", f"[[{section}]]", *keys, ""]), row)


def place_of_new(pieces: list[Piece], section: str) -> tuple[int, bool]:
    """Where a new row goes, behind the last one of its section or of those before it, and whether it stands in an array there."""
    order = SECTIONS[: SECTIONS.index(section) + 1]
    last = max((place for place, piece in enumerate(pieces) if piece.section in order), default=-1)
    own = max((place for place, piece in enumerate(pieces) if piece.section == section), default=-1)
    if own >= 0 and pieces[own].text.startswith(INLINE):
        return own + 1, True
    if any(piece.text.startswith(INLINE) for piece in pieces if piece.section) or last < 0:
        return len(pieces), False
    return last + 1, False


def with_row(pieces: list[Piece], section: str, row: Row) -> tuple[int, list[Piece], list[Piece]]:
    """Where a row is added, the pieces that stood there, and those that stand there then."""
    place, is_inline = place_of_new(pieces, section)
    if is_inline:
        keys = ", ".join(f"{key} = {spelled(row[key])}" for key in KEYS[section] if key in row)
        return place, [], [Piece("", ", ", {}), Piece(section, f"{{ {keys} }}", row)]
    feed = "\r\n" if any("\r\n" in piece.text for piece in pieces[:1]) else "\n"
    made = new_row(section, row, feed)
    before = pieces[place - 1].text if place else feed
    if before.endswith(feed * 2):
        made = Piece(section, made.text.removeprefix(feed) + feed, row)
    elif not before.endswith(feed):
        made = Piece(section, feed + made.text, row)
    return place, [], [made]


def kept_behind(piece: Piece) -> str:
    """What stays of a row under a head that goes: the comments and blank lines at its end, which are of the next row."""
    lines = piece.text.splitlines(keepends=True)
    masked = toml_reader.masked(piece.text).splitlines()
    last = max((number for number, line in enumerate(masked) if line.strip()), default=-1)
    left = lines[last + 1 :]
    return "".join(left) if any(line.strip() for line in left) else ""


def without_row(pieces: list[Piece], place: int) -> tuple[int, list[Piece], list[Piece]]:
    """Where a row goes, the pieces that stood there, and those that are left."""
    piece = pieces[place]
    if not piece.text.startswith(INLINE):
        left = kept_behind(piece)
        return place, [piece], [Piece("", left, {})] if left else []
    for beside, first in ((place + 1, place), (place - 1, place - 1)):
        if 0 <= beside < len(pieces) and not pieces[beside].section:
            its = pieces[beside].text
            if toml_reader.masked(its).strip() == ",":
                return first, pieces[first : first + 2], []
    return place, [piece], []
