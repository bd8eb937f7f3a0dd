"""Edits of a plan and of its events, as the page sends them and a draft keeps them: what each is, and whether it can be made."""

from __future__ import annotations

from collections.abc import Mapping, Sequence
from dataclasses import asdict, dataclass
from typing import Any

from murdjohe.core import documents, levels
from murdjohe.core.faults import Wrong
from murdjohe.core.times import clock
from murdjohe.core.wording import plural
from murdjohe.plan import tables
from murdjohe.plan.model import Element, Link, Plan, Row, Source
from murdjohe.plan.side_table import Cell
from murdjohe.plan.plan_lines import KEYS, LIMITS, MUST, NUMBER

LEVEL_KEYS = ("own", "floor", "level")
FIXED = ("name", "a", "b", "at", "bundle")  # keys that a row is added with, and keeps
NONE = "none"
ARTICLES = {"element": "an", "link": "a", "source": "a"}
WORDS = ("down", "up", "esmc-off", "esmc-on", "level", "lockout", "unlock", "forced", "manual", "clear-wtr", "clear")
BOTH = ("down", "up")  # words that may be said of a whole link
OF_LINES = ("esmc-off", "esmc-on")


@dataclass(frozen=True)
class SetValue:
    """A key of a row gets a value, or goes where it is None."""

    section: str
    name: str
    key: str
    value: int | str | None


@dataclass(frozen=True)
class AddRow:
    """An element, a link or a source is added."""

    section: str
    row: Row


@dataclass(frozen=True)
class TakeAway:
    """An element goes with its links and sources, or a link, or a source."""

    section: str
    name: str


@dataclass(frozen=True)
class TakeOver:
    """The priorities that a command found, by lines as `L1>B` and sources, all at once; `by` names the command."""

    by: str
    priorities: dict[str, int]


@dataclass(frozen=True)
class TakeText:
    """Another plan as a whole; `by` says what it was made of. `cells` are of the table beside it: ports and other columns."""

    by: str
    text: str
    cells: tuple[Cell, ...] = ()


@dataclass(frozen=True)
class AddEvents:
    """Events happen at a millisecond: rows of what, target and value; `by` says what they are together."""

    at: int
    rows: tuple[tuple[str, str, str], ...]
    by: str = ""


@dataclass(frozen=True)
class DropEvent:
    """The event of a number, from 0 on, doesn't happen."""

    number: int


@dataclass(frozen=True)
class DropEvents:
    """No event happens."""


Edit = SetValue | AddRow | TakeAway | TakeOver | TakeText | AddEvents | DropEvent | DropEvents
KINDS: dict[str, type[Edit]] = {
    "value": SetValue,
    "add": AddRow,
    "take-away": TakeAway,
    "take-over": TakeOver,
    "text": TakeText,
    "events": AddEvents,
    "drop-event": DropEvent,
    "drop-events": DropEvents,
}
NAMES = {kind: name for name, kind in KINDS.items()}


def as_data(edit: Edit) -> dict[str, Any]:
    """An edit as JSON has it."""
    return {"kind": NAMES[type(edit)], **asdict(edit)}


def is_fitting(key: str, value: object) -> bool:
    """Whether a part of an edit has the type that it has to have."""
    if key in ("at", "number"):
        return isinstance(value, int) and not isinstance(value, bool)
    if key == "value":
        return value is None or (isinstance(value, (int, str)) and not isinstance(value, bool))
    if key == "row":
        return isinstance(value, dict) and all(isinstance(part, (int, str)) for part in value.values())
    if key == "priorities":
        return isinstance(value, dict) and all(type(part) is int for part in value.values())
    if key in ("rows", "cells"):
        long = 3 if key == "rows" else 4
        is_list = isinstance(value, (list, tuple)) and all(isinstance(row, (list, tuple)) for row in value)
        return is_list and all(len(row) == long and all(isinstance(part, str) for part in row) for row in value)  # type: ignore[attr-defined]
    return isinstance(value, str)


def of_data(data: object) -> Edit:
    """The edit that JSON has. Raises Wrong where it is none."""
    kind = KINDS.get(str(data.get("kind"))) if isinstance(data, Mapping) else None
    if kind is None or not isinstance(data, Mapping):
        raise Wrong("that is no edit")
    given = {key: value for key, value in data.items() if key != "kind"}
    if any(key not in kind.__dataclass_fields__ or not is_fitting(key, value) for key, value in given.items()):
        raise Wrong(f"that is no edit of the kind {data['kind']}")
    for key in {"rows", "cells"} & given.keys():
        given[key] = tuple(tuple(row) for row in given[key])
    try:
        return kind(**given)
    except TypeError:
        raise Wrong(f"that is no edit of the kind {data['kind']}") from None


def told(edit: Edit, start: int = 0) -> str:
    """An edit in words, for the list of what changed, in a run that begins at a time of day."""
    if isinstance(edit, SetValue):
        value = NONE if edit.value is None else edit.value
        return f"{edit.key} of {edit.section} {edit.name}: {value}"
    if isinstance(edit, AddRow):
        return f"{edit.section} {edit.row.get('name')} added"
    if isinstance(edit, TakeAway):
        return f"{edit.section} {edit.name} taken away"
    if isinstance(edit, TakeOver):
        number = len(edit.priorities)
        return f"{edit.by}: {number:,} priorit{'y' if number == 1 else 'ies'} changed"
    if isinstance(edit, TakeText):
        return f"{edit.by} taken"
    if isinstance(edit, AddEvents):
        words = [" ".join(filter(None, row)) for row in edit.rows[:1]]
        return f"at {clock(edit.at, start)} {edit.by or ''.join(words)}"
    return "all events dropped" if isinstance(edit, DropEvents) else f"event {edit.number + 1} dropped"


def wrong_value(section: str, key: str, value: object, option: str) -> str | None:
    """What is wrong with a value of a key, if anything is."""
    if key not in KEYS[section]:
        return f"{ARTICLES[section]} {section} has no key {key}"
    if KEYS[section][key] == NUMBER:
        wrong = tables.wrong_number(key, str(value)) if type(value) is int or key in LIMITS else None
        return f"{key} {value}, {wrong}" if wrong else None if type(value) is int else f"{key} is a number"
    if not isinstance(value, str):
        return f"{key} is a text"
    if key in LEVEL_KEYS:
        wrong = tables.wrong_level(key, value, option)
        return f"{key} {value!r}, {wrong}" if wrong else None
    wrong = tables.wrong_name(value)
    return f"{key} {value!r}, {wrong}" if wrong else None


def names_in(plan: Plan, section: str) -> list[str]:
    """The names of a section of a plan."""
    rows: dict[str, Sequence[Element | Link | Source]] = {
        "element": plan.elements,
        "link": plan.links,
        "source": plan.sources,
    }
    return [row.name for row in rows[section]]


def known(plan: Plan, section: str, name: str) -> None:
    """Raises Wrong where a section has no row of this name."""
    names = names_in(plan, section) if section in KEYS and section != "head" else []
    if name not in names:
        raise Wrong(f"there is no {section} {name!r}{documents.hint(name, names)}")


def may_set(plan: Plan, edit: SetValue) -> None:
    """Raises Wrong where a value can't be set."""
    known(plan, edit.section, edit.name)
    if edit.key in FIXED:
        raise Wrong(f"the {edit.key} of {ARTICLES[edit.section]} {edit.section} stays: take it away and add another")
    if edit.value is None:
        if edit.key not in KEYS[edit.section] or edit.key in MUST[edit.section]:
            raise Wrong(f"the {edit.key} of {ARTICLES[edit.section]} {edit.section} can't be left out")
    elif wrong := wrong_value(edit.section, edit.key, edit.value, plan.option):
        raise Wrong(wrong)


def may_add(plan: Plan, edit: AddRow) -> None:
    """Raises Wrong where a row can't be added: a part of it is missing or wrong, its name is there, or its end names no element."""
    section, row = edit.section, edit.row
    if section not in KEYS or section == "head":
        raise Wrong(f"a plan has no section {section!r}")
    for key in MUST[section]:
        if key not in row:
            raise Wrong(f"{ARTICLES[section]} {section} has to have its {key}")
    for key, value in row.items():
        if wrong := wrong_value(section, key, value, plan.option):
            raise Wrong(wrong)
    others = ("link", "source") if section != "element" else ("element",)
    for other in others:
        if row["name"] in names_in(plan, other):
            raise Wrong(f"{row['name']} is the name of {ARTICLES[other]} {other} already; choose another name")
    for key in ("a", "b", "at"):
        if key in row:
            known(plan, "element", str(row[key]))
    if section == "link" and row["a"] == row["b"]:
        raise Wrong(f"link {row['name']} would join {row['a']} with itself; choose another end")


def targets_of(plan: Plan, what: str) -> set[str]:
    """The names of which a word of an event list is said."""
    sources = {source.name for source in plan.sources}
    if what == "level":
        return sources
    if what == "clear":
        return set(plan.names())
    lines = {line.name for line in plan.lines()}
    if what in OF_LINES:
        return lines
    return lines | sources | ({link.name for link in plan.links} if what in BOTH else set())


def may_happen(plan: Plan, edit: AddEvents) -> None:
    """Raises Wrong where events can't be added; a run has at most a day."""
    if not 0 <= edit.at <= 86_400_000:
        raise Wrong(f"{edit.at} ms is outside a day: 0 to 86400000")
    if not edit.rows:
        raise Wrong("there is nothing that could fail with it")
    for what, target, value in edit.rows:
        if what not in WORDS:
            raise Wrong(f"{what!r} is no word of an event list{documents.hint(what, WORDS)}")
        names = targets_of(plan, what)
        if target not in names:
            raise Wrong(f"{what} is said of nothing that is called {target!r}{documents.hint(target, sorted(names))}")
        if what == "level" and value not in levels.LEVELS[plan.option]:
            raise Wrong(f"{value!r} is no level of option {plan.option}")
        if what != "level" and value:
            raise Wrong(f"{what} has no value")


def may_take_over(plan: Plan, edit: TakeOver) -> None:
    """Raises Wrong where priorities aren't those of the plan's lines and sources, or out of their limits."""
    names = {line.name for line in plan.lines()} | {source.name for source in plan.sources}
    for name, priority in edit.priorities.items():
        if name not in names:
            raise Wrong(f"there is no line or source {name!r}")
        if wrong := tables.wrong_number("priority", str(priority)):
            raise Wrong(f"priority {priority}, {wrong}")


def may_be(plan: Plan, events: int, edit: Edit) -> None:
    """Raises Wrong where an edit can't be made on a plan and so many events; what the plan then is, the program decides."""
    if isinstance(edit, SetValue):
        may_set(plan, edit)
    elif isinstance(edit, AddRow):
        may_add(plan, edit)
    elif isinstance(edit, TakeAway):
        known(plan, edit.section, edit.name)
    elif isinstance(edit, TakeOver):
        may_take_over(plan, edit)
    elif isinstance(edit, AddEvents):
        may_happen(plan, edit)
    elif isinstance(edit, DropEvent) and not 0 <= edit.number < events:
        raise Wrong(f"there is no event {edit.number + 1}: there are {plural(events, 'event')}")


def parts_of(plan: Plan, section: str, name: str) -> list[tuple[str, str]]:
    """What goes with a row: an element's links and sources, and itself."""
    if section != "element":
        return [(section, name)]
    links = [("link", link.name) for link in plan.links if name in (link.a, link.b)]
    sources = [("source", source.name) for source in plan.sources if source.at == name]
    return [("element", name), *links, *sources]
