"""Edits of numbers in a plan that leave every other octet alone: a value that stands there is replaced, a key that doesn't is added."""

from __future__ import annotations

import re
from dataclasses import dataclass
from typing import Any

from murdjohe.core import toml_reader
from murdjohe.core.faults import Wrong
from murdjohe.core.toml_reader import STRINGS
from murdjohe.plan.plan_lines import PlanLines

MARK = b"\xef\xbb\xbf"
NUMBER = re.compile(r"[+-]?[0-9A-Za-z_]+")
BLANKS = re.compile(r"[ \t]*")
# After which keys a new one is written: after the first of these that stands there.
ANCHORS = {
    "priority_a": ("b", "a", "name"),
    "priority_b": ("priority_a", "b", "a", "name"),
    "priority": ("level", "at", "name"),
}
# What a number of a plan is to be: by section, row (from 1 on) and key.
Wanted = dict[tuple[str, int, str], int]


@dataclass(frozen=True)
class Edit:
    """That a part of a text, by its places, becomes another text."""

    start: int
    end: int
    text: str


def value_of(plan: PlanLines, section: str, number: int, key: str) -> tuple[int, int] | None:
    """Where the value of a key begins and ends in the text, however the key is spelled; None where it doesn't stand there."""
    region = plan.region(section, number)
    if region is None:
        return None
    own = re.compile(rf"(?:^|[{{,])\s*(?:{key}|\"{key}\"|'{key}')[ \t]*(=)[ \t]*", re.M)
    for found in own.finditer(plan.text, *region):
        if plan.masked[found.start(1)] == "=":
            value = STRINGS.match(plan.text, found.end()) or NUMBER.match(plan.text, found.end())
            return value.span() if value else None
    return None


def behind(text: str, span: tuple[int, int], line: str) -> Edit:
    """The edit that adds a line behind that of a value, with the same blanks before it and the same end."""
    blanks = BLANKS.match(text, text.rfind("\n", 0, span[0]) + 1)
    line = f"{blanks[0] if blanks else ''}{line}"
    end = text.find("\n", span[1])
    if end < 0:
        return Edit(len(text), len(text), f"\n{line}")
    return Edit(end + 1, end + 1, line + ("\r\n" if text[end - 1] == "\r" else "\n"))


def added(plan: PlanLines, section: str, number: int, key: str, value: int) -> Edit:
    """The edit that adds a key to a row. Raises Wrong where there is no place to be found."""
    region = plan.region(section, number)
    for anchor in ANCHORS[key] if region else ():
        span = value_of(plan, section, number, anchor)
        if span is None or region is None:
            continue
        if plan.text[region[0]] == "{":
            return Edit(span[1], span[1], f", {key} = {value}")
        return behind(plan.text, span, f"{key} = {value}")
    raise Wrong(f"{plan.document.name}: {section} number {number}: no place is found for the key {key}; write it there")


def edit_of(plan: PlanLines, section: str, number: int, key: str, value: int) -> Edit:
    """The edit after which a key of a row has this value. Raises Wrong."""
    span = value_of(plan, section, number, key)
    return added(plan, section, number, key, value) if span is None else Edit(*span, str(value))


def after(plan: PlanLines, edits: list[Edit]) -> str:
    """The text with the edits, which touch one another nowhere."""
    pieces, place = [], 0
    for edit in sorted(edits, key=lambda edit: (edit.start, edit.end)):
        pieces += [plan.text[place : edit.start], edit.text]
        place = edit.end
    return "".join([*pieces, plan.text[place:]])


def is_meant(plan: PlanLines, text: str, wanted: Wanted) -> bool:
    """Whether the text says what the plan said, but for what is wanted."""
    meant: dict[str, Any] = {
        key: [dict(row) for row in value] if isinstance(value, list) else value for key, value in plan.tables.items()
    }
    for (section, number, key), value in wanted.items():
        meant[section][number - 1][key] = value
    try:
        return toml_reader.tables(text) == meant
    except (ValueError, RecursionError):
        return False


def changed(plan: PlanLines, wanted: Wanted) -> bytes:
    """The octets of the plan with these numbers. What they say is read again; Wrong where it isn't what was meant."""
    text = after(plan, [edit_of(plan, *place, value) for place, value in wanted.items()])
    if not is_meant(plan, text, wanted):
        raise Wrong(f"{plan.document.name}: its rows are spelled in a way that can't be edited; spell each as [[link]]")
    return (MARK if plan.document.data.startswith(MARK) else b"") + text.encode()
