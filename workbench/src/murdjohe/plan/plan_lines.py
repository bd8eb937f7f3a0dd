"""A plan with the lines of its file: where each row and each key of it stands."""

from __future__ import annotations

import re
import tomllib
from bisect import bisect_left
from functools import cached_property

from murdjohe.core import toml_reader
from murdjohe.core.documents import Document
from murdjohe.plan import model
from murdjohe.plan.model import Plan

TYPE_CHECKING = False
if TYPE_CHECKING:
    from collections.abc import Iterator
    from typing import Any

SECTIONS = ("element", "link", "source")
TEXT, NUMBER = "text", "number"
# The keys of each section with their kind; `MUST` are those that a row must have.
KEYS = {
    "head": {"version": NUMBER, "option": TEXT, "element": "array", "link": "array", "source": "array"},
    "element": {"name": TEXT, "own": TEXT, "floor": TEXT, "holdoff": NUMBER, "wtr": NUMBER},
    "link": {
        **dict.fromkeys(("name", "a", "b"), TEXT),
        **dict.fromkeys(("priority_a", "priority_b", "delay_a", "delay_b"), NUMBER),
        "bundle": TEXT,
    },
    "source": {"name": TEXT, "at": TEXT, "level": TEXT, "priority": NUMBER},
}
MUST = {"head": (), "element": ("name",), "link": ("name", "a", "b"), "source": ("name", "at", "level")}
# The limits of numbers: least, greatest, and what they are, as it follows these.
LIMITS = {
    "holdoff": (300, 1800, " milliseconds"),
    "wtr": (0, 12, " minutes"),
    **dict.fromkeys(("priority", "priority_a", "priority_b"), (0, 255, ", where 0 is not nominated")),
    **dict.fromkeys(("delay_a", "delay_b"), (1, 2000, " milliseconds")),
}
ROWS = {"element": 100_000, "link": 200_000, "source": 100_000}
INPUTS = 64  # nominated inputs that an element may have


class PlanLines:
    """A plan's text, what Python's reader makes of it, and where its rows are."""

    def __init__(self, document: Document) -> None:
        self.document = document
        self.text = document.text
        self.fault: str | None = None
        self.tables: dict[str, Any] = {}
        try:
            self.tables = toml_reader.tables(self.text)
        except (tomllib.TOMLDecodeError, RecursionError) as fault:
            self.fault = str(fault)

    @cached_property
    def masked(self) -> str:
        """The text with blanks in place of strings and comments."""
        return toml_reader.masked(self.text)

    @cached_property
    def regions(self) -> dict[str, list[tuple[int, int]]]:
        """Where each row of each section begins and ends in the text."""
        return {section: list(self._regions(section)) for section in SECTIONS}

    def _regions(self, section: str) -> Iterator[tuple[int, int]]:
        """Where each row of a section begins and ends in the text."""
        heads = [found.start() for found in re.finditer(r"^[ \t]*\[", self.masked, re.M)]
        ends = dict(zip(heads, heads[1:] + [len(self.text)]))
        own = rf"^[ \t]*\[\[[ \t]*{section}[ \t]*\]\]"
        rows = [found.start() for found in re.finditer(own, self.masked, re.M)]
        if rows:
            yield from ((start, ends[start]) for start in rows)
        elif array := re.search(rf"^[ \t]*{section}[ \t]*=[ \t]*\[", self.masked, re.M):
            yield from self._inline(array.end())

    def _inline(self, start: int) -> Iterator[tuple[int, int]]:
        """Where each table of an array begins and ends that is written in one value from this place on."""
        depth, begin = 0, start
        for found in re.finditer(r"[][{}]", self.masked[start:]):
            place = start + found.start()
            if found[0] in "{[":
                depth += 1
                begin = place if depth == 1 else begin
            elif depth == 0:
                return
            else:
                depth -= 1
                if depth == 0:
                    yield begin, place + 1

    @cached_property
    def feeds(self) -> list[int]:
        """Where each line of the text ends."""
        return [found.start() for found in re.finditer("\n", self.text)]

    def line_at(self, place: int) -> int:
        """The line on which a place of the text is, from 1 on."""
        return bisect_left(self.feeds, place) + 1

    def row(self, section: str, number: int) -> dict[str, Any]:
        """The row as a table, an empty one where there is no such table; the head for `head`."""
        if section == "head":
            return self.tables
        rows = self.tables.get(section)
        row = rows[number - 1] if isinstance(rows, list) and 0 < number <= len(rows) else None
        return row if isinstance(row, dict) else {}

    def rows(self, section: str) -> list[dict[str, Any]]:
        """All rows of a section that are tables."""
        rows = self.tables.get(section)
        return [row for row in rows if isinstance(row, dict)] if isinstance(rows, list) else []

    def names(self, section: str) -> list[str]:
        return [row["name"] for row in self.rows(section) if isinstance(row.get("name"), str)]

    def region(self, section: str, number: int) -> tuple[int, int] | None:
        """Where a row begins and ends in the text; the head ends where the first row begins."""
        if section == "head":
            first = re.search(r"^[ \t]*\[", self.masked, re.M)
            return 0, first.start() if first else len(self.text)
        regions = self.regions.get(section, [])
        return regions[number - 1] if 0 < number <= len(regions) else None

    def line(self, section: str, number: int, *keys: str) -> int | None:
        """The line of the first of these keys that stands in a row; without one the line on which the row begins."""
        region = self.region(section, number)
        if region is None:
            return None
        start, end = region
        for key in keys:
            own = rf"(?:^|[{{,])[ \t]*({re.escape(key)})[ \t]*="
            if found := re.search(own, self.masked[start:end], re.M):
                return self.line_at(start + found.start(1))
        return None if section == "head" else self.line_at(start)

    def line_of_table(self, name: str) -> int | None:
        """The line of a head such as `[name]` or `[[name]]`, or of a key of this name at the head."""
        own = rf"^[ \t]*(?:\[+[ \t]*{re.escape(name)}\b|{re.escape(name)}[ \t]*=)"
        found = re.search(own, self.masked, re.M)
        return self.line_at(found.start()) if found else None

    @property
    def option(self) -> str:
        """The network option; I where the plan names none of the two."""
        return "II" if self.tables.get("option") == "II" else "I"

    @cached_property
    def network(self) -> Plan:
        """The plan as the field has it; of one that the program took, whose rows have what they must."""
        return model.plan_of(self.tables)

    def lines_of(self) -> dict[str, tuple[int, str]]:
        """Each line of the plan, as `L1>B`, with the number of its link and the end into which it leads."""
        found = {}
        for number, link in enumerate(self.rows("link"), start=1):
            for end in "ba":
                found[f"{link.get('name')}>{link.get(end)}"] = (number, end)
        return found
