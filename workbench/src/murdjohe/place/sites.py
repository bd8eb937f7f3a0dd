"""Candidate sites for clocks and filters, as tables: an element with what a clock there costs, and the level that it would have.

    element,cost,level          element,cost
    Berlin,40,QL-PRTC           Erfurt,3

A cost is a number of any unit, 0 where a clock stands already. All mistakes of a table are told at once.
"""

from __future__ import annotations

import re
from dataclasses import dataclass
from decimal import Decimal

from murdjohe.core import documents, files, levels
from murdjohe.core.inputs import STDIN
from murdjohe.plan import table_reader
from murdjohe.plan.mistakes import Mistakes
from murdjohe.plan.model import Plan
from murdjohe.plan.table_reader import Columns, Row

COST = re.compile(r"\d{1,12}(\.\d{1,6})?")
SITES = Columns(("element", "cost", "level"), ())
FILTERS = Columns(("element", "cost"), ())


@dataclass(frozen=True)
class Site:
    """A candidate: its element, what it costs there, and its level; a filter has the level of a filtering clock."""

    element: str
    cost: Decimal
    level: str


def level_of(row: Row, option: str) -> tuple[str, str | None]:
    """The level of a row, and what is wrong with it, if anything is."""
    word = row.fields.get("level", "")
    known = levels.LEVELS[option]
    if word in known[:-1]:
        return word, None
    if word == known[-1]:
        return word, f"the level {word!r} is that of a source that no element may use; give the level of the clock"
    likely = levels.likely(word, option)
    hint = f"; write {likely!r}" if likely else f"; the levels of option {option} are {', '.join(known[:-1])}"
    return word, f"{word!r} is no level of option {option}{hint}"


def site_of(row: Row, option: str, level: str | None, names: tuple[str, ...]) -> tuple[Site, list[str]]:
    """The site of a row, and its mistakes."""
    element, cost = row.fields.get("element", ""), row.fields.get("cost", "")
    wrong = []
    if element not in names:
        wrong.append(f"{element!r} names no element of the plan{documents.hint(element, names)}")
    if not COST.fullmatch(cost):
        wrong.append(f"{cost!r} is no cost; write a number from 0 on, as 12 or 2.5")
        cost = "0"
    if level is None:
        level, fault = level_of(row, option)
        wrong += [fault] if fault else []
    return Site(element, Decimal(cost), level), wrong


def read(path: str, network: Plan, columns: Columns, level: str | None = None) -> tuple[Site, ...]:
    """The candidates of a table, of this level where it has no column for one. Raises Wrong."""
    name = "standard input" if path == STDIN else path
    option = network.option
    names = tuple(element.name for element in network.elements)
    mistakes = Mistakes()
    table = table_reader.read(name, files.text(path), columns, {}, mistakes)
    found: dict[str, Site] = {}
    for row in table.rows:
        site, wrong = site_of(row, option, level, names)
        if site.element in found:
            wrong.append(f"{site.element!r} stands there twice; leave one of the rows out")
        for what in wrong:
            mistakes.add(name, row.line, what)
        found[site.element] = site
    if not table.rows and not mistakes.found:
        mistakes.add(name, 1, f"it has no row; write one for each candidate: {','.join(columns.needed)}")
    mistakes.end()
    return tuple(found.values())
