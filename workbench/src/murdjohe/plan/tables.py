"""Tables of elements, links and sources, as inventories give them, and the plan that they become.

All mistakes are found at once, so that they can be mended in one round. Whether it is a plan, the program decides after that.
"""

from __future__ import annotations

import json
import re
import unicodedata
from dataclasses import dataclass, field

from murdjohe.core import documents, files, levels
from murdjohe.core.faults import Wrong, unusable
from murdjohe.core.inputs import STDIN
from murdjohe.plan import plan_lines, table_reader
from murdjohe.plan.mistakes import Mistakes
from murdjohe.plan.model import Plan
from murdjohe.plan.side_table import Cell
from murdjohe.plan.table_reader import Columns, Row, Table

LINK_NUMBERS = ("priority_a", "priority_b", "delay_a", "delay_b")
# For each table the columns that it must have, and those that may be missing.
TABLES = {
    "element": Columns(("name",), ("own", "holdoff", "wtr", "floor")),
    "link": Columns(("name", "a", "b"), (*LINK_NUMBERS, "bundle", "duct", "port_a", "port_b")),
    "source": Columns(("name", "at", "level"), ("priority", "port")),
}
NUMBERS = frozenset(plan_lines.LIMITS)
LEVELS = ("own", "floor", "level")
NAMED = {"element": ("name",), "link": ("name", "bundle"), "source": ("name",)}
DUCT, BETWEEN = "duct", ";"  # the column of a link's ducts, and what stands between several
PORTS = ("port_a", "port_b", "port")  # columns that go into the table beside the plan
NAME = re.compile(r"[A-Za-z0-9_-]{1,32}")
LONGEST_NAME = 32
SPREADSHEET = "windows-1252"  # what spreadsheets write that aren't asked for UTF-8
RULE = "a name is 1 to 32 of A-Z a-z 0-9 _ -"


@dataclass
class Settings:
    """How tables are read: the option, other headers, and whether headers may be unknown, or are kept, and names be changed.

    `headers` has the column for each plain header, by the kind of table. `is_netbox` takes NetBox's own headers.
    """

    option: str = "I"
    headers: dict[str, dict[str, str]] = field(default_factory=dict)
    ignores_extra: bool = False
    renames: bool = False
    is_netbox: bool = False
    keeps_extra: bool = False
    encoding: str | None = None


@dataclass
class Made:
    """What became of the tables: the plan, the names that were changed (kind, old, new), the headers left out, the links of each
    duct, None where no column says any, and the cells of the table beside the plan."""

    plan: str
    renamed: list[tuple[str, str, str]]
    ignored: list[str]
    ducts: dict[str, list[str]] | None = None
    cells: list[Cell] = field(default_factory=list)


def mapping_of(pairs: list[str]) -> dict[str, dict[str, str]]:
    """What `[TABLE.]COLUMN=HEADER` says, as the column of each plain header by table. Raises Wrong."""
    found: dict[str, dict[str, str]] = {kind: {} for kind in TABLES}
    for pair in pairs:
        target, sign, header = pair.partition("=")
        kind, dot, column = target.rpartition(".")
        kinds = [one for one in TABLES if kind in ("", one, f"{one}s") and column in TABLES[one].all]
        if not sign or not header.strip() or not kinds:
            known = ", ".join(dict.fromkeys(name for columns in TABLES.values() for name in columns.all))
            raise Wrong(f"--map {pair}: it has to be COLUMN=HEADER, or link.COLUMN=HEADER; the columns are {known}")
        for one in kinds:
            found[one][table_reader.plain(header)] = column
    return found


def legal(name: str) -> str:
    """A name that a plan can have, as near to this one as can be."""
    bare = unicodedata.normalize("NFKD", name.strip())
    letters = "".join(sign for sign in bare if not unicodedata.combining(sign))
    return re.sub(r"[^A-Za-z0-9_-]", "-", letters)[:LONGEST_NAME] or "N1"


def new_names(names: list[str]) -> dict[str, str]:
    """For each name that a plan can't have one that it can: none is given twice, and none that stands there already."""
    found: dict[str, str] = {}
    taken = {name for name in names if NAME.fullmatch(name)}
    for name in names:
        if name in found or name in taken:
            continue
        new, number = legal(name), 1
        while new in taken:
            number += 1
            new = f"{legal(name)[: LONGEST_NAME - 1 - len(str(number))]}-{number}"
        taken.add(new)
        found[name] = new
    return found


def looks_like(kind: str, table: Table) -> str:
    """The kind of table whose columns this one has, of several the kind that needs most; `kind` where it is none."""
    fits = [one for one in TABLES if {*TABLES[one].needed} <= {*table.headers, *map(table_reader.plain, table.extra)}]
    return max(fits, key=lambda one: len(TABLES[one].needed), default=kind)


def wrong_name(value: str) -> str | None:
    """What is wrong with a name."""
    if NAME.fullmatch(value):
        return None
    return f"which no plan can have: {RULE}, as {legal(value)!r}"


def wrong_number(column: str, value: str) -> str | None:
    """What is wrong with a number: that it is none, or outside its limits."""
    least, greatest, unit = plan_lines.LIMITS[column]
    digits = value.removeprefix("-")
    right = f"it has to be {least} to {greatest}{unit}"
    if not (digits.isascii() and digits.isdigit() and len(digits) < LONGEST_NAME):
        return f"which is no whole number; {right}"
    return None if least <= int(value) <= greatest else f"which is outside its limits; {right}"


def wrong_level(column: str, value: str, option: str) -> str | None:
    """What is wrong with a level: that the option doesn't have it, or that it is do-not-use where that can't be."""
    right = levels.LEVELS[option] if column == "level" else levels.LEVELS[option][:-1]
    if value in right:
        return None
    likely = levels.likely(value, option)
    hint = f' (nearest: "{likely}")' if likely in right else documents.hint(value, right)
    what = "is do-not-use" if value == levels.LEVELS[option][-1] else f"is no level of option {option}"
    return f"which {what}{hint}; the levels are {', '.join(right)}"


def ducts_of(row: Row) -> list[str]:
    """The ducts in which a link lies."""
    return [name.strip() for name in row.fields.get(DUCT, "").split(BETWEEN) if name.strip()]


def wrong_ducts(row: Row, hint: str) -> str | None:
    """What is wrong with the ducts of a link."""
    names = ducts_of(row)
    for name in names:
        if wrong := wrong_name(name):
            return f"{wrong} for {name!r}{hint}; several stand with semicolons between them"
        if names.count(name) > 1:
            return f"which has {name!r} twice; leave one of them out"
    return None


class Reading:
    """Tables on their way to a plan, with the mistakes so far."""

    rename_hint = "; --rename gives such names"

    def __init__(self, settings: Settings) -> None:
        self.settings = settings
        self.mistakes = Mistakes()
        self.tables: dict[str, Table] = {}
        self.renamed: list[tuple[str, str, str]] = []

    def take(self, kind: str, path: str) -> None:
        """Reads one table."""
        from murdjohe.plan import netbox

        columns, headers = TABLES[kind], self.settings.headers.get(kind, {})
        text = self.text_of(path)
        path = "standard input" if path == STDIN else path
        if self.settings.is_netbox and kind in netbox.COLUMNS:
            table = netbox.read(kind, path, text, headers, self.mistakes)
        else:
            table = table_reader.read(path, text, columns, headers, self.mistakes)
        self.tables[kind] = table
        if table.extra and not (self.settings.ignores_extra or self.settings.keeps_extra or self.settings.is_netbox):
            for name in table.extra:
                hint = documents.hint(name, columns.all, 0.6)
                right = f"the columns are {', '.join(columns.all)}; --map names one, --keep-extra keeps it beside the plan, --ignore-extra ignores it"
                self.mistakes.add(path, 1, f"there is no column {name!r} in a table of {kind}s{hint}; {right}")
        if kind == "element" and not table.rows and not self.mistakes.found:
            self.mistakes.add(path, 1, "there is no element below the header; write a row for each")

    def text_of(self, path: str) -> str:
        """The text of a table. Raises Wrong, with a remedy where it may be in a spreadsheet's own encoding."""
        try:
            return files.text(path, self.settings.encoding)
        except Wrong as wrong:
            if self.settings.encoding is None and "UTF-8" in str(wrong):
                raise unusable(
                    *wrong.lines[:-1], f"{wrong.lines[-1]}, or name its encoding: --encoding {SPREADSHEET}"
                ) from None
            raise

    def swapped(self) -> None:
        """Raises Wrong where the tables have one another's columns: words that were swapped."""
        looks = {kind: looks_like(kind, table) for kind, table in self.tables.items()}
        wrong = {self.tables[kind].path: (like, kind) for kind, like in looks.items() if like != kind}
        if wrong and sorted(looks) == sorted(looks.values()):
            said = "it has the columns of a table of {}s, and is named where one of {}s is read"
            lines = (f"{path}: {said.format(*kinds)}" for path, kinds in wrong.items())
            raise unusable(*lines, "are the tables swapped? Their order is ELEMENTS LINKS SOURCES")

    def wrong(self, table: Table, row: Row, column: str, what: str) -> None:
        """Adds a mistake in a field, with the header, and the value where there is one."""
        header = table.headers.get(column, column)
        value = row.fields.get(column)
        self.mistakes.add(table.path, row.line, f"{header} is {repr(value) if value else 'empty'}, {what}")

    def rename(self) -> None:
        """Gives names that a plan can have, in all tables."""
        spaces: dict[str, list[tuple[str, str]]] = {
            "element": [("element", "name"), ("link", "a"), ("link", "b"), ("source", "at")],
            "link or source": [("link", "name"), ("source", "name")],
            "bundle": [("link", "bundle")],
        }
        for what, places in spaces.items():
            cells = [
                (row.fields, column)
                for kind, column in places
                for row in (self.tables[kind].rows if kind in self.tables else [])
                if column in row.fields
            ]
            new = new_names([fields[column] for fields, column in cells])
            for fields, column in cells:
                fields[column] = new.get(fields[column], fields[column])
            self.renamed += [(what, old, name) for old, name in new.items()]
        self.rename_ducts()

    def rename_ducts(self) -> None:
        """Gives ducts names that groups can have."""
        rows = [row for row in self.tables.get("link", Table("")).rows if DUCT in row.fields]
        new = new_names([name for row in rows for name in ducts_of(row)])
        for row in rows:
            row.fields[DUCT] = BETWEEN.join(new.get(name, name) for name in ducts_of(row))
        self.renamed += [(DUCT, old, name) for old, name in new.items()]

    def check_fields(self) -> None:
        """Finds what is wrong in a field by itself."""
        for kind, table in self.tables.items():
            for row in table.rows:
                for column in TABLES[kind].needed:
                    if column not in row.fields:
                        self.wrong(table, row, column, f"and each {kind} has to have one; write it there")
                for column, value in row.fields.items():
                    what = None
                    if column in NAMED[kind] and (wrong := wrong_name(value)):
                        what = wrong + self.rename_hint
                    elif column == DUCT:
                        what = wrong_ducts(row, self.rename_hint)
                    elif column in NUMBERS:
                        what = wrong_number(column, value)
                    elif column in LEVELS:
                        what = wrong_level(column, value, self.settings.option)
                    if what:
                        self.wrong(table, row, column, what)

    def check_names(self) -> None:
        """Finds names that stand there twice: among elements, and among links and sources together."""
        for kinds in (("element",), ("link", "source")):
            seen: dict[str, str] = {}
            for table in (self.tables[kind] for kind in kinds if kind in self.tables):
                for row in table.rows:
                    name = row.fields.get("name", "")
                    if name in seen:
                        self.wrong(table, row, "name", f"as it is in {seen[name]}; choose another name")
                    elif name:
                        seen[name] = f"{table.path}:{row.line}"

    def check_ends(self) -> None:
        """Finds ends that are no elements, and links of one element to itself."""
        elements = [row.fields.get("name", "") for row in self.tables["element"].rows]
        known = set(elements)
        for kind, table in self.tables.items():
            for row in table.rows:
                for column in ("a", "b", "at"):
                    end = row.fields.get(column)
                    if end and end not in known:
                        hint = documents.hint(end, elements)
                        self.wrong(
                            table, row, column, f"which names no element{hint}; correct the name, or add the element"
                        )
                if kind == "link" and row.fields.get("a") and row.fields.get("a") == row.fields.get("b"):
                    self.wrong(table, row, "b", "as a is; a link joins two elements")

    def check_bundles(self) -> None:
        """Finds links of one bundle that don't join the same two elements."""
        first: dict[str, Row] = {}
        table = self.tables.get("link", Table(""))
        for row in table.rows:
            if bundle := row.fields.get("bundle"):
                other = first.setdefault(bundle, row)
                if {row.fields.get(end) for end in "ab"} != {other.fields.get(end) for end in "ab"}:
                    ends = f"{other.fields.get('a')} and {other.fields.get('b')}"
                    self.wrong(table, row, "bundle", f"which joins {ends} on line {other.line}; choose another bundle")

    def check_limits(self) -> None:
        """Finds tables with more rows than a plan has."""
        for kind, table in self.tables.items():
            if len(table.rows) > plan_lines.ROWS[kind]:
                line = table.rows[plan_lines.ROWS[kind]].line
                what = f"it has {len(table.rows):,} {kind}s; a plan has at most {plan_lines.ROWS[kind]:,}"
                self.mistakes.add(table.path, line, what)

    def checked(self) -> None:
        """Raises Wrong with all mistakes, where there are any."""
        if self.settings.renames:
            self.rename()
        self.check_fields()
        self.check_names()
        if self.tables["element"].is_whole:  # (an element that was left out may be the one that is meant)
            self.check_ends()
        self.check_bundles()
        self.check_limits()
        self.mistakes.end()

    def unmapped(self) -> None:
        """Finds headers of a mapping that are in no table."""
        there = {table_reader.plain(header) for table in self.tables.values() for header in table.headers.values()}
        wanted = {header for headers in self.settings.headers.values() for header in headers}
        for header in sorted(wanted - there):
            path = self.tables["element"].path
            self.mistakes.add(path, 1, f"no table has the header {header!r}, which --map names; correct its spelling")


def value_of(column: str, value: str) -> str:
    """The field as TOML: a number in its columns, text in all others."""
    return str(int(value)) if column in NUMBERS else json.dumps(value, ensure_ascii=False)


def links_of_ducts(table: Table) -> dict[str, list[str]] | None:
    """The links of each duct, in order; None where the table has no such column."""
    if DUCT not in table.headers:
        return None
    found: dict[str, list[str]] = {}
    for row in table.rows:
        for name in ducts_of(row):
            found.setdefault(name, []).append(row.fields["name"])
    return found


def cells_of(found: dict[str, Table], keeps_extra: bool) -> list[Cell]:
    """What goes into the table beside the plan: ports, and where that is asked what stands under headers that a plan hasn't."""
    return [
        (kind, row.fields["name"], column, value)
        for kind, table in found.items()
        for row in table.rows
        for column, value in (
            *((port, row.fields[port]) for port in PORTS if port in row.fields),
            *(row.others.items() if keeps_extra else ()),
        )
    ]


def plan_text(rows: dict[str, list[dict[str, str]]], option: str) -> str:
    """The plan of these rows; it is of version 2 where a link has a bundle."""
    has_bundle = any("bundle" in row for row in rows.get("link", []))
    lines = ["version = 2"] * has_bundle + [f'option = "{option}"']
    for kind, its in rows.items():
        for row in its:
            lines += ["", f"[[{kind}]]", *(f"{column} = {value_of(column, value)}" for column, value in row.items())]
    return "\n".join(lines) + "\n"


def said_by(row: dict[str, str | int | None]) -> dict[str, str]:
    """What a row says, as text."""
    return {key: str(value) for key, value in row.items() if value is not None}


def text_of(plan: Plan) -> str:
    """The text of a plan, with all that its rows say."""
    rows = {
        "element": [said_by(element._asdict()) for element in plan.elements],
        "link": [said_by(link._asdict()) for link in plan.links],
        "source": [said_by(source._asdict()) for source in plan.sources],
    }
    return plan_text(rows, plan.option)


def made_of(paths: dict[str, str], settings: Settings) -> Made:
    """The plan of these tables, by their kind. Raises Wrong with all their mistakes."""
    reading = Reading(settings)
    for kind, path in paths.items():
        reading.take(kind, path)
    reading.unmapped()
    reading.swapped()
    reading.checked()
    ducts = links_of_ducts(reading.tables["link"])
    cells = cells_of(reading.tables, settings.keeps_extra)
    for table in reading.tables.values():
        for row in table.rows:
            for column in (DUCT, *PORTS):
                row.fields.pop(column, None)
    rows = {kind: [row.fields for row in table.rows] for kind, table in reading.tables.items()}
    ignored = [f"{table.path}: {', '.join(table.extra)}" for table in reading.tables.values() if table.extra]
    left_out = [] if settings.keeps_extra else ignored
    return Made(plan_text(rows, settings.option), reading.renamed, left_out, ducts, cells)
