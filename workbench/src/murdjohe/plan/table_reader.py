"""Tables as people and spreadsheets write them: the separator by its look, any case of headers, each row with its line."""

from __future__ import annotations

import csv
import io
import re
from dataclasses import dataclass, field

from murdjohe.core import documents
from murdjohe.plan.mistakes import Mistakes

SEPARATORS = (",", ";", "\t")
EXCEL = re.compile(r"sep=(.)\r?(?:\n|\Z)", re.I)  # the line by which Excel is told the separator


@dataclass(frozen=True)
class Columns:
    """The columns that a table has to have, and those that it may have."""

    needed: tuple[str, ...]
    others: tuple[str, ...]

    @property
    def all(self) -> tuple[str, ...]:
        return self.needed + self.others


@dataclass(frozen=True)
class Row:
    """A row with the line on which it begins, from 1 on; the fields by their columns, without those that are empty, and those under
    headers that name no column."""

    line: int
    fields: dict[str, str]
    others: dict[str, str] = field(default_factory=dict)


@dataclass
class Table:
    """A table: its file, its rows, the headers that name no column, and the headers as they stand there.

    It is whole where no row had to be left out.
    """

    path: str
    is_whole: bool = True
    rows: list[Row] = field(default_factory=list)
    extra: list[str] = field(default_factory=list)
    headers: dict[str, str] = field(default_factory=dict)


def plain(header: str) -> str:
    """A header in small letters, with underscores in place of blanks and dashes."""
    return re.sub(r"[\s-]+", "_", header.strip().lower())


def separator_of(text: str) -> str:
    """The separator with which the first record has the most fields; the comma where it has one field by all."""

    def width(sign: str) -> int:
        try:
            return len(next(csv.reader(io.StringIO(text, newline=""), delimiter=sign), []))
        except csv.Error:
            return 0

    return max(SEPARATORS, key=width)


def begun(text: str) -> tuple[str, str, int]:
    """The separator, the text without Excel's line on it, and how many lines that took."""
    if found := EXCEL.match(text):
        return found[1], text[found.end() :], 1
    return separator_of(text), text, 0


def records_of(path: str, text: str, mistakes: Mistakes) -> list[tuple[int, list[str]]]:
    """The records that aren't blank, each with the line on which it begins. What is no CSV ends them with a mistake."""
    sign, rest, before = begun(text)
    reader = csv.reader(io.StringIO(rest, newline=""), delimiter=sign, strict=True)
    found, line = [], before + 1
    try:
        for record in reader:
            fields = [one.strip() for one in record]
            if any(fields):
                found.append((line, fields))
            line = before + reader.line_num + 1
    except csv.Error as fault:
        mistakes.add(path, line, f"it is no CSV: {fault}; close each quote, and double those inside a field")
    return found


def named(headers: list[str], columns: Columns, renamed: dict[str, str]) -> list[str | None]:
    """The column of each header, by a mapping of plain headers first and then by its own name; None for another header."""
    its = [plain(header) for header in headers]
    mapped = {renamed[header] for header in its if header in renamed}
    found: list[str | None] = []
    for header in its:
        own = header if header in columns.all and header not in mapped else None
        found.append(renamed.get(header, own))
    return found


def on_headers(table: Table, line: int, its: list[str | None], columns: Columns, mistakes: Mistakes) -> None:
    """The mistakes of a header: columns that are missing, and those that stand there twice."""
    for name in columns.needed:
        if name not in its:
            hint = documents.hint(name, table.extra, 0.6)
            what = f"the column {name!r} is missing{hint}"
            mistakes.add(table.path, line, f"{what}; the columns are {', '.join(columns.all)}, and --map names others")
    for name in columns.all:
        if its.count(name) > 1:
            mistakes.add(table.path, line, f"the column {name!r} stands there twice; leave one of them out")


def read(path: str, text: str, columns: Columns, renamed: dict[str, str], mistakes: Mistakes) -> Table:
    """The table of a text. Its mistakes are added to those given; what has a mistake of its own is left out."""
    table, before = Table(path), len(mistakes.found)
    records = records_of(path, text, mistakes)
    line, headers = records[0] if records else (1, [])
    its = named(headers, columns, renamed)
    table.extra = [header for header, name in zip(headers, its) if name is None and header]
    table.headers = {name: header for header, name in zip(headers, its) if name is not None}
    on_headers(table, line, its, columns, mistakes)
    if len(mistakes.found) > before:
        table.is_whole = False
        return table
    for line, fields in records[1:]:
        while len(fields) > len(its) and not fields[-1]:
            fields.pop()
        if len(fields) != len(its):
            what = f"{len(fields)} field{'s' * (len(fields) != 1)} under {len(its)} columns"
            mistakes.add(path, line, f"{what}; write a field for each column, an empty one for a default")
            table.is_whole = False
            continue
        named_fields = {name: value for name, value in zip(its, fields) if name and value}
        others = {
            header: value for header, name, value in zip(headers, its, fields) if name is None and header and value
        }
        table.rows.append(Row(line, named_fields, others))
    return table
