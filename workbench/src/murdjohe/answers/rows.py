"""The rows of what the program writes: read as `core.row_tables` has them, and no other column and no other word is taken."""

from __future__ import annotations

from collections.abc import Callable, Iterable
from functools import cache
from typing import Any, TypeVar

from murdjohe.core.levels import LEVELS
from murdjohe.core.row_columns import DIGITS, IS, LEVEL, NUMBER, WORD, Column, RowFault as RowFault, Table

RowT = TypeVar("RowT")
Reader = Callable[[str], Any]
CODES = tuple(f"code-{number}" for number in range(16))
KNOWN_LEVELS = {name: name for names in LEVELS.values() for name in names}
HEXADECIMAL = frozenset("0123456789abcdef")


def number_of(field: str) -> int:
    """A number as the program writes it. Raises ValueError."""
    if not (field.isascii() and field.isdigit()):
        raise ValueError
    return int(field)


def digits_of(field: str) -> str:
    """Hexadecimal digits. Raises ValueError."""
    if not field or not HEXADECIMAL.issuperset(field):
        raise ValueError
    return field


def name_of(field: str) -> str:
    """The name of something. Raises ValueError."""
    if not field:
        raise ValueError
    return field


@cache
def reader_of(column: Column) -> Reader:
    """What reads a field of a column. It raises KeyError or ValueError for what the column doesn't hold."""
    known: dict[str, Any] = {} if column.none is None else {column.none: None}
    if column.kind in (WORD, IS, LEVEL):
        words = {word: word for word in column.words} if column.kind == WORD else KNOWN_LEVELS
        known |= {word: place == 0 for place, word in enumerate(column.words)} if column.kind == IS else words
        known |= {code: code for code in CODES} if column.is_any_code else {}
        return known.__getitem__
    plain: Reader = {NUMBER: number_of, DIGITS: digits_of}.get(column.kind, name_of)
    return plain if column.none is None else lambda field: None if field == column.none else plain(field)


@cache
def columns_of(table: Table, form: str, width: int) -> tuple[tuple[str, Reader], ...] | None:
    """The columns of a row of so many fields with what reads them; None where no row has so many."""
    there = table.columns_in(form)
    if width == len(there):
        return tuple((column.name, reader_of(column)) for column in there)
    if width in table.widths_in(form):
        return tuple((column.name, reader_of(column)) for column in there if not column.may_lack)
    return None


def fault_of(table: Table, form: str, line: str) -> RowFault:
    """What is wrong with a row."""
    fields, there = line.split(","), table.columns_in(form)
    if columns_of(table, form, len(fields)) is None:
        known = ",".join(column.head for column in there)
        return RowFault(f"`{line[:100]}` has {len(fields)} fields, where a row of {table.name} has {known}")
    for column, field in zip(there, fields):
        try:
            reader_of(column)(field)
        except (KeyError, ValueError):
            wanted = f"one of {', '.join(column.words)}" if column.words else f"a {column.kind}"
            return RowFault(f"`{line[:100]}`: {column.head} is `{field[:40]}`, where {table.name} have {wanted}")
    return RowFault(f"`{line[:100]}` is no row of {table.name}")


def row_of(kind: type[RowT], table: Table, form: str, line: str) -> RowT:
    """A row as a dataclass. Raises RowFault."""
    fields = line.split(",")
    columns = columns_of(table, form, len(fields))
    if columns is None:
        raise fault_of(table, form, line)
    try:
        values = {name: read(field) for (name, read), field in zip(columns, fields)}
    except (KeyError, ValueError):
        raise fault_of(table, form, line) from None
    for column in table.columns if len(values) < len(table.columns) else ():
        if not column.is_in(form) and not column.only_in:
            values[column.name] = None
    return kind(**values)


def read_rows(kind: type[RowT], table: Table, form: str, lines: Iterable[str]) -> tuple[RowT, ...]:
    """Rows as dataclasses. Raises RowFault."""
    return tuple(row_of(kind, table, form, line) for line in lines)


def headed_rows(kind: type[RowT], table: Table, form: str, text: str) -> tuple[RowT, ...]:
    """The rows of a table that begins with the names of its columns. Raises RowFault, also where these are others."""
    header, *lines = text.splitlines() or [""]
    if header != table.header:
        raise RowFault(f"the columns are `{header[:200]}`, where {table.name} have `{table.header}`")
    return read_rows(kind, table, form, lines)


def parts_of(lines: list[str], tables: tuple[str, ...]) -> dict[str, list[str]]:
    """The lines of each part of a text, by the lines that the parts begin with, in this order. Raises RowFault."""
    places = [lines.index(name) if name in lines else -1 for name in tables]
    if -1 in places or places != sorted(places) or places[:1] != [0]:
        raise RowFault(f"it hasn't the parts {', '.join(tables)} in this order")
    ends = [*places[1:], len(lines)]
    return {name: lines[begin + 1 : end] for name, begin, end in zip(tables, places, ends)}
