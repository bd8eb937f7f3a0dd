"""What a column of the program's answers is, and a table of such columns; which there are, `row_tables` says.

A plain start of the command reads this, so it imports nothing.
"""

from __future__ import annotations

NAME, NUMBER, LEVEL, WORD, IS, DIGITS = "name", "number", "level", "word", "is", "digits"


class RowFault(ValueError):
    """A row isn't as docs/rows.toml has it: another column, another word, or a value of another kind. The text says which."""


def rows_of(text: str) -> list[str]:
    """The rows of a table that the program took: without its header and blank lines."""
    return [line for line in text.splitlines() if line][1:]


class Column:
    """A column: its name in JSON, what the program's header calls it, what it holds, what is written where there is
    nothing, and what G.803 allows, 0 where that says nothing."""

    __slots__ = "name head kind says none words unit may_lack is_any_code not_in only_in limit".split()

    def __init__(
        self,
        name: str,
        head: str,
        kind: str,
        says: str,
        none: str | None = None,
        words: tuple[str, ...] = (),
        unit: str = "",
        may_lack: bool = False,
        is_any_code: bool = False,
        not_in: str = "",
        only_in: str = "",
        limit: int = 0,
    ) -> None:
        self.name, self.head, self.kind, self.says = name, head, kind, says
        self.none, self.words, self.unit = none, words, unit
        self.may_lack, self.is_any_code = may_lack, is_any_code
        self.not_in, self.only_in, self.limit = not_in, only_in, limit

    def is_in(self, form: str) -> bool:
        """Whether the rows of a form have the column."""
        return self.not_in != form and self.only_in in ("", form)


class Table:
    """A table: the forms that write it, what a row is of, the line before its rows where it is a part, and its columns."""

    __slots__ = ("name", "forms", "of", "part", "is_headed", "columns")

    def __init__(
        self,
        name: str,
        forms: tuple[str, ...],
        of: str,
        columns: tuple[Column, ...],
        part: str | None = None,
        is_headed: bool = False,
    ) -> None:
        self.name, self.forms, self.of = name, forms, of
        self.columns, self.part, self.is_headed = columns, part, is_headed

    @property
    def header(self) -> str:
        """The names of all columns, as the program writes them over its rows."""
        return ",".join(column.head for column in self.columns)

    def columns_in(self, form: str) -> tuple[Column, ...]:
        """The columns that the rows of a form have, those that may lack among them."""
        return tuple(column for column in self.columns if column.is_in(form))

    def widths_in(self, form: str) -> tuple[int, ...]:
        """How many fields a row of a form may have."""
        there = self.columns_in(form)
        return tuple(sorted({len(there), sum(not column.may_lack for column in there)}))

    def column(self, name: str) -> Column:
        """The column of a name."""
        return next(column for column in self.columns if column.name == name)

    def place(self, name: str) -> int:
        """Where a column stands in a row that has all, from 0 on."""
        return self.columns.index(self.column(name))
