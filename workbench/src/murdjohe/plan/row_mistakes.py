"""All mistakes in the rows of a plan that the program refused for the first of them, each with its line, column and value."""

from __future__ import annotations

from dataclasses import dataclass

from murdjohe.plan.mistakes import Mistakes
from murdjohe.plan.plan_lines import SECTIONS, PlanLines
from murdjohe.plan.table_reader import Row, Table
from murdjohe.plan.tables import Reading, Settings

# The refusals before which all tables have their keys and kinds: of names, elements, numbers, levels and bundles.
OF_ROWS = frozenset((16, 17, 18, 19, 20, 21, 39))


@dataclass(frozen=True)
class PlanRow(Row):
    """A row of a plan, with its number from 1 on; its line is that of its name."""

    number: int = 0


class PlanReading(Reading):
    """A plan's rows as tables, whose mistakes have the lines of the plan's keys."""

    rename_hint = ""

    def __init__(self, plan: PlanLines) -> None:
        super().__init__(Settings(plan.option))
        self.plan = plan
        for kind in SECTIONS:
            rows: list[Row] = []
            for number, row in enumerate(plan.rows(kind), start=1):
                fields = {key: str(value) for key, value in row.items()}
                rows.append(PlanRow(plan.line(kind, number, "name") or 1, fields, number=number))
            self.tables[kind] = Table(plan.document.name, rows=rows)

    def wrong(self, table: Table, row: Row, column: str, what: str) -> None:
        """Adds a mistake at a key, with its line."""
        kind = next(kind for kind, one in self.tables.items() if one is table)
        number = row.number if isinstance(row, PlanRow) else 0
        line = self.plan.line(kind, number, column) or row.line
        self.mistakes.add(table.path, line, f"{column} is {row.fields.get(column, '')!r}, {what}")


def mistakes_of(plan: PlanLines) -> Mistakes:
    """The mistakes of a plan whose tables have their keys, with values of their kinds."""
    reading = PlanReading(plan)
    reading.check_fields()
    reading.check_names()
    reading.check_ends()
    reading.check_bundles()
    return reading.mistakes
