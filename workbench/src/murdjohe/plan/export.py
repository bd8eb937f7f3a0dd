"""The tables of a plan, as `import` takes them: a column for each key that a row has, an empty field for its default, and those of the
table beside the plan."""

from __future__ import annotations

import csv
import io
from typing import Any

from murdjohe.plan.side_table import Side
from murdjohe.plan.tables import TABLES


def table_of(tables: dict[str, Any], kind: str, side: Side) -> bytes:
    """The table of the elements, links or sources, with commas and line feeds."""
    rows = [{**side.get((kind, row["name"]), {}), **row} for row in tables.get(kind, [])]
    columns = [name for name in TABLES[kind].all if name in TABLES[kind].needed or any(name in row for row in rows)]
    columns += dict.fromkeys(name for row in rows for name in row if name not in columns)
    out = io.StringIO(newline="")
    writer = csv.DictWriter(out, columns, restval="", lineterminator="\n")
    writer.writeheader()
    writer.writerows(rows)
    return out.getvalue().encode()
