"""NetBox's tables of devices and cables, as its list pages export them and its bulk import takes them.

A cable becomes a link: its name is its label, or `cable-` and its number where it has none or an earlier one has the same.
"""

from __future__ import annotations

from murdjohe.plan import table_reader
from murdjohe.plan.mistakes import Mistakes
from murdjohe.plan.table_reader import Columns, Row, Table

# The columns that are taken, and the headers under which NetBox has them.
COLUMNS = {"element": Columns(("name",), ()), "link": Columns(("a", "b"), ("label", "id", "duct", "port_a", "port_b"))}
HEADERS = {
    "element": {"name": "name"},
    "link": {
        "device_a": "a",
        "device_b": "b",
        "side_a_device": "a",
        "side_b_device": "b",
        "label": "label",
        "id": "id",
    },
}


def named(rows: list[Row]) -> list[Row]:
    """The cables with names that differ."""
    found, seen = [], set()
    for number, row in enumerate(rows, start=1):
        fields = dict(row.fields)
        label, own = fields.pop("label", ""), f"cable-{fields.pop('id', number)}"
        name = label if label and label not in seen else own
        seen.add(name)
        found.append(Row(row.line, {"name": name, **fields}, row.others))
    return found


def read(kind: str, path: str, text: str, headers: dict[str, str], mistakes: Mistakes) -> Table:
    """The table of devices or of cables. Its mistakes are added to those given."""
    own = {header: column for header, column in headers.items() if column in COLUMNS[kind].all}
    table = table_reader.read(path, text, COLUMNS[kind], {**HEADERS[kind], **own}, mistakes)
    if kind == "link":
        table.rows = named(table.rows)
    return table
