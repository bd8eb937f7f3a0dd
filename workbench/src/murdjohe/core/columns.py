"""Tables as people read them."""

from __future__ import annotations


def table(heads: list[str], rows: list[list[str]]) -> list[str]:
    """Columns at least two blanks apart, the last one as it comes."""
    widths = [max(map(len, column)) for column in zip(heads, *rows)]
    return ["  ".join(field.ljust(width) for field, width in zip(row, widths)).rstrip() for row in [heads, *rows]]
