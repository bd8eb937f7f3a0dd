"""How sentences count and list: numbers with what is counted, and names up to as many as anybody reads."""

from __future__ import annotations

NAMED = 12  # names that a sentence lists before it says how many more there are


def plural(number: int, what: str) -> str:
    """A number with what is counted: 1 link, 1,200 links."""
    return f"{number:,} {what}{'' if number == 1 else 's'}"


def listed(names: list[str]) -> str:
    """The names, or the first of them and how many more there are."""
    more = len(names) - NAMED
    return ", ".join(names[:NAMED]) + (f" and {more:,} more" if more > 0 else "")


def have(names: list[str], what: str) -> str:
    """That so many elements have or are something, with their names."""
    return f"{plural(len(names), 'element')} {'has' if len(names) == 1 else 'have'} {what}: {listed(names)}"
