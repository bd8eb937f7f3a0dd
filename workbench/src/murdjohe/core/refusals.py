"""Refusals: what the program wrote, taken apart, and what docs/refusals.toml says of each number."""

from __future__ import annotations

import functools
import os
import tomllib

from murdjohe.core import program

TYPE_CHECKING = False
if TYPE_CHECKING:
    from typing import Any

FILE = "refusals.toml"
TABLES = {program.BAD_PLAN: ("plan", b"bad plan "), program.BAD_CERTIFICATE: ("certificate", b"bad certificate ")}
# The statuses that refuse files of several kinds: how each refusal begins, and its table.
SEVERAL = {
    program.BAD_EVENTS: {b"bad events ": "events", b"bad groups ": "groups"},
    program.BAD_FRAMES: {b"bad frames ": "frames", b"bad capture ": "capture", b"bad node ": "node"},
}
# The table whose numbers another has too, where it has none of its own.
ALSO = {"cases": "events"}
PLAN_ROWS = 25  # the number before those of a plan's rows


class Refusal:
    """What the program refused: the table of the number, the number, its place, and for a frame the part that is wrong."""

    __slots__ = ("table", "number", "place", "part")

    def __init__(self, table: str, number: int, place: str, part: int | None = None) -> None:
        self.table = table
        self.number = number
        self.place = place
        self.part = part

    @property
    def row(self) -> int:
        """The number at the end of the place, 0 where there is none."""
        last = self.place.rpartition(" ")[2]
        return int(last) if last.isdigit() else 0


def taken_apart(table: str, words: list[str]) -> Refusal:
    """The refusal that the words behind `bad plan` and the like are. Raises ValueError or IndexError for other words."""
    number, rest = int(words[0]), words[1:]
    if table == "plan" and number == PLAN_ROWS:
        number, rest = int(rest[0]), rest[1:]
    if (table, number) in (("frames", 13), ("node", 49)):
        return Refusal(table, number, rest[0], int(rest[1]))
    return Refusal(table, number, " ".join(rest))


def of(status: int, text: bytes) -> Refusal | None:
    """The refusal in an answer of this status; None where the answer is no refusal with a number."""
    table, beginning = TABLES.get(status, ("", b""))
    if status in SEVERAL:
        beginning = next((begin for begin in SEVERAL[status] if text.startswith(begin)), b"")
        table = SEVERAL[status].get(beginning, "")
    if not beginning or not text.startswith(beginning):
        return None
    try:
        return taken_apart(table, text[len(beginning) :].decode("utf-8", "replace").split())
    except (ValueError, IndexError):
        return None


def path() -> str:
    """Where the file with all meanings is: in an installed package, or in the docs of a checkout."""
    beside = os.path.join(program.PACKAGE, FILE)
    return beside if os.path.exists(beside) else os.path.join(program.CHECKOUT, "docs", FILE)


@functools.cache
def meanings() -> dict[str, Any]:
    """All tables of the file."""
    with open(path(), "rb") as file:
        return tomllib.load(file)


def meaning(table: str, number: int) -> dict[str, Any]:
    """The entry of a number; an empty one for a number that a later program may write."""
    entries = [entry for name in (table, ALSO.get(table, "")) for entry in meanings().get(name, [])]
    return next((entry for entry in entries if entry["number"] == number), {})


def says(table: str, number: int) -> str:
    """What is wrong, in few words."""
    return str(meaning(table, number).get("says", f"is refused with the number {number}"))


def remedy(table: str, number: int) -> str:
    """What to do about it."""
    return str(meaning(table, number).get("remedy", ""))
