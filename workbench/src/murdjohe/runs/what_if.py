"""Event lists that are changed on the command line: rows that are added, and rows that are put in order of time."""

from __future__ import annotations

import csv
import io

from murdjohe.core import times
from murdjohe.core.faults import Wrong
from murdjohe.runs import simulation
from murdjohe.runs.simulation import EventFile

HEADER = ["at", "what", "target", "value"]
HOW = "TIME WHAT TARGET [VALUE], as '02:10 down L1'"

Row = list[str]


def row_of(text: str, start: int | None) -> Row:
    """The row of an event as it is written on the command line. Raises Wrong."""
    words = text.split()
    if len(words) not in (3, 4):
        raise Wrong(f"--add {text!r}: an event is {HOW}")
    try:
        time = times.of_word(words[0], start)
    except times.Early as early:
        raise Wrong(f"--add {text!r}: {early}") from None
    if time is None and not times.is_digits(words[0]):
        raise Wrong(f"--add {text!r}: {words[0]!r} is no time; an event is {HOW}")
    return [words[0] if time is None else str(time), *words[1:], ""][:4]


def rows_in(file: EventFile) -> list[Row]:
    """The rows of a list, without its header and without blank lines."""
    lines = file.data.decode("utf-8-sig", "replace").splitlines()
    return [row for row in csv.reader(lines) if row][1:]


def time_of(row: Row) -> int:
    """The millisecond of a row; 0 where it is no number, which the program tells."""
    return int(row[0]) if row and times.is_digits(row[0]) else 0


def with_rows(file: EventFile, rows: list[Row]) -> EventFile:
    """The list with other rows."""
    out = io.StringIO(newline="")
    csv.writer(out, lineterminator="\n").writerows([HEADER, *rows])
    return EventFile(file.name, out.getvalue().encode())


def in_order(file: EventFile) -> EventFile:
    """The list in order of time; rows of one millisecond keep theirs."""
    return with_rows(file, sorted(rows_in(file), key=time_of))


def added(file: EventFile, texts: tuple[str, ...], start: int | None) -> EventFile:
    """The list with more events, each behind those of its millisecond. Raises Wrong."""
    more = [row_of(text, start) for text in texts]
    return with_rows(file, sorted(rows_in(file) + more, key=time_of))


def read(path: str, start: int | None, more: tuple[str, ...], is_sorted: bool) -> EventFile:
    """An event list, put in order where that is asked, with more events. Raises Wrong."""
    file = simulation.read_events(path, start)
    file = in_order(file) if is_sorted else file
    return added(file, more, start) if more else file
