"""Lists of events and of cases whose times have units or colons: turned into milliseconds before the program reads them.

Each line stays a line, so what is said of a row is said of the line of the user's own file.
"""

from __future__ import annotations

import re

from murdjohe.core import times
from murdjohe.core.faults import Wrong
from murdjohe.core.program import BAD_EVENTS

# A time that has more than digits, in the first field of a row, or in the second.
FIRST = re.compile(rb'^("?)(\d[0-9hms:.]*[hms:][0-9hms:.]*)("?)(?=,)', re.M)
SECOND = re.compile(rb'^([^,\n]*,"?)(\d[0-9hms:.]*[hms:][0-9hms:.]*)("?)(?=,)', re.M)


def turned(name: str, data: bytes, has_cases: bool, start: int | None = None) -> bytes:
    """The same list with its times in milliseconds; as it is where it has none with units or colons. Raises Wrong, with the line,
    where one is before the start of the run."""

    def one(found: re.Match[bytes]) -> bytes:
        text = found[2].decode()
        try:
            time = times.of_word(text, start)
        except times.Early as early:
            line = data.count(b"\n", 0, found.start()) + 1
            row = data[found.start() :].partition(b"\n")[0].decode("utf-8", "replace").strip()[:100]
            raise Wrong(f"{name}:{line}: `{row}`: {early}", status=BAD_EVENTS) from None
        return found[0] if time is None else found[1] + str(time).encode() + found[3]

    return (SECOND if has_cases else FIRST).sub(one, data)


def of_field(name: str, line: int, field: str, start: int | None) -> str:
    """The time of a row by itself, in milliseconds where it has units or colons. Raises Wrong."""
    try:
        time = times.of_word(field, start)
    except times.Early as early:
        raise Wrong(f"{name}:{line}: {early}", status=BAD_EVENTS) from None
    return field if time is None else str(time)
