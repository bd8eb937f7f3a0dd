"""Times as people write them: 20m, 90s, 1h30m, 500ms, HH:MM, HH:MM:SS, beside plain milliseconds.

Where a run begins at a time of day, the ones with colons are times of day too: the milliseconds from the start on.
"""

from __future__ import annotations

# Units in the order in which they may follow one another, with their milliseconds.
UNITS = (("h", 3_600_000), ("m", 60_000), ("s", 1_000), ("ms", 1))
LONGEST = 12  # digits of a number that is looked at: far more than a day has milliseconds


def is_digits(text: str) -> bool:
    """Whether it is a number in ASCII digits alone, of a length that makes sense."""
    return text.isascii() and text.isdigit() and len(text) <= LONGEST


def of_clock(word: str) -> int | None:
    """The milliseconds of HH:MM, HH:MM:SS or HH:MM:SS.mmm; hours may have any digits, minutes and seconds have two."""
    whole, point, rest = word.partition(".")
    parts = whole.split(":")
    if len(parts) not in (2, 3) or not all(map(is_digits, parts)):
        return None
    if point and (len(parts) != 3 or len(rest) != 3 or not is_digits(rest)):
        return None
    hours, minutes, seconds = map(int, (*parts, "0")[:3])
    if any(len(part) != 2 for part in parts[1:]) or minutes > 59 or seconds > 59:
        return None
    return ((hours * 60 + minutes) * 60 + seconds) * 1_000 + int(rest or 0)


def of_units(word: str) -> int | None:
    """The milliseconds of numbers with units, the greatest unit first and each at most once: 1h30m, 90s, 1s500ms."""
    total, rest, given = 0, word, False
    for unit, length in UNITS:
        digits = rest[: len(rest) - len(rest.lstrip("0123456789"))]
        after = rest[len(digits) :]
        letters = after[: len(after) - len(after.lstrip("hms"))]
        if digits and letters == unit and is_digits(digits):
            total, rest, given = total + int(digits) * length, after[len(unit) :], True
    return total if given and not rest else None


def milliseconds(word: str) -> int | None:
    """The milliseconds of a word in one of the spellings with units; None for any other word, plain numbers too."""
    return of_clock(word) if ":" in word else of_units(word)


DAY, HALF = 86_400_000, 43_200_000


class Early(Exception):
    """A time of day is before the start of the run."""


def clock(at: int, start: int = 0) -> str:
    """A millisecond as a time of day, in a run that began at `start`."""
    seconds, rest = divmod((at + start) % DAY, 1000)
    return f"{seconds // 3600:02}:{seconds // 60 % 60:02}:{seconds % 60:02}.{rest:03}"


def from_start(at: int, start: int | None) -> int:
    """The milliseconds from the start of a run to a time of day, today or tomorrow. Raises Early where it is before the start:
    less than twelve hours before, and so more than twelve after."""
    if start is None:
        return at
    length = (at - start) % DAY
    if length > HALF:
        raise Early(
            f"{clock(at)[:8]} is before the start, {clock(start)[:8]}; what is more than 12 hours later is a length, as 13h"
        )
    return length


def of_word(word: str, start: int | None = None) -> int | None:
    """The milliseconds of a word with units or colons in a run that begins at this time of day; None for any other word. Raises
    Early."""
    time = milliseconds(word)
    return from_start(time, start) if time is not None and ":" in word else time


SECOND = 1_000


def likely_seconds(last: int | None, what: str) -> list[str]:
    """What is said of a time within the first second, which are probably seconds."""
    if last is None or not 0 < last < SECOND:
        return []
    return [f"{what}: {last} is in milliseconds, less than a second; where seconds are meant, write {last}s"]
