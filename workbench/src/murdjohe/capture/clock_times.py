"""Times of day of a capture, as people read them: in UTC, or as the clock on the wall of this machine."""

from __future__ import annotations

import time

from murdjohe.capture.capture_files import SECOND

UNSAID = "a time outside of all calendars"


class Clock:
    """How times are shown: with the day where a capture goes over more than one."""

    def __init__(self, is_local: bool) -> None:
        self.parted = time.localtime if is_local else time.gmtime
        self.name = "local time" if is_local else "UTC"
        self.has_days = False

    def spans(self, first: int | None, last: int | None) -> None:
        """Takes in the times, nanoseconds since 1970 began, between which all others are."""
        if first is not None and last is not None:
            self.has_days = self.day(first) != self.day(last)

    def _shown(self, form: str, seconds: int) -> str:
        try:
            return time.strftime(form, self.parted(seconds))
        except (OverflowError, ValueError, OSError):
            return UNSAID

    def day(self, at: int) -> str:
        """The day, as 2026-11-29."""
        return self._shown("%Y-%m-%d", at // SECOND)

    def of_day(self, at: int, digits: int = 6) -> str:
        """The time, as 10:03:11.412000; with the day where that isn't always the same."""
        form = "%Y-%m-%d %H:%M:%S" if self.has_days else "%H:%M:%S"
        part = f".{at % SECOND:09}"[: digits + 1] if digits else ""
        return self._shown(form, at // SECOND) + part


def seconds(length: int, digits: int = 6) -> str:
    """A length of nanoseconds in seconds, cut to so many digits."""
    sign, length = ("-", -length) if length < 0 else ("", length)
    return f"{sign}{length // SECOND}" + (f".{length % SECOND:09}"[: digits + 1] if digits else "")
