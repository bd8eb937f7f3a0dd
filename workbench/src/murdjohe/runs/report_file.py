"""A report of `sim` in a file, as `draw` and `timeline` take it."""

from __future__ import annotations

from murdjohe.answers import reports
from murdjohe.answers.reports import Report
from murdjohe.answers.rows import RowFault
from murdjohe.core import files
from murdjohe.core.faults import unusable


def is_by_priority(text: str) -> bool:
    """Whether a text is a report of `prio-sim`."""
    try:
        reports.report_of(text, "prio-sim")
    except ValueError:
        return False
    return True


def read(path: str) -> Report:
    """The report of a file. Raises Wrong where it is none of `sim`."""
    text = files.text(path)
    if not text.startswith("changes\n"):
        raise unusable(f"{path}: it is no report of sim: it doesn't begin with the line `changes`")
    try:
        return reports.report_of(text)
    except RowFault as fault:
        if is_by_priority(text):
            why = "it is a report of prio-sim, which has no levels; `sim` gives one with levels"
            raise unusable(f"{path}: {why}") from None
        raise unusable(f"{path}: it is no report of sim: {fault}") from None
    except ValueError:
        raise unusable(f"{path}: it is no report of sim") from None
