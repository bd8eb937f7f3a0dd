"""The times of `sweep` and `study` that nobody gave: when links go down, and when the runs are looked at."""

from __future__ import annotations

from murdjohe.core import times
from murdjohe.core.faults import Wrong
from murdjohe.core.forms import Form
from murdjohe.network import plan_file
from murdjohe.network.plan_file import PlanFile
from murdjohe.runs import ends, failure_times
from murdjohe.runs.ends import Ending
from murdjohe.survey import case_files

UNKNOWN = "0"  # the time beside files that the program refuses anyway


def time_of(word: str, start: int | None) -> int | None:
    """The milliseconds of a word; None where it is no time."""
    try:
        return int(word) if times.is_digits(word) else times.of_word(word, start)
    except times.Early:
        return None


def of_sweep(plan: PlanFile, at: int | None) -> tuple[list[int], Ending]:
    """The times of `sweep` that are left out, and the end."""
    bounds = ends.bounds_of(plan)
    moment = failure_times.moment(plan, (), bounds).at if at is None else at
    end = failure_times.of_failures(plan, (), moment, bounds)
    return [*([moment] if at is None else []), end.until], end


def of_study(plan: PlanFile, path: str, start: int | None) -> tuple[list[int], Ending]:
    """The time of `study` that is left out. Raises Wrong where the table isn't one."""
    told = case_files.CaseFile(path, start).listed((1, None)).told
    end = ends.ending(plan, told, ends.bounds_of(plan))
    return [end.until], end


def filled(form: Form, given: list[str], start: int | None) -> tuple[list[str], list[str]]:
    """The words with the times that are left out, and what is said of these. Beside files that the program refuses they are 0."""
    missing = len(form.words) - len(given)
    at = time_of(given[1], start) if form.name == "sweep" and missing == 1 else None
    if form.name == "sweep" and missing == 1 and at is None:
        return given, []
    try:
        plan = plan_file.read(given[0])
        found, end = of_sweep(plan, at) if form.name == "sweep" else of_study(plan, given[1], start)
    except Wrong:
        return [*given, *[UNKNOWN] * missing], []
    return [*given, *map(str, found)], [f"the end is chosen: {end.why}"]
