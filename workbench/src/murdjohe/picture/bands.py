"""The changes of a report as bands over time: what a picture of them is made of, without the picture."""

from __future__ import annotations

from dataclasses import dataclass, replace

from murdjohe.answers.reports import Change, Report
from murdjohe.core.faults import Wrong


@dataclass(frozen=True)
class Band:
    """What an element shows from one millisecond to another."""

    start: int
    stop: int
    taken: str
    level: str
    state: str
    mode: str = "auto"


def order_of(report: Report) -> list[str]:
    """The elements of a report, in the order of the plan as far as it tells that."""
    traced = [trace.element for trace in report.traces]
    return list(dict.fromkeys(traced + [change.element for change in report.changes]))


def rows_from(rows: list[Change], start: int) -> list[Change]:
    """The rows as if the run began at a millisecond, of the elements that change after it. Raises Wrong."""
    later = {row.element for row in rows if row.at > start}
    if not later:
        raise Wrong(f"--from: nothing changes after {start}")
    first = {row.element: replace(row, at=start) for row in rows if row.at <= start and row.element in later}
    return [*first.values(), *(row for row in rows if row.at > start)]


def moving(rows: list[Change], start: int) -> list[Change]:
    """The rows of the elements that change from a millisecond on; all of them where none does."""
    its = {row.element for row in rows if row.at >= start}
    return [row for row in rows if row.element in its] or rows


def places_of(times: list[int], fold: int) -> tuple[dict[int, float], dict[float, int]]:
    """Where each of the rising times stands, and at which places time is left out, with how many milliseconds lie there."""
    places: dict[int, float] = {times[0]: 0}
    folds, place = {}, 0.0
    for before, time in zip(times, times[1:]):
        place += min(max(time - before, fold / 20), fold)
        places[time] = place
        if time - before > fold:
            folds[place - fold / 2] = time - before
    return places, folds


def minutes(at: int) -> str:
    """A millisecond of a run as minutes and seconds, with hours and milliseconds where there are any."""
    whole, rest = divmod(at, 1000)
    hours, left = divmod(whole, 3600)
    front = f"{hours}:{left // 60:02}" if hours else f"{left // 60:02}"
    return f"{front}:{left % 60:02}" + (f".{rest:03}" if rest else "")


def length_of(span: int) -> str:
    """A length of time in a word or two: 5 min, 58.7 s, 300 ms."""
    if span >= 60_000 and span % 60_000 == 0:
        return f"{span // 60_000} min"
    return f"{span / 60_000:.1f} min" if span >= 120_000 else f"{span / 1000:.3g} s" if span >= 1000 else f"{span} ms"


def labelled(times: list[int], places: dict[int, float], room: float) -> list[int]:
    """The times that are written: each has room after the one before."""
    shown = [times[0]]
    for time in times[1:]:
        if places[time] - places[shown[-1]] >= room:
            shown.append(time)
    return shown


def bands_of(rows: list[Change], order: list[str], end: int) -> dict[str, list[Band]]:
    """For each element that changes, in order, its bands up to the end."""
    changed = {row.element for row in rows}
    own: dict[str, list[Change]] = {element: [] for element in order if element in changed}
    for row in rows:
        own[row.element].append(row)
    return {
        element: [
            Band(now.at, stop, now.input or "none", now.level or "", now.state, now.mode)
            for now, stop in zip(its, [row.at for row in its[1:]] + [end])
        ]
        for element, its in own.items()
    }
