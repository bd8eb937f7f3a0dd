"""The summary of a run on its page: timing loops, and when elements had no source, the worst first."""

from __future__ import annotations

from collections.abc import Iterable
from dataclasses import dataclass
from typing import Any

from murdjohe.core.wording import listed, plural
from murdjohe.runs import rehearsals, spans
from murdjohe.runs.ends import seconds
from murdjohe.runs.rehearsals import Rehearsal, clock

MOST = 6  # moments that are told; the others are counted
Gap = tuple[int, int, str]  # from when to when an element had no source


@dataclass(frozen=True)
class Worst:
    """A time in which elements had no source without a break: when most of them had none, and all of them with their longest time."""

    start: int
    stop: int
    peak: int
    lost: dict[str, int]
    is_open: bool

    @property
    def longest(self) -> int:
        return max(self.lost.values())


def peak_of(gaps: Iterable[Gap]) -> int:
    """The first moment in which most of them are open."""
    steps = sorted([(start, -1) for start, _, _ in gaps] + [(stop, 1) for _, stop, _ in gaps], key=lambda step: step[0])
    count, most, peak = 0, 0, steps[0][0]
    for number, (at, less) in enumerate(steps):
        count -= less
        is_last = number + 1 == len(steps) or steps[number + 1][0] > at  # (of its millisecond)
        if is_last and count > most:
            most, peak = count, at
    return peak


def times_of(gaps: Iterable[Gap], still: Iterable[str]) -> list[Worst]:
    """Times without a source that touch or overlap taken as one: those that go on at the end first, then the longest and those of
    most elements."""
    ordered = sorted(gap for gap in gaps if gap[0] < gap[1])
    parts: list[list[Gap]] = []
    stop = -1
    for gap in ordered:
        if gap[0] > stop:
            parts.append([])
        parts[-1].append(gap)
        stop = max(stop, gap[1])
    dark, found = set(still), []
    for part in parts:
        lost: dict[str, int] = {}
        for start, end, name in part:
            lost[name] = max(lost.get(name, 0), end - start)
        last = max(end for _, end, _ in part)
        is_open = part is parts[-1] and bool(dark & set(lost))
        found.append(Worst(part[0][0], last, peak_of(part), lost, is_open))
    return sorted(found, key=lambda one: (not one.is_open, -one.longest, -len(one.lost), one.start))


def text_of(one: Worst) -> str:
    """A time without a source in words."""
    names = sorted(one.lost, key=lambda name: -one.lost[name])
    longest = f"{seconds(one.longest)} at most" + (", and on at the end" if one.is_open else "")
    return f"{plural(len(names), 'element')} without a source, for {longest}: {listed(names)}"


def summary_of(found: Rehearsal, start: int) -> list[dict[str, Any]]:
    """What the page tells on top, each with the moment that it is of: the end first, then timing loops, then the worst moments."""
    gaps, dark = spans.gaps_of(found.wired, found.report.changes, found.until)
    rows = [{"at": found.until, "text": rehearsals.dark_text(found, start), "isBad": bool(found.dark)}]
    for walk in found.loops[:MOST]:
        until = "to the end" if walk.stop is None else f"for {seconds(walk.stop - walk.start)}"
        text = f"timing loop {until}: {' '.join(walk.lines)}"
        rows.append({"at": walk.start, "text": text, "isBad": True})
    times = times_of(((begin, end, name) for name, its in gaps.items() for begin, end in its), dark)
    rows += [{"at": one.peak, "text": text_of(one), "isBad": True} for one in times[:MOST]]
    if len(times) > MOST:
        rest = min(one.start for one in times[MOST:])
        rows.append({"at": rest, "text": f"{plural(len(times) - MOST, 'shorter time')} like these", "isBad": False})
    if found.rejected:
        first = found.rejected[0].at
        rows.append({"at": first, "text": f"{plural(len(found.rejected), 'command')} rejected", "isBad": True})
    return [row | {"time": clock(row["at"], start)} for row in rows]
