"""What the program writes, as dataclasses: verdicts, ranks, tables, reports of runs and rows of frames.

Times are milliseconds from the start of a run, ranks and counts numbers from 0, names those of the plan. Each reader takes
the text of an answer that is no refusal, and raises ValueError or IndexError for one that the program doesn't write; of rows
RowFault, a ValueError, where one has another column or another word than docs/rows.toml.
"""

from __future__ import annotations

from collections.abc import Callable
from dataclasses import dataclass
from typing import Any

from murdjohe.answers import row_types, rows as rows_of
from murdjohe.answers.inspections import inspection
from murdjohe.answers.row_types import (
    Chain as Chain,
    Change as Change,
    Frame as Frame,
    Gap as Gap,
    Hop as Hop,
    Input as Input,
    Sent as Sent,
    Trace as Trace,
)
from murdjohe.answers.studies import (
    Case as Case,
    Cut as Cut,
    Study as Study,
    Sweep as Sweep,
    study as study,
    sweep as sweep,
)
from murdjohe.core import program, row_tables
from murdjohe.core.program import Answer

PARTS = {"sim": ("changes", "inputs", "traces", "loops"), "prio-sim": ("changes", "loops")}
STOPPED = "stopped,"
Loop = tuple[str, ...]


@dataclass(frozen=True)
class Verdict:
    """What `check` and `prio-check` say: accepted, or the first hop, from line to line, over which the rank doesn't rise."""

    is_accepted: bool
    falls: tuple[str, str] | None


@dataclass(frozen=True)
class Ranking:
    """What `rank` and `prio-rank` say: the least rank of each nominated line, or the lines of the first ring.

    `events` is for `prio-rank` alone: the event list whose commands make the loop.
    """

    ranks: dict[str, int] | None
    ring: Loop | None
    events: str | None = None


@dataclass(frozen=True)
class Chains:
    """What `chains` says: a row for each element, or the lines of the first ring."""

    rows: tuple[Chain, ...] | None
    ring: Loop | None


@dataclass(frozen=True)
class Gaps:
    """What `protected` says: a row for each failure, or group, that cuts somebody off; none where the plan is protected."""

    rows: tuple[Gap, ...]


@dataclass(frozen=True)
class Protection:
    """What `protect` says: the text of the plan that was found, or a row for each failure that cuts somebody off in it."""

    text: str | None
    gaps: tuple[Gap, ...]


@dataclass(frozen=True)
class Agreement:
    """What `agree` says: for how many milliseconds after the last event a network may change, and after the last failure out of a
    network at rest; or the lines that clash."""

    bound: int | None
    failures: int | None
    clash: Loop | None


@dataclass(frozen=True)
class Hops:
    rows: tuple[Hop, ...]


@dataclass(frozen=True)
class Report:
    """A run. Where it was stopped the parts after the changes are empty; `is_settled` is None there and by priority alone."""

    changes: tuple[Change, ...]
    inputs: tuple[Input, ...]
    traces: tuple[Trace, ...]
    loops: tuple[Loop, ...]
    is_settled: bool | None
    stopped_at: int | None


@dataclass(frozen=True)
class Trial:
    """What `trial` says of its ladder; `last` is None where nothing changed."""

    elements: int
    links: int
    top: int
    changes: int
    last: Change | None
    is_settled: bool


@dataclass(frozen=True)
class Frames:
    """The frames of a file; `passed` counts the packets of a capture that are none."""

    rows: tuple[Frame, ...]
    passed: int | None = None


@dataclass(frozen=True)
class Replay:
    rows: tuple[Sent, ...]
    stopped_at: int | None


@dataclass(frozen=True)
class Written:
    """A text that the program wrote as a whole: a plan, or frames."""

    text: str


def verdict(answer: Answer) -> Verdict:
    said = answer.said.split()
    return Verdict(True, None) if answer.status == program.DONE else Verdict(False, (said[1], said[2]))


def ranking(answer: Answer) -> Ranking:
    text = answer.said
    if answer.status == program.DONE:
        rows = rows_of.headed_rows(row_types.Rank, row_tables.RANKS, "rank", text)
        return Ranking({row.line: row.rank for row in rows}, None)
    if text.startswith("cycle "):
        return Ranking(None, tuple(text.split()[1:]))
    switches = rows_of.headed_rows(row_types.Switch, row_tables.SWITCHES, "prio-rank", text)
    return Ranking(None, tuple(row.target for row in switches), text)


def chains(answer: Answer) -> Chains:
    text = answer.said
    if answer.status != program.DONE:
        return Chains(None, tuple(text.split()[1:]))
    return Chains(rows_of.headed_rows(Chain, row_tables.CHAINS, "chains", text), None)


def gaps(answer: Answer) -> Gaps:
    if answer.status == program.DONE:
        return Gaps(())
    return Gaps(rows_of.headed_rows(Gap, row_tables.GAPS, "protected", answer.said))


def protection(answer: Answer) -> Protection:
    if answer.status == program.DONE:
        return Protection(answer.said, ())
    return Protection(None, gaps(answer).rows)


def agreement(answer: Answer) -> Agreement:
    words = answer.said.split()
    if answer.status != program.DONE:
        return Agreement(None, None, tuple(words[1:]))
    return Agreement(int(words[2]), int(words[4]), None)


def hops(answer: Answer) -> Hops:
    return Hops(rows_of.headed_rows(Hop, row_tables.HOPS, "hops", answer.said))


def change(line: str, form: str = "sim") -> Change:
    """A row of changes."""
    return rows_of.row_of(Change, row_tables.CHANGES, form, line)


def ended(lines: list[str]) -> tuple[tuple[Loop, ...], bool | None]:
    """The closed walks at the end of a run, and whether it is settled, which a run by priority alone doesn't say."""
    said = {"settled yes": True, "settled no": False}
    is_settled = said.get(lines[-1]) if lines else None
    walks = lines if is_settled is None else lines[:-1]
    return tuple(tuple(line.split()) for line in walks), is_settled


def stopped_report(lines: list[str], form: str) -> Report:
    """What was told of a run that was stopped."""
    changes = rows_of.read_rows(Change, row_tables.CHANGES, form, lines[1:-1])
    return Report(changes, (), (), (), None, rows_of.number_of(lines[-1].removeprefix(STOPPED)))


def report_of(text: str, form: str = "sim") -> Report:
    """A report as `sim` or `prio-sim` writes it. Raises RowFault."""
    lines = text.splitlines()
    if lines and lines[-1].startswith(STOPPED):
        return stopped_report(lines, form)
    parts = rows_of.parts_of(lines, PARTS[form])
    loops, is_settled = ended(parts["loops"])
    return Report(
        rows_of.read_rows(Change, row_tables.CHANGES, form, parts["changes"]),
        rows_of.read_rows(Input, row_tables.INPUTS, form, parts.get("inputs", [])),
        rows_of.read_rows(Trace, row_tables.TRACES, form, parts.get("traces", [])),
        loops,
        is_settled,
        None,
    )


def end_of(text: str, form: str) -> Report:
    """What a report says of the end of a run, without its changes and inputs. Raises RowFault."""
    parts = rows_of.parts_of(text.splitlines(), PARTS[form])
    traces = rows_of.read_rows(Trace, row_tables.TRACES, form, parts.get("traces", []))
    return Report((), (), traces, *ended(parts["loops"]), None)


def report(answer: Answer) -> Report:
    return report_of(answer.said)


def prio_report(answer: Answer) -> Report:
    return report_of(answer.said, "prio-sim")


def trial(answer: Answer) -> Trial:
    said = dict(line.split(" ", 1) for line in answer.said.splitlines())
    last = change(said["last"]) if said["last"] else None
    elements, links, top, changes = (int(said[key]) for key in ("trial", "links", "top", "changes"))
    return Trial(elements, links, top, changes, last, said["settled"] == "yes")


def frames(answer: Answer) -> Frames:
    return Frames(rows_of.read_rows(Frame, row_tables.FRAMES, "decode", answer.said.splitlines()))


def capture(answer: Answer) -> Frames:
    *rows, last = answer.said.splitlines()
    passed = rows_of.number_of(last.removeprefix("passed,"))
    return Frames(rows_of.read_rows(Frame, row_tables.FRAMES, "pcap-decode", rows), passed)


def replay(answer: Answer) -> Replay:
    rows = answer.said.splitlines()
    stopped = rows_of.number_of(rows.pop().removeprefix(STOPPED)) if answer.status == program.STOPPED else None
    return Replay(rows_of.read_rows(Sent, row_tables.SENT, "node", rows), stopped)


def written(answer: Answer) -> Written:
    return Written(answer.said)


def octets(answer: Answer) -> bytes:
    return answer.text


READERS: dict[str, Callable[[Answer], Any]] = {
    "check": verdict,
    "prio-check": verdict,
    "rank": ranking,
    "prio-rank": ranking,
    "chains": chains,
    "protected": gaps,
    "agree": agreement,
    "hops": hops,
    "nominate": written,
    "protect": protection,
    "gen": written,
    "encode": written,
    "sim": report,
    "prio-sim": prio_report,
    "inspect": inspection,
    "sweep": sweep,
    "study": study,
    "trial": trial,
    "decode": frames,
    "pcap-decode": capture,
    "node": replay,
    "pcap-encode": octets,
}
GOOD = (program.DONE, program.REFUTED, program.STOPPED)


def read(form: str, answer: Answer) -> Any:
    """The answer of a form that is no refusal, as its dataclass; bytes for `pcap-encode`."""
    return READERS[form](answer)
