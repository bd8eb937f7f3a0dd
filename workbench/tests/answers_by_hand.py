"""What the program answers, as it is stored in cases/ and examples/, or worked out by hand where it isn't, and what `why` makes of it."""

from __future__ import annotations

from pathlib import Path

from conftest import EXAMPLES, TOP

from murdjohe.answers import inspections, reports
from murdjohe.core import program
from murdjohe.network.plan_file import PlanFile
from murdjohe.runs.simulation import EventFile
from murdjohe.why import choices
from murdjohe.why.choices import Why

CASES = TOP / "cases"
REST = "inputs\ntraces\nloops\nsettled yes\n"  # of a report, where only its changes are asked for


def plan_of(path: Path) -> PlanFile:
    """A plan that the program takes."""
    return PlanFile(path.name, path.read_bytes(), reports.Ranking({}, None), b"")


def why(plan: Path, events: str, inspected: str, changes: str, element: str, at: int, most: int | None = None) -> Why:
    """What `why` finds by an inspection and the changes of a report, both as text."""
    its = choices.network_of(plan_of(plan))
    file = EventFile("events.csv", events.encode())
    stored = inspections.inspection(program.Answer(0, inspected.encode()))
    is_whole = "\nloops\n" in changes or "\nstopped," in changes
    report = reports.report(program.Answer(0, (changes if is_whole else f"{changes}{REST}").encode()))
    told = tuple(event for event in file.events if event.at <= at)
    return choices.why_of(its, told, stored, report, choices.Asked(element, at, most))


def rows(text: str) -> str:
    """Rows as a table of cases has them, parted by strokes, as lines."""
    return "".join(f"{row}\n" for row in text.strip().split(" / "))


def listed(table: Path, words: str) -> str:
    """The answer to some words in a table of cases."""
    lines = table.read_text().splitlines()
    return rows(next(line for line in lines if line.startswith(f"{words} |")).split(" | ")[2])


# The ring under commands, the element with an input for each reason, and the chain that falls silent: changes by hand.
RING_CHANGES = "changes\n" + rows(
    "0,A,auto,S,QL-PRC,locked / 1,B,auto,L1>B,QL-PRC,locked / 1,C,auto,L3>C,QL-PRC,locked / "
    "500,B,auto,L2>B,QL-PRC,locked / 700,B,manual,L2>B,QL-PRC,locked"
)
WORKS_CHANGES = "changes\n" + rows(
    "0,core-1,auto,clock-1,QL-PRC,locked / 0,core-2,auto,clock-2,QL-PRC,locked / "
    "1,north-1,auto,N1>north-1,QL-PRC,locked / 1,north-2,auto,N3>north-2,QL-PRC,locked / "
    "1,south-2,auto,S3>south-2,QL-PRC,locked / 1,south-1,auto,S1>south-1,QL-PRC,locked / "
    "60000,north-1,auto,N2>north-1,QL-PRC,locked / 120300,core-2,auto,none,QL-SEC,holdover / "
    "120301,north-2,auto,none,QL-SEC,holdover / 120301,south-2,auto,S2>south-2,QL-PRC,locked / "
    "120302,north-1,auto,none,QL-SEC,holdover"
)
CUT_INSPECTED = rows(
    "commands / elements / core-1,auto,none,clock-1,QL-PRC,locked / north-1,auto,none,N2>north-1,QL-PRC,locked / "
    "north-2,auto,none,N3>north-2,QL-PRC,locked / core-2,auto,none,clock-2,QL-PRC,locked / "
    "south-2,auto,none,S3>south-2,QL-PRC,locked / south-1,auto,none,S1>south-1,QL-PRC,locked / inputs / "
    "core-1,clock-1,good,0,QL-PRC,taken / north-1,N1>north-1,failed,0,none,failed / "
    "north-1,N2>north-1,good,0,QL-PRC,taken / north-2,N2>north-2,good,0,QL-DNU,do-not-use / "
    "north-2,N3>north-2,good,0,QL-PRC,taken / core-2,clock-2,good,0,QL-PRC,taken / "
    "south-2,S3>south-2,good,0,QL-PRC,taken / south-2,S2>south-2,good,0,QL-PRC,reserve / "
    "south-1,S2>south-1,good,0,QL-PRC,reserve / south-1,S1>south-1,good,0,QL-PRC,taken"
)
SILENT_INSPECTED = rows(
    "commands / elements / A,auto,none,S,QL-PRC,locked / B,auto,none,none,QL-SEC,holdover / "
    "C,auto,none,L2>C,QL-SEC,locked / inputs / A,S,good,0,QL-PRC,taken / B,L1>B,good,0,none,silent / "
    "C,L2>C,good,0,QL-SEC,taken"
)
LOOP_INSPECTED = rows(
    "commands / elements / A,auto,none,L3>A,QL-PRC,locked / B,auto,none,L1>B,QL-PRC,locked / "
    "C,auto,none,L2>C,QL-PRC,locked / inputs / A,L3>A,good,0,QL-PRC,taken / A,clock,failed,0,QL-PRC,failed / "
    "B,L1>B,good,0,QL-PRC,taken / C,L2>C,good,0,QL-PRC,taken"
)


def ring_under_commands(element: str) -> Why:
    case = CASES / "inspect-a-ring-under-commands"
    texts = (case / "events.csv").read_text(), (case / "stdout").read_text(), RING_CHANGES
    return why(case / "plan.toml", *texts, element, 1000)


def each_reason() -> Why:
    case = CASES / "inspect-the-first-reason-that-holds"
    changes = "changes\n0,H,auto,best,QL-PRC,locked\n"
    return why(case / "plan.toml", (case / "events.csv").read_text(), (case / "stdout").read_text(), changes, "H", 1000)


def works(most: int | None = None) -> Why:
    ring = EXAMPLES / "metro-ring"
    texts = (ring / "works.csv").read_text(), (ring / "inspection").read_text(), WORKS_CHANGES
    return why(ring / "plan.toml", *texts, "north-1", 300_000, most)


def cut(element: str) -> Why:
    ring = EXAMPLES / "metro-ring"
    texts = (ring / "events.csv").read_text(), CUT_INSPECTED, (ring / "cut-report").read_text()
    return why(ring / "plan.toml", *texts, element, 100_000)


def silent(element: str) -> Why:
    case = CASES / "sim-esmc-off-is-holdover-after-five-seconds"
    texts = (case / "events.csv").read_text(), SILENT_INSPECTED, (case / "stdout").read_text()
    return why(case / "plan.toml", *texts, element, 8000)


def looping() -> Why:
    ring = EXAMPLES / "ring"
    texts = (ring / "events.csv").read_text(), LOOP_INSPECTED, (ring / "report").read_text()
    return why(ring / "plan.toml", *texts, "A", 120_000)


def forced(at: int) -> Why:
    """The forced input fails at 700."""
    case = CASES / "inspections"
    events, plan = (case / "forced-fails.csv").read_text(), case / "two-sources.toml"
    after = "700,A,forced,none,QL-SEC,holdover\n" if at >= 700 else ""
    inspected = listed(case / "table", f"inspect two-sources.toml forced-fails.csv {at}")
    return why(plan, events, inspected, f"changes\n0,A,forced,S2,QL-SSU-B,locked\n{after}", "A", at)
