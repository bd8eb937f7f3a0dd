"""Runs worked out by hand, with which the reference is compared. Each case is named for what it shows."""

import time
from collections.abc import Callable

from bench.reference.network import Network
from bench.reference.plan import ladder, read_events, read_plan
from bench.reference.report import sim_text, sweep_text

# ---- plans


def elements(*rows: str) -> str:
    """The rows of elements."""
    return "".join(f"[[element]]\n{row}\n" for row in rows)


def links(*rows: str) -> str:
    """The rows of links."""
    return "".join(f"[[link]]\n{row}\n" for row in rows)


def source(name: str, at: str, level: str, priority: int = 1) -> str:
    """A source's row."""
    return f'[[source]]\nname = "{name}"\nat = "{at}"\nlevel = "{level}"\npriority = {priority}\n'


A, B, C = (f'name = "{name}"' for name in "ABC")
L1, L2, L3 = 'name = "L1"\na = "A"\nb = "B"', 'name = "L2"\na = "B"\nb = "C"', 'name = "L3"\na = "C"\nb = "A"'
TWIN_L2 = 'name = "L2"\na = "A"\nb = "B"'
BOTH = "\npriority_a = 1\npriority_b = 1"
TEN = "\ndelay_a = 10\ndelay_b = 10"

CHAIN_ALONE = elements(A, B, C) + links(L1 + "\npriority_b = 1" + TEN, L2 + "\npriority_b = 1" + TEN)
CHAIN = CHAIN_ALONE + source("S", "A", "QL-PRC")
PAIR = elements(A, B) + links(L1 + BOTH + TEN)
NEAR_PAIR = elements(A, B) + links(L1 + BOTH)
RING = elements(A, B, C) + links(L1 + BOTH, L2 + BOTH, L3 + BOTH)
TWIN = elements(A, B) + links(L1 + BOTH, TWIN_L2 + BOTH)
BUNDLE = "version = 2\n" + elements(A, B) + links(*(row + BOTH + '\nbundle = "T"' for row in (L1, TWIN_L2)))
TWO_SOURCES = elements(A + "\nwtr = 0") + source("S1", "A", "QL-PRC") + source("S2", "A", "QL-PRC")
MANUAL = elements(A) + source("S1", "A", "QL-PRC") + source("S2", "A", "QL-SSU-A", 2)

# ---- reports by hand

CHAIN_CHANGES = """0,A,auto,S,QL-PRC,locked
10,B,auto,L1>B,QL-PRC,locked
10,C,auto,L2>C,QL-SEC,locked
20,C,auto,L2>C,QL-PRC,locked
"""
CHAIN_END = """inputs
A,S,good,0
B,L1>B,good,0
C,L2>C,good,0
traces
A,0,source,S
B,1,source,S
C,2,source,S
loops
settled yes
"""
CHAIN_REPORT = "changes\n" + CHAIN_CHANGES + CHAIN_END
PAIR_FACES = """changes
10,A,auto,L1>A,QL-SEC,locked
10,B,auto,L1>B,QL-SEC,locked
inputs
A,L1>A,good,0
B,L1>B,good,0
traces
A,2,loop,A
B,2,loop,B
loops
L1>B L1>A
settled no
"""
PAIR_LETS_GO = """changes
10,A,auto,L1>A,QL-SEC,locked
10,B,auto,L1>B,QL-SEC,locked
20,A,auto,none,QL-SEC,holdover
20,B,auto,none,QL-SEC,holdover
inputs
A,L1>A,good,0
B,L1>B,good,0
traces
A,0,own,A
B,0,own,B
loops
settled no
"""
SWEEP_HEAD = "link,settled,locked,holdover,freerun,loops,worst,bound\n"
FAILED_AND_BACK = "1000,down,S,\n5000,up,S,\n"
FAILED_AGAIN = "200000,down,S,\n200001,up,S,\n"
COMMANDS = """1000,level,S2,QL-DNU
2000,forced,S2,
3000,lockout,S2,
4000,unlock,S2,
4500,level,S2,QL-SSU-A
5000,manual,S2,
"""


def report(plan: str, events: str, until: int) -> str:
    """The report of a plan's run under events."""
    read = read_plan(plan)
    return sim_text(read, read_events(read, "at,what,target,value\n" + events), until)


def changes(plan: str, events: str, until: int) -> str:
    """The rows of changes of a report."""
    return report(plan, events, until).removeprefix("changes\n").partition("inputs\n")[0]


def state(plan: str, events: str, until: int) -> str:
    """What follows the changes in a report."""
    text = report(plan, events, until)
    return text[text.index("inputs\n") :]


def ends(plan: str, events: str, until: int, count: int) -> str:
    """The last lines of a report."""
    return "".join(report(plan, events, until).splitlines(keepends=True)[-count:])


def rows_of_changes(text: str) -> int:
    """How many rows of changes a report has that is stopped."""
    return text.count("\n") - 2


def taken_names(plan: str, t: int) -> list[str | None]:
    """What the elements take at a millisecond in which nothing was told before."""
    read = read_plan(plan)
    return [None if i is None else read.input_name(i) for i in Network(read, []).go_to(t).taken_at(t)]


def hop_names(plan: str) -> list[str]:
    """Each hop of a plan, as the names of its lines."""
    read = read_plan(plan)
    lines = range(read.lines)
    return [f"{read.input_name(line)} {read.input_name(m)}" for line in lines for m in lines if read.hops(line, m)]


def ranks(plan: str) -> dict[str, int] | None:
    """The least ranks of a plan by line, or none."""
    read = read_plan(plan)
    least = read.least_ranks()
    return None if least is None else {read.input_name(line): rank for line, rank in least.items()}


def swinging(last: int) -> str:
    """The changes at a millisecond in which both elements of a pair lose each other."""
    return f"{last},A,auto,none,QL-SEC,holdover\n{last},B,auto,none,QL-SEC,holdover\n"


def bound_of_ladder_of_200() -> int | None:
    """The settling bound of the ladder of 200 after an event at 20000."""
    return ladder(200).settling_bound(20000)


def small_ladder_with_a_rail_down() -> str:
    """The last change on the ladder of 20 after a rail fails, and whether it is settled."""
    plan = ladder(20)
    text = sim_text(plan, read_events(plan, "at,what,target,value\n3000,down,R10,\n"), 9000)
    return text.partition("inputs\n")[0].splitlines()[-1] + " " + text.splitlines()[-1]


def ladder_with_its_first_step_down(count: int, at: int, until: int) -> tuple[int, str, str]:
    """How many changes there are, the last one, and whether it is settled."""
    plan = ladder(count)
    text = sim_text(plan, read_events(plan, f"at,what,target,value\n{at},down,S1,\n"), until)
    rows = text.partition("inputs\n")[0].splitlines()
    return len(rows) - 1, rows[-1], text.splitlines()[-1]


def small_ladder_swept() -> tuple[list[str], set[str]]:
    """Whether each row of a sweep is settled, and the bounds."""
    rows = [row.split(",") for row in sweep_text(ladder(6), 2000, 9000).splitlines()[1:]]
    return [row[1] for row in rows], {row[-1] for row in rows}


def swept(plan: str, at: int, until: int) -> str:
    """The table of a sweep."""
    return sweep_text(read_plan(plan), at, until)


def number_and_end(plan: str, events: str, until: int) -> tuple[int, str]:
    """How many rows of changes a report has that is stopped, and its last three lines."""
    return rows_of_changes(report(plan, events, until)), ends(plan, events, until, 3)


# What is shown, what is computed, and the answer by hand.
CASES: list[tuple[str, Callable[..., object], tuple[object, ...], object]] = [
    ("a chain settles, and its second element hears the own clock first", report, (CHAIN, "", 100), CHAIN_REPORT),
    (
        "an enhanced level goes through the chain",
        report,
        (CHAIN.replace("QL-PRC", "QL-ePRTC"), "", 100),
        CHAIN_REPORT.replace("QL-PRC", "QL-ePRTC"),
    ),
    (
        "hold-off is over after 300 milliseconds: up at 1300 nothing is lost",
        changes,
        (CHAIN, "1000,down,S,\n1300,up,S,\n", 2000),
        CHAIN_CHANGES,
    ),
    (
        "hold-off boundary: up at 1301 the source has failed",
        report,
        (CHAIN, "1000,down,S,\n1301,up,S,\n", 2000),
        "changes\n"
        + CHAIN_CHANGES
        + "1300,A,auto,none,QL-SEC,holdover\n1310,B,auto,L1>B,QL-SEC,locked\n1320,C,auto,L2>C,QL-SEC,locked\n"
        + CHAIN_END.replace("A,S,good,0", "A,S,restoring,299301")
        .replace("A,0,source,S", "A,0,own,A")
        .replace("B,1,source,S", "B,1,own,A")
        .replace("C,2,source,S", "C,2,own,A")
        .replace("yes", "no"),
    ),
    (
        "wait-to-restore ends at 305000",
        lambda *case: [row for row in changes(*case).splitlines() if ",A," in row],
        (CHAIN, FAILED_AND_BACK, 600000),
        ["0,A,auto,S,QL-PRC,locked", "1300,A,auto,none,QL-SEC,holdover", "305000,A,auto,S,QL-PRC,locked"],
    ),
    (
        "a short failure starts wait-to-restore anew",
        lambda *case: [row for row in changes(*case).splitlines() if ",A," in row],
        (CHAIN, FAILED_AND_BACK + FAILED_AGAIN, 600000),
        ["0,A,auto,S,QL-PRC,locked", "1300,A,auto,none,QL-SEC,holdover", "500001,A,auto,S,QL-PRC,locked"],
    ),
    (
        "a clear ends wait-to-restore at once",
        lambda *case: [row for row in changes(*case).splitlines() if ",A," in row],
        (CHAIN, FAILED_AND_BACK + "6000,clear-wtr,S,\n", 8000),
        ["0,A,auto,S,QL-PRC,locked", "1300,A,auto,none,QL-SEC,holdover", "6000,A,auto,S,QL-PRC,locked"],
    ),
    (
        "a tie keeps the current source",
        changes,
        (TWO_SOURCES, "1000,down,S1,\n2000,up,S1,\n", 3000),
        "0,A,auto,S1,QL-PRC,locked\n1300,A,auto,S2,QL-PRC,locked\n",
    ),
    (
        "a forced switch never falls back, and a manual one to a lower level doesn't stand",
        changes,
        (MANUAL, COMMANDS, 6000),
        "0,A,auto,S1,QL-PRC,locked\n2000,A,forced,none,QL-SEC,holdover\n3000,A,auto,S1,QL-PRC,locked\n",
    ),
    ("a pair faces each other at 15", report, (PAIR, "", 15), PAIR_FACES),
    ("a pair lets go at 20", report, (PAIR, "", 25), PAIR_LETS_GO),
    (
        "a pair takes from 10 to 19, and neither at 9 nor at 20",
        lambda: [t for t in range(21) if taken_names(PAIR, t) == ["L1>A", "L1>B"]],
        (),
        list(range(10, 20)),
    ),
    (
        "a pair of delay 1 swings until 200,000 changes are told",
        number_and_end,
        (NEAR_PAIR, "", 600000),
        (200000, swinging(100000) + "stopped,100000\n"),
    ),
    (
        "a pair of delay 10 swings until 200,000 changes are told",
        number_and_end,
        (PAIR, "", 86400000),
        (200000, swinging(1000000) + "stopped,1000009\n"),
    ),
    (
        "a level is lost 5000 milliseconds after the last message",
        report,
        (CHAIN, "2500,esmc-off,L1>B,\n", 8000),
        "changes\n"
        + CHAIN_CHANGES
        + "7010,B,auto,none,QL-SEC,holdover\n7020,C,auto,L2>C,QL-SEC,locked\n"
        + CHAIN_END.replace("B,1,source,S", "B,0,own,B").replace("C,2,source,S", "C,1,own,B"),
    ),
    (
        "the level is held while its source is down",
        changes,
        (CHAIN, "1000,down,S,\n1100,level,S,QL-SSU-A\n1200,up,S,\n", 2000),
        CHAIN_CHANGES
        + "1200,A,auto,S,QL-SSU-A,locked\n1210,B,auto,L1>B,QL-SSU-A,locked\n1220,C,auto,L2>C,QL-SSU-A,locked\n",
    ),
    (
        "a message is lost on a line that goes down under it",
        changes,
        (CHAIN, "1000,level,S,QL-SSU-A\n1005,down,L1>B,\n1006,up,L1>B,\n", 2000),
        CHAIN_CHANGES
        + "1000,A,auto,S,QL-SSU-A,locked\n1016,B,auto,L1>B,QL-SSU-A,locked\n1026,C,auto,L2>C,QL-SSU-A,locked\n",
    ),
    (
        "a sweep of the chain, with its bound",
        swept,
        (CHAIN, 1000, 10000),
        SWEEP_HEAD + "L1,yes,2,1,0,0,QL-SEC,301021\nL2,yes,2,1,0,0,QL-SEC,301021\n",
    ),
    ("a pair has no bound", swept, (PAIR, 1000, 10000), SWEEP_HEAD + "L1,yes,0,2,0,0,QL-SEC,none\n"),
    ("the bound of the ladder of 200", bound_of_ladder_of_200, (), 321991),
    ("a small ladder settles after each failure", small_ladder_swept, (), (["yes"] * 9, {"302051"})),
    (
        "a small ladder goes over to the step where a rail fails",
        small_ladder_with_a_rail_down,
        (),
        "3300,E10,auto,S10>E10,QL-PRC,locked settled yes",
    ),
    (
        "the ladder of two goes over to its second source",
        ladder_with_its_first_step_down,
        (2, 300000, 600000),
        (4, "300300,E1,auto,P1,QL-SSU-A,locked", "settled yes"),
    ),
    (
        "a small ladder: E0 and E2 change once, E1 and E3 twice and once more, others twice if even, else thrice",
        ladder_with_its_first_step_down,
        (20, 3000, 9000),
        (2 * 1 + 2 * 3 + 8 * 2 + 8 * 3, "3310,E3,auto,S3>E3,QL-PRC,locked", "settled yes"),
    ),
    (
        "a bundle lets go at once, over both its links",
        report,
        (BUNDLE, "", 2),
        "changes\n1,A,auto,L1>A,QL-SEC,locked\n1,B,auto,L1>B,QL-SEC,locked\n"
        + swinging(2)
        + "inputs\nA,L1>A,good,0\nA,L2>A,good,0\nB,L1>B,good,0\nB,L2>B,good,0\n"
        + "traces\nA,0,own,A\nB,0,own,B\nloops\nsettled no\n",
    ),
    ("no line of a bundle hops back over it", hop_names, (BUNDLE,), []),
    ("ranks of a bundle", ranks, (BUNDLE,), {"L1>B": 0, "L1>A": 0, "L2>B": 0, "L2>A": 0}),
    ("a way back over a parallel link is a hop", lambda plan: hop_names(plan)[0], (TWIN,), "L1>B L2>A"),
    ("parallel links in both directions are a cycle", ranks, (TWIN,), None),
    ("a ring in both directions is a cycle", ranks, (RING,), None),
    ("a return on its own link is no hop", ranks, (PAIR,), {"L1>B": 0, "L1>A": 0}),
    ("ranks rise along the chain", ranks, (CHAIN_ALONE,), {"L1>B": 0, "L2>C": 1}),
    (
        "a source that is down at 0 keeps its level until it is up",
        changes,
        (MANUAL, "0,down,S1,\n0,level,S1,QL-SSU-B\n200,up,S1,\n", 300),
        "0,A,auto,S1,QL-PRC,locked\n200,A,auto,S2,QL-SSU-A,locked\n",
    ),
    (
        "down and up in one millisecond is no break",
        changes,
        (CHAIN, "15,down,L2>C,\n15,up,L2>C,\n", 100),
        CHAIN_CHANGES,
    ),
]


def compare() -> int:
    """How many cases differ; each of these is printed."""
    wrong = 0
    for shown, compute, given, expected in CASES:
        start = time.monotonic()
        answer = compute(*given)
        took = time.monotonic() - start
        print(f"{'right' if answer == expected else 'WRONG'}  {shown}{f' ({took:.0f} s)' if took >= 5 else ''}")
        if answer != expected:
            wrong += 1
            print(f"  expected {expected!r}\n  computed {answer!r}")
    print(f"{len(CASES)} cases, {wrong} wrong")
    return wrong
