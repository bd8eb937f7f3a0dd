"""Compares the rows of `study` with the reports of `sim`, a run of its own for each case.

usage: python3 -m bench.compare.studies PROGRAM PLAN CASES UNTIL [--cases N] [--seed N]

From the report of each case come whether the run is settled, the states and the worst level of the elements, the number
of loops, and of the traces how many end at no source, the first of these and the longest that ends; from its changes
come for how long elements are worse than before the case. The settling bound isn't in a report, and is left out, as are cases with more changes than a report has. With --cases so many of the cases
are looked at, chosen at random. `sim` is run with the events of a case alone, put between those that are common to all.
It needs Python 3.11 alone.
"""

import os
import random
import sys
import tempfile

from bench.levels import LEVELS
from bench.program import answer, path, program_words, put_files
from bench.readings.records import records
from bench.reference.plan import Plan, read_plan

PARTS = ("changes", "inputs", "traces", "loops")
BOUND = 7  # the column of a row that no report has
STOPPED = 11  # the status of a report that ends before its run


def parts_of(report: str) -> dict[str, list[list[str]]]:
    """The rows of each part of a report, and of its last line `settled`."""
    parts: dict[str, list[list[str]]] = {}
    for line in report.splitlines():
        if line in PARTS:
            rows = parts.setdefault(line, [])
        elif line.startswith("settled "):
            parts["settled"] = [[line.removeprefix("settled ")]]
        else:
            rows.append(line.split(","))
    return parts


def milliseconds_worse(places: list[tuple[int, int]], before: int, until: int) -> tuple[int, bool]:
    """For how many milliseconds after one an element is worse than in it, and whether it is at the end.

    The places of its level in the table come with the milliseconds from which on it has them, in order.
    """
    first = [place for at, place in places if at <= before][-1]
    ends = [at for at, _ in places[1:]] + [until + 1]
    worse = sum(max(end - max(at, before + 1), 0) for (at, place), end in zip(places, ends) if place > first)
    return worse, places[-1][1] > first


def way_of(plan: Plan, changes: list[list[str]], before: int, until: int) -> list[str]:
    """What a run costs on the way, by its changes of level."""
    table = LEVELS[plan.option]
    places = {element.name: [(-1, table.index(element.own))] for element in plan.elements}
    for row in changes:
        places[row[1]].append((int(row[0]), table.index(row[4])))
    worse = {name: milliseconds_worse(of, before, until) for name, of in places.items()}
    dark = max(time for time, _ in worse.values())
    darkest = next(name for name, (time, _) in worse.items() if time == dark) if dark else ""
    hurt = sum(time > 0 for time, _ in worse.values())
    return [str(hurt), str(dark), darkest, str(sum(still for _, still in worse.values()))]


def fields_of(plan: Plan, report: str, before: int, until: int) -> list[str]:
    """The fields of a row but for the case and the bound, by a report, where the case begins after a millisecond."""
    parts = parts_of(report)
    ends = {element.name: ("freerun", element.own) for element in plan.elements}
    ends.update((row[1], (row[5], row[4])) for row in parts["changes"])
    states = [state for state, _ in ends.values()]
    worst = max((level for _, level in ends.values()), key=LEVELS[plan.option].index)
    lost = [row[0] for row in parts["traces"] if row[2] != "source"]
    lengths = [int(row[1]) for row in parts["traces"] if row[2] != "loop"]
    counts = [str(states.count(state)) for state in ("locked", "holdover", "freerun")]
    first = lost[0] if lost else ""
    loops = str(len(parts["loops"]))
    timing = [str(len(lost)), first, str(max(lengths, default=0))]
    return [parts["settled"][0][0], *counts, loops, worst, *timing, *way_of(plan, parts["changes"], before, until)]


def events_of(cases: list[list[str]], name: str) -> str:
    """The event list of a case: the common events and its own, in order of time, the common ones first."""
    rows = sorted((row for row in cases if row[0] in ("", name)), key=lambda row: (int(row[1]), row[0] != ""))
    return "at,what,target,value\n" + "".join(",".join(row[1:]) + "\n" for row in rows)


def before_own(cases: list[list[str]], name: str, until: int) -> int:
    """The millisecond before the first event of a case, 0 where that is at 0; the last one where none comes up to it."""
    first = min(int(row[1]) for row in cases if row[0] == name)
    return until if first > until else max(first - 1, 0)


def main() -> int:
    words = program_words(__doc__, seed=1)
    words.add_argument("plan", type=path)
    words.add_argument("table", metavar="CASES", type=path)
    words.add_argument("until", type=int)
    words.add_argument("--cases", type=int, help="so many, chosen at random; all without it")
    given = words.parse_args()
    with open(given.plan, encoding="utf-8") as file:
        plan = read_plan(file.read())
    with open(given.table, "rb") as file:
        cases = records(file.read())[1:]
    status, text = answer(given.program, "study", given.plan, given.table, given.until)
    if status:
        print(f"status {status}: {text}", end="")
        return 1
    rows = [line.split(",") for line in text.splitlines()[1:]]
    if given.cases is not None and given.cases < len(rows):
        rows = random.Random(given.seed).sample(rows, given.cases)
    differ = stopped = 0
    with tempfile.TemporaryDirectory() as folder:
        for row in rows:
            put_files(folder, {"events": events_of(cases, row[0])})
            status, report = answer(given.program, "sim", given.plan, os.path.join(folder, "events"), given.until)
            stopped += status == STOPPED
            before = before_own(cases, row[0], given.until)
            wanted = fields_of(plan, report, before, given.until) if status == 0 else [f"status {status}"]
            if status != STOPPED and [*row[1:BOUND], *row[BOUND + 1 :]] != wanted:
                differ += 1
                print(f"{row[0]}: {','.join(row)}, by sim {','.join(wanted)}")
    print(f"{len(rows)} cases, {stopped} stopped, {differ} differ")
    return 1 if differ else 0


if __name__ == "__main__":
    sys.exit(main())
