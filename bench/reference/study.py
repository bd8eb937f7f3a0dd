"""The table of a study for the reference: cases that are read with their refusals, and a row for the run of each from 0.

A case has a name and events; the events without a name are common to all. In the run of a case both stand in order of
time, in one millisecond the common ones first.
"""

import re
from dataclasses import dataclass

from bench.levels import LEVELS
from bench.readings.records import event_refusal, records, targets_of
from bench.readings.refused import Refused
from bench.reference.network import Network, closed_walks, trace_of
from bench.reference.plan import Event, Plan, events_text, read_events

HEADER = ["case", "at", "what", "target", "value"]
COLUMNS = "case,settled,locked,holdover,freerun,loops,worst,bound,lost,first,longest,hurt,dark,darkest,still"
MOST_ROWS = 100_000
NAME = re.compile("[A-Za-z0-9_-]{1,32}", re.ASCII)


@dataclass(frozen=True)
class Case:
    """The rows of a case, each of four fields as an event has them."""

    name: str
    rows: list[list[str]]


@dataclass(frozen=True)
class Cases:
    """The rows that are common to all cases, and the cases in order."""

    common: list[list[str]]
    cases: list[Case]


def case_refusal(name: str, cases: dict[str, Case], last: str) -> int | None:
    """The number that the first field of a row is refused with, after these cases and a row of the last; none where it isn't."""
    if name == "":
        return 51 if cases else None
    if not NAME.fullmatch(name):
        return 51
    return 52 if name in cases and name != last else None


def read_cases(plan: Plan, data: bytes) -> Cases:
    """The cases of a table, over an accepted plan, or it is refused."""
    found = records(data)
    if found[:1] != [HEADER]:
        raise Refused("bad events 26\n")
    targets, levels = targets_of(plan), LEVELS[plan.option]
    common: list[list[str]] = []
    cases: dict[str, Case] = {}
    name, at = "", 0
    for number, row in enumerate(found[1:], 1):
        if number > MOST_ROWS:
            raise Refused("bad events 33\n")
        if len(row) != len(HEADER):
            raise Refused(f"bad events 27 {number}\n")
        before = at if row[0] == name else 0
        wrong = case_refusal(row[0], cases, name) or event_refusal(targets, levels, before, row[1:])
        if wrong:
            raise Refused(f"bad events {wrong} {number}\n")
        name, at = row[0], int(row[1])
        own = cases.setdefault(name, Case(name, [])).rows if name else common
        own.append(row[1:])
    return Cases(common, list(cases.values()))


def merged(plan: Plan, cases: Cases, case: Case) -> list[Event]:
    """The events of the run of a case: the common ones and its own by their time, the common ones first in each."""
    rows = sorted([*cases.common, *case.rows], key=lambda row: int(row[0]))
    text = "".join(",".join(row) + "\n" for row in [HEADER[1:], *rows])
    return read_events(plan, text)


def before_own(case: Case, until: int) -> int:
    """The millisecond before the first event of a case, 0 where that is at 0; the last one where none comes up to it."""
    first = min((int(row[0]) for row in case.rows), default=until + 1)
    return until if first > until else max(first - 1, 0)


def way_fields(plan: Plan, network: Network, before: int, until: int) -> list[str]:
    """What a run costs on the way: how many elements are worse than they were, for how long at most, which, and how many yet."""
    places = [[LEVELS[plan.option].index(level) for level in levels] for levels in network.level]
    worse = [[place > of[before] for place in of[before + 1 : until + 1]] for of in places]
    times = [sum(element) for element in worse]
    dark = max(times)
    darkest = plan.elements[times.index(dark)].name if dark else ""
    still = sum(of[until] > of[before] for of in places)
    return [str(sum(time > 0 for time in times)), str(dark), darkest, str(still)]


def case_row(plan: Plan, case: Case, events: list[Event], until: int) -> str:
    """The row of a case: what its run has come to at a millisecond, and what it costs on the way there."""
    network = Network(plan, events).go_to(until)
    taken, elements = network.taken_at(until), range(len(plan.elements))
    states = [state[until] for state in network.state]
    counts = [str(states.count(state)) for state in ("locked", "holdover", "freerun")]
    worst = max((level[until] for level in network.level), key=LEVELS[plan.option].index)
    bound = plan.settling_bound(max([event.at for event in events if event.at <= until], default=0))
    traces = [trace_of(plan, taken, e) for e in elements]
    lost = [plan.elements[e].name for e in elements if traces[e][1][0] != "source"]
    longest = max((len(lines) for lines, (kind, _) in traces if kind != "loop"), default=0)
    fields = [case.name, "yes" if network.is_settled(until) else "no", *counts]
    fields += [str(len(closed_walks(plan, taken))), worst, "none" if bound is None else str(bound)]
    fields += [str(len(lost)), lost[0] if lost else "", str(longest)]
    return ",".join([*fields, *way_fields(plan, network, before_own(case, until), until)]) + "\n"


def study_answer(plan: Plan, data: bytes, until: int) -> tuple[int, str]:
    """The status and the text of a study of a table of cases, over an accepted plan."""
    try:
        cases = read_cases(plan, data)
    except Refused as refused:
        return 5, str(refused.args[0])
    rows = [case_row(plan, case, merged(plan, cases, case), until) for case in cases.cases]
    return 0, COLUMNS + "\n" + "".join(rows)


def cases_text(plan: Plan, events: list[Event]) -> str:
    """A table of cases of these events: every fourth is common to all, and each other one belongs to two cases."""
    rows = events_text(plan, events).splitlines()[1:]
    own = [row for number, row in enumerate(rows) if number % 4]
    cases = {"": rows[0::4], "c1": own[0::3], "c2": own[1::3], "c3": own[2::3], "all": own}
    return "".join(["case,at,what,target,value\n", *(f"{name},{row}\n" for name in cases for row in cases[name])])


def cuts_text(plan: Plan, at: int, until: int) -> str:
    """The table of a sweep, made of a study with a case for each link, which takes it down."""
    rows = [f"{link.name},{at},down,{link.name},\n" for link in plan.links]
    _, text = study_answer(plan, "".join([",".join(HEADER) + "\n", *rows]).encode(), until)
    lines = [line.split(",")[:8] for line in text.splitlines()[1:]]
    return "".join(",".join(line) + "\n" for line in [["link", *COLUMNS.split(",")[1:8]], *lines])
