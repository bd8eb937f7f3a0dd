"""The reference's study, against rows worked by hand, and each refusal of a table of cases; against `sweep` of the reference."""

import random

import pytest

from bench.reference import runs_by_hand, study
from bench.reference.plan import Plan, events_text, plan_text, read_events, read_plan
from bench.reference.random_plans import random_events, random_plan
from bench.reference.report import sweep_text

HEAD = b"case,at,what,target,value\n"
TWO = read_plan(runs_by_hand.TWO_SOURCES)
CHAIN = read_plan(runs_by_hand.CHAIN)
PAIR = read_plan(runs_by_hand.PAIR)


def rows(plan: Plan, cases: bytes, until: int) -> list[str]:
    status, text = study.study_answer(plan, HEAD + cases, until)
    head, *rest = text.splitlines()
    assert status == 0 and head == study.COLUMNS
    return rest


def test_without_a_case_there_is_the_header_alone() -> None:
    assert rows(TWO, b"", 10_000) == []
    assert rows(TWO, b",100,down,S1,\n", 10_000) == []


def test_two_sources_and_what_they_do_alone() -> None:
    # A holds off for 300 ms and restores at once; w is 5000, since there is no line, so the bound is the last event's time and 5001.
    cases = b"first,1000,down,S1,\nboth,1000,down,S1,\nboth,2000,down,S2,\nworse,1000,level,S1,QL-SSU-A\n"
    assert rows(TWO, cases, 10_000) == [
        "first,yes,1,0,0,0,QL-PRC,6001,0,,0,0,0,,0",
        # (holdover keeps the level of A's own clock)
        "both,yes,0,1,0,0,QL-SEC,7001,1,A,0,1,7701,A,1",
        "worse,yes,1,0,0,0,QL-PRC,6001,0,,0,0,0,,0",
    ]
    # In hold-off the source that is down is taken still, and nothing is settled; the clock free-runs where it never had one.
    assert rows(TWO, b"x,1000,down,S1,\n", 1200) == ["x,no,1,0,0,0,QL-PRC,6001,0,,0,0,0,,0"]
    assert rows(TWO, b"x,0,lockout,S1,\nx,0,lockout,S2,\n", 1200) == ["x,yes,0,0,1,0,QL-SEC,5001,1,A,0,0,0,,0"]


def test_a_chain_loses_what_is_behind_a_cut() -> None:
    # w is 300,000, R is 1 and the delay 10, so the bound is the last event's time and 300,021.
    cases = b"cut,1000,down,L1,\nnone,90000,down,L1,\nlast,1000,down,L2,\nall,1000,down,S,\n"
    assert rows(CHAIN, cases, 10_000) == [
        "cut,yes,2,1,0,0,QL-SEC,301021,2,B,1,2,8701,B,2",
        "none,yes,3,0,0,0,QL-PRC,300021,0,,2,0,0,,0",
        "last,yes,2,1,0,0,QL-SEC,301021,1,C,1,1,8701,C,1",
        "all,yes,2,1,0,0,QL-SEC,301021,3,A,2,3,8701,A,3",
    ]


def way(row: str) -> str:
    return ",".join(row.split(",")[11:])


def test_what_a_case_costs_on_the_way_is_counted_after_the_millisecond_before_it() -> None:
    # S1 is locked out, so A is worse 300 ms after S2 goes down, and well again when it comes up: from 1300 to 1999, and from 3300 to 3999.
    locked = b",0,lockout,S1,\n"
    twice = b"x,1000,down,S2,\nx,2000,up,S2,\nx,3000,down,S2,\nx,4000,up,S2,\n"
    assert rows(TWO, locked + twice, 5000) == ["x,yes,1,0,0,0,QL-PRC,9001,0,,0,1,1400,A,0"]
    # Both times together count, up to the end and no further.
    assert [way(row) for row in rows(TWO, locked + twice, 3301)] == ["1,702,A,1"]
    # What is worse already when the case begins isn't worse than before; what comes up and goes down again is.
    down = locked + b",500,down,S2,\n"
    assert [way(row) for row in rows(TWO, down + b"x,1000,down,S1,\n", 5000)] == ["0,0,,0"]
    assert [way(row) for row in rows(TWO, down + b"x,1000,up,S2,\nx,2000,down,S2,\n", 5000)] == ["0,0,,0"]
    # Common events after the case begins count as its own do.
    late = locked + b",2000,down,S2,\n"
    assert [way(row) for row in rows(TWO, late + b"x,1000,down,S1,\n", 5000)] == ["1,2701,A,1"]


def test_where_a_case_begins_at_its_edges() -> None:
    # In millisecond 0 B and C have their own clocks: no worse than that. A lockout there counts in what is before.
    assert [way(row) for row in rows(CHAIN, b"x,0,down,L1,\nx,5000,down,S,\n", 6000)] == ["1,701,A,1"]
    assert [way(row) for row in rows(TWO, b"x,0,lockout,S1,\nx,0,lockout,S2,\n", 1200)] == ["0,0,,0"]
    # The last millisecond counts; nothing does where the case comes after it.
    lost = b"x,1000,lockout,S1,\nx,1000,lockout,S2,\n"
    assert [way(rows(TWO, lost, until)[0]) for until in (998, 999, 1000, 1001)] == [
        "0,0,,0",
        "0,0,,0",
        "1,1,A,1",
        "1,2,A,1",
    ]
    # Of two that are worse for as long the first in the order of the plan is told.
    assert [way(row) for row in rows(CHAIN, b"x,1000,down,L1,\nx,1000,down,S,\n", 2000)] == ["3,701,A,3"]


def test_a_pair_has_a_loop_or_none_and_no_bound() -> None:
    assert rows(PAIR, b"x,5,lockout,L1>A,\n", 15) == ["x,no,1,0,1,0,QL-SEC,none,2,A,1,0,0,,0"]
    assert rows(PAIR, b"x,16,lockout,L1>A,\n", 15) == ["x,no,2,0,0,1,QL-SEC,none,2,A,0,0,0,,0"]


def test_common_events_come_first_in_a_millisecond() -> None:
    # The lockout comes first, so the switch is rejected, and taken where the switch is the common one.
    worse = b",0,level,S1,QL-SSU-A\n"
    assert rows(TWO, worse + b",500,lockout,S1,\nx,500,unlock,S1,\nx,600,down,S2,\n", 2000) == [
        "x,yes,1,0,0,0,QL-SSU-A,5601,0,,0,1,1101,A,1"
    ]
    assert rows(TWO, worse + b",500,unlock,S1,\nx,500,lockout,S1,\nx,600,down,S2,\n", 2000) == [
        "x,yes,0,1,0,0,QL-SEC,5601,1,A,0,1,1101,A,1"
    ]
    # Two cases share what is common, and neither sees the other's.
    shared = b",500,lockout,S1,\na,500,down,S2,\nb,500,unlock,S1,\nb,500,down,S2,\nc,9000,down,S1,\n"
    assert [row.split(",")[2] for row in rows(TWO, shared, 2000)] == ["0", "1", "1"]


@pytest.mark.parametrize(
    ("text", "refusal"),
    [
        (b"", "26"),
        (b"at,what,target,value\n", "26"),
        (HEAD + b"x,1,down,S1\n", "27 1"),
        (HEAD + b"x,1,down,S1,,\n", "27 1"),
        (HEAD + b"x y,1,down,S1,\n", "51 1"),
        (HEAD + b"x,1,down,S1,\n,2,down,S1,\n", "51 2"),
        (HEAD + b"x" * 33 + b",1,down,S1,\n", "51 1"),
        (HEAD + b"x,1,down,S1,\ny,1,down,S1,\nx,2,up,S1,\n", "52 3"),
        (HEAD + b"x,86400001,down,S1,\n", "28 1"),
        (HEAD + b"x,01,down,S1,\n", "28 1"),
        (HEAD + b"x,2,down,S1,\nx,1,up,S1,\n", "29 2"),
        (HEAD + b",2,down,S1,\n,1,up,S1,\n", "29 2"),
        (HEAD + b"x,1,cut,S1,\n", "30 1"),
        (HEAD + b"x,1,down,A,\n", "31 1"),
        (HEAD + b"x,1,down,S1,QL-PRC\n", "32 1"),
        (HEAD + b"x,1,level,S1,QL-PRS\n", "32 1"),
        # each row is looked at as a whole before the next, and in it these come in this order
        (HEAD + b"x y,1,down\n", "27 1"),
        (HEAD + b"x y,-1,cut,A,b\n", "51 1"),
        (HEAD + b"x,1,down,S1,\ny,2,down,S1,\nx,-1,cut,A,b\n", "52 3"),
        (HEAD + b"x,-1,cut,A,b\n", "28 1"),
        (HEAD + b"x,2,down,S1,\nx,1,cut,A,b\n", "29 2"),
        (HEAD + b"x,1,cut,A,b\n", "30 1"),
        (HEAD + b"x,1,down,A,b\n", "31 1"),
        (HEAD + b"x,1,cut,S1,\nx y,1,down,S1,\n", "30 1"),
        (HEAD + b"x,1,down,S1,\n" * 100_001, "33"),
    ],
)
def test_a_table_is_refused_for_its_first_fault(text: bytes, refusal: str) -> None:
    assert study.study_answer(TWO, text, 1000) == (5, f"bad events {refusal}\n")


def test_times_may_fall_between_cases() -> None:
    found = study.read_cases(TWO, HEAD + b",9,down,S1,\nx,5,up,S1,\nx,7,down,S1,\ny,1,up,S1,\n")
    assert [case.name for case in found.cases] == ["x", "y"] and len(found.common) == 1
    assert [event.at for event in study.merged(TWO, found, found.cases[0])] == [5, 7, 9]


def test_a_cut_is_a_row_of_the_sweep() -> None:
    chance = random.Random(5)
    for _ in range(6):
        plan = read_plan(plan_text(random_plan(chance, [0])))
        at = chance.randrange(2000)
        assert study.cuts_text(plan, at, 3 * at) == sweep_text(plan, at, 3 * at)


def test_a_case_is_worked_by_itself() -> None:
    chance = random.Random(6)
    for _ in range(4):
        plan = read_plan(plan_text(random_plan(chance, [0])))
        texts = [events_text(plan, random_events(chance, plan, 1000)).splitlines()[1:] for _ in range(4)]
        common, *own = ([f"{name},{line}\n" for line in lines] for name, lines in zip(("", "a", "b", "c"), texts))
        whole = rows(plan, "".join([*common, *(line for lines in own for line in lines)]).encode(), 3000)
        alone = [row for lines in own for row in rows(plan, "".join([*common, *lines]).encode(), 3000)]
        assert whole == alone
        for row in whole:
            _, _, locked, holdover, freerun, *_, lost, first, longest, _, _, _, _ = row.split(",")
            assert int(locked) + int(holdover) + int(freerun) == len(plan.elements)
            assert int(lost) >= int(holdover) + int(freerun) and (first == "") == (lost == "0")
            assert int(longest) < len(plan.elements)


def test_cases_are_made_of_events_in_order_of_time() -> None:
    events = read_events(CHAIN, "at,what,target,value\n" + "".join(f"{at},down,L1,\n" for at in range(9)))
    text = study.cases_text(CHAIN, events)
    cases = study.read_cases(CHAIN, text.encode("ascii"))
    assert [row[0] for row in cases.common] == ["0", "4", "8"]
    assert [(case.name, [row[0] for row in case.rows]) for case in cases.cases] == [
        ("c1", ["1", "5"]),
        ("c2", ["2", "6"]),
        ("c3", ["3", "7"]),
        ("all", ["1", "2", "3", "5", "6", "7"]),
    ]
