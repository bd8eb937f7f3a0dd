"""The reference against runs by hand, and against itself: what it writes is read back, ranks rise, cycles are
cycles.
"""

import collections
import random
from typing import Any

import pytest

from bench.reference import laws, runs_by_hand
from bench.reference.element import Element
from bench.reference.network import last_said
from bench.reference.plan import events_text, ladder, plan_text, read_events, read_plan
from bench.reference.priority import PriorityPlan, priority_check, priority_rank, priority_sim_text
from bench.reference.random_plans import random_events, random_plan
from bench.reference.report import sim_text

# Those runs whose milliseconds are few; `python3 -m bench.reference --rows` has all, in a minute or two.
QUICK = [
    case
    for case in runs_by_hand.CASES
    if case[2] and all(not isinstance(word, int) or word <= 10_000 for word in case[2]) and "ladder" not in case[0]
]


@pytest.mark.parametrize("case", QUICK, ids=[case[0] for case in QUICK])
def test_run_by_hand(case: tuple[str, Any, tuple[Any, ...], Any]) -> None:
    _, compute, given, expected = case
    assert compute(*given) == expected


def test_there_are_quick_runs() -> None:
    assert len(QUICK) > 20


def test_plans_and_events_are_read_as_they_are_written() -> None:
    chance = random.Random(1)
    for _ in range(100):
        plan = random_plan(chance, [0, 60_000])
        read = read_plan(plan_text(plan))
        assert vars(read) == vars(plan)
        events = random_events(chance, plan, 3000)
        assert read_events(read, events_text(plan, events)) == events


def test_least_ranks_rise_where_there_is_no_cycle() -> None:
    chance, cycles = random.Random(2), 0
    for _ in range(100):
        plan = random_plan(chance, [0])
        cycle, ranks = plan.first_cycle(), plan.least_ranks()
        assert (cycle is None) != (ranks is None)
        if ranks is None:
            assert cycle is not None and plan.is_cycle(cycle)
            cycles += 1
        else:
            lines = plan.nominated_lines
            assert all(ranks[line] < ranks[after] for line in lines for after in lines if plan.hops(line, after))
    assert 0 < cycles < 100


def test_the_last_value_said_holds() -> None:
    said = [(2, "a"), (4, "b"), (4, "c"), (9, "d")]
    assert last_said(said, "first", 1, 7) == ["first", "a", "a", "c", "c", "c"]
    assert last_said(said, "first", 5, 6) == ["c"]


def test_a_forced_switch_goes_with_a_lockout_and_a_manual_one_with_a_better_level() -> None:
    element = Element("I", "QL-SEC", None, 300, 0, [(1, "QL-PRC", 0), (2, "QL-SSU-A", 1)])
    element.evaluate([True, True], set(), [("forced", 1)])
    assert (element.taken, element.mode(), element.level()) == (1, "forced", "QL-SSU-A")
    element.evaluate([True, True], set(), [("lockout", 1)])
    assert (element.taken, element.mode(), element.sent_back(0)) == (0, "auto", "QL-DNU")
    element.evaluate([True, True], set(), [("unlock", 1), ("manual", 1)])
    assert (element.taken, element.mode()) == (0, "auto")


def test_by_priority_alone_a_pair_that_faces_each_other_is_a_loop() -> None:
    plan = read_plan(runs_by_hand.PAIR)
    alone = PriorityPlan(plan.option, plan.elements, plan.links, plan.sources)
    assert plan.least_ranks() is not None
    assert priority_check(alone, {0: 0, 1: 1}) == (1, "falls L1>A L1>B\n")
    status, text = priority_rank(alone)
    assert (status, text) == (1, "at,what,target,value\n0,forced,L1>B,\n0,forced,L1>A,\n")
    assert priority_sim_text(alone, read_events(alone, text), 0).endswith("loops\nL1>B L1>A\n")


def test_a_report_of_a_small_ladder() -> None:
    text = sim_text(ladder(3), [], 1)
    assert text.startswith("changes\n0,E0,auto,P0,QL-PRC,locked\n0,E1,auto,P1,QL-SSU-A,locked\n")
    assert text.endswith("settled no\n")


def test_a_law_is_contradicted_where_do_not_use_never_goes_back() -> None:
    plan, events, until = laws.plans_by_hand()[2]
    counted = collections.Counter[str]()
    assert not list(laws.loop_freedom(laws.Run(plan, events, until), counted))
    assert list(laws.loop_freedom(laws.Run(plan, events, until, laws.NeverSentBack), counted))


def test_the_promises_hold_on_the_shorter_plans_by_hand() -> None:
    short = [case for case in laws.plans_by_hand() if case[2] <= 1000]
    assert len(short) == 2
    for plan, events, until in short:
        run = laws.Run(plan, events, until)
        contradicted = {
            name: next(said, None) for name, said in laws.right_laws(run, collections.Counter[str](), 1).items()
        }
        assert set(contradicted.values()) == {None}, contradicted
