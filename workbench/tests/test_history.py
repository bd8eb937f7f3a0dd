"""What was before a millisecond, by the published rules, beside what the program says of each; and that no change comes from nothing."""

from __future__ import annotations

import random

import answers_by_hand as by_hand
import pytest
from conftest import CASES
from hypothesis import given, settings
from hypothesis import strategies as st
from random_plans import random_plan
from test_rehearse import as_csv, random_events

from murdjohe.answers.inspections import Inspection
from murdjohe.answers.reports import Change, Report
from murdjohe.network import plan_file
from murdjohe.runs import simulation
from murdjohe.runs.moments import Event
from murdjohe.runs.simulation import EventFile
from murdjohe.why import causes, choice_text, choices, signals
from murdjohe.why.history import History, Message
from murdjohe.why.signals import Signals, Turn

UNTIL = 9_000  # of random runs: long enough for a level that was heard to be lost


def events(*words: str) -> list[Event]:
    """Events on X, as `5 down` says them."""
    return [Event(int(at), what, "X", "") for at, what in (word.split() for word in words)]


@pytest.mark.parametrize(
    ("words", "expected"),
    [
        ([], []),
        (["5 down"], [(5, False)]),
        (["5 down", "5 up"], []),
        (["5 down", "6 down", "7 up", "7 up"], [(5, False), (7, True)]),
        (["0 up", "0 down", "9 up"], [(0, False), (9, True)]),
    ],
)
def test_the_last_word_of_a_millisecond_counts(words: list[str], expected: list[tuple[int, bool]]) -> None:
    flips = signals.flips_of(events(*words), "up", "down")
    assert list(flips) == expected
    for at in range(-1, 12):
        holds = next((holds for since, holds in reversed(expected) if since <= at), True)
        assert signals.holds_at(flips, at) == holds
        assert signals.holds_from_to(flips, at, 11) == all(signals.holds_at(flips, one) for one in range(at, 12))


# With a hold-off time of 2 and a wait-to-restore time of 3 milliseconds, as docs/verify/definitions.md counts them.
@pytest.mark.parametrize(
    ("words", "expected"),
    [
        (["1 down", "4 up"], [(3, True, 1, False), (7, False, 4, False)]),
        (["1 down", "3 up"], []),
        (["1 down", "3 up", "4 down", "9 up"], [(6, True, 4, False), (12, False, 9, False)]),
        (["1 down", "4 up", "6 down", "8 up"], [(3, True, 1, False), (11, False, 8, False)]),
        (["1 down", "4 up", "5 clear-wtr"], [(3, True, 1, False), (5, False, 4, True)]),
        (["1 down", "2 clear-wtr", "4 up", "4 clear-wtr"], [(3, True, 1, False), (4, False, 4, True)]),
        (["1 down", "4 up", "7 clear-wtr", "8 clear-wtr"], [(3, True, 1, False), (7, False, 4, False)]),
        (["0 down", "5 up", "5 down"], [(2, True, 0, False)]),
    ],
)
def test_when_an_input_fails_and_is_good_again(words: list[str], expected: list[tuple[int, bool, int, bool]]) -> None:
    its = Signals("X", events(*words), 2, 3)
    assert its.turns == [Turn(at, "X", failed, since, cleared) for at, failed, since, cleared in expected]
    for at in range(0, 14):
        assert its.has_failed(at) == next((one[1] for one in reversed(expected) if one[0] <= at), False)


def stored_history() -> History:
    """The chain A, B, C whose line into B falls silent at 2500."""
    return by_hand.silent("B").history


def test_what_is_heard_of_a_line() -> None:
    history = stored_history()
    for at, expected in (
        (9, None),
        (10, Message("L1>B", "QL-PRC", 0, 10)),
        (1009, Message("L1>B", "QL-PRC", 0, 10)),
        (1010, Message("L1>B", "QL-PRC", 1000, 1010)),
        (7009, Message("L1>B", "QL-PRC", 2000, 2010)),
        (7010, None),
    ):
        assert history.heard("L1>B", at) == expected
    assert history.heard("L2>C", 19) == Message("L2>C", "QL-SEC", 0, 10)
    assert history.heard("L2>C", 20) == Message("L2>C", "QL-PRC", 10, 20)
    assert history.news(Message("L2>C", "QL-PRC", 6000, 6010)) == Message("L2>C", "QL-PRC", 10, 20)
    assert history.last_heard("L1>B", 8000) == Message("L1>B", "QL-PRC", 2000, 2010)


def test_what_a_change_comes_from() -> None:
    history = stored_history()
    row = history.last_row("C", 8000)
    assert row and row.at == 7020
    (message,) = causes.causes_of(history, row)
    assert message == Message("L2>C", "QL-SEC", 7010, 7020)
    (before,) = causes.causes_of(history, message)
    assert before == Change(7010, "B", "auto", None, "QL-SEC", "holdover")
    (silence,) = causes.causes_of(history, before)
    assert silence == causes.Silence("L1>B", 7010, Message("L1>B", "QL-PRC", 2000, 2010))
    assert list(causes.causes_of(history, silence)) == [Event(2500, "esmc-off", "L1>B", "")]


def with_clears(chance: random.Random, events: list[Event]) -> list[Event]:
    """Some events, some later by up to six seconds, and some inputs that were up again cleared."""
    later = [Event(event.at + chance.choice([0, 0, 5_500]), event.what, event.target, event.value) for event in events]
    clears = [Event(event.at + 400, "clear-wtr", event.target, "") for event in later if event.what == "up"]
    return sorted(later + chance.sample(clears, len(clears) // 2), key=lambda event: event.at)


def random_run(number: int) -> tuple[History, Inspection, Report, int]:
    """A random run up to a random millisecond: what was before, and what the program says."""
    chance = random.Random(number)
    its = random_plan(chance)
    links = {row["name"] for row in its.rows["link"]}
    happened = [
        event
        for event in with_clears(chance, random_events(chance, its))
        if not (event.what == "clear-wtr" and event.target in links)
    ]
    at = chance.choice([0, 1, 300, 1_000, chance.randrange(UNTIL), chance.randrange(UNTIL)])
    plan, file = plan_file.taken("random", its.text()[0].encode()), EventFile("events", as_csv(happened))
    network = choices.network_of(plan)
    inspection, report = simulation.inspection_of(plan, file, at), simulation.report_of(plan, file, at)
    told = tuple(event for event in file.events if event.at <= at)
    return (
        History(network, told, choices.commands_of(network, told, inspection), report.changes),
        inspection,
        report,
        at,
    )


def condition_of(history: History, name: str, at: int) -> tuple[str, int]:
    """The condition of an input and what is left of it, by the events on it."""
    its = history.signals(name)
    has_failed, flip = its.has_failed(at), signals.last_flip(its.ups, at)
    is_up, since = (True, 0) if flip is None else (flip[1], flip[0])
    if is_up:
        return ("restoring", since + its.restoring - at) if has_failed else ("good", 0)
    return ("failed", 0) if has_failed else ("holdoff", since + its.holdoff - at)


@settings(max_examples=max(40, CASES))
@given(st.integers(0, 10**9))
def test_inputs_are_as_the_program_says(number: int) -> None:
    history, inspection, report, at = random_run(number)
    if report.stopped_at is not None:
        return
    for reason in inspection.inputs:
        assert condition_of(history, reason.input, at) == (reason.condition, reason.left), reason
        assert history.input_level(reason.input, at) == reason.level, reason
    for row in inspection.elements:
        shown = history.shown(row.element, at)
        assert (shown.mode, shown.input, shown.level, shown.state) == (row.mode, row.input, row.level, row.state)


@settings(max_examples=max(40, CASES))
@given(st.integers(0, 10**9))
def test_no_change_comes_from_nothing(number: int) -> None:
    history, _, report, _ = random_run(number)
    for row in report.changes[:300]:
        found = list(causes.causes_of(history, row))
        assert row.at == 0 or any(causes.time_of(one) == row.at for one in found), row
        # (what had taken other inputs away may have come before)
        before = set(causes.missed(history, row))
        assert all(causes.time_of(one) <= row.at for one in before), (row, before)
        assert all(causes.time_of(one) == row.at for one in found if one not in before), (row, found)
    rows = report.changes[-20:]
    walked, is_whole = causes.walked(history, rows, 200)
    assert is_whole or len(walked) == 200
    assert len(set(walked)) == len(walked) and (not is_whole or set(rows) <= set(walked))
    times = [causes.time_of(one) for one in walked]
    assert times == sorted(times) and set(report.changes) >= {one for one in walked if isinstance(one, Change)}


@settings(max_examples=max(20, CASES // 2))
@given(st.integers(0, 10**9))
def test_whatever_is_asked_is_told(number: int) -> None:
    history, inspection, report, at = random_run(number)
    traces = {trace.element: trace for trace in report.traces}
    for row in inspection.elements:
        found = choices.why_of(history.network, history.events, inspection, report, choices.Asked(row.element, at, 40))
        assert choice_text.text_of(found, None) and choice_text.as_data(found, 0)["element"] == row.element
        if report.stopped_at is None:
            trace = traces[row.element]
            assert (len(found.way.lines), found.way.kind, found.way.name) == (trace.hops, trace.kind, trace.name)
