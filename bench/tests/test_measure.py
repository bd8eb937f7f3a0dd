"""What the measurements work out for themselves."""

import os
import tomllib
from pathlib import Path

import pytest

from bench import programs, repository
from bench.measure import (
    failing,
    faults,
    gate_time,
    ladder,
    limits,
    proof_times,
    step_costs,
    survey_rates,
    swinging,
    times,
    works,
)
from bench.program import TOP
from bench.reference.plan import ladder as reference_ladder, read_plan
from bench.reference.runs_by_hand import CHAIN


def test_times_that_grow_with_the_square_grow_with_the_power_two() -> None:
    assert times.growth([10, 20, 40], [1.0, 4.0, 16.0]) == pytest.approx(2)
    assert times.growth([10, 20], [0.0, 0.0]) == 0


def test_a_row_has_the_least_and_the_median() -> None:
    runs = [times.Run(wall, wall / 2, 3.0, 0) for wall in (5.0, 1.0, 2.0)]
    assert times.least(runs) == 1.0
    assert times.row("/a/program", runs).split() == ["program", "1.00", "2.00", "0.50", "3.0", "0"]


@pytest.mark.parametrize("count", [2, 3, 9])
def test_the_ladder_is_that_of_the_reference(count: int) -> None:
    plan, by_rules = read_plan(ladder.plan_text(count)), reference_ladder(count)
    assert plan.priority_of[: plan.lines] == by_rules.priority_of[: plan.lines]
    ranks = by_rules.least_ranks() or {}
    rows = [f"{by_rules.input_name(line)},{rank}" for line, rank in sorted(ranks.items())]
    assert sorted(ladder.certificate_text(count).splitlines()[1:]) == sorted(rows)


def test_a_dense_plan_has_no_element_of_more_inputs() -> None:
    plan = read_plan(ladder.dense_plan_text(30, 12))
    assert max(map(len, plan.inputs_of)) == 12
    assert len(tomllib.loads(ladder.full_plan_text(5))["source"]) == 5


def test_a_call_that_fails_is_answered_by_a_fault_or_as_usual() -> None:
    usual = (0, b"accepted\n")
    assert faults.is_right("read", "one", usual, usual)
    assert faults.is_right("open", "failed", usual, faults.READ_FAULT)
    assert not faults.is_right("open", "failed", usual, usual)
    assert faults.is_right("write", "half", usual, usual) and not faults.is_right("write", "half", usual, (8, b"acc"))
    assert faults.is_right("write", "failed", usual, (8, b"acc"))
    assert not faults.is_right("write", "failed", usual, (8, b"accepted\n"))


def test_each_allocation_fails_once(tmp_path: Path) -> None:
    shim = failing.build(str(tmp_path), "failing_allocations")
    runs = [failing.run(["/bin/cat", "/dev/null"], shim, None, FAIL_AT=str(at)) for at in (0, 100_000)]
    assert [(run.status, run.fewer) for run in runs] == [(0, False), (0, True)]


def test_each_read_fails_once(tmp_path: Path) -> None:
    (tmp_path / "file").write_text("text")
    shim = failing.build(str(tmp_path), "failing_calls")
    settings = {"FAIL_CALL": "read", "FAIL_HOW": "failed"}
    failed = failing.run(["/bin/cat", "file"], shim, str(tmp_path), FAIL_AT="1", **settings)
    late = failing.run(["/bin/cat", "file"], shim, str(tmp_path), FAIL_AT="100", **settings)
    assert failed.status != 0 and not failed.fewer
    assert (late.status, late.text, late.fewer) == (0, b"text", True)


def report_of(rows: list[str], end: str) -> str:
    """The changes of a report, and how it ends."""
    return "changes\n" + "".join(f"{row}\n" for row in rows) + end


def test_who_changes_in_the_last_minute_swings() -> None:
    rows = ["0,A,auto,S,QL-PRC,locked", "1940000,B,auto,none,QL-SEC,holdover", "1940001,C,auto,L2>C,QL-PRC,locked"]
    text = report_of(rows, "inputs\ntraces\nloops\nsettled no\n")
    assert (swinging.end_of(text), swinging.changing(text)) == (2_000_000, {"C"})
    stopped = report_of(rows, "stopped,1990000\n")
    assert (swinging.end_of(stopped), swinging.changing(stopped)) == (1_990_000, {"B", "C"})


def test_what_a_run_shows_is_counted_once() -> None:
    plan = read_plan(CHAIN)
    quiet = report_of(["0,A,auto,S,QL-PRC,locked"], "inputs\ntraces\nloops\nsettled yes\n")
    assert swinging.counts_of(plan, [], quiet) == {"plans": 1, "settled": 1}
    restless = report_of(["1999999,C,auto,none,QL-SEC,holdover"], "stopped,1999999\n")
    assert swinging.counts_of(plan, [], restless) == {"plans": 1, "swing": 1, "stopped": 1, "reached": 1}
    short = report_of(["100000,C,auto,none,QL-SEC,holdover"], "stopped,100000\n")
    assert swinging.counts_of(plan, [], short) == {"plans": 1, "too short": 1}


def test_the_example_clashes_and_its_mended_plan_agrees() -> None:
    folder = TOP / "examples" / "swinging"
    kinds = [swinging.kind_of(read_plan((folder / name).read_text())) for name in ("plan.toml", "mended.toml")]
    assert kinds == ["clash", "agreed"]
    assert swinging.kind_of(read_plan((TOP / "examples" / "ring" / "plan.toml").read_text())) is None


def test_processes_below_one_are_found() -> None:
    found = {number: (parent, "", 0.0) for number, parent in ((2, 1), (3, 2), (4, 3), (5, 1))}
    assert sorted(gate_time.below(found, 2)) == [3, 4]


def test_a_process_of_the_gate_is_told_by_its_words() -> None:
    begun = "--jobs 1 --incremental /tmp/rt-edits-1-a"
    words = {
        "rattle build --crate-name a src/lib.rt": "proofs",
        "rattle build --crate-name a --test src/lib.rt": "tests",
        f"rattle check --crate-name a {begun}/seed": "first checks",
        f"rattle check --crate-name a {begun}/3": "edits",
        "rattle check --crate-name a": "edits",
    }
    assert {line: gate_time.kind_of(line) for line in words} == words
    assert gate_time.told("a", {"proofs": 61.2, "edits": 9.0}) == "a: 70 s (proofs 61, edits 9)"


def test_the_time_between_two_files_is_that_of_the_later_ones_function() -> None:
    files = [
        (10.0, "Rattle.Syntax.oantt"),
        (11.0, "Rattle-a-proofs.parts.Table.of_rows.Lts.oantt"),
        (11.5, "Rattle-a-proofs.parts.Table.of_rows.Tie.decls.oantt"),
        (14.5, "Rattle-a-proofs.parts.Table.of_rows.Proof.decls.oantt"),
        (15.0, "Rattle-a-proofs.Lemmas.oantt"),
    ]
    assert proof_times.shares_of(files) == {
        "parts.Table.of_rows": {"translated": 1.0, "searched": 3.0, "other": 0.5},
        "Lemmas": {"other": 0.5},
    }


def test_a_crate_brings_those_on_which_it_stands() -> None:
    crates = repository.dependencies("a: b c\nb: d toml\nc:\nd:\n# e: a\n")
    assert crates == {"a": ["b", "c"], "b": ["d", "toml"], "c": [], "d": []}


def test_files_at_the_limit_have_just_its_length() -> None:
    assert limits.padded("ab", 5, "#") == "ab###"
    assert len(limits.capture_of(1000)) == 1000
    assert sum(text.count("[[element]]") for text in (limits.elements(7), limits.links(3))) == 7


def test_works_name_their_files() -> None:
    assert all(set(files) <= set(words) for words, files in works.works().values())


def test_each_program_is_there() -> None:
    assert all(programs.text(name) for name in ("failing_allocations.c", "failing_calls.c", "telling.h", "timed.sh"))


PROFILE = """fn=(1) main
cfn=(2) sync_net::net::Net::step
calls=3 80
+4 900
16 5
fn=(2)
20 100
cfn=(3) sync_element::element::Element::step
calls=4 90
+1 800
fn=(1)
cfn=(2)
calls=1 80
+9 300
"""


def test_calls_are_counted_with_what_they_call() -> None:
    assert step_costs.calls_of(PROFILE, step_costs.NETWORK) == (4, 1_200)
    assert step_costs.calls_of(PROFILE, step_costs.ELEMENT) == (4, 800)
    assert step_costs.calls_of(PROFILE, "main") == (0, 0)


def test_as_many_sources_change_as_are_asked_for() -> None:
    plan, events = step_costs.busy_element(64, 1)
    assert (len(plan.sources), len(events)) == (64, 64_000)
    assert len({(event.target, event.level) for event in events}) == 65
    plan, events = step_costs.busy_network(250)
    assert (plan.sources[2].at, [event.at for event in events[:2]]) == (240, [21_000, 21_001])


def test_a_survey_is_rated_by_the_processors_that_it_has() -> None:
    assert [survey_rates.cases_of(397, most) for most in (None, 500, 80_000)] == [79_003, 500, 79_003]
    assert survey_rates.spans(79_003) == [(1, 9_876), (34_564, 44_439), (69_128, 79_003)]
    assert (survey_rates.spans(1), survey_rates.spans(10)) == ([(1, 1)], [(1, 10)])
    slow = survey_rates.Survey(2, "none", 2.0, 1.0)
    its = ["2", "500", "none", "2.000", "500", "0.50", "1.000", "1000", "1.00"]
    assert survey_rates.row(slow, 1000, 500.0).split() == its
    assert survey_rates.row(slow._replace(start=2.5), 1000, 500.0).split()[-3:] == ["-0.500", "-", "-"]
    assert len(survey_rates.row(slow, 1000, 500.0)) == len(survey_rates.HEAD)


def test_a_process_is_bound_to_some_of_its_processors() -> None:
    before = os.sched_getaffinity(0)
    with survey_rates.bound(1):
        assert os.sched_getaffinity(0) == {min(before)}
    assert os.sched_getaffinity(0) == before


@pytest.mark.parametrize("text", ["0", "1,0", "-1", "", "a"])
def test_what_is_no_number_from_one_on_is_refused(text: str) -> None:
    with pytest.raises(ValueError):
        survey_rates.counts(text)
