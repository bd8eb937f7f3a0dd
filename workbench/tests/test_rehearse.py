"""`rehearse`: what it says of walks and losses, compared with each millisecond by itself, and its commands with the table of them."""

from __future__ import annotations

import csv
import io
import itertools
import json
import random
from dataclasses import replace
from pathlib import Path

import pytest
from conftest import CASES, EXAMPLES, murdjohe
from hypothesis import given, settings
from hypothesis import strategies as st
from random_plans import RandomPlan, random_plan

import murdjohe as forms
from murdjohe.answers import api
from murdjohe.answers.reports import Change, Report
from murdjohe.commands.rehearse import status_of
from murdjohe.core import levels
from murdjohe.network import plan_file, wiring
from murdjohe.network.wiring import Wiring
from murdjohe.plan.model import Element, Link, Plan, Source
from murdjohe.runs import moments, rehearsals, simulation, spans, switches
from murdjohe.runs.moments import Event
from murdjohe.runs.simulation import EventFile

RUNS = sorted(
    path.parent.name for path in EXAMPLES.glob("*/events.csv") if (path.parent / "report").exists()
)  # (each with a plan and a report)
UNTIL = 400_000
SHORT = 3_000  # of random runs, in which two elements may take and drop one another each millisecond


def wired(plan: Path) -> Wiring:
    return wiring.wiring_of(plan_file.read(str(plan)).network)


def random_events(chance: random.Random, plan: RandomPlan) -> list[Event]:
    """Some events that fit a plan, in order of time."""
    lines = [f"{row['name']}>{row[end]}" for row in plan.rows["link"] for end in "ba"]
    sources = [row["name"] for row in plan.rows["source"]]
    names = {
        "down": lines + sources + [row["name"] for row in plan.rows["link"]],
        "esmc-off": lines,
        "esmc-on": lines,
        "level": sources,
        "clear": [row["name"] for row in plan.rows["element"]],
        **dict.fromkeys(("lockout", "unlock", "forced", "manual"), lines + sources),
    }
    names["up"] = names["down"]
    found = []
    for at in sorted(chance.choice([0, 5, 1_000, 1_001, 2_000, chance.randrange(SHORT)]) for _ in range(12)):
        what = chance.choice(list(names))
        value = chance.choice(levels.LEVELS[plan.option]) if what == "level" else ""
        found.append(Event(at, what, chance.choice(names[what]), value))
    return found


def as_csv(events: list[Event]) -> bytes:
    rows = [f"{event.at},{event.what},{event.target},{event.value}" for event in events]
    return "".join(f"{row}\n" for row in ["at,what,target,value", *rows]).encode()


def random_run(number: int) -> tuple[Wiring, str, list[Event], bytes, Report]:
    """A random plan, its option and events, its text, and what the program reports of them."""
    chance = random.Random(number)
    plan = random_plan(chance)
    data, events = plan.text()[0].encode(), random_events(chance, plan)
    report = forms.sim(data, as_csv(events), SHORT).result
    tables = plan_file.taken("random", data).network
    return wiring.wiring_of(tables), plan.option, events, data, report


def check_end(its: Wiring, report: Report) -> None:
    """That traces and walks at the end of a report are those that it has itself."""
    taken = moments.taken_of(moments.shown_at(its, report.changes, 86_400_000))
    assert tuple(moments.traces_of(its, taken).values()) == report.traces
    assert moments.loops_of(its, taken) == report.loops


@pytest.mark.parametrize("name", RUNS)
def test_traces_and_walks_are_the_programs_at_the_end(name: str) -> None:
    at = EXAMPLES / name
    check_end(wired(at / "plan.toml"), api.sim(at / "plan.toml", at / "events.csv", UNTIL).result)


@settings(max_examples=max(30, CASES))
@given(st.integers(0, 10**9))
def test_traces_and_walks_of_random_runs(number: int) -> None:
    its, _, _, _, report = random_run(number)
    if report.stopped_at is None:
        check_end(its, report)


def standing(its: Wiring, report: Report, times: list[int]) -> dict[int, set[tuple[str, ...]]]:
    """The closed walks of some milliseconds, each looked at by itself."""
    return {at: set(moments.loops_of(its, moments.taken_of(moments.shown_at(its, report.changes, at)))) for at in times}


def check_walks(its: Wiring, report: Report) -> None:
    """That the walks are those of each millisecond by itself."""
    walks = spans.walks_of(its, report.changes)
    for at, found in standing(its, report, sorted({row.at for row in report.changes})).items():
        assert found == {walk.lines for walk in walks if walk.start <= at and (walk.stop is None or at < walk.stop)}


def check_losses(its: Wiring, option: str, report: Report) -> None:
    """That each element's losses are the sums of what each span of the run by itself says."""
    times = sorted({row.at for row in report.changes})
    end = max(times, default=0) + 7
    order = levels.LEVELS[option].index
    moments_shown = [(at, moments.shown_at(its, report.changes, at)) for at in times]
    ends = [(at, moments.traces_of(its, moments.taken_of(one))) for at, one in moments_shown]
    for loss in spans.losses_of(its, option, report.changes, end):
        own = [(-1, its.own[loss.element]), *((at, one[loss.element].level or "") for at, one in moments_shown)]
        assert loss.best == min((level for _, level in own), key=order)
        first = next(at for at, level in own if level == loss.best)
        after = [(max(at, 0), level) for at, level in own if at >= first]
        spells = [(stop - at, level) for (at, level), stop in zip(after, [*(at for at, _ in after[1:]), end])]
        assert loss.below == sum(length for length, level in spells if level != loss.best)
        lost = [at for (at, level), (length, _) in zip(after, spells) if level != loss.best and length]
        kinds = [(at, traces[loss.element].kind == "source") for at, traces in ends]
        late = kinds[next((place for place, (_, is_fed) in enumerate(kinds) if is_fed), len(kinds)) :]
        gaps = [(at, stop) for (at, is_fed), stop in zip(late, [*(at for at, _ in late[1:]), end]) if not is_fed]
        assert loss.unfed == sum(stop - at for at, stop in gaps)
        assert loss.since == min(lost + [at for at, _ in gaps], default=None)


@settings(max_examples=max(20, CASES // 2))
@given(st.integers(0, 10**9))
def test_walks_and_losses_of_random_runs_millisecond_by_millisecond(number: int) -> None:
    its, option, _, _, report = random_run(number)
    report = Report(report.changes[:300], (), (), (), None, None)
    check_walks(its, report)
    check_losses(its, option, report)


@settings(max_examples=max(200, CASES))
@given(st.integers(0, 10**9))
def test_walks_and_losses_of_any_changes(number: int) -> None:
    chance = random.Random(number)
    names = "ABCDEF"
    links = [Link(f"{a}{b}", a, b, 1, 1) for a, b in itertools.combinations(names, 2)]
    elements, sources = [Element(name, "QL-SEC") for name in names], [
        Source(f"S{name}", name, "QL-PRC") for name in "AB"
    ]
    its = wiring.wiring_of(Plan("I", tuple(elements), tuple(links), tuple(sources)))
    inputs = {name: [one for one in (*its.lines, *its.sources) if its.element_of(one) == name] for name in names}
    rows = []
    for at in sorted(chance.randrange(40) for _ in range(20)):
        for name in sorted(chance.sample(names, chance.randint(1, 4))):
            level = chance.choice(levels.LEVELS["I"])
            rows.append(Change(at, name, "auto", chance.choice([None, *inputs[name]]), level, "locked"))
    changes = tuple({(row.at, row.element): row for row in rows}.values())
    report = Report(tuple(sorted(changes, key=lambda row: row.at)), (), (), (), None, None)
    check_walks(its, report)
    check_losses(its, "I", report)


@settings(max_examples=max(30, CASES))
@given(st.integers(0, 10**9))
def test_commands_agree_with_the_modes_of_the_report(number: int) -> None:
    its, _, events, data, report = random_run(number)
    if report.stopped_at is not None:
        return
    nominated = wiring.nominated_of(plan_file.taken("random", data).network)
    commands = switches.commands_of(its, nominated, events)
    assert len(commands) == sum(event.what in switches.WORDS for event in events)
    for name in its.elements:
        for at in sorted({command.at for command in commands if command.element == name}):
            before = [one for one in commands if one.element == name and one.at <= at and one.is_taken]
            forced = None
            for one in before:
                if one.word == "forced":
                    forced = one.input
                elif one.word == "clear" or (one.word == "lockout" and one.input == forced):
                    forced = None
            mode = moments.shown_at(its, report.changes, at)[name].mode
            assert (mode == "forced") == (forced is not None)


def test_the_table_of_commands() -> None:
    its = Wiring(("B",), {"B": "QL-SEC"}, {}, {"S": "B", "T": "B", "U": "B"})
    words = [
        *("lockout S", "forced S", "manual S", "manual T", "forced T", "manual T", "lockout T", "forced U"),
        *("unlock S", "forced S", "clear B", "manual S", "manual U", "forced Q"),
    ]
    events = [Event(at, what, target, "") for at, (what, target) in enumerate(word.split() for word in words)]
    found = switches.commands_of(its, frozenset("STU"), events[:-1])
    assert {(one.at, one.why) for one in found if not one.is_taken} == {
        (1, "S is locked out"),
        (2, "S is locked out"),
        (5, "T is forced"),
    }
    assert switches.commands_of(Wiring(("B",), {}, {}, {"Q": "B"}), frozenset(), events[-1:])[0].why == (
        "Q is not nominated"
    )


def test_settled_from_is_the_first_such_millisecond() -> None:
    for name in ("ladder", "metro-ring", "bundle", "mesh", "option-two"):
        plan = plan_file.read(str(EXAMPLES / name / "plan.toml"))
        events = simulation.read_events(str(EXAMPLES / name / "events.csv"))
        found = simulation.settled_from(plan, events, simulation.report_of(plan, events, 1_200_000), 1_200_000)
        assert found and simulation.report_of(plan, events, found).is_settled
        assert not simulation.report_of(plan, events, found - 1).is_settled


def test_works_as_a_person_reads_them(folder: Path) -> None:
    mesh = EXAMPLES / "mesh"
    ran = murdjohe("rehearse", str(mesh / "redundant.toml"), str(mesh / "works.csv"), "--start", "02:00:00")
    assert (ran.status, ran.err) == (0, "")
    assert ran.out.decode().splitlines()[:6] == [
        "no element is without a source at the end, 02:16:06.000",
        "",
        "02:00:00.003  7 changes up to here, before the first event",
        "02:01:00.000  * lockout S2>hub-south",
        "02:01:00.000  hub-south: takes H>hub-south in place of S2>hub-south",
        "02:02:00.000  * down S2",
    ]
    settled, end = ran.out.decode().splitlines()[-2:]
    assert settled.startswith("settled from 02:16:00.") and end.startswith("the run ends at 02:16:06.000: 0.3")


def test_what_is_rejected_and_what_loops_is_told(folder: Path) -> None:
    ring = EXAMPLES / "ring" / "plan.toml"
    (folder / "events.csv").write_text(
        "at,what,target,value\n1000,lockout,L1>B,\n2000,forced,L1>B,\n3000,unlock,L1>B,\n3000,manual,L3>C,\n90000,down,L1,\n"
    )
    ran = murdjohe("rehearse", str(ring), "events.csv", "--until", "1m", folder=folder)
    said = ran.out.decode().splitlines()
    assert ran.status == 1
    assert "00:00:02.000  * forced L1>B (rejected: L1>B is locked out)" in said
    assert "  00:00:03.000  manual L3>C: L3>C is not nominated" in said
    assert any("TIMING LOOP: L1>B L2>C L3>A" in line for line in said)
    assert said[-1] == "1 event after 00:01:00.000 has no effect"


def test_the_list_as_a_table_and_as_json() -> None:
    words = [str(EXAMPLES / "inventory" / name) for name in ("plan.toml", "loss.csv")]
    rows = list(csv.DictReader(io.StringIO(murdjohe("rehearse", *words, "--csv").out.decode())))
    found = json.loads(murdjohe("--json", "rehearse", *words).out)["answer"]
    report = api.sim(words[0], words[1], found["until"]).result
    changes = [row for row in rows if row["kind"] == "change"]
    assert [(int(row["at"]), row["name"], row["level"]) for row in changes] == [
        (row.at, row.element, row.level) for row in report.changes
    ]
    assert [row["what"] for row in found["list"]] == [row["what"] for row in rows]
    assert [row["at"] for row in found["list"]] == sorted(int(row["at"]) for row in rows)
    assert (found["late_events"], found["stopped_at"], found["settled_from"]) == (0, None, 960_020)


def stopped_run() -> rehearsals.Rehearsal:
    """A run that the program stopped, in which two elements took from one another twice."""
    its = wired(EXAMPLES / "bundle" / "plan.toml")
    rows = [(0, "East", "L1>East"), (0, "West", "L1>West"), (5, "West", None), (9, "West", "L1>West")]
    changes = tuple(Change(at, name, "auto", taken, "QL-SEC", "locked") for at, name, taken in rows)
    walks, losses = spans.walks_of(its, changes), spans.losses_of(its, "I", changes, 20)
    return rehearsals.Rehearsal(20, its, (), 0, Report(changes, (), (), (), None, 20), [], walks, losses, None)


def test_a_run_that_is_stopped() -> None:
    found = stopped_run()
    said = rehearsals.text_of(found, 0, False)
    walk = "pair: East and West take timing from each other: L1>East L1>West"
    assert f"  00:00:00.000 to the end, 2 times, 0.016 s in all  {walk}" in said
    assert said[-1] == "the program stopped at 00:00:00.020: more than 200,000 changes"
    assert status_of(found) == 11
    end = "the program stopped at 00:00:00.020, after 200,000 changes, the last of them of East, West"
    assert said[0] == f"who is without a source at the end isn't known: {end}"
    late = replace(found, events=(Event(30, "up", "L1", ""),))
    assert rehearsals.text_of(late, 0, False)[0].endswith(f"{end}; 1 event after that was not run")
    assert rehearsals.list_text(late, 0, True)[-1] == "00:00:00.030  * up L1, not run"


def test_times_of_day_past_midnight_want_a_start(tmp_path: Path) -> None:
    (tmp_path / "works.csv").write_text("at,what,target,value\n23:15,down,L1,\n01:00,up,L1,\n")
    plan = str(EXAMPLES / "ring" / "plan.toml")
    ran = murdjohe("rehearse", plan, "works.csv", folder=tmp_path)
    assert (ran.status, ran.out) == (5, b"")
    assert "if these are times of day past midnight, give --start; else sort the rows by time" in ran.err
    assert murdjohe("rehearse", plan, "works.csv", "--start", "23:00", folder=tmp_path).status != 5


def test_who_changes_again_and_again_is_listed_a_few_times_and_counted() -> None:
    its = wired(EXAMPLES / "bundle" / "plan.toml")
    rows = [(at, "West", "L1>West" if at % 2 else None) for at in range(25)] + [(30, "East", "L1>East")]
    changes = tuple(Change(at, name, "auto", taken, "QL-SEC", "locked") for at, name, taken in rows)
    found = rehearsals.Rehearsal(40, its, (), 0, Report(changes, (), (), (), None, None), [], [], [], None)
    said = rehearsals.list_text(found, 0, False)
    assert [line.split()[1] for line in said] == ["West:"] * 10 + ["East:", ".."]
    assert said[-1] == "00:00:00.024  .. 15 changes more up to here, which --all lists: West (15)"
    assert len(rehearsals.list_text(found, 0, True)) == 26
    # (an event begins the count anew)
    event = Event(12, "down", "L1", "")
    again = rehearsals.list_text(replace(found, events=(event,)), 0, False)
    assert again[0].endswith("12 changes up to here, before the first event") and len(again) == 1 + 1 + 10 + 1 + 1


@pytest.mark.parametrize(
    ("words", "status", "said"),
    [
        (["plan.toml", "plan.toml"], 5, "plan.toml:1: "),
        (["events.csv", "events.csv"], 3, "events.csv:1: "),
        (["plan.toml", "nosuch"], 7, "nosuch: No such file or directory"),
        (["nosuch", "events.csv"], 7, "nosuch: No such file or directory"),
        (["-", "-"], 2, "standard input is one file"),
        (["plan.toml", "events.csv", "--until", "soon"], 2, "Invalid value for '--until'"),
        (["plan.toml", "events.csv", "--until", "25h"], 2, "--until: at most a day"),
        (["plan.toml"], 2, "Missing argument 'EVENTS'"),
    ],
)
def test_what_can_not_be_rehearsed(words: list[str], status: int, said: str) -> None:
    ran = murdjohe("rehearse", *words, folder=EXAMPLES / "ring")
    assert (ran.status, ran.out) == (status, b"") and said in ran.err


def test_times_of_day() -> None:
    assert rehearsals.clock(3_723_004) == "01:02:03.004"
    assert rehearsals.clock(7_200_000, 82_800_000) == "01:00:00.000"
    assert simulation.usual_end(EventFile("", b"at,what,target,value\n")) == 1_200_000
