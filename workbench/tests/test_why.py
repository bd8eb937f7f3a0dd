"""`why`: its sentences on answers of the program that are stored or worked out by hand, and the command on the program itself."""

from __future__ import annotations

import json
from pathlib import Path

import answers_by_hand as by_hand
import pytest
from conftest import EXAMPLES, TOP, murdjohe

from murdjohe.answers.inspections import Inspected
from murdjohe.core.faults import Wrong
from murdjohe.runs import switches
from murdjohe.runs.moments import Event
from murdjohe.why import choice_text, choices
from murdjohe.why.choices import Since, Why
from murdjohe.why.history import History

METRO = EXAMPLES / "metro-ring"
WORKS = """\
At 300000 ms north-1 takes nothing since 120302 ms: it is in holdover, and has the level of its internal oscillator (own clock), QL-SEC.
Why not its inputs:
  N1>north-1 (from core-1) is locked out by the operator since 60000 ms; QL-PRC is heard on it, and it is up.
  N2>north-1 (from north-2) is below the floor: QL-SEC is heard on it since 120302 ms, and the floor of north-1 is \
QL-SSU-B; north-2 takes nothing, and has this of its internal oscillator (own clock).
What brought it about:
   60000 ms  * lockout N1>north-1
   60000 ms  north-1: takes N2>north-1 in place of N1>north-1
  120000 ms  * down clock-2
  120300 ms  clock-2 fails at core-2: its hold-off time of 300 ms is over
  120300 ms  core-2: has lost clock-2, QL-SEC, which was QL-PRC, holdover
  120301 ms  north-2 hears QL-SEC on N3>north-2, sent by core-2 at 120300 ms
  120301 ms  north-2: has lost N3>north-2, QL-SEC, which was QL-PRC, holdover
  120302 ms  north-1 hears QL-SEC on N2>north-1, sent by north-2 at 120301 ms
  120302 ms  north-1: has lost N2>north-1, QL-SEC, which was QL-PRC, holdover
  180000 ms  * forced N1>north-1 (rejected: N1>north-1 is locked out)
"""
CUT = """\
At 100000 ms north-1 takes N2>north-1 (from north-2), priority 2, since 60300 ms, and has QL-PRC since 1 ms.
Why not its other input:
  N1>north-1 (from core-1) has failed: it is down since 60000 ms, and failed at 60300 ms, after the hold-off time of 300 ms.
Up the trace, 2 lines to the source clock-2:
  north-1 takes N2>north-1 from north-2, at QL-PRC.
  north-2 takes N3>north-2 from core-2, at QL-PRC.
  core-2 takes its source clock-2, at QL-PRC.
What brought it about:
      0 ms  core-2: takes clock-2, QL-PRC, which was QL-SEC, locked
      1 ms  north-2 hears QL-PRC on N3>north-2, sent by core-2 at 0 ms
      1 ms  north-2: takes N3>north-2, QL-PRC, which was QL-SEC, locked
  60000 ms  * down N1
  60300 ms  N1>north-1 fails at north-1: its hold-off time of 300 ms is over
  60300 ms  north-1: takes N2>north-1 in place of N1>north-1
"""
SILENT = """\
At 8000 ms B takes nothing since 7010 ms: it is in holdover, and has the level of its internal oscillator (own clock), QL-SEC.
Why not its input:
  L1>B (from A) is silent since 7010 ms: the last message over it came at 2010 ms, and counted for five seconds; its ESMC \
is off since 2500 ms.
Not nominated there, so never taken: L2>B.
What brought it about:
  2500 ms  * esmc-off L1>B
  7010 ms  B has heard nothing on L1>B for five seconds, and its level is lost
  7010 ms  B: has lost L1>B, QL-SEC, which was QL-PRC, holdover
"""
# What is said of each input of H, but for the one that it takes.
REASONS = """\
  K>H (from N) is silent: nothing is heard on it; its ESMC is off since 0 ms.
  next (a source) could be taken, with QL-SSU-A; best has a better level, QL-PRC.
  low (a source) is below the floor: it has QL-SSU-B, and the floor of H is QL-SSU-A.
  unusable (a source) has do-not-use, QL-DNU since 100 ms.
  barred (a source) is locked out by the operator since 200 ms; it has QL-PRC, and it is up.
  dead (a source) has failed: it is down since 300 ms, and failed at 600 ms, after the hold-off time of 300 ms.
  both (a source) is locked out by the operator since 200 ms; it has QL-PRC, and it is down since 300 ms, and failed at 600 \
ms, after the hold-off time of 300 ms.
  back (a source) is restoring: it is up again since 700 ms, and counts as failed until its wait-to-restore time of 1 minute \
ends at 60700 ms, if nothing happens.
  falling (a source) could be taken, with QL-PRC too; its priority is 9, and best comes first by 1; it is down since 900 \
ms, and fails at 1200 ms unless it is up again before.
  lowdead (a source) has failed: it is down since 300 ms, and failed at 600 ms, after the hold-off time of 300 ms.
"""


def text(why: Why, start: int | None = None) -> str:
    return "".join(f"{line}\n" for line in choice_text.text_of(why, start))


def test_why_half_a_ring_holds_over() -> None:
    assert text(by_hand.works()) == WORKS


def test_why_the_other_way_round_is_taken() -> None:
    assert text(by_hand.cut("north-1")) == CUT


def test_why_nothing_is_heard() -> None:
    assert text(by_hand.silent("B")) == SILENT
    said = text(by_hand.silent("C")).splitlines()
    assert said[0] == "At 8000 ms C takes L2>C (from B), priority 1, since 10 ms, and has QL-SEC since 7020 ms."
    assert said[1:5] == [
        "It has no other input.",
        "Up the trace, 1 line to the internal oscillator (own clock) of B:",
        "  C takes L2>C from B, at QL-SEC.",
        "  B takes nothing: its internal oscillator (own clock), in holdover, at QL-SEC.",
    ]
    assert said[-2:] == [
        "  7020 ms  C hears QL-SEC on L2>C, sent by B at 7010 ms",
        "  7020 ms  C: QL-SEC, which was QL-PRC",
    ]


def test_each_reason_in_a_sentence() -> None:
    said = text(by_hand.each_reason())
    first, second = said.splitlines()[:2]
    assert first == "At 1000 ms H takes best (a source), priority 1, since 0 ms, and has QL-PRC."
    assert second == "Why not its other inputs:" and REASONS in said
    assert said.endswith("  900 ms  * down falling\n")
    assert "  600 ms  dead fails at H: its hold-off time of 300 ms is over\n" in said


def test_do_not_use_is_what_a_neighbour_says_back() -> None:
    said = text(by_hand.ring_under_commands("C"))
    assert "  L2>C (from B) says do-not-use, QL-DNU since 501 ms: B takes its timing from C over L2>B.\n" in said
    assert said.endswith(
        "  500 ms  * lockout L1>B\n  500 ms  B: takes L2>B in place of L1>B\n"
        "  501 ms  C hears QL-DNU on L2>C, sent by B at 500 ms\n"
    )


def test_a_manual_switch_is_told_with_its_time() -> None:
    said = text(by_hand.ring_under_commands("B")).splitlines()
    assert said[:4] == [
        "At 1000 ms B takes L2>B (from C), priority 2, since 500 ms, and has QL-PRC since 1 ms.",
        "It is switched by hand to L2>B since 700 ms.",
        "Why not its other input:",
        "  L1>B (from A) is locked out by the operator since 500 ms; QL-PRC is heard on it, and it is up.",
    ]
    assert "  600 ms  * forced L1>B (rejected: L1>B is locked out)" in said
    assert said[-2:] == ["  700 ms  * manual L2>B", "  700 ms  B: mode manual"]


def test_a_forced_switch_holds_off_what_could_be_taken() -> None:
    before, after = text(by_hand.forced(699)).splitlines(), text(by_hand.forced(700)).splitlines()
    held = "  S1 (a source) could be taken, with QL-SSU-A; the forced switch to S2 holds it off."
    assert held in before and held in after
    assert before[1:3] == [
        "It is forced to S2 since 0 ms.",
        "Of S2: it is down since 400 ms, and fails at 700 ms unless it is up again before.",
    ]
    assert after[1] == "It is forced to S2 since 0 ms, which may not be taken, so it takes nothing."
    assert after[-5:] == [
        "    0 ms  * forced S2",
        "    0 ms  A: takes S2, QL-SSU-B, which was QL-SEC, locked, mode forced",
        "  400 ms  * down S2",
        "  700 ms  S2 fails at A: its hold-off time of 300 ms is over",
        "  700 ms  A: has lost S2, QL-SEC, which was QL-SSU-B, holdover",
    ]
    assert before[-1] == "  400 ms  * down S2"


@pytest.mark.parametrize(
    ("told", "since", "expected"),
    [
        ("1 forced S1, 3 forced S2, 5 forced S2, 6 lockout S1", 1, 3),
        ("1 forced S2, 2 clear A, 5 forced S2", 5, 5),
        ("1 forced S2, 2 lockout S2, 3 unlock S2, 5 forced S2, 7 forced S2", 5, 5),
        ("1 forced S2, 5 manual S2", 1, 1),
    ],
)
def test_since_when_an_input_is_forced(told: str, since: int, expected: int) -> None:
    network = by_hand.forced(700).network
    rows = [row.split() for row in told.split(", ")]
    events = tuple(Event(int(at), what, target, "") for at, what, target in rows)
    commands = switches.commands_of(network.wired, frozenset(("S1", "S2")), events)
    history = History(network, events, tuple(commands), ())
    chosen = Inspected("A", "forced", "S2", "S2", "QL-SSU-B", "locked")
    found = choices.switch_of(history, chosen, Since(None, None, since))
    assert found and found.at == expected


def test_a_loop_is_told() -> None:
    said = text(by_hand.looping()).splitlines()
    assert "Up the trace, 3 lines and no clock:" in said
    assert "There it goes round: a timing loop, L1>B L2>C L3>A." in said
    assert [line for line in said if " takes L" in line and " from " in line] == [
        "  A takes L3>A from C, at QL-PRC.",
        "  C takes L2>C from B, at QL-PRC.",
        "  B takes L1>B from A, at QL-PRC.",
    ]


def test_reserve_loses_by_priority() -> None:
    said = (
        "S2>south-1 (from south-2) could be taken, with QL-PRC too; its priority is 2, and S1>south-1 comes first by 1."
    )
    assert f"  {said}\n" in text(by_hand.cut("south-1"))


def test_of_many_causes_the_last_are_told() -> None:
    some = by_hand.works(3)
    assert [cause_at["at"] for cause_at in choice_text.as_data(some, None)["before"]] == [120_302, 120_302, 180_000]
    assert not some.is_whole and "What brought it about, the last of it (all by --all):\n" in text(some)
    assert by_hand.works(10).is_whole and not by_hand.works(9).is_whole


def test_times_of_day() -> None:
    said = text(by_hand.works(), 7_200_000)
    assert said.startswith("At 02:05:00.000 north-1 takes nothing since 02:02:00.302: ")
    assert "\n  02:01:00.000  * lockout N1>north-1\n" in said
    assert "\n  02:02:00.302  north-1 hears QL-SEC on N2>north-1, sent by north-2 at 02:02:00.301\n" in said


def test_a_report_that_ends_early_tells_no_past() -> None:
    ring = METRO / "works.csv"
    changes = by_hand.WORKS_CHANGES + "stopped,130000\n"
    texts = ring.read_text(), (METRO / "inspection").read_text(), changes
    said = text(by_hand.why(METRO / "plan.toml", *texts, "north-1", 300_000))
    assert said.startswith("At 300000 ms north-1 takes nothing: it is in holdover, ")
    assert "is locked out by the operator since 60000 ms" in said and "QL-SEC is heard on it, and the floor" in said
    assert said.endswith(
        "What brought it about isn't told: the program's report ends at 130000 ms, after 200,000 changes.\n"
    )


def test_as_json() -> None:
    found = choice_text.as_data(by_hand.cut("north-1"), None)
    assert (found["element"], found["input"], found["level"]) == ("north-1", "N2>north-1", "QL-PRC")
    assert found["since"] == {"input": 60_300, "level": 1, "mode": None}
    assert [(row["input"], row["verdict"], row["why"] is None) for row in found["inputs"]] == [
        ("N1>north-1", "failed", False),
        ("N2>north-1", "taken", True),
    ]
    assert [row["line"] for row in found["trace"]["lines"]] == ["N2>north-1", "N3>north-2"]
    assert (found["trace"]["kind"], found["trace"]["name"]) == ("source", "clock-2")
    assert [(row["at"], row["kind"]) for row in found["before"]][-3:] == [
        (60_000, "event"),
        (60_300, "timer"),
        (60_300, "change"),
    ]


@pytest.mark.parametrize(
    ("name", "said"),
    [
        ("north-9", "'north-9' is no element of plan.toml (nearest: north-2, north-1, "),
        ("NORTH-1", "(nearest: north-1, "),
        ("N1", "'N1' is no element of plan.toml, but a link: it joins "),
        ("N1>north-1", "'N1>north-1' is no element of plan.toml, but a line: it leads into north-1"),
        ("clock-1", "'clock-1' is no element of plan.toml, but a source: it is at core-1"),
        ("", "'' is no element of plan.toml"),
    ],
)
def test_names_that_are_no_elements(name: str, said: str) -> None:
    with pytest.raises(Wrong) as wrong:
        choices.known(choices.network_of(by_hand.plan_of(METRO / "plan.toml")), name, "plan.toml")
    assert said in str(wrong.value) and "\n" not in str(wrong.value)


@pytest.mark.parametrize(
    ("words", "said"),
    [
        ([METRO / "plan.toml", METRO / "works.csv", "north-1", "5m"], WORKS),
        ([METRO / "plan.toml", METRO / "events.csv", "north-1", "100000"], CUT),
    ],
)
def test_the_command_says_so_too(words: list[Path | str], said: str) -> None:
    ran = murdjohe("why", *map(str, words))
    assert (ran.status, ran.out.decode(), ran.err) == (0, said, "")


def test_the_command_on_what_is_stored() -> None:
    case = TOP / "cases" / "inspect-the-first-reason-that-holds"
    ran = murdjohe("why", str(case / "plan.toml"), str(case / "events.csv"), "H", "1s", "--all")
    assert ran.status == 0 and REASONS in ran.out.decode()
    case = TOP / "cases" / "sim-esmc-off-is-holdover-after-five-seconds"
    ran = murdjohe("why", str(case / "plan.toml"), str(case / "events.csv"), "B", "8000")
    assert (ran.status, ran.out.decode()) == (0, SILENT)


def test_the_command_as_json_and_in_times_of_day() -> None:
    words = ["why", str(METRO / "plan.toml"), str(METRO / "works.csv"), "north-1", "5m"]
    found = json.loads(murdjohe(*words, "--json").out)["answer"]
    assert found == json.loads(murdjohe("--json", *words).out)["answer"]
    assert (found["at"], found["state"], found["is_all"]) == (300_000, "holdover", True)
    ran = murdjohe(*words, "--start", "02:00:00")
    assert ran.status == 0 and ran.out.startswith(b"At 02:05:00.000 north-1 takes nothing since 02:02:00.302: ")


def test_an_element_of_a_pair_that_swings_too_often() -> None:
    case = TOP / "cases" / "sim-quick-pair-swings-until-200000-changes"
    ran = murdjohe("why", "plan.toml", "events.csv", "A", "101s", folder=case)
    assert ran.status == 11 and ran.out.endswith(b"the program's report ends at 100000 ms, after 200,000 changes.\n")


@pytest.mark.parametrize(
    ("words", "status", "said"),
    [
        (["plan.toml", "events.csv", "D", "5"], 2, "'D' is no element of plan.toml"),
        (["plan.toml", "events.csv", "A", "25h"], 2, "AT: 90000000 ms is more than a day"),
        (["plan.toml", "events.csv", "A", "86400001"], 2, "AT: 86400001 ms is more than a day"),
        (["plan.toml", "events.csv", "A", "soon"], 2, "Invalid value for 'AT'"),
        (["plan.toml", "events.csv", "A"], 2, "Missing argument 'AT'"),
        (["plan.toml", "plan.toml", "A", "5"], 5, "plan.toml:1: "),
        (["events.csv", "events.csv", "A", "5"], 3, "events.csv:1: "),
        (["plan.toml", "nosuch", "A", "5"], 7, "nosuch: No such file or directory"),
        (["nosuch", "events.csv", "A", "5"], 7, "nosuch: No such file or directory"),
        (["-", "-", "A", "5"], 2, "standard input is one file"),
    ],
)
def test_what_can_not_be_asked(words: list[str], status: int, said: str) -> None:
    ran = murdjohe("why", *words, folder=EXAMPLES / "ring")
    assert (ran.status, ran.out, ran.err.count("\n")) == (status, b"", 1) and said in ran.err
