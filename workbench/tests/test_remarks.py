"""What is said beside verdicts and reports, against counts by hand of the examples."""

from __future__ import annotations

from pathlib import Path

import pytest
from conftest import EXAMPLES, murdjohe
from plans_spelled import chain, spelled

CHAIN = spelled(
    *("element A", "element B", "element C", "element D"),
    *("link L1 a=A b=B priority_b=1", "link L2 a=C b=D priority_b=3"),
)
SOURCE = '[[source]]\nname = "S"\nat = "A"\nlevel = "QL-PRC"\n'


def said(*words: str, stdin: str = "", status: int = 0) -> list[str]:
    ran = murdjohe(*words, folder=EXAMPLES, stdin=stdin.encode())
    assert ran.status == status
    return [line.removeprefix("murdjohe: ") for line in ran.err.splitlines()]


def test_accepted_says_what_was_accepted() -> None:
    # (counted by hand in the plan, and in the stored certificate)
    assert said("check", "mesh/redundant.toml", "mesh/redundant.csv") == [
        "accepted: 7 elements, 11 nominated lines, greatest rank 5"
    ]


@pytest.mark.parametrize("end", ["\n", "\r\n", "\r"])
def test_any_spelling_of_a_certificate_will_do(folder: Path, end: str) -> None:
    (folder / "plan").write_text(CHAIN + SOURCE)
    rows = ["\ufeff", "", '"line",rank', '"L1>B","7"', "", "L2>D,0", ""]
    lines = said("check", str(folder / "plan"), "-", stdin=rows[0] + end.join(rows[1:]))
    assert lines[0] == "accepted: 4 elements, 2 nominated lines, greatest rank 7"


def test_elements_without_a_way_to_a_clock_are_named() -> None:
    first, *rest = said("rank", "-", stdin=CHAIN + SOURCE)
    assert first == "no loop is possible: 4 elements, 2 nominated lines, greatest rank 0"
    assert rest == ["2 elements have no way to a clock over nominated lines: C, D"]
    assert said("hops", "-", stdin=CHAIN + SOURCE) == [
        "2 elements have no way to a clock: a link or a source is missing: C, D"
    ]
    assert said("nominate", "-", stdin=CHAIN + SOURCE) == said("hops", "-", stdin=CHAIN + SOURCE)


def test_chains_are_held_against_the_reference_chain() -> None:
    assert said("chains", "-", stdin=CHAIN + SOURCE) == [
        "whatever fails, no chain is longer than G.803's 60 lines, 20 since a filter and 10 filters"
    ]
    long = "2 elements have chains of more than G.803's 20 lines since a filter: E21, E22"
    assert said("chains", "-", stdin=chain(23)) == [long]


def test_a_protected_plan_is_told() -> None:
    assert said("protected", "bundle/plan.toml")[0].startswith("protected: ")
    assert said("protected", "-", stdin=CHAIN + SOURCE) == [
        "protected: 4 elements, 2 nominated lines",
        "2 elements have no way to a clock over nominated lines: C, D",
    ]
    assert said("protected", "mesh/redundant.toml", status=1) == [
        "1 failure leaves elements without a clock that they could have: nominate lines that lead there from elements that have one"
    ]


PAIR = (
    'element = [{ name = "A" }, { name = "B" }]\n'
    'link = [{ name = "L", a = "A", b = "B", priority_a = 3, priority_b = 3, delay_a = 10, delay_b = 10 }]\n'
    'source = [{ name = "S", at = "A", level = "QL-PRC", priority = 2 }, { name = "T", at = "B", level = "QL-PRC", priority = 2 }]\n'
)


def test_a_plan_that_agrees_is_told() -> None:
    assert said("agree", "-", stdin=PAIR) == [
        "at rest 300.090 seconds after the last event, if no element is under a switch then, wherever a level reaches that is better than every internal oscillator (own clock)",
        "after failures alone, out of a network at rest, if nothing comes up, no ESMC goes off and each source has its planned level at all times: 0.330 seconds after the last",
        "2 elements, 2 nominated lines",
    ]


def test_a_clash_is_told() -> None:
    first, *rest = said("agree", "-", stdin=PAIR.replace("= 3", "= 1"), status=1)
    assert first.startswith(
        "elements may oscillate for ever over L>B -> L>A -> L>B: give one of these lines the lowest priority at its element"
    )
    assert len(rest) == 2


RING = (
    'element = [{ name = "A" }, { name = "B" }, { name = "C" }]\n'
    'link = [{ name = "L1", a = "A", b = "B" }, { name = "L2", a = "B", b = "C" }, { name = "L3", a = "C", b = "A" }]\n'
    'source = [{ name = "S", at = "A", level = "QL-PRC" }]\n'
)


def test_who_wants_a_floor_is_told() -> None:
    both = "1 link or bundle is nominated at both ends: L2"
    want = "2 elements there have no floor better than the other's internal oscillator (own clock), and may oscillate with it while no source reaches them: "
    single, *rest = said("protect", "-", stdin=RING)
    assert single == (
        "after one failure in a settled network: every element that can still have a clock follows one within 0.303 s, "
        "if nothing else happens; after a repair within 300.017 s"
    )
    assert rest == [both, want + "B, C"]
    floored = RING.replace('{ name = "B" }', '{ name = "B", floor = "QL-SSU-B" }')
    assert said("protect", "-", stdin=floored) == [
        single,
        both,
        want.replace("2 elements there have", "1 element there has") + "C",
    ]
    assert said("protect", "-", stdin=floored.replace('name = "C"', 'name = "C", floor = "QL-SSU-B"')) == [single, both]
    missing, last = said("protect", "-", stdin=CHAIN + SOURCE)
    assert [missing] == said("hops", "-", stdin=CHAIN + SOURCE) and last.startswith(
        "after one failure in a settled network: "
    )


def test_that_no_plan_is_found_is_told() -> None:
    source = ', { name = "T", at = "B", level = "QL-PRC", priority = 255 }]'
    (line,) = said("protect", "-", stdin=RING.rstrip("]\n") + source, status=1)
    assert line.startswith(
        "no plan: in the one that was found 1 failure leaves elements without a clock that they could have. "
    )


def test_an_inspection_is_told() -> None:
    assert said("inspect", "metro-ring/plan.toml", "metro-ring/works.csv", "5m") == [
        "1 command was rejected: forced N1>north-1 at 180000",
        "1 input of elements that take nothing is locked out: N1>north-1",
    ]
    assert said("inspect", "metro-ring/plan.toml", "metro-ring/works.csv", "30s") == [
        "3 of 3 events are after 30000, and had no effect"
    ]


def test_a_plan_without_a_clock_is_told() -> None:
    assert said("rank", "-", stdin=CHAIN)[1:] == ["no source is nominated, so nothing ever has a clock"]
    assert said("rank", "-", stdin=CHAIN + SOURCE + "priority = 0\n")[1:] == [
        "no source is nominated, so nothing ever has a clock"
    ]


@pytest.mark.parametrize("form", ["rank", "chains", "protected", "agree", "hops", "nominate", "protect", "prio-rank"])
def test_an_empty_plan_is_told(form: str) -> None:
    assert any("the plan is empty" in line or "0 elements" in line for line in said(form, "-"))


def test_an_empty_plan_that_is_accepted_is_told() -> None:
    assert said("check", "-", "ring/empty.csv", status=7) != []
    ran = murdjohe("check", "/dev/null", "-", stdin=b"line,rank\n")
    assert (ran.status, ran.out) == (
        0,
        b"accepted\n",
    ) and "the plan is empty: is it the file that was meant?" in ran.err


def test_a_ring_is_told_with_the_line_and_key_of_each_nomination() -> None:
    first, *rest = said("rank", "ring/plan.toml", status=1)
    assert first.startswith("timing may go round over L1>B -> L2>C -> L3>A -> L1>B: take the priority away")
    lines = (EXAMPLES / "ring" / "plan.toml").read_text().splitlines()
    assert [lines[int(row.split(":")[1]) - 1] for row in rest] == ["priority_b = 1"] * 3
    assert [row.split(": ")[1] for row in rest] == [
        f"{line} is priority_b = 1 of link {line[:2]}" for line in ("L1>B", "L2>C", "L3>A")
    ]


def test_a_fall_is_told() -> None:
    (line,) = said("check", "ring/plan.toml", "ring/certificate.csv", status=1)
    assert (
        "from line L3>A to line L1>B, and the rank of L1>B (0) isn't greater than that of L3>A (2): `murdjohe rank`"
        in line
    )


def test_commands_that_make_a_loop_are_told() -> None:
    first, *rest = said("prio-rank", "reserve-clock/plan.toml", status=1)
    assert "Fibre>East -> Fibre>West -> Fibre>East" in first and "prio-sim" in rest[-1] and len(rest) == 3
    assert said("prio-check", "reserve-clock/mended.toml", "reserve-clock/mended.csv")[0].startswith(
        "accepted: no loop can form"
    )


def test_a_sweep_names_the_cuts_and_warns_of_locked() -> None:
    first, needless, last, end = said("sweep", "mesh/plan.toml", "60s", "400s")
    few = "3 of 8 cuts leave elements in holdover or free-running at the end (how many): N1 (2), A1 (1), A4 (1)"
    assert first == few and end.startswith("each link goes down at 00:01:00.000, and only the end, 00:06:40.000, is ")
    apart = "3 cuts leave elements without a source although a link could still serve them (how many): N1 (2), A1 (1), A4 (1)"
    assert needless == apart and last.startswith("`locked` counts every element that takes an input")
    assert (
        said("sweep", "mesh/redundant.toml", "60s", "400s")[0] == "no cut of 8 leaves an element in holdover at the end"
    )


def test_a_study_names_the_cases_that_the_sweep_has_as_cuts() -> None:
    cases = "case,at,what,target,value\n" + "".join(f"{link},60000,down,{link},\n" for link in ("A4", "C", "N1", "A1"))
    few = "of 4 cases leave elements without a source at the end (how many, most first): "
    assert said("study", "mesh/plan.toml", "-", "400s", stdin=cases)[:1] == [f"3 {few}N1 (2), A4 (1), A1 (1)"]
    none = [
        "4 of 4 events are after 59999, and had no effect",
        "no case of 4 leaves an element without a source at the end",
    ]
    assert said("study", "mesh/plan.toml", "-", "59999", stdin=cases)[:-1] == none
    way = "1 of 4 cases makes levels worse than before on the way, and 0 still at the end (for which element longest, and for how long up to the end): A1 (cell-1, 2 ms)"
    assert said("study", "mesh/redundant.toml", "-", "400s", stdin=cases)[:-1] == [*none[1:], way]


def test_a_run_says_who_follows_no_clock_and_that_it_goes_on(folder: Path) -> None:
    events = "at,what,target,value\n60000,down,N1,\n9000000,up,N1,\n"
    lines = said("sim", "mesh/plan.toml", "-", "700s", stdin=events)
    assert lines == [
        "1 of 2 events is after 700000, and had no effect",
        "2 elements follow no source, but internal oscillators (own clocks), at the end: hub-north, cell-1",
    ]
    lines = said("sim", "mesh/plan.toml", "-", "60100", stdin=events)
    assert lines[-1].startswith("not settled: ")


def test_a_loop_that_stands_is_told() -> None:
    assert "1 timing loop stands at the end: L1>B L2>C L3>A" in said("sim", "ring/plan.toml", "ring/events.csv", "120s")
    facing = "1 pair takes timing from each other at the end, over one link or bundle: trunk>station trunk>harbour"
    assert facing in said("sim", "swinging/plan.toml", "swinging/events.csv", "15")


def test_packets_that_are_none_and_the_other_option_are_told() -> None:
    assert said("pcap-decode", "I", "lab/capture.pcap") == [
        "2 packets are no ESMC frames (another protocol, a VLAN tag, or cut below 60 bytes)"
    ]
    rows = "".join(f"020000000001,info,code-{code}\n" for code in (2, 8, 11))
    frames = murdjohe("encode", "II", "-", stdin=rows.encode()).out
    (line,) = said("decode", "II", "-", stdin=frames.decode())
    assert line == "3 of 3 frames have a code that the option doesn't know: is option I meant?"


def test_a_run_that_was_stopped_is_told(folder: Path) -> None:
    plan = CHAIN.partition('[[link]]\nname = "L2"')[0] + "priority_a = 1\n"
    (folder / "plan").write_text(plan)
    (line,) = said("sim", str(folder / "plan"), "-", "10m", stdin="at,what,target,value\n", status=11)
    assert line.startswith("stopped: more than 200,000 changes; all up to 100000 ms are told")
