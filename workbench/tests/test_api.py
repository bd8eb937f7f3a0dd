"""The forms as functions: paths or bytes in, dataclasses out, refusals as exceptions."""

from __future__ import annotations

import os
from pathlib import Path

import pytest
from conftest import EXAMPLES
from plans_spelled import spelled

import murdjohe
from murdjohe.answers import inspections, reports

MESH = EXAMPLES / "mesh"
PLAN = b'[[element]]\nname = "A"\n[[element]]\nname = "B"\n[[link]]\nname = "L1"\na = "A"\nb = "B"\npriority_b = 1\n'


def test_a_verdict() -> None:
    right = murdjohe.check(str(MESH / "redundant.toml"), MESH / "redundant.csv")
    assert (right.result, right.text, right.status) == (reports.Verdict(True, None), b"accepted\n", 0)
    ring = EXAMPLES / "ring"
    wrong = murdjohe.check(ring / "plan.toml", ring / "certificate.csv")
    assert (wrong.result, wrong.status) == (reports.Verdict(False, ("L3>A", "L1>B")), 1)


def test_ranks_and_rings() -> None:
    ranks = murdjohe.rank(MESH / "plan.toml")
    rows = (MESH / "certificate.csv").read_text().splitlines()[1:]
    assert ranks.result.ranks == {line: int(rank) for line, rank in (row.split(",") for row in rows)}
    assert murdjohe.rank(EXAMPLES / "ring" / "plan.toml").result.ring == ("L1>B", "L2>C", "L3>A")
    loop = murdjohe.prio_rank(EXAMPLES / "reserve-clock" / "plan.toml").result
    assert loop.ring == ("Fibre>East", "Fibre>West")
    assert loop.events == (EXAMPLES / "reserve-clock" / "forced.csv").read_text()


def test_a_report_is_what_the_text_says() -> None:
    run = murdjohe.sim(MESH / "plan.toml", MESH / "events.csv", "20m")
    text = (MESH / "report").read_text()
    assert run.text.decode() == text
    report, lines = run.result, text.splitlines()
    changes = lines[1 : lines.index("inputs")]
    assert [
        ",".join((str(row.at), row.element, row.mode, row.input or "none", str(row.level), row.state))
        for row in report.changes
    ] == changes
    traces = lines[lines.index("traces") + 1 : lines.index("loops")]
    assert [f"{row.element},{row.hops},{row.kind},{row.name}" for row in report.traces] == traces
    inputs = lines[lines.index("inputs") + 1 : lines.index("traces")]
    assert [f"{row.element},{row.input},{row.condition},{row.left}" for row in report.inputs] == inputs
    assert (report.is_settled, report.stopped_at, report.loops) == (lines[-1] == "settled yes", None, ())


def test_a_report_by_priority_alone_has_no_levels() -> None:
    at = EXAMPLES / "reserve-clock"
    report = murdjohe.prio_sim(at / "plan.toml", at / "forced.csv", 0).result
    assert report.changes[0] == reports.Change(0, "West", "forced", "Fibre>West", None, "locked")
    assert (report.loops, report.is_settled) == ((("Fibre>East", "Fibre>West"),), None)


def test_a_run_that_was_stopped() -> None:
    plan = spelled("element A", "element B", "link L1 a=A b=B priority_a=1 priority_b=1")
    run = murdjohe.sim(plan.encode(), b"at,what,target,value\n", "10m")
    assert (run.status, run.result.stopped_at, len(run.result.changes)) == (11, 100_000, 200_000)


def test_tables() -> None:
    hops = murdjohe.hops(MESH / "topology.toml").result.rows
    assert hops[2] == reports.Hop("hub-north", 1, "N1>hub-north")
    assert murdjohe.hops(b'[[element]]\nname = "A"\n').result.rows == (reports.Hop("A", None, None),)
    links = ("link L1 a=A b=B priority_b=1", "link L2 a=B b=C priority_b=1")
    plan = spelled("element A", "element B own=QL-SSU-A", "element C", *links).encode()
    chains = (reports.Chain("A", 0, 0, 0), reports.Chain("B", 1, 1, 0), reports.Chain("C", 2, 1, 1))
    assert murdjohe.chains(plan).result.rows == chains
    ring = murdjohe.chains(MESH.parent / "ring" / "plan.toml").result
    assert (ring.rows, ring.ring) == (None, ("L1>B", "L2>C", "L3>A"))
    gaps = murdjohe.protected(MESH / "plan.toml")
    assert (gaps.status, len(gaps.result.rows)) == (1, 7)
    assert gaps.result.rows[0] == reports.Gap("link", "N1", 2, "hub-north")
    assert murdjohe.protected(MESH.parent / "bundle" / "plan.toml").result == reports.Gaps(())
    assert murdjohe.agree(MESH.parent / "ring" / "plan.toml").result.clash == ("L1>B", "L2>C", "L3>A")
    assert murdjohe.agree(MESH / "plan.toml").result.clash is None
    cuts = murdjohe.sweep(MESH / "redundant.toml", 60_000, "400s").result.rows
    assert [cut.link for cut in cuts] == ["C", "N1", "S2", "H", "A1", "A2", "A3", "A4"]
    assert all(cut.is_settled and cut.locked == 7 and cut.bound is None for cut in cuts)
    cases = b"case,at,what,target,value\n" + b"".join(b"%b,60000,down,%b,\n" % (name, name) for name in (b"H", b"N1"))
    rows = murdjohe.study(MESH / "redundant.toml", cases, "400s").result.rows
    assert [row.case for row in rows] == ["H", "N1"]
    assert all(row.is_settled and (row.locked, row.lost, row.first, row.bound) == (7, 0, None, None) for row in rows)
    trial = murdjohe.trial(10).result
    assert (trial.elements, trial.links, trial.top, trial.changes, trial.is_settled) == (10, 17, 8, 23, True)
    assert trial.last == reports.Change(300_310, "E3", "auto", "S3>E3", "QL-PRC", "locked")


def test_an_inspection() -> None:
    at = EXAMPLES / "metro-ring"
    answer = murdjohe.inspect(at / "plan.toml", at / "works.csv", "5m")
    assert answer.text == (at / "inspection").read_bytes()
    said = answer.result
    assert said.commands == (
        inspections.Command(60_000, "north-1", "lockout", "N1>north-1", True),
        inspections.Command(180_000, "north-1", "forced", "N1>north-1", False),
    )
    assert said.elements[1] == inspections.Inspected("north-1", "auto", None, None, "QL-SEC", "holdover")
    assert said.inputs[1] == inspections.Reason("north-1", "N1>north-1", "good", 0, "QL-PRC", "locked-out")
    assert [row.verdict for row in said.inputs].count("below-floor") == 4
    clear = murdjohe.inspect(PLAN, b"at,what,target,value\n5,clear,A,\n", 5).result
    assert (clear.commands, clear.inputs[0].level) == ((inspections.Command(5, "A", "clear", None, True),), "QL-SEC")


def test_plans_are_written() -> None:
    assert murdjohe.nominate(MESH / "topology.toml").text == (MESH / "plan.toml").read_bytes()
    found = murdjohe.protect(MESH / "topology.toml")
    assert (found.status, found.result) == (0, reports.Protection(found.text.decode(), ()))
    assert murdjohe.protected(found.text).status == murdjohe.agree(found.text).status == 0
    no_room = (
        b'element = [{ name = "A" }, { name = "B" }]\nlink = [{ name = "L", a = "A", b = "B" }]\n'
        b'source = [{ name = "S", at = "A", level = "QL-PRC" }, { name = "T", at = "B", level = "QL-PRC", priority = 255 }]\n'
    )
    none = murdjohe.protect(no_room)
    assert (none.status, none.result) == (1, reports.Protection(None, (reports.Gap("source", "T", 1, "B"),)))
    assert murdjohe.gen(4).result.text == (EXAMPLES / "ladder" / "plan.toml").read_text()


def test_frames_and_captures() -> None:
    lab = EXAMPLES / "lab"
    rows = murdjohe.pcap_decode("I", lab / "capture.pcap").result
    assert rows.passed == 2
    assert rows.rows[0] == reports.Frame(
        "001b1d00a1c3", "info", "QL-PRTC", "001b1dfffe00a1c3", "01", 1, 0, 1764288000, 103412
    )
    assert murdjohe.pcap_encode("I", lab / "stimulus.rows").result == (lab / "stimulus.pcap").read_bytes()
    assert murdjohe.encode("I", lab / "frames.rows").result.text == (lab / "frames").read_text()
    plain = murdjohe.decode(
        "I", bytes.fromhex("303138306332") + b"00000202000000000188090a0019a700011000000001000402" + b"0" * 64
    )
    assert plain.result.rows == (reports.Frame("020000000001", "info", "QL-PRC"),)


def test_one_element() -> None:
    at = EXAMPLES / "node"
    sent = murdjohe.node(at / "plan.toml", "device", at / "received", "9s").result
    assert [f"{row.at},{row.line},{row.frame}" for row in sent.rows] == (at / "sent").read_text().splitlines()
    assert sent.stopped_at is None


@pytest.mark.parametrize(
    ("status", "number", "place", "said", "call"),
    [
        (3, 18, "link 1", "the bytes:8: ", lambda: murdjohe.rank(PLAN.replace(b'b = "B"', b'b = "C"'))),
        (4, 38, "L1>B", "the bytes: ", lambda: murdjohe.check(PLAN, b"line,rank\n")),
        (5, 28, "1", "the bytes:2: ", lambda: murdjohe.sim(PLAN, b"at,what,target,value\nx,down,L1,\n", 9)),
        (5, 51, "1", "the bytes:2: ", lambda: murdjohe.study(PLAN, b"case,at,what,target,value\na b,5,down,L1,\n", 9)),
        (6, 13, "1", "the bytes:1: ", lambda: murdjohe.decode("I", b"00\n")),
        (7, None, None, "nosuch: ", lambda: murdjohe.rank("nosuch")),
        (9, None, None, "the bytes: ", lambda: murdjohe.sim(PLAN, b"#" * 8_388_609, 9)),
        (2, None, None, "sim: UNTIL is ", lambda: murdjohe.sim(PLAN, b"", "soon")),
    ],
)
def test_refusals_are_exceptions(status: int, number: int | None, place: str | None, said: str, call: object) -> None:
    assert callable(call)
    with pytest.raises(murdjohe.Refused) as refused:
        call()
    assert (refused.value.status, refused.value.number, refused.value.place) == (status, number, place)
    assert (
        refused.value.sentence.startswith(said) and refused.value.text and str(refused.value) == refused.value.sentence
    )


def test_nothing_is_left_open() -> None:
    before = os.listdir("/proc/self/fd")
    for _ in range(5):
        murdjohe.rank(PLAN)
        with pytest.raises(murdjohe.Refused):
            murdjohe.check(PLAN, b"")
    assert len(os.listdir("/proc/self/fd")) == len(before)


def test_all_names_of_the_package_are_there() -> None:
    for name in murdjohe.__all__:
        assert getattr(murdjohe, name).__doc__
    with pytest.raises(AttributeError):
        getattr(murdjohe, "nosuch")


def test_notebooks_need_no_command_line(tmp_path: Path) -> None:
    import subprocess
    import sys

    script = "import sys, murdjohe; murdjohe.gen(3); print('click' in sys.modules, 'rich' in sys.modules)"
    run = subprocess.run(
        [sys.executable, "-c", script],
        capture_output=True,
        check=True,
        env={**os.environ, "PYTHONPATH": os.pathsep.join(sys.path)},
    )
    assert run.stdout == b"False False\n"
