"""`draw`, `timeline` and `explain` on the examples: what they write is what is stored, or what the files say."""

from __future__ import annotations

import re
from pathlib import Path

import pytest
from conftest import EXAMPLES, murdjohe, started

from murdjohe.answers.reports import Change
from murdjohe.commands import timeline
from murdjohe.picture import bands, plan_graph, strips
from murdjohe.picture.bands import Band
from murdjohe.picture.strips import Red
from murdjohe.runs import report_file

PLANS = sorted(EXAMPLES.glob("*/*.toml"))
REPORTS = sorted(
    path for path in EXAMPLES.glob("*/*report") if path.parent.name != "reserve-clock" or path.name == "report"
)
STORED = sorted(EXAMPLES.glob("*/*.svg"))
LOSS = ["loss.report", "--plan", "plan.toml", "--events", "loss.csv"]
USUAL = ["report", "--plan", "plan.toml", "--events", "events.csv"]


def made(stored: Path) -> list[str]:
    """The words that make a stored picture, in its folder."""
    is_inventory = stored.parent.name == "inventory"
    if stored.name == "timeline.svg":
        return ["timeline", *(LOSS if is_inventory else USUAL), "--until", "20m"]
    if stored.name == "ducts.svg":
        return ["draw", "ducts-protecting.toml", "--groups", "ducts.csv"]
    if stored.name == "first.svg":
        return ["draw", "first.toml", "--answer", "first.answer"]
    if stored.parent.name == "ring" or stored.name == "plan.svg":
        return ["draw", "plan.toml", "--report", "loss.report" if is_inventory else "report"]
    raise ValueError(stored)


def name(path: Path) -> str:
    return f"{path.parent.name}-{path.name}"


@pytest.mark.parametrize("plan", PLANS, ids=name)
def test_each_plan_is_drawn_with_all_that_it_has(folder: Path, plan: Path) -> None:
    ran = murdjohe("draw", str(plan), "-o", "plan.dot", folder=folder)
    assert (ran.status, ran.err) == (0, "")
    dot, network = (folder / "plan.dot").read_text(), plan_graph.read_plan(str(plan))
    for element in network.elements:
        assert f'"e {element.name}" [label="' in dot
    arrows = sum(link.priority(end) > 0 for link in network.links for end in "ab")
    quiet = sum(not any(link.priority(end) for end in "ab") for link in network.links)
    assert dot.count(" -> ") == arrows + quiet + len(network.sources)


@pytest.mark.parametrize("ending", ["svg", "png", "pdf", "dot"])
def test_pictures_of_each_format(folder: Path, ending: str) -> None:
    at = EXAMPLES / "metro-ring"
    words = [
        "draw",
        str(at / "plan.toml"),
        "--report",
        str(at / "report"),
        "--certificate",
        str(at / "certificate.csv"),
    ]
    assert murdjohe(*words, "-o", f"plan.{ending}", folder=folder).status == 0
    begins = {"svg": b"<?xml", "png": b"\x89PNG", "pdf": b"%PDF", "dot": b"digraph plan {"}[ending]
    assert (folder / f"plan.{ending}").read_bytes().startswith(begins)


def test_what_is_taken_is_thick_and_what_makes_a_ring_is_red(folder: Path) -> None:
    inventory = EXAMPLES / "inventory"
    words = ["draw", str(inventory / "first.toml"), "--answer", str(inventory / "first.answer"), "-o", "plan.dot"]
    assert murdjohe(*words, folder=folder).status == 0
    ring = (inventory / "first.answer").read_text().split()[1:]
    assert (folder / "plan.dot").read_text().count('color="#D55E00", style=dashed') == len(ring)
    at = EXAMPLES / "ladder"
    words = ["draw", str(at / "plan.toml"), "--report", str(at / "report"), "-o", "plan.dot", "--force"]
    assert murdjohe(*words, folder=folder).status == 0
    taken = {
        row.split(",")[1]: row.split(",")[3] for row in (at / "report").read_text().splitlines() if row.count(",") == 5
    }
    thick = sum(taken != "none" for taken in taken.values())
    assert (folder / "plan.dot").read_text().count('color="#0072B2", penwidth=3') == thick


def test_near_draws_a_part(folder: Path) -> None:
    plan = str(EXAMPLES / "mesh" / "plan.toml")
    assert murdjohe("draw", plan, "--near", "cell-2", "--links", "1", "-o", "part.dot", folder=folder).status == 0
    drawn = set(re.findall(r'^  "e ([\w-]+)" \[', (folder / "part.dot").read_text(), re.M))
    assert drawn == {"cell-1", "cell-2", "cell-3"}


@pytest.mark.parametrize("stored", STORED, ids=name)
def test_the_stored_pictures_are_drawn(folder: Path, stored: Path) -> None:
    ran = murdjohe(*made(stored), "-o", str(folder / "picture.svg"), folder=stored.parent)
    assert (ran.status, ran.err) == (0, "")
    assert (folder / "picture.svg").read_bytes() == stored.read_bytes()


@pytest.mark.parametrize("report", REPORTS, ids=name)
def test_bands_cover_the_run(report: Path) -> None:
    its_report = report_file.read(str(report))
    rows, order = list(its_report.changes), bands.order_of(its_report)
    end = rows[-1].at + 1000
    for element, its in bands.bands_of(rows, order, end).items():
        own = [row for row in rows if row.element == element]
        assert [band.start for band in its] == [row.at for row in own]
        assert [band.stop for band in its] == [*(row.at for row in own[1:]), end]


def test_a_picture_from_a_millisecond_on() -> None:
    rows = [
        Change(0, "A", "auto", "S", "QL-PRC", "locked"),
        Change(0, "B", "auto", "L", "QL-PRC", "locked"),
        Change(50, "A", "auto", None, "QL-SEC", "holdover"),
    ]
    later = bands.rows_from(rows, 20)
    assert later == [Change(20, "A", "auto", "S", "QL-PRC", "locked"), rows[2]]
    assert bands.bands_of(later, ["B", "A"], 90) == {
        "A": [Band(20, 50, "S", "QL-PRC", "locked"), Band(50, 90, "none", "QL-SEC", "holdover")]
    }


def test_loops_at_the_end_of_a_report_stand_since_the_same_millisecond_without_its_plan() -> None:
    ring = [str(EXAMPLES / "ring" / name) for name in ("report", "plan.toml")]
    report = report_file.read(ring[0])
    alone, whole = (timeline.red_of(ring[0], report, plan, 120_000) for plan in (None, ring[1]))
    assert alone == whole == [Red(name, 3, 120_000, strips.LOOP) for name in "BCA"]
    assert timeline.within(whole, 5, 90) == [Red(name, 5, 90, strips.LOOP) for name in "BCA"]
    assert timeline.within(whole, 0, 3) == []


@pytest.mark.parametrize(
    ("walk", "word"),
    [(("L1>B", "L1>A"), strips.PAIR), (("L1>B", "L2>A"), strips.CLOSED), (("L1>B", "L2>C", "L3>A"), strips.LOOP)],
)
def test_what_a_walk_is_by_its_names(walk: tuple[str, ...], word: str) -> None:
    assert timeline.word_of(walk) == word


def test_times_in_minutes() -> None:
    assert [bands.minutes(at) for at in (0, 61_000, 60_302, 3_723_004)] == [
        "00:00",
        "01:01",
        "01:00.302",
        "1:02:03.004",
    ]
    assert [bands.length_of(span) for span in (300, 4_990, 60_000, 299_700)] == ["300 ms", "4.99 s", "1 min", "5.0 min"]


def test_long_times_are_folded() -> None:
    places, folds = bands.places_of([0, 10, 5000, 5001], 1000)
    assert places == {0: 0, 10: 50, 5000: 1050, 5001: 1100} and folds == {550: 4990}
    assert bands.labelled([0, 10, 5000, 5001], places, 60) == [0, 5000]


@pytest.mark.parametrize(
    ("words", "said"),
    [
        (["draw", "plan.toml", "-o", "plan.gif"], "a picture ends in .svg, .png, .pdf or .dot"),
        (["draw", "plan.toml", "-o", "nosuch/plan.dot"], "nosuch/plan.dot: No such file or directory"),
        (["draw", "nosuch", "-o", "plan.dot"], "nosuch: No such file or directory"),
        (["draw", ".", "-o", "plan.dot"], ".: Is a directory"),
        (["draw", "events.csv", "-o", "plan.dot"], "events.csv: it is no TOML document"),
        (["draw", "plan.toml", "--near", "Q", "-o", "plan.dot"], "--near: Q names no element"),
        (["draw", "plan.toml", "--report", "plan.toml", "-o", "plan.dot"], "plan.toml: it is no report of sim"),
        (["draw", "plan.toml", "--at", "5", "-o", "new.svg"], "--at and --events are of a run: name its report"),
        (["draw", "plan.toml", "--places", "plan.toml", "-o", "new.svg"], "plan.toml:1: a table of places has"),
        (
            ["timeline", "report", "--plan", "../mesh/plan.toml", "-o", "t.svg"],
            "report: it is a report of another plan",
        ),
        (["draw", "plan.toml", "--certificate", "report", "-o", "plan.dot"], "report: it is no certificate"),
        (["draw", "plan.toml", "--answer", "report", "-o", "plan.dot"], "report: it is no answer of rank or check"),
        (["draw", "plan.toml", "-o", "/dev/full"], "a picture ends in"),
        (["timeline", "plan.toml", "-o", "t.svg"], "plan.toml: it is no report of sim: it doesn't begin"),
        (["timeline", "report", "-o", "t.gif"], "t.gif: a picture ends in .svg, .png or .pdf"),
        (["timeline", "report", "--until", "1ms", "-o", "t.svg"], "--until: the last change is at "),
        (["timeline", "report", "--from", "23h", "-o", "t.svg"], "--from: nothing changes after 82800000"),
        (["timeline", "report", "--fold", "0", "-o", "t.svg"], "--fold: at least 1 millisecond"),
    ],
)
def test_what_can_not_be_drawn_is_one_line(words: list[str], said: str) -> None:
    ran = murdjohe(*words, folder=EXAMPLES / "ring")
    # (the file to write, a file to read, what a file has, or the words)
    has_mistakes = any(part in said for part in (": it is ", ": it doesn't", "a table of places"))
    unread = "No such file" in said or "Is a directory" in said
    status = 8 if said.startswith("nosuch/") else 7 if unread else 24 if has_mistakes else 2
    assert (
        (ran.status, ran.out) == (status, b"") and ran.err.startswith(f"murdjohe: {said}") and ran.err.count("\n") == 1
    )


def test_a_report_by_priority_alone_is_no_timeline(folder: Path) -> None:
    report = EXAMPLES / "reserve-clock" / "priority-report"
    ran = murdjohe("timeline", str(report), "-o", "t.svg", folder=folder)
    assert ran.status == 24 and f"{report}: it is a report of prio-sim, which has no levels" in ran.err


def test_explain_says_what_the_program_itself_answered(core: str) -> None:
    ring, script = EXAMPLES / "ring", "{} {} | {} explain {}"
    launcher = Path(__file__).resolve().parent.parent / "murdjohe"
    for words, status, said in (
        ("rank plan.toml", 1, "timing may go round over L1>B -> L2>C -> L3>A -> L1>B"),
        ("check plan.toml certificate.csv", 1, "timing may go on from line L3>A to line L1>B"),
        ("check plan.toml plan.toml", 4, "it is a plan, and no certificate"),
        ("rank certificate.csv", 3, "it is a certificate, and no plan"),
        ("rank nosuch", 7, "nosuch: No such file or directory"),
        ("sim plan.toml events.csv soon", 2, 'UNTIL is "soon"'),
        ("rnk plan.toml", 2, '"rnk" is an unknown command (nearest: "rank")'),
    ):
        ran = started(["sh", "-c", script.format(core, words, launcher, words)], ring)
        assert ran.status == status and said in ran.out.decode() and ran.err == ""
    hops = started(["sh", "-c", script.format(core, "hops plan.toml", launcher, "hops plan.toml")], ring)
    assert (hops.status, hops.out) == (0, started([core, "hops", "plan.toml"], ring).out)


def test_explain_refuses_what_the_program_does_not_write() -> None:
    for text in (b"bad plan\n", b"bad plan x\n", b"bad frames 13\n", b"cycle\n"):
        ran = murdjohe("explain", "rank", "plan.toml", folder=EXAMPLES / "ring", stdin=text)
        assert ran.status == 2 and "is no answer of the program" in ran.err
