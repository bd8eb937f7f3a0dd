"""Plans that are too large for a picture: what is said then, and what to do; and what is linear in their size."""

from __future__ import annotations

import time
from pathlib import Path

import pytest
from conftest import murdjohe
from plans_spelled import chain

from murdjohe.core.documents import Document
from murdjohe.picture import places
from murdjohe.plan import edits
from murdjohe.plan.plan_lines import PlanLines

COUNT = places.LARGEST + 1


@pytest.fixture
def large(folder: Path) -> Path:
    (folder / "plan.toml").write_text(chain(COUNT))
    (folder / "events.csv").write_text("at,what,target,value\n60s,down,L4999,\n")
    return folder


def test_a_picture_that_is_too_large_says_what_to_draw_instead(large: Path) -> None:
    ran = murdjohe("draw", "plan.toml", "-o", "plan.svg", folder=large)
    assert (
        ran.status == 2 and "5,001 elements are too many for a picture, which has 5,000 at most: draw a part" in ran.err
    )
    assert "--near ELEMENT, or write a file that ends in .dot" in ran.err and not (large / "plan.svg").exists()
    assert murdjohe("draw", "plan.toml", "--near", "E7", "-o", "plan.svg", folder=large).status == 0
    assert murdjohe("draw", "plan.toml", "-o", "plan.dot", folder=large).status == 0


@pytest.mark.long
def test_a_page_that_is_too_large_says_what_tells_the_run(large: Path) -> None:
    ran = murdjohe("report", "plan.toml", "events.csv", "-o", "page.html", folder=large)
    assert ran.status == 2 and "`rehearse` tells the same run without a picture" in ran.err
    ran = murdjohe("rehearse", "plan.toml", "events.csv", folder=large)
    assert (
        ran.status == 20 and ran.out.startswith(b"still without a source at the end, 00:01:01.000: 0 elements") is False
    )
    assert "E5000 (since 00:01:00.300, and no link could serve it)" in ran.out.decode().splitlines()[0]


def test_a_timeline_that_is_too_large_says_where_the_changes_stand(folder: Path) -> None:
    rows = "".join(f"{e},E{e},auto,none,QL-SEC,freerun\n" for e in range(COUNT))
    (folder / "report").write_text(f"changes\n{rows}inputs\ntraces\nloops\nsettled yes\n")
    ran = murdjohe("timeline", "report", "-o", "timeline.svg", folder=folder)
    assert ran.status == 2 and "`rehearse --csv` writes the changes as a table" in ran.err


@pytest.mark.alone
def test_lines_of_rows_and_edits_take_time_as_the_file_grows() -> None:
    plan = PlanLines(Document("plan.toml", chain(20_000).encode()))
    start = time.process_time()
    assert plan.line("link", 19_999, "priority_b") == 20_000 * 2 + 19_999 * 5
    lines = [plan.line("link", number, "name") for number in range(1, 20_000)]
    assert lines == sorted(lines, key=lambda line: line or 0)
    wanted = {("link", number, "priority_a"): 2 for number in range(1, 20_000)}
    changed = edits.changed(plan, wanted).decode()
    assert changed.count("priority_a = 2\n") == 19_999
    assert time.process_time() - start < 20  # (two seconds where nothing looks through the whole file for each row)
