"""Times with units and times of day in words, event lists and cases, and seconds that were typed for milliseconds."""

from __future__ import annotations

from pathlib import Path

from comfort_plans import UNMENDED
from conftest import murdjohe


# 4. times


def test_events_and_cases_have_times_with_units_and_lines_of_the_users_file(reserve: Path) -> None:
    plain = murdjohe("sim", "plan.toml", "-", "1h", folder=reserve, stdin=UNMENDED.encode())
    for text in (
        UNMENDED.replace("60000", "60s").replace("90000", "1m30s"),
        UNMENDED.replace("60000", "00:01:00").replace("90000", '"00:01:30"'),
        UNMENDED.replace("60000", "00:01").replace("90000", "90s").replace("\n", "\r\n"),
    ):
        (reserve / "works.csv").write_bytes(text.encode())
        ran = murdjohe("sim", "plan.toml", "works.csv", "1h", folder=reserve)
        assert (ran.status, ran.out) == (0, plain.out)
    (reserve / "works.csv").write_text("at,what,target,value\n5m,down,L1,\n4m,up,L1,\n")
    ran = murdjohe("sim", "plan.toml", "works.csv", "1h", folder=reserve)
    assert ran.status == 5 and ran.err.startswith("murdjohe: works.csv:3: `4m,up,L1,`: ")
    cases = "case,at,what,target,value\nx,90s,down,L1,\ny,02:10,down,L3,\n"
    (reserve / "cases.csv").write_text(cases)
    same = murdjohe("study", "plan.toml", "-", "3h", folder=reserve, stdin=cases.replace("90s", "90000").encode())
    for words in (["study", "plan.toml", "cases.csv", "3h"],):
        ran = murdjohe(*words, folder=reserve)
        assert (ran.status, ran.out) == (0, same.out)
    ran = murdjohe("survey", "plan.toml", "cases.csv", "-o", "rows.csv", "--until", "3h", folder=reserve)
    assert ran.status == 0 and (reserve / "rows.csv").read_bytes() == same.out


def test_a_time_of_day_counts_from_the_start(reserve: Path) -> None:
    (reserve / "works.csv").write_text("at,what,target,value\n23:05:00,down,L1,\n02:00:00,up,L1,\n")
    words = ["rehearse", "plan.toml", "works.csv", "--start", "23:00"]
    said = murdjohe(*words, folder=reserve).out.decode()
    assert "23:05:00.000  * down L1" in said and "02:00:00.000  * up L1" in said
    ran = murdjohe("why", "plan.toml", "works.csv", "B", "02:10:00", "--start", "23:00:00", folder=reserve)
    assert ran.out.startswith(b"At 02:10:00.000 B takes L1>B") or ran.out.startswith(b"At 02:10:00.000 B takes L2>B")
    plain = murdjohe("sim", "plan.toml", "works.csv", "03:00", "--start", "23:00", folder=reserve)
    (reserve / "same.csv").write_text("at,what,target,value\n300000,down,L1,\n10800000,up,L1,\n")
    assert plain.out == murdjohe("sim", "plan.toml", "same.csv", "4h", folder=reserve).out
    ran = murdjohe("why", "plan.toml", "works.csv", "B", "22:59:00", "--start", "23:00", folder=reserve)
    assert ran.status == 2 and "22:59:00 is before the start, 23:00:00" in ran.err
    (reserve / "early.csv").write_text("at,what,target,value\n22:50,down,L1,\n")
    ran = murdjohe("rehearse", "plan.toml", "early.csv", "--start", "23:00", folder=reserve)
    assert ran.status == 5 and "early.csv:2: `22:50,down,L1,`: 22:50:00 is before the start" in ran.err
    assert murdjohe("draw", "plan.toml", "--start", "23:00", "-o", "plan.svg", folder=reserve).status == 0
    (reserve / "run").write_bytes(plain.out)
    ran = murdjohe("timeline", "run", "--plan", "plan.toml", "--start", "23:00", "-o", "run.svg", folder=reserve)
    assert ran.status == 0 and "23:05" in (reserve / "run.svg").read_text()


def test_seconds_that_were_typed_for_milliseconds_are_told(reserve: Path) -> None:
    (reserve / "works.csv").write_text("at,what,target,value\n60,down,L1,\n")
    told = "60 is in milliseconds, less than a second; where seconds are meant, write 60s"
    for words in (
        ["sim", "plan.toml", "works.csv", "20m"],
        ["rehearse", "plan.toml", "works.csv"],
        ["why", "plan.toml", "works.csv", "B", "20m"],
        ["report", "plan.toml", "works.csv", "-o", "page.html"],
        ["failures", "plan.toml", "--at", "60"],
        ["survey", "plan.toml", "--at", "60"],
    ):
        ran = murdjohe(*words, folder=reserve)
        assert told in ran.err, (words, ran.err)
    ran = murdjohe("sweep", "plan.toml", "60", "400", folder=reserve)
    assert "AT: 60 is in milliseconds" in ran.err and "UNTIL: 400 is in milliseconds" in ran.err
