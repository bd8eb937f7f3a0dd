"""No file is lost: outputs that are inputs, files that are there, standard output, signals; and what each status means."""

from __future__ import annotations

import os
import signal
import subprocess
import time
from functools import partial
from pathlib import Path

import pytest
from comfort_plans import RESERVE, THREE, played
from conftest import LAUNCHER, murdjohe

from murdjohe import main


# 8. nothing lost


def test_an_output_that_is_an_input_is_refused_by_the_file(reserve: Path) -> None:
    (reserve / "rows").write_text("020000000001,info,QL-PRC\n")
    (reserve / "link.svg").symlink_to("plan.toml")
    (reserve / "hard.toml").hardlink_to(reserve / "plan.toml")
    (reserve / "link").symlink_to("rows")
    for words in (
        "survey plan.toml -o hard.toml --force",
        "draw plan.toml -o link.svg --force",
        "capture write rows -o link --force",
        "protect plan.toml -o ./plan.toml --force",
        "repair plan.toml -o hard.toml --force",
        "apply plan.toml hard.toml -o plan.toml --force",
        "lint plan.toml -o hard.toml --force",
        "rank plan.toml -o plan.toml",
    ):
        ran = murdjohe(*words.split(), folder=reserve)
        assert ran.status == 22 and "is read by this command" in ran.err, (words, ran)
    assert (reserve / "plan.toml").read_text() == RESERVE and (reserve / "rows").read_text().startswith("02")
    ran = murdjohe("protect", "-", "-o", "hard.toml", "--force", folder=reserve, stdin=RESERVE.encode())
    assert ran.status == 0  # (standard input is no file there)


def test_no_file_is_written_over_without_force(unmended: Path) -> None:
    (unmended / "rows").write_text("020000000001,info,QL-PRC\n")
    report = murdjohe("sim", "plan.toml", "works.csv", "10m", folder=unmended).out
    (unmended / "report").write_bytes(report)
    for name in ("there.svg", "there.html", "there"):
        (unmended / name).write_text("kept")
    for words in (
        *("draw plan.toml -o there.svg", "timeline report -o there.svg", "report plan.toml works.csv -o there.html"),
        *("capture write rows -o there", "rank plan.toml -o there", "nominate plan.toml -o there"),
        *("sim plan.toml works.csv 10m -o there", "lint plan.toml -o there", "orders plan.toml -o there"),
        *("why plan.toml works.csv B 5m -o there", "rehearse plan.toml works.csv -o there", "gen 5 -o there"),
        *("diff plan.toml plan.toml -o there", "failures plan.toml -o there", "export plan.toml --only links -o there"),
    ):
        ran = murdjohe(*words.split(), folder=unmended)
        assert ran.status == 22 and "there already; --force writes over it" in ran.err, (words, ran)
    assert {(unmended / name).read_text() for name in ("there.svg", "there.html", "there")} == {"kept"}
    ran = murdjohe("rank", "plan.toml", "-o", "there", "--force", folder=unmended)
    assert ran.status == 0 and ran.out == b"" and (unmended / "there").read_text().startswith("line,rank\n")


def test_a_dash_is_standard_output(reserve: Path) -> None:
    plain = murdjohe("rank", "plan.toml", folder=reserve)
    assert murdjohe("rank", "plan.toml", "-o", "-", folder=reserve).out == plain.out
    assert murdjohe("draw", "plan.toml", "-o", "-", folder=reserve).out.startswith(b"<?xml")
    assert murdjohe("failures", "plan.toml", "-o", "-", folder=reserve).out.startswith(b"case,at")
    assert [path.name for path in reserve.iterdir()] == ["plan.toml"]


def test_a_plan_that_isnt_there_isnt_written(folder: Path) -> None:
    (folder / "plan.toml").write_text(THREE)
    ran = murdjohe("rank", "plan.toml", "-o", "ranks.csv", folder=folder)
    assert ran.status == 1 and ran.out.startswith(b"cycle ") and not (folder / "ranks.csv").exists()


@pytest.mark.parametrize(("number", "status"), [(signal.SIGTERM, 143), (signal.SIGHUP, 129), (signal.SIGINT, 130)])
def test_a_survey_that_is_told_to_end_leaves_nothing(folder: Path, number: int, status: int) -> None:
    (folder / "plan.toml").write_bytes(murdjohe("gen", "40").out)
    script = played(folder, 'if [ "$2" = study ]; then touch begun; exec sleep 60; fi\nexec "$REAL" "$@"')
    environment = {**os.environ, "REAL": os.environ["MURDJOHE_CORE"], "MURDJOHE_CORE": script}
    words = [str(LAUNCHER), "survey", "plan.toml", "-o", "rows.csv"]
    # (where the tests run under nohup or in the background, such a signal is ignored, and so it would be by the command)
    heeded = partial(signal.signal, number, signal.SIG_DFL)
    process = subprocess.Popen(
        words, cwd=folder, env=environment, preexec_fn=heeded, stderr=subprocess.PIPE, stdout=subprocess.PIPE
    )
    for _ in range(400):
        if (folder / "begun").exists() and list(folder.glob(".murdjohe-*")):
            break
        time.sleep(0.1)
    time.sleep(1)
    process.send_signal(number)
    assert process.wait(60) == status
    assert not list(folder.glob(".murdjohe-*")) and not (folder / "rows.csv").exists()


def test_a_signal_that_a_library_makes_another_fault_of_keeps_its_status() -> None:
    broken = ImportError("it could not be imported")
    broken.__context__ = main.Told(signal.SIGHUP)
    assert main.ended_by(broken) == 129
    broken.__cause__ = KeyboardInterrupt()
    assert main.ended_by(broken) == 130
    assert main.ended_by(ValueError()) is None


# statuses that mean one thing each


def test_usage_files_inputs_outputs_and_space_have_statuses_of_their_own(reserve: Path) -> None:
    (reserve / "there").write_text("")
    (reserve / "bad.csv").write_text("name,links\nA,nosuch\n")
    (reserve / "groups.csv").write_text("group,kind,part\nA,link,nosuch\n")
    assert murdjohe("lint", "plan.toml", "--nosuch", folder=reserve).status == 2
    assert murdjohe("rank", "plan.toml", "-o", "there", folder=reserve).status == 22
    assert murdjohe("rank", "nosuch.toml", folder=reserve).status == 7
    assert murdjohe("survey", "plan.toml", "--groups", "nosuch", folder=reserve).status == 7
    assert murdjohe("survey", "plan.toml", "--groups", "bad.csv", folder=reserve).status == 24
    assert murdjohe("survey", "plan.toml", "--groups", "groups.csv", folder=reserve).status == 5
    assert murdjohe("rank", "plan.toml", "-o", "nosuch/ranks.csv", folder=reserve).status == 8
    assert murdjohe("draw", "plan.toml", "-o", "nosuch/plan.svg", folder=reserve).status == 8
    assert murdjohe("failures", "plan.toml", "-o", "/dev/full", folder=reserve).status == 23
    said = murdjohe("help", "statuses").out.decode()
    for number in (2, 7, 8, 20, 21, 22, 23, 24, 69, 70):
        assert f"\n  {number:>2}  " in said
