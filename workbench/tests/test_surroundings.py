"""Bad surroundings: outputs that are closed or full, no terminal, no home, another locale, another Python, no program."""

from __future__ import annotations

import errno
import os
import pty
import stat
import subprocess
from pathlib import Path

import pytest
from comfort_plans import played
from conftest import EXAMPLES, LAUNCHER, WORKBENCH, murdjohe, started
from murdjohe import main
from murdjohe.core import streams

RING = EXAMPLES / "ring"
CHECK = f"{LAUNCHER} check plan.toml certificate.csv"
ANSWER = b"falls L3>A L1>B\n"


def shell(script: str, **settings: str) -> tuple[int, bytes, str]:
    ran = started(["sh", "-c", script], RING, b"", **settings)
    return ran.status, ran.out, ran.err


@pytest.mark.parametrize(
    "words", ["check plan.toml certificate.csv", "--help", "--version", "help plan", "rank nosuch", "completion zsh"]
)
@pytest.mark.parametrize("output", [">&-", "> /dev/full"])
def test_closed_and_full_output_end_with_the_programs_status(words: str, output: str) -> None:
    status, _, err = shell(f"{LAUNCHER} {words} {output}")
    assert status == (8 if output == ">&-" else 23)
    assert err.startswith("murdjohe: standard output: ") and "Traceback" not in err and err.count("\n") == 1


def test_a_reader_that_goes_away_is_not_told() -> None:
    script = f"(trap '' PIPE; {LAUNCHER} sim plan.toml events.csv 20m --quiet; echo $? >&2) | true"
    _, _, err = shell(script)
    assert err in ("8\n", "0\n")


def test_a_reader_that_has_enough_is_not_told() -> None:
    status, out, err = shell(f"{LAUNCHER} gen 2000 -q | head -1")
    assert (status, out.count(b"\n"), err) == (0, 1, "")


@pytest.mark.parametrize("closing", ["2>&-", "2> /dev/full", "0>&-", "0>&- 2>&-"])
def test_other_streams_may_be_closed_or_full(closing: str) -> None:
    status, out, _ = shell(f"{CHECK} {closing}")
    assert (status, out) == (1, ANSWER)


@pytest.mark.parametrize(
    "words",
    [
        *("explain rank plan.toml", "timeline - -o t.svg", "draw - -o t.dot", "import - - -", "export -", "apply - -"),
        *("lint -", "repair -", "orders -", "diff - -"),
    ],
)
def test_standard_input_that_is_closed_is_empty(words: str) -> None:
    status, _, err = shell(f"cd $(mktemp -d); {LAUNCHER} {words} <&-")
    assert status in ((1,) if words == "lint -" else (0, 2, 24))
    assert "Traceback" not in err and all(line.startswith("murdjohe: ") for line in err.splitlines())
    assert len(err.splitlines()) <= (7 if words.startswith("import") else 1)


def test_all_streams_may_be_closed() -> None:
    assert shell(f"{CHECK} <&- >&- 2>&-")[0] == 8


@pytest.mark.parametrize("locale", ["C", "POSIX", "C.UTF-8", "de_DE.ISO-8859-1", "nonsense"])
def test_any_locale_will_do(tmp_path: Path, locale: str) -> None:
    plan = tmp_path / "plän.toml"
    plan.write_text('[[element]]\nname = "Zürich"\n', encoding="utf-8")
    ran = murdjohe("rank", plan.name, folder=tmp_path, LC_ALL=locale, LANG=locale)
    assert (ran.status, ran.out) == (3, b"bad plan 25 16 element 1\n")
    assert ":2: " in ran.err and "Traceback" not in ran.err


def test_no_environment_at_all(core: str) -> None:
    ran = started(
        ["/usr/bin/env", "-i", f"MURDJOHE_CORE={core}", str(LAUNCHER), "check", "plan.toml", "certificate.csv"], RING
    )
    assert (ran.status, ran.out) == (1, ANSWER)


def test_another_python_on_the_path_does_not_matter(tmp_path: Path) -> None:
    for name in ("python3", "python", "env"):
        other = tmp_path / name
        other.write_text("#!/bin/sh\nexit 99\n")
        other.chmod(0o755)
    (tmp_path / "click.py").write_text("raise SystemExit(98)\n")
    (tmp_path / "os.py").write_text("raise SystemExit(97)\n")
    path = f"{tmp_path}:{os.environ['PATH']}"
    ran = murdjohe("help", "plan", folder=tmp_path, PATH=path, PYTHONPATH=str(tmp_path), PYTHONHOME=str(tmp_path))
    assert ran.status == 0 and ran.out.startswith(b"A plan is a TOML file.")


@pytest.mark.parametrize("core", ["/nonexistent/core", "/", "/etc/passwd"])
def test_a_program_that_is_not_there_is_told(core: str) -> None:
    ran = murdjohe("check", "plan.toml", "certificate.csv", folder=RING, MURDJOHE_CORE=core)
    assert (ran.status, ran.out) == (69, b"")
    assert ran.err == f"murdjohe: MURDJOHE_CORE is {core}, which is no program that can be run\n"


def test_without_a_program_it_is_told_how_it_is_built(tmp_path: Path) -> None:
    copy = tmp_path / "share"
    subprocess.run(["cp", "-r", str(WORKBENCH / "src" / "murdjohe"), str(copy)], check=True)
    script = "from murdjohe.main import start; start()"
    words = [
        "/usr/bin/python3",
        "-c",
        f"import sys; sys.path[0] = {str(tmp_path)!r}; sys.argv = ['m', 'gen', '3']; {script}",
    ]
    (tmp_path / "murdjohe").symlink_to(copy)
    ran = started(words, tmp_path, MURDJOHE_CORE="", PATH="/usr/bin:/bin", PYTHONDONTWRITEBYTECODE="1")
    assert (ran.status, ran.out) == (69, b"")
    assert "the proved program is not here" in ran.err and "make core" in ran.err


@pytest.mark.parametrize(("script", "said"), [("kill -9 $$", "signal 9"), ("kill -11 $$", "signal 11")])
def test_a_program_that_is_killed_is_told(tmp_path: Path, script: str, said: str) -> None:
    ran = murdjohe("gen", "3", MURDJOHE_CORE=played(tmp_path, script))
    assert ran.status == 69 and said in ran.err


def test_want_of_memory_is_told_as_the_program_does(tmp_path: Path) -> None:
    ran = murdjohe("gen", "3", MURDJOHE_CORE=played(tmp_path, "exit 10"))
    assert (ran.status, ran.out) == (10, b"") and "out of memory" in ran.err


def test_a_program_that_can_not_be_run_is_told(tmp_path: Path) -> None:
    other = tmp_path / "core"
    other.write_bytes(b"\x7fELF and nothing else")
    other.chmod(0o755)
    ran = murdjohe("gen", "3", MURDJOHE_CORE=str(other))
    assert ran.status == 69 and "can't be run" in ran.err


def mistaken(monkeypatch: pytest.MonkeyPatch) -> None:
    def broken(words: list[str], output: streams.Output) -> int:
        raise RuntimeError("a mistake that is made for this test")

    monkeypatch.setattr(main, "answered", broken)


def test_a_mistake_of_our_own_is_one_line_with_the_place_of_its_trace(
    monkeypatch: pytest.MonkeyPatch, capfd: pytest.CaptureFixture[str], tmp_path: Path
) -> None:
    mistaken(monkeypatch)
    monkeypatch.setattr("tempfile.tempdir", str(tmp_path))
    assert main.guarded(["check"], streams.Output(False)) == 70
    said = capfd.readouterr().err
    (trace,) = tmp_path.iterdir()
    assert said.count("\n") == 1 and said.endswith(f"its trace is in {trace}\n")
    assert "a mistake that is made for this test" in trace.read_text()
    assert stat.S_IMODE(trace.stat().st_mode) == 0o600


def test_a_mistake_is_told_where_there_is_no_place_for_its_trace(
    monkeypatch: pytest.MonkeyPatch, capfd: pytest.CaptureFixture[str]
) -> None:
    mistaken(monkeypatch)

    def full(*_: object) -> None:
        raise OSError(errno.ENOSPC, "No space left on device")

    monkeypatch.setattr("tempfile.mkstemp", full)
    assert main.guarded(["check"], streams.Output(False)) == 70
    assert capfd.readouterr().err.endswith("there is no place for its trace\n")


@pytest.mark.parametrize(
    ("fault", "status"), [(KeyboardInterrupt(), 130), (MemoryError(), 10), (streams.Lost(errno.EPIPE), 8)]
)
def test_what_comes_from_outside_is_no_mistake(
    monkeypatch: pytest.MonkeyPatch, fault: BaseException, status: int
) -> None:
    def faulty(words: list[str], output: streams.Output) -> int:
        raise fault

    monkeypatch.setattr(main, "answered", faulty)
    assert main.guarded([], streams.Output(False)) == status


def all_shown(own: int) -> bytes:
    """What is written to a terminal until nobody holds its other end."""
    shown = b""
    try:
        while piece := os.read(own, 4096):
            shown += piece
    except OSError:
        pass
    os.close(own)
    return shown


def on_terminal(**settings: str) -> bytes:
    """What a terminal shows as standard error."""
    own, its = pty.openpty()
    environment = {**os.environ, "TERM": "xterm", **settings}
    subprocess.run(
        [str(LAUNCHER), "check", "plan.toml", "certificate.csv"],
        cwd=RING,
        stderr=its,
        stdout=subprocess.DEVNULL,
        env=environment,
    )
    os.close(its)
    return all_shown(own)


def test_colours_are_for_terminals_that_want_them() -> None:
    assert b"\x1b[33mmurdjohe:\x1b[0m timing may go on" in on_terminal(NO_COLOR="")
    assert b"\x1b" not in on_terminal(NO_COLOR="1")
    assert b"\x1b" not in on_terminal(TERM="dumb")
    assert "\x1b" not in shell(CHECK)[2]


def test_what_a_file_holds_does_not_act_on_the_terminal(tmp_path: Path) -> None:
    (tmp_path / "plan.toml").write_bytes(b'[[element]]\nname = "\x1b[2J"\n')
    (tmp_path / "other.toml").write_bytes(b'[[element]]\nname = "A\\u001b[2J\\u0007"\n')
    for name in ("plan.toml", "other.toml"):
        ran = murdjohe("rank", name, folder=tmp_path)
        assert ran.status == 3 and "\x1b" not in ran.err and "\x07" not in ran.err


def test_a_long_wait_is_shown_on_a_terminal_alone(tmp_path: Path) -> None:
    slow = tmp_path / "core"
    slow.write_text("#!/bin/sh\nsleep 3\necho accepted\n")
    slow.chmod(0o755)
    words = [str(LAUNCHER), "check", str(RING / "plan.toml"), str(RING / "certificate.csv")]
    own, its = pty.openpty()
    environment = {**os.environ, "TERM": "xterm", "MURDJOHE_CORE": str(slow)}
    with subprocess.Popen(words, stderr=its, stdout=subprocess.PIPE, env=environment) as run:
        os.close(its)
        shown = all_shown(own)
        out = run.stdout.read() if run.stdout else b""
    assert out == b"accepted\n" and run.returncode == 0
    assert b"murdjohe check" in shown and b"0:00:0" in shown
    quiet = started(words, MURDJOHE_CORE=str(slow))
    assert quiet.out == b"accepted\n" and "0:00:0" not in quiet.err
