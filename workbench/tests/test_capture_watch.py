"""`capture watch`: frames are printed and changes told while the capture is still written; its end has the summary."""

from __future__ import annotations

import fcntl
import functools
import json
import os
import pty
import select
import signal
import subprocess
import termios
import time
from collections.abc import Iterator
from contextlib import contextmanager
from pathlib import Path
from typing import IO

import pytest
from conftest import EXAMPLES, LAUNCHER, murdjohe

from bench import captures as made

CAPTURE = (EXAMPLES / "lab" / "capture.pcap").read_bytes()
PATIENCE = 20.0  # seconds


class Watched:
    """The command at work, which is given a capture octet by octet."""

    def __init__(self, process: subprocess.Popen[bytes]) -> None:
        self.process = process
        self.heard = {1: b"", 2: b""}

    def give(self, data: bytes) -> None:
        assert self.process.stdin is not None
        self.process.stdin.write(data)
        self.process.stdin.flush()

    def pipe(self, number: int) -> IO[bytes]:
        found = self.process.stdout if number == 1 else self.process.stderr
        assert found is not None
        return found

    def until(self, number: int, text: str) -> str:
        """Waits until standard output or error has said something, and gives all that it has said."""
        end = time.monotonic() + PATIENCE
        while text.encode() not in self.heard[number]:
            assert select.select([self.pipe(number)], [], [], max(0.0, end - time.monotonic()))[0], self.heard
            piece = os.read(self.pipe(number).fileno(), 1 << 16)
            assert piece, self.heard
            self.heard[number] += piece
        return self.heard[number].decode()

    def ended(self) -> tuple[int, str, str]:
        """Waits for the end: the status, and all that was said."""
        out, err = self.process.communicate(timeout=PATIENCE)
        return self.process.returncode, (self.heard[1] + out).decode(), (self.heard[2] + err).decode()


@contextmanager
def watched(*words: str) -> Iterator[Watched]:
    pipe = subprocess.PIPE
    with subprocess.Popen([str(LAUNCHER), "capture", "watch", *words], stdin=pipe, stdout=pipe, stderr=pipe) as process:
        try:
            yield Watched(process)
        finally:
            process.kill()


def record(number: int, at: int | None = None) -> bytes:
    """A record of a pcap in nanoseconds: the frame of this number, at its time or another."""
    return made.classic([(made.TIMES[number] if at is None else at, made.FRAMES[number])], "<", 0xA1B23C4D)[24:]


HEAD = made.classic([], "<", 0xA1B23C4D)


def test_frames_come_at_once_and_the_interrupt_sums_up() -> None:
    with watched() as live:
        live.give(HEAD + record(0))
        first = live.until(1, "QL-PRTC").splitlines()
        assert first[0].split() == ["frame", "time", "after", "kind", "level", "source"]
        assert first[1].split() == ["1", "00:00:00.103", "info", "QL-PRTC", "001b1d00a1c3"]
        said = live.until(2, "is heard")
        assert said == "murdjohe: 2025-11-28 UTC\nmurdjohe: 00:00:00.103 001b1d00a1c3 is heard, with QL-PRTC, frame 1\n"
        live.give(record(1)[:20])  # (half a record is waited for)
        live.give(record(1)[20:] + record(3))
        row = live.until(1, "event").splitlines()[-1]
        assert row.split() == "3 00:00:02.703 1.600 s event QL-eEEC 001b1d00a1c3".split()
        live.until(2, "says QL-eEEC in place of QL-PRTC, by an event message, frame 3\n")
        live.process.send_signal(signal.SIGINT)
        status, out, err = live.ended()
    assert status == 0 and "Traceback" not in err
    summary = out[out.index("standard input: ") :].splitlines()
    assert summary[0].startswith("standard input: 3 packets, 3 ESMC frames from 1 source, 2025-11-28 00:00:00.103 to ")
    assert summary[-1].split()[:2] == ["3", "00:00:02.703988"]


def test_capture_read_sums_up_what_came_before_the_interrupt() -> None:
    pipe, words = subprocess.PIPE, [str(LAUNCHER), "capture", "read", "-"]
    heeded = functools.partial(signal.signal, signal.SIGINT, signal.SIG_DFL)  # (whatever started the tests)
    with subprocess.Popen(words, preexec_fn=heeded, stdin=pipe, stdout=pipe, stderr=pipe) as process:
        assert process.stdin is not None
        process.stdin.write(HEAD + record(0) + record(1) + record(3)[:20])
        process.stdin.flush()
        end, unread = time.monotonic() + 20, b"more"
        while unread != bytes(4) and time.monotonic() < end:  # (until all of it is read)
            unread = fcntl.ioctl(process.stdin, termios.FIONREAD, bytes(4))
            time.sleep(0.3)
        process.send_signal(signal.SIGINT)
        out, err = (text.decode() for text in process.communicate(timeout=20))
    assert process.returncode == 130 and "Traceback" not in err
    assert out.startswith("-: 2 packets, 2 ESMC frames from 1 source, 2025-11-28 00:00:00.103 to ")
    assert "ended by Ctrl-C, and summed up to there; `murdjohe capture watch` tells a capture as it comes" in err


@pytest.mark.alone
def test_a_silence_is_told_while_it_lasts() -> None:
    with watched("--changes") as live:
        live.give(HEAD + record(0))
        began = time.monotonic()
        said = live.until(2, "has been silent")
        lasted = time.monotonic() - began
        assert 5.0 < lasted < 10.0
        assert said.endswith(
            "001b1d00a1c3 has been silent for more than 5 seconds, since 00:00:00.103, after frame 1\n"
        )
        live.give(record(0, made.TIMES[0] + 7 * 10**9))
        live.until(2, "00:00:07.103 001b1d00a1c3 speaks again, after 7.0 s of silence, frame 2\n")
        assert live.process.stdin is not None
        live.process.stdin.close()
        live.process.stdin = None
        status, out, _ = live.ended()
    assert status == 0
    assert out.splitlines()[-1] == "001b1d00a1c3 was silent for 7.0 s from 00:00:00.103, after frame 1"


def test_a_signal_to_end_sums_up_too() -> None:
    with watched("-q") as live:
        live.give(HEAD + record(0))
        live.until(1, "QL-PRTC")
        live.process.send_signal(signal.SIGTERM)
        status, out, err = live.ended()
    assert (status, err) == (143, "") and "standard input: 1 packet, 1 ESMC frame from 1 source" in out


@pytest.mark.alone
def test_it_ends_after_the_time_that_is_given() -> None:
    began = time.monotonic()
    with watched("--for", "2s", "--rows") as live:
        live.give(HEAD + record(0))
        live.until(1, "\n")
        status = live.process.wait(PATIENCE)
        _, out, _ = live.ended()
    assert status == 0 and 1.9 < time.monotonic() - began < PATIENCE
    assert out == "1764288000,103412,001b1d00a1c3,info,QL-PRTC,001b1dfffe00a1c3,01,1,0\n"


@pytest.mark.parametrize("kind", list(made.KINDS))
def test_any_kind_of_capture_gives_the_stored_rows(kind: str) -> None:
    ran = murdjohe("capture", "watch", "--rows", stdin=made.KINDS[kind])
    assert (ran.status, ran.out.decode().splitlines()) == (0, made.ROWS)


def test_the_summary_is_that_of_read() -> None:
    live, read = (murdjohe("capture", word, "-", stdin=CAPTURE) for word in ("watch", "read"))
    # (`read` calls it `-`)
    summary = live.out.decode().partition("\n\n")[2]
    assert summary.partition(": ")[2] == read.out.decode().partition(": ")[2]
    assert live.err.endswith(read.err) and live.status == read.status == 0


def test_lines_of_json() -> None:
    ran = murdjohe("--json", "capture", "watch", stdin=CAPTURE)
    lines = [json.loads(line) for line in ran.out.splitlines()]
    assert {line["json"] for line in lines} == {1}
    assert [line["what"] for line in lines] == (
        ["frame", "heard", "frame", "frame", "frame", "transition", "frame", "frame", "heard", "frame", "frame"]
        + ["transition", "summary"]
    )
    assert [line["frame"] for line in lines if line["what"] == "transition"] == [6, 10]
    assert lines[-1]["packets"] == 10 and lines[-1]["transitions"][0]["after"] == "QL-eEEC"


def test_what_is_wrong_is_told() -> None:
    ran = murdjohe("capture", "watch", "-q", "--rows", stdin=CAPTURE[:500])
    assert (ran.status, ran.out.decode().splitlines()) == (6, made.ROWS[:3])
    ran = murdjohe("capture", "watch", stdin=b"at,what\n")
    said = "murdjohe: standard input: it is no capture: it begins neither as a pcap nor as a pcapng\n"
    assert (ran.status, ran.out, ran.err) == (6, b"", said)
    ran = murdjohe("capture", "watch", "nosuch")
    assert (ran.status, ran.err) == (7, "murdjohe: nosuch: No such file or directory\n")
    assert murdjohe("capture", "watch", "--fail-on", "unknown-code", stdin=CAPTURE).status == 21


def test_a_terminal_is_no_capture() -> None:
    ours, its = pty.openpty()
    words = [str(LAUNCHER), "capture", "watch"]
    ran = subprocess.run(words, stdin=its, capture_output=True, check=False, timeout=PATIENCE)
    os.close(ours)
    os.close(its)
    assert (
        ran.returncode == 2 and b"put `tcpdump -i eth1 -U -w - ether proto 0x8809 |` before the command" in ran.stderr
    )


def test_a_named_pipe_is_a_capture_too(folder: Path) -> None:
    os.mkfifo(folder / "wire")
    with watched("wire") as live:
        with open(folder / "wire", "wb") as wire:
            wire.write(HEAD + record(0))
        status, out, _ = live.ended()
    assert status == 0 and "wire: 1 packet, 1 ESMC frame" in out
