"""`capture write`: rows become a capture, and come back; a row that is none is told with its line."""

from __future__ import annotations

import re
from pathlib import Path

import pytest
from conftest import EXAMPLES, LAUNCHER, murdjohe, started

from bench import captures as made
from murdjohe.capture import frame_writer

LAB = EXAMPLES / "lab"


def test_the_stored_capture_is_written(folder: Path) -> None:
    ran = murdjohe("capture", "write", str(LAB / "stimulus.rows"), "-o", "c", folder=folder)
    assert (ran.status, ran.out, ran.err) == (0, b"", "")
    assert (folder / "c").read_bytes() == (LAB / "stimulus.pcap").read_bytes()
    ran = murdjohe("capture", "write", "-", stdin=(LAB / "stimulus.rows").read_bytes())
    assert (ran.status, ran.out) == (0, (LAB / "stimulus.pcap").read_bytes())


def test_what_is_read_is_written_again(folder: Path) -> None:
    (folder / "c").write_bytes(made.KINDS["cooked 2, tagged"])
    (folder / "rows").write_bytes(murdjohe("capture", "read", "--rows", "c", folder=folder).out)
    ran = murdjohe("capture", "write", "rows", folder=folder)
    assert (ran.status, ran.out) == (0, made.KINDS["pcap"])
    # (and with the last line of `pcap-decode`)
    assert murdjohe("capture", "write", str(LAB / "capture.rows")).out == made.KINDS["pcap"]


def test_rows_without_times_get_some(folder: Path) -> None:
    ran = murdjohe("capture", "write", "frames.rows", "--every", "1500ms", folder=LAB)
    records = [(number * 1_500_000_000, data) for number, data in enumerate(made.FRAMES)]
    assert (ran.status, ran.out) == (0, made.classic(records))


def test_a_long_file_is_written_in_pieces(folder: Path, monkeypatch: pytest.MonkeyPatch) -> None:
    monkeypatch.setattr(frame_writer, "PIECE", 3)
    data = (LAB / "capture.rows").read_bytes()
    assert b"".join(frame_writer.capture_of("rows", data, "I", 0)) == made.KINDS["pcap"]
    assert b"".join(frame_writer.capture_of("rows", b"", "I", 0)) == made.classic([])
    with pytest.raises(frame_writer.Refused) as refused:
        list(frame_writer.capture_of("rows", data.replace(b"QL-SEC", b"QL-SEX"), "I", 0))
    assert str(refused.value).startswith("rows:6: ") and '(nearest: "QL-SEC")' in str(refused.value)


@pytest.mark.parametrize(
    ("rows", "said"),
    [
        ("020000000001,info,QL-PRK\n", "rows:1: "),
        ("1,5,020000000001,info,QL-PRC\n\n1,x,020000000001,info,QL-PRC\n", "rows:3: "),
        ("line,rank\nL1>B,0\n", "rows"),
    ],
)
def test_a_row_that_is_none_is_told_with_its_line(folder: Path, rows: str, said: str) -> None:
    (folder / "rows").write_text(rows)
    (folder / "c").write_text("what stood there before")
    ran = murdjohe("capture", "write", "rows", "-o", "c", "--force", folder=folder)
    assert (ran.status, ran.out) == (6, b"") and ran.err.startswith(f"murdjohe: {said}") and ran.err.count("\n") == 1
    assert (folder / "c").read_text() == "what stood there before"
    assert murdjohe("capture", "write", "nosuch", folder=folder).err == "murdjohe: nosuch: No such file or directory\n"
    assert murdjohe("capture", "write", str(LAB / "stimulus.rows"), "-o", "/dev/full").status == 23


@pytest.mark.parametrize("name", ["read", "node", "compare", "write"])
def test_the_example_in_the_help_runs(folder: Path, name: str) -> None:
    path = folder / "bin"
    path.mkdir()
    (path / "murdjohe").symlink_to(LAUNCHER)
    lines = re.findall(r"^ +\$ (.+)$", murdjohe("capture", name, "--help").out.decode(), re.M)
    assert len(lines) >= 3 and f"murdjohe capture {name} " in "\n".join(lines)
    ran = started(["sh", "-c", f"PATH={path}:$PATH\n" + "\n".join(lines)], folder)
    # (the device of `compare` never speaks)
    assert ran.status == (1 if name == "compare" else 0) and ran.out, ran.err
