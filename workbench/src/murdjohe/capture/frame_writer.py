"""Rows of frames become a capture to send: the program makes it, in pieces that it can take."""

from __future__ import annotations

from collections.abc import Iterator

from murdjohe.answers import api
from murdjohe.core import refusals
from murdjohe.core.documents import Document
from murdjohe.core.refusals import Refusal
from murdjohe.sentences import frames

PIECE = 40_000  # lines that the program is given at once
HEAD = 24  # octets of a capture's header
PLAIN = (3, 7)  # fields of a row without a time
LAST = b"passed,"


class Refused(Exception):
    """The program refused a row: its sentence and its status."""

    def __init__(self, sentence: str, status: int) -> None:
        super().__init__(sentence)
        self.status = status


def lines_of(data: bytes) -> list[bytes]:
    """The lines, without the count of other packets with which `pcap-decode` ends."""
    lines = data.split(b"\n")
    if lines and not lines[-1]:
        lines.pop()
    if lines and lines[-1].startswith(LAST):
        lines.pop()
    return lines


def is_plain(lines: list[bytes]) -> bool:
    """Whether the rows have no times, by the first of them."""
    first = next((line for line in lines if line.strip()), b"")
    return first.count(b",") + 1 in PLAIN


def timed(lines: list[bytes], every: int) -> list[bytes]:
    """The rows with times from 0 on, each so many milliseconds after the one before."""
    found, at = [], 0
    for line in lines:
        found.append(b"%d,%d,%b" % (at // 1_000, at % 1_000 * 1_000, line) if line.strip() else line)
        at += every if line.strip() else 0
    return found


def sentence(name: str, data: bytes, option: str, is_timed: bool, refused: api.Refused, before: int) -> str:
    """The sentence on a refused row, so many lines behind the file's first."""
    found = refusals.of(refused.status, refused.text)
    if found is None:
        return refused.sentence
    there = Refusal(found.table, found.number, str(found.row + before), found.part)
    return frames.of_frames(Document(name, data), there, option, is_timed)


def capture_of(name: str, data: bytes, option: str, every: int) -> Iterator[bytes]:
    """The capture of the rows of a file of this name, in pieces that follow one another. Raises Refused."""
    lines = lines_of(data)
    has_times = not is_plain(lines)
    rows = lines if has_times else timed(lines, every)
    for start in range(0, max(len(rows), 1), PIECE):
        text = b"".join(row + b"\n" for row in rows[start : start + PIECE])
        try:
            made = api.pcap_encode(option, text).result
        except api.Refused as refused:
            raise Refused(sentence(name, data, option, has_times, refused, start), refused.status) from None
        yield made[HEAD if start else 0 :]
