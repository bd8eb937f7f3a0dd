"""Tables of cases that are worked by `study`: started here, and their answers taken apart as rows."""

from __future__ import annotations

import functools
import hashlib
import os
from collections.abc import Sequence
from typing import NamedTuple

from murdjohe.answers import api
from murdjohe.core import packing, program, row_tables
from murdjohe.core.program import Answer

HEADER = row_tables.CASES.header
BEGIN = f"{HEADER}\n".encode()


class Rows(NamedTuple):
    """The rows of some cases: the names of the cases, what each row says behind its name, from the comma on, and the rows as
    they are written, maybe packed too."""

    names: Sequence[str]
    tails: Sequence[str]
    data: bytes
    packed: bytes | None = None


class Worked(NamedTuple):
    """What the program answered to a table of cases, and the rows of that packed."""

    answer: Answer
    packed: bytes


def rows_of(answer: bytes, names: Sequence[str]) -> Rows:
    """The rows of an answer, one for each of these cases in order. Raises ValueError where it has others, or is damaged."""
    head, *lines = answer.decode("ascii").split("\n")
    if head != HEADER or not lines or lines.pop():
        raise ValueError("it isn't a header and whole lines")
    is_each = len(lines) == len(names) and all(map(str.startswith, lines, names))
    tails = list(map(str.removeprefix, lines, names))
    if not is_each or not all(tail.startswith(",") for tail in set(tails)):
        raise ValueError("its rows aren't those of the cases")
    return Rows(names, tails, answer[len(BEGIN) :])


def file_of(rows: Rows) -> bytes:
    """A file of gzip with what the program answered."""
    return packing.packed(BEGIN) + (packing.packed(rows.data) if rows.packed is None else rows.packed)


def studied(plan: bytes, cases: bytes, until: int, running: set[int]) -> Worked:
    """What the program answers to a table of cases; meanwhile its process is among those that are running. Raises core.Absent
    and core.Ended."""
    with api.named([plan, cases]) as (plan_path, cases_path):
        answer = program.run_kept(["study", plan_path, cases_path, str(until)], running)
    return Worked(answer, packing.packed(answer.text[len(BEGIN) :]))


@functools.cache
def sum_of(path: str, size: int, changed: int) -> str:
    """The checksum of a program that has this size and was changed then."""
    with open(path, "rb") as file:
        return hashlib.file_digest(file, "sha256").hexdigest()


def core_sum() -> str:
    """The checksum of the program. Raises core.Absent."""
    path = program.find()
    try:
        facts = os.stat(path)
        return sum_of(path, facts.st_size, facts.st_mtime_ns)
    except OSError as fault:
        raise program.Absent(f"{path} can't be read: {fault.strerror}") from None
