"""Tables of cases of any length, plain or packed by gzip: read a row at a time, and more than once.

Here is looked at what the program can't see in a part of a table: its header, how many fields a row has, and that the rows of
a case stand together. What a row says the program looks at.
"""

from __future__ import annotations

import csv
import gzip
import io
import shutil
import tempfile
import zlib
from array import array
from collections.abc import Iterator
from contextlib import contextmanager
from itertools import groupby
from typing import IO, cast

from murdjohe.core import event_times, inputs
from murdjohe.core.faults import Wrong, reason, unusable
from murdjohe.core.inputs import STDIN
from murdjohe.core.program import BAD_EVENTS, LONGEST_BESIDE
from murdjohe.core.times import is_digits
from murdjohe.runs import failures
from murdjohe.runs.ends import Told
from murdjohe.runs.failures import COLUMNS, NAME
from murdjohe.runs.moments import Event
from murdjohe.sentences.records import MOST_ROWS
from murdjohe.survey.case_lists import CaseList, CommonRows, Row, total_of

HEADER = ",".join(COLUMNS)
BUNCH = 1_000  # rows of the cases that are written at once


@contextmanager
def opened(path: str) -> Iterator[IO[str]]:
    """The text of a file, unpacked where it is packed."""
    from murdjohe.core.packing import GZIP

    with open(path, "rb") as file:
        plain = gzip.GzipFile(fileobj=file) if file.peek(2)[:2] == GZIP else file
        with io.TextIOWrapper(cast(IO[bytes], plain), "utf-8-sig", newline="") as text:
            yield text


def spooled(path: str) -> IO[bytes]:
    """What can be read once alone, kept in a file without a name. Raises OSError."""
    kept = tempfile.TemporaryFile()
    with open(0 if path == STDIN else path, "rb", closefd=path != STDIN) as source:
        shutil.copyfileobj(source, kept)
    kept.flush()
    return kept


def repeated(hashes: array[int]) -> set[int]:
    """Those that are there more than once."""
    import numpy

    ordered = numpy.sort(numpy.frombuffer(hashes, numpy.int64))
    return set(ordered[1:][ordered[1:] == ordered[:-1]].tolist())


class FileBunch:
    """Cases of a table by their rows."""

    def __init__(self, cases: list[list[Row]]) -> None:
        self.cases = cases
        self.names = [rows[0].fields[0] for rows in cases]

    def row(self, start: int) -> int:
        return self.cases[start][0].number

    def table(self, start: int, end: int) -> tuple[bytes, int]:
        rows = [row.fields for rows in self.cases[start:end] for row in rows]
        return failures.lines_of(rows).encode(), len(rows)


def bunches(cases: Iterator[list[Row]]) -> Iterator[FileBunch]:
    """The cases in bunches, which end once they have so many rows as one is to have."""
    held, count = list[list[Row]](), 0
    for rows in cases:
        held.append(rows)
        count += len(rows)
        if count >= BUNCH:
            yield FileBunch(held)
            held, count = [], 0
    if held:
        yield FileBunch(held)


def told_of(common: list[Row], kinds: set[tuple[str, str]]) -> Told:
    """What the runs of a table are told: its common rows, and of the rows of cases the times and words."""
    events = (Event(int(at), *rest) for _, at, *rest in (row.fields for row in common) if is_digits(at))
    times = [int(at) for at, _ in kinds if is_digits(at)]
    return Told(tuple(events), frozenset(word for _, word in kinds), min(times, default=0), max(times, default=0))


class CaseFile:
    """A table of cases, by the name that sentences have for it."""

    def __init__(self, path: str, start: int | None = None) -> None:
        self.start = start
        self.name = "standard input" if path == STDIN else path
        try:
            self.kept = spooled(path) if path == STDIN or inputs.is_pipe(path) else None
        except OSError as fault:
            raise reason(self.name, fault) from None
        self.path = f"/proc/self/fd/{self.kept.fileno()}" if self.kept else path

    def wrong(self, row: Row, what: str) -> Wrong:
        """That a row can't be taken, with its place and text."""
        text = ",".join(row.fields)[:100]
        return Wrong(f"{self.name}:{row.line}: `{text}`: {what}", status=BAD_EVENTS)

    def records(self) -> Iterator[tuple[int, list[str]]]:
        """The records that aren't blank, each with the line on which it begins. Raises Wrong."""
        line = 1
        csv.field_size_limit(LONGEST_BESIDE)
        try:
            with opened(self.path) as text:
                reader = csv.reader(text)
                for fields in reader:
                    if fields:
                        yield line, fields
                    line = reader.line_num + 1
        except (EOFError, gzip.BadGzipFile, zlib.error) as fault:
            raise unusable(f"{self.name}: it is packed by gzip, and damaged behind line {line}: {fault}") from None
        except OSError as fault:
            raise reason(self.name, fault) from None
        except UnicodeDecodeError as fault:
            raise unusable(f"{self.name}: behind line {line} it is no text in UTF-8: {fault.reason}") from None
        except (csv.Error, ValueError) as fault:  # (also a name with a zero octet)
            raise unusable(f"{self.name}:{line}: it is no CSV: {fault}; close each quote") from None

    def rows(self) -> Iterator[Row]:
        """The rows behind the header. Raises Wrong."""
        records = self.records()
        line, header = next(records, (1, []))
        if tuple(header) != COLUMNS:
            shown = f"`{','.join(header)[:100]}`: " if header else ""
            raise Wrong(
                f"{self.name}:{line}: {shown}no header of a table of cases; begin with `{HEADER}`, as `failures` does",
                status=BAD_EVENTS,
            )
        for number, (line, fields) in enumerate(records, start=1):
            if len(fields) > 1 and not fields[1].isdigit():
                fields[1] = event_times.of_field(self.name, line, fields[1], self.start)
            yield Row(number, line, fields)

    def has_case(self, row: Row, before: str) -> None:
        """Raises Wrong where the case of a row can't be one, after a row of another case."""
        name = row.fields[0]
        if len(row.fields) != len(COLUMNS):
            fields = f"{len(row.fields)} field{'s' * (len(row.fields) != 1)}"
            raise self.wrong(row, f"it has {fields} in place of five; write {HEADER}, the value empty but for `level`")
        if not name and before:
            raise self.wrong(row, "rows without a case, which are common to all, come before all others; move it up")
        if name and not NAME.fullmatch(name):
            raise self.wrong(row, f"{name!r} is no name of a case; a name is 1 to 32 of A-Z a-z 0-9 _ -")

    def told_apart(self, hashes: array[int]) -> None:
        """Raises Wrong where a case stands at two places; the names are known by their hashes."""
        doubtful, seen, before = repeated(hashes), dict[str, int](), ""
        for row in self.rows() if doubtful else ():
            name = row.fields[0]
            if name != before and hash(name) in doubtful:
                if name in seen:
                    raise self.wrong(row, f"the case {name!r} has rows from line {seen[name]} on; put them together")
                seen[name] = row.line
            before = name

    def listed(self, span: tuple[int, int | None]) -> CaseList:
        """The cases from one number to another, once the whole table has been looked through. Raises Wrong."""
        hashes, common, before, kinds = array("q"), list[Row](), "", set[tuple[str, str]]()
        for row in self.rows():
            name = row.fields[0]
            if name != before or len(row.fields) != len(COLUMNS):
                self.has_case(row, before)
            if name:
                kinds.add((row.fields[1], row.fields[2]))
            elif len(common) <= MOST_ROWS:
                common.append(row)
            if name != before:
                hashes.append(hash(name))
            before = name
        self.told_apart(hashes)
        rows = CommonRows(failures.lines_of(row.fields for row in common).encode(), len(common))
        told, total = told_of(common, kinds), total_of(len(hashes), *span)
        return CaseList(self.name, rows, total, told, lambda: bunches(failures.chosen(self.cases(), *span)), self.rows)

    def cases(self) -> Iterator[list[Row]]:
        """The rows of each case."""
        for name, rows in groupby(self.rows(), key=lambda row: row.fields[0]):
            if name:
                yield list(rows)
