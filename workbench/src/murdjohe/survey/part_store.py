"""Finished parts of surveys in a folder, so that a survey goes on where it was stopped and no part is worked twice.

A part is named by the checksums of plan, program and cases and by the end of the run: surveys of anything else have other
names. It is written beside and renamed, so it is there whole or not at all. Whoever works a part holds a claim on it, a lock
that ends with its process: another survey of the same waits for the rows.
"""

from __future__ import annotations

import fcntl
import gzip
import hashlib
import os
import zlib

from murdjohe.core import files
from murdjohe.core.faults import Wrong, unwritten
from murdjohe.survey import study_runs
from murdjohe.survey.portions import Part
from murdjohe.survey.study_runs import Rows

ENDING = ".csv.gz"
CLAIMS = "claims"  # the file whose octets are locked, one for each part, by its name


def checksum(data: bytes) -> str:
    return hashlib.sha256(data).hexdigest()


class Finished:
    """The finished parts of the surveys of one plan to one millisecond by one program."""

    def __init__(self, folder: str, plan: bytes, until: int, program: str) -> None:
        self.folder = folder
        self.begin = f"{checksum(plan)[:16]}-{program[:16]}-{until}"
        try:
            os.makedirs(folder, exist_ok=True)
            self.claims = os.open(os.path.join(folder, CLAIMS), os.O_RDWR | os.O_CREAT | os.O_CLOEXEC, 0o666)
        except OSError as fault:
            raise unwritten(folder, fault) from None
        except ValueError as fault:  # (a name with a zero octet)
            raise Wrong(f"--parts: {fault}") from None

    def name(self, part: Part) -> str:
        return f"{self.begin}-{part.checksum[:32]}{ENDING}"

    def path(self, part: Part) -> str:
        return os.path.join(self.folder, self.name(part))

    def rows(self, part: Part) -> Rows | None:
        """The rows of a part; None where it isn't finished, or what is there is damaged. Raises Wrong."""
        path = self.path(part)
        try:
            with gzip.open(path, "rb") as file:
                return study_runs.rows_of(file.read(), part.names)
        except (FileNotFoundError, EOFError, gzip.BadGzipFile, zlib.error, ValueError):
            return None
        except OSError as fault:
            raise unwritten(path, fault) from None

    def keep(self, part: Part, rows: Rows) -> None:
        """Keeps what the program answered to a part. Raises Wrong."""
        files.written(self.path(part), study_runs.file_of(rows))

    def octet(self, part: Part) -> int:
        """The octet of the file of claims that stands for a part."""
        return int(checksum(self.name(part).encode())[:15], 16)

    def claim(self, part: Part) -> bool:
        """Whether the part is ours to work: no other process holds a claim on it. Where nothing can be locked it is."""
        try:
            fcntl.lockf(self.claims, fcntl.LOCK_EX | fcntl.LOCK_NB, 1, self.octet(part))
        except (BlockingIOError, PermissionError):
            return False
        except OSError:
            return True
        return True

    def leave(self, part: Part) -> None:
        """Gives a claim back."""
        try:
            fcntl.lockf(self.claims, fcntl.LOCK_UN, 1, self.octet(part))
        except OSError:
            pass

    def close(self) -> None:
        """Gives all claims back."""
        os.close(self.claims)
