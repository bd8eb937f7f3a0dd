"""What `--json` prints of the workbench's own commands and of whatever is refused: the same shape as of a form of the program.

An object has the version of it all, the command, the status, and either the answer or the refusal with its sentence; and what was
said on standard error.
"""

from __future__ import annotations

import json
from collections.abc import Sequence
from typing import Any

from murdjohe.core import files, row_tables, streams
from murdjohe.core.inputs import STDIN
from murdjohe.core.streams import Output


def text(command: str | None, status: int, found: dict[str, Any], said: Sequence[str]) -> bytes:
    """The object, which ends with a line feed."""
    told = {"json": row_tables.JSON, "command": command, "status": status, **found, "said": list(said)}
    return (json.dumps(told, ensure_ascii=False, indent=2, default=str) + "\n").encode("utf-8", "surrogateescape")


def refused(command: str | None, status: int, said: Sequence[str]) -> bytes:
    """What is printed of words or files that a command can't take."""
    refusal = {"number": None, "place": None, "sentence": said[0] if said else None}
    return text(command, status, {"refusal": refusal}, said)


class Held(Output):
    """Standard output of a command that prints JSON: what it prints is held until its status is known."""

    def __init__(self, output: Output) -> None:
        super().__init__(output.was_closed)
        self.output = output
        self.pieces: list[bytes] = []
        self.path: str | None = None
        self.said = streams.heard = []

    def put(self, data: bytes) -> None:
        """Holds the data."""
        self.pieces.append(data)

    def put_to(self, path: str, data: bytes) -> None:
        """Holds the data for a file."""
        self.path = None if path == STDIN else path
        self.pieces.append(data)

    def let_go(self, command: str, status: int) -> None:
        """Prints what was held: as the answer where it is JSON, and else as it is. Raises Lost, and Wrong."""
        data = b"".join(self.pieces)
        streams.heard = None
        try:
            data = text(command, status, {"answer": json.loads(data)}, self.said)
        except ValueError:
            if not data and status and self.said:
                data = refused(command, status, self.said)
        if self.path is not None and data:
            files.written(self.path, data)
        else:
            self.output.put(data)
