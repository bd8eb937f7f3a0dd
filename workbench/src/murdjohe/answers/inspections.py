"""What `inspect` says of a millisecond, as dataclasses: which commands were taken, what each element chose, and why.

Times are milliseconds from the start of the run, names those of the plan. `inspection` takes the text of an answer that is
no refusal, and raises ValueError for one that the program doesn't write.
"""

from __future__ import annotations

from dataclasses import dataclass

from murdjohe.answers.row_types import Command as Command, Inspected as Inspected, Reason as Reason
from murdjohe.answers.rows import parts_of, read_rows
from murdjohe.core import row_tables
from murdjohe.core.program import Answer

PARTS = ("commands", "elements", "inputs")


@dataclass(frozen=True)
class Inspection:
    """What `inspect` says of a millisecond."""

    commands: tuple[Command, ...]
    elements: tuple[Inspected, ...]
    inputs: tuple[Reason, ...]


def inspection(answer: Answer) -> Inspection:
    """The answer of `inspect`. Raises RowFault."""
    parts = parts_of(answer.said.splitlines(), PARTS)
    return Inspection(
        read_rows(Command, row_tables.COMMANDS, "inspect", parts["commands"]),
        read_rows(Inspected, row_tables.ELEMENTS, "inspect", parts["elements"]),
        read_rows(Reason, row_tables.REASONS, "inspect", parts["inputs"]),
    )
