"""What a command of the workbench's own can't do, told in a line or some; its exit status is 2 where no other is given."""

from __future__ import annotations

import errno

from murdjohe.core.program import BAD_INPUT, NO_SPACE, READ_FAULT, WRITE_FAULT

FULL = (errno.ENOSPC, errno.EDQUOT)


class Wrong(Exception):
    """What is told, a line for each thing that is wrong, and the exit status."""

    def __init__(self, *lines: str, status: int = 2) -> None:
        super().__init__(*lines)
        self.lines = lines
        self.status = status

    def __str__(self) -> str:
        return "\n".join(self.lines)


def reason(path: str, fault: OSError) -> Wrong:
    """That a file can't be read, and why."""
    return Wrong(f"{path}: {fault.strerror or fault}", status=READ_FAULT)


def unwritten(path: str, fault: OSError) -> Wrong:
    """That a file can't be written, and why: a full disk has a status of its own."""
    status = NO_SPACE if fault.errno in FULL else WRITE_FAULT
    return Wrong(f"{path}: {fault.strerror or fault}", status=status)


def unusable(*lines: str) -> Wrong:
    """That a file of the workbench's own commands has mistakes."""
    return Wrong(*lines, status=BAD_INPUT)
