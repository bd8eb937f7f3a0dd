"""Standard input, output and error as they are: closed, full, or no terminal. Nothing here raises for what is outside."""

from __future__ import annotations

import errno
import os
import sys

from murdjohe.core.program import NO_SPACE, WRITE_FAULT

TYPE_CHECKING = False
if TYPE_CHECKING:
    from collections.abc import Iterable

OUT, ERR = 1, 2
heard: list[str] | None = None  # what is told, where it is printed as JSON too
LONGEST_LINE = 1_000  # signs of a sentence that are shown
COLOURS = {"red": "31", "green": "32", "yellow": "33", "bold": "1"}


class Lost(Exception):
    """Not all could be written to standard output; `quiet` where its reader went away, which needs no sentence."""

    def __init__(self, fault: int) -> None:
        super().__init__(os.strerror(fault))
        self.is_gone = fault == errno.EPIPE
        self.status = NO_SPACE if fault in (errno.ENOSPC, errno.EDQUOT) else WRITE_FAULT


def filled() -> bool:
    """Opens what of the three is closed, so that no other file takes its place. Says whether standard output was closed."""
    was_closed = False
    for number in (0, OUT, ERR):
        try:
            os.fstat(number)
        except OSError:
            was_closed = was_closed or number == OUT
            # (what is opened gets the lowest free number, which is this one)
            os.open(os.devnull, os.O_RDWR)
    return was_closed


class Output:
    """Standard output: bytes as they are. Where it was closed at the start, whatever is written is lost."""

    def __init__(self, was_closed: bool) -> None:
        self.was_closed = was_closed
        self.is_begun = False

    def put(self, data: bytes) -> None:
        """Writes all of it. Raises Lost where that can't be."""
        if self.was_closed and data:
            raise Lost(errno.EBADF)
        self.is_begun = self.is_begun or bool(data)
        view = memoryview(data)
        while view:
            try:
                view = view[os.write(OUT, view) :]
            except OSError as fault:
                raise Lost(fault.errno or errno.EIO) from fault


def printable(text: str) -> str:
    """The text with whatever a terminal would act on, or could not show, written as an escape."""
    return "".join(sign if sign.isprintable() else ascii(sign)[1:-1] for sign in text)


def is_coloured() -> bool:
    """Whether standard error is a terminal that may be told colours."""
    return os.isatty(ERR) and not os.environ.get("NO_COLOR") and os.environ.get("TERM", "dumb") != "dumb"


def cut(line: str) -> str:
    """A line, or its beginning where it is longer than anybody reads."""
    return line if len(line) <= LONGEST_LINE else line[: LONGEST_LINE - 3] + " .."


def told(lines: Iterable[str], colour: str) -> str:
    """The lines as they are put on standard error: a name before each, in the colour where there is one."""
    before, after = (f"\x1b[{COLOURS[colour]}m", "\x1b[0m") if is_coloured() else ("", "")
    return "".join(f"{before}murdjohe:{after} {printable(cut(line))}\n" for line in lines)


def tell(*lines: str, colour: str = "red") -> None:
    """Puts lines on standard error; where that can't be, they are left out. They are kept where somebody wants to know them."""
    if heard is not None:
        heard.extend(lines)
    encoding = getattr(sys.stderr, "encoding", None) or "utf-8"
    view = memoryview(told(lines, colour).encode(encoding, "backslashreplace"))
    try:
        while view:
            view = view[os.write(ERR, view) :]
    except OSError:
        pass
