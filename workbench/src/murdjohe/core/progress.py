"""What is shown on a terminal while something takes longer than two seconds."""

from __future__ import annotations

import os
import threading
from collections.abc import Callable, Iterator
from contextlib import contextmanager

from murdjohe.core import program, streams


def started(what: str) -> Callable[[], None]:
    """Shows a bar with the time that went by on standard error, and gives what takes it away again."""
    from murdjohe.core import bars

    return bars.started(what)


@contextmanager
def watched(what: str) -> Iterator[None]:
    """Shows such a bar, on a terminal, while what stands inside takes longer than the patience."""
    if not os.isatty(streams.ERR):
        yield
        return
    stops: list[Callable[[], None]] = []
    timer = threading.Timer(program.PATIENCE_MS / 1000, lambda: stops.append(started(what)))
    timer.start()
    try:
        yield
    finally:
        timer.cancel()
        timer.join()
        for stop in stops:
            stop()


@contextmanager
def counted(what: str, total: int) -> Iterator[Callable[[int], None]]:
    """What is told of each number of things that are done; on a terminal it shows how many of all that is, how many a second,
    and when the rest will be done."""
    if not os.isatty(streams.ERR):
        yield lambda count: None
        return
    from murdjohe.core import bars

    with bars.counted(what, total) as tell:
        yield tell
