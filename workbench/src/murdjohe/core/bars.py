"""Bars on standard error by rich, which takes long to read: only what shows one on a terminal imports this."""

from __future__ import annotations

from collections.abc import Callable, Iterator
from contextlib import contextmanager

from rich.console import Console
from rich.progress import BarColumn, Progress, ProgressColumn, Task, TextColumn, TimeElapsedColumn, TimeRemainingColumn
from rich.text import Text


def started(what: str) -> Callable[[], None]:
    """Shows a bar with the time that went by, and gives what takes it away again."""
    columns = TextColumn("murdjohe {task.description}"), BarColumn(), TimeElapsedColumn()
    bar = Progress(*columns, console=Console(stderr=True), transient=True)
    bar.add_task(what, total=None)
    bar.start()
    return bar.stop


class Speed(ProgressColumn):
    """How many a second, once that is known."""

    def render(self, task: Task) -> Text:
        return Text(f"{task.speed:,.0f} a second" if task.speed else "")


@contextmanager
def counted(what: str, total: int) -> Iterator[Callable[[int], None]]:
    """What is told of each number of things that are done; it shows how many of all that is, how many a second, and when the
    rest will be done."""
    columns = (
        TextColumn("murdjohe {task.description}"),
        BarColumn(),
        TextColumn("{task.completed:,.0f} of {task.total:,.0f}"),
        Speed(),
        TimeRemainingColumn(),
    )
    bar = Progress(*columns, console=Console(stderr=True), transient=True)
    task = bar.add_task(what, total=total)
    with bar:
        yield lambda count: bar.advance(task, count)
