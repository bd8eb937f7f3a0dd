"""What commands share: words that are times, the start of a run, and where what they print goes."""

from __future__ import annotations

from collections.abc import Callable, Iterable
from typing import Any, TypeVar

import click

from murdjohe.commands import cli
from murdjohe.core import files, times
from murdjohe.core.faults import Wrong
from murdjohe.core.inputs import STDIN

CommandT = TypeVar("CommandT", bound=Callable[..., Any])


class TimeOfDay(int):
    """Milliseconds that were spelled with colons: in a run that begins at a time of day, a time of day too."""


class Milliseconds(click.ParamType):
    """A time in one of the spellings that the command takes."""

    name = "TIME"

    def convert(self, value: Any, param: click.Parameter | None, ctx: click.Context | None) -> int:
        if isinstance(value, int):
            return value
        time = times.milliseconds(value)
        if time is not None:
            return TimeOfDay(time) if ":" in value else time
        if times.is_digits(value):
            return int(value)
        return self.fail(f"{value!r} is no time, as 60000, 20m, 1h30m or 02:10", param, ctx)


class Start(click.ParamType):
    """The time of day at which a run begins."""

    name = "TIME"

    def convert(self, value: Any, param: click.Parameter | None, ctx: click.Context | None) -> int:
        return value if isinstance(value, int) else cli.time_of_day(value) or 0


RESTS = "by default the time by which `agree` says the network rests"
START = click.option("--start", type=Start(), help="the time of day at which the run begins, as 02:00 or 23:00:00")


def changed_events(command: CommandT) -> CommandT:
    """The command with the options by which its list of events is put in order, and more events are added."""
    add = click.option(
        "--add", "more", multiple=True, metavar="EVENT", help="one more event, as '02:10 down L1'; may be repeated"
    )
    sort = click.option("--sort", "is_sorted", is_flag=True, help="sorts the events by time first")
    return sort(add(command))


GROUPS = click.option(
    "--groups", "groups_path", type=click.Path(), help="a list of groups, parts that fail together: group,kind,part"
)


def one_input(*paths: str | None) -> None:
    """Raises Wrong where standard input is named for two files."""
    if sum(path == STDIN for path in paths) > 1:
        raise Wrong("`-`, standard input, can be read for one word alone; name the other file")


def from_start(time: int | None, start: int | None, word: str) -> int | None:
    """A time of a run that begins at a time of day. Raises Wrong where it is a time of day before that."""
    if not isinstance(time, TimeOfDay):
        return time
    try:
        return times.from_start(time, start)
    except times.Early as early:
        raise Wrong(f"{word}: {early}") from None


def output_options(command: CommandT) -> CommandT:
    """The command with the options by which what it prints goes to a file."""
    force = click.option("--force", is_flag=True, help="overwrites an existing file")
    output = click.option("-o", "--output", type=click.Path(), help="writes to this file in place of standard output")
    return output(force(command))


def free(output: str | None, force: bool, *inputs: str | None, more: Iterable[str | None] = ()) -> None:
    """Raises Wrong where the output is there already, or is one of the files that are read."""
    files.free([path for path in (output, *more) if path], force, inputs)


def put(context: click.Context, output: str | None, data: bytes) -> None:
    """Writes what a command prints to its file, or to standard output; it is held where it is JSON. Raises Wrong."""
    if output is not None and hasattr(context.obj, "put_to"):
        context.obj.put_to(output, data)
    elif output is None or output == STDIN:
        context.obj.put(data)
    else:
        files.written(output, data)
