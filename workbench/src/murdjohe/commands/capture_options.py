"""What the commands below `capture` share: options, and how a capture's end is told."""

from __future__ import annotations

import click

from murdjohe.capture import talk_faults
from murdjohe.core import program, streams

TYPE_CHECKING = False
if TYPE_CHECKING:
    from murdjohe.capture import esmc

ENDED = "ended by Ctrl-C, and summed up to there; `murdjohe capture watch` tells a capture as it comes"
OPTION = click.option("--option", type=click.Choice(["I", "II"]), default="I", help="the network option; by default I")
LOCAL = click.option("--local", is_flag=True, help="times of day by this machine's clock, in place of UTC")
LINE = click.option(
    "--line",
    multiple=True,
    metavar="LINE=WHERE",
    help="whose frames went over a line, as L1>B=02:00:00:00:00:01, L1>B=@eth1, or both with an @; once for each line",
)
FAIL_ON = click.option(
    "--fail-on",
    multiple=True,
    type=click.Choice(talk_faults.FAILING),
    help="ends with status 21 if this is found; may be repeated",
)
EVENTS = click.option(
    "--events",
    type=click.Path(),
    help="what else was done to the element: lines AT,WORD,TARGET,VALUE as `node` has them",
)


def is_quiet(context: click.Context) -> bool:
    return bool(context.find_root().params["quiet"] or context.params.get("quiet"))


def ended(context: click.Context, taken: esmc.Capture, said: list[str]) -> int:
    """Tells what there is to say, and that the capture is damaged or was ended where it is so; the status."""
    if not is_quiet(context):
        streams.tell(*said, colour="yellow")
    if taken.was_ended:
        if not is_quiet(context):
            streams.tell(ENDED, colour="yellow")
        return program.INTERRUPTED
    if taken.damage is None:
        return program.DONE
    name = "standard input" if taken.path == "-" else taken.path
    before = "; what comes before is whole, and was read" if taken.packets else ""
    if not is_quiet(context):
        streams.tell(f"{name}: {taken.damage}{before}")
    return program.BAD_FRAMES
