"""`murdjohe desk`: a plan on a page in the browser, changed by pointing."""

from __future__ import annotations

import asyncio
import os
import sys

import click

from murdjohe.commands.options import START
from murdjohe.core import program, streams
from murdjohe.core.faults import Wrong
from murdjohe.core.inputs import STDIN

PORTS = 65_535
SWITCH = 0.0005  # seconds for which a thread of the pool may keep the server waiting


@click.command("desk")
@click.argument("plan", required=False, type=click.Path())
@click.argument("events", required=False, type=click.Path())
@click.option("--port", type=click.IntRange(1, PORTS), help="the port; by default a free one")
@START
@click.pass_context
def desk(context: click.Context, plan: str | None, events: str | None, port: int | None, start: int | None) -> int:
    """Serves a page on which a plan is changed by pointing, with the program's verdicts on each change at once.

    The command prints the address, which only this user knows, and serves it until Ctrl-C. Priorities stand at the ends of
    links. Elements, links and sources can be added and removed. `nominate`, `protect` and `repair` show what they would change.
    Failures and commands at a given time are run, with `why` beside them. Everything can be undone and redone. Only Save writes
    files: those that are named here, and files below this folder. After a crash, unsaved changes are there again, from a draft
    in the user's folder of states.

    Without PLAN the desk is empty: take tables of an inventory on the page, or add elements.

    \b
      $ murdjohe desk plan.toml
    """
    if STDIN in (plan, events):
        raise Wrong("desk: it writes plan and events where they were read, so name files")
    from murdjohe.desk import desks, server

    sys.setswitchinterval(SWITCH)
    made = desks.Desk(desks.opened(plan, events, os.getcwd(), start))
    its = server.Server(made)

    def ready() -> None:
        context.obj.put(f"{its.address}\n".encode())
        if not context.find_root().params["quiet"]:
            found = [f"what wasn't saved was found again, {made.draft.found} changes"] if made.draft.found else []
            streams.tell("open this address in a browser on this machine; Ctrl-C ends the desk", *found)

    try:
        asyncio.run(its.serve(port or 0, ready))
    except OSError as fault:
        raise Wrong(f"port {port}: {fault.strerror or fault}", status=program.UNAVAILABLE) from None
    finally:
        made.end()
    if not made.is_saved and not context.find_root().params["quiet"]:
        streams.tell("not all is saved: it is there again when the desk is opened next", colour="yellow")
    return program.DONE


COMMAND = desk
