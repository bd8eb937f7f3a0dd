"""`murdjohe apply`: the priorities of one plan in another, whose spelling stays."""

from __future__ import annotations

import click

from murdjohe.commands.options import free, output_options, put
from murdjohe.core import program, streams
from murdjohe.network import plan_file
from murdjohe.plan import edits, priorities


@click.command("apply")
@click.argument("plan", type=click.Path())
@click.argument("source", metavar="FROM", type=click.Path())
@output_options
@click.pass_context
def apply(context: click.Context, plan: str, source: str, output: str | None, force: bool) -> int:
    """Takes the priorities of FROM, as `nominate` printed it, into PLAN.

    Every other byte of PLAN stays: comments, order and spelling. Keys are added where there were none. FROM must have the same
    links and sources. The program verifies the new plan. If a loop is possible in it, or elements may oscillate after a
    failure, the command says so and the status is 1.

    \b
      $ murdjohe gen 5 > plan.toml
      $ murdjohe nominate plan.toml > nominated.toml
      $ murdjohe apply plan.toml nominated.toml > new.toml
    """
    free(output, force, plan, source)
    taken, other = plan_file.read(plan), plan_file.read(source)
    priorities.same_network(taken.plan, other.plan)
    wanted = priorities.wanted(taken.plan, priorities.priorities_of(other.network))
    data = edits.changed(taken.plan, wanted)
    judgement = plan_file.judged(plan_file.taken("the plan that comes of it", data))
    put(context, output, data)
    if not context.find_root().params["quiet"]:
        number = f"{len(wanted):,} priorit{'y' if len(wanted) == 1 else 'ies'} changed"
        colour = "green" if judgement.is_good else "yellow"
        streams.tell(f"{number}; checked: {judgement.text}", *judgement.lines, colour=colour)
    return program.DONE if judgement.is_good else program.REFUTED


COMMAND = apply
