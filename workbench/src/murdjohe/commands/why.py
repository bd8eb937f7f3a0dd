"""`murdjohe why`: why an element takes what it takes in a millisecond."""

from __future__ import annotations

from typing import Any

import click
from click.shell_completion import CompletionItem

from murdjohe.commands import cli
from murdjohe.commands.options import START, Milliseconds, changed_events, free, from_start, output_options, put
from murdjohe.core import forms, plain_json, program, progress, streams
from murdjohe.core.faults import Wrong
from murdjohe.core.inputs import STDIN
from murdjohe.network import plan_file
from murdjohe.runs import simulation, what_if
from murdjohe.why import choice_text, choices
from murdjohe.why.choices import Why


def completed(context: click.Context, _: click.Parameter, incomplete: str) -> list[CompletionItem]:
    """The elements of the plan whose names begin so."""
    return cli.names_in(context.params.get("plan") or "", incomplete)


def shown(found: Why, start: int | None, is_json: bool) -> bytes:
    """The answer in sentences, or as JSON."""
    if is_json:
        return plain_json.text(choice_text.as_data(found, start))
    return "".join(f"{line}\n" for line in choice_text.text_of(found, start)).encode()


@click.command("why")
@click.argument("plan", type=click.Path())
@click.argument("events", type=click.Path())
@click.argument("element", shell_complete=completed)
@click.argument("at", type=Milliseconds())
@START
@click.option("--all", "has_all", is_flag=True, help=f"all that led to it, not only the last {choices.USUAL} entries")
@click.option("--json", "as_json", is_flag=True, help="JSON: the same, with times in milliseconds")
@changed_events
@output_options
@click.pass_context
def why(context: click.Context, plan: str, events: str, element: str, at: int, **asked: Any) -> int:
    """Says why ELEMENT takes what it takes at AT, and what led to that.

    AT counts from the beginning of the run. With --start a time with colons is a time of day.

    First comes what the element takes, at which level and since when. Then, for each other input, why it isn't taken. Then the
    trace up to the clock, line by line, or the loop. Below stands what led to all of this, in order of time: events (behind a
    star), hold-off and wait-to-restore times that ran out, messages with the time at which they were sent, and changes. The
    changes are those of this element, and of the elements from which its timing or its other inputs come.

    What is taken, levels, conditions and why an input isn't taken come from the program's `inspect`, and changes from its
    `sim`. Which message or time led to a change follows from these and from the published rules. The status is 11 if the
    program's report ends before AT, because there are more than 200,000 changes. Then nothing is said of what was before.

    \b
      $ murdjohe gen 5 > plan.toml
      $ printf 'at,what,target,value\\n60000,down,S1,\\n' > events.csv
      $ murdjohe why plan.toml events.csv E2 2m
    """
    if plan == STDIN and events == STDIN:
        raise Wrong("standard input is one file: the plan or the events")
    start, root = asked["start"], context.find_root().params
    at = from_start(at, start, "AT") or 0
    if at > forms.DAY_MS:
        raise Wrong(f"AT: {at} ms is more than a day; at most {forms.DAY_MS}, or 24h")
    free(asked["output"], asked["force"], plan, events)
    taken, file = plan_file.read(plan), what_if.read(events, start, asked["more"], asked["is_sorted"])
    with progress.watched("why"):
        found = choices.answered(taken, file, choices.Asked(element, at, None if asked["has_all"] else choices.USUAL))
    put(context, asked["output"], shown(found, start, asked["as_json"] or root["json"]))
    if not root["quiet"]:
        streams.tell(*simulation.likely_seconds(file), colour="yellow")
    return program.DONE if found.stopped_at is None else program.STOPPED


COMMAND = why
