"""`murdjohe help`: all commands, a command, or a topic."""

from __future__ import annotations

import click

from murdjohe.commands import topics, widths
from murdjohe.core import documents, program, streams
from murdjohe.core.forms import FORMS


JSON = "json"  # the topic that is no text


def begun(context: click.Context, parameter: click.Parameter, incomplete: str) -> list[str]:
    """The topics and commands that begin so."""
    from murdjohe.commands import cli

    known = [*topics.TOPICS, *cli.GROUPS, cli.EVERYTHING, *FORMS, *cli.OWN]
    return [name for name in known if name.startswith(incomplete)]


@click.command("help")
@click.argument("topic", required=False, shell_complete=begun)
@click.pass_context
def help_command(context: click.Context, topic: str | None) -> int:
    """Says more of a command, of a group of commands (plans, network, priority, lab, files, trying, about, or all), or of a topic: plan,
    tables, events, cases, groups, certificate, levels, statuses, json, core."""
    from murdjohe.commands import cli

    root = context.find_root()
    if topic is None:
        text = root.get_help()
    elif topic in topics.TOPICS:
        text = topics.TOPICS[topic][1]()
    elif topic in cli.GROUPS or topic == cli.EVERYTHING:
        text = cli.group_help(topic)
    elif topic in FORMS or topic in cli.OWN:
        found = cli.command().get_command(root, topic)
        text = found.get_help(click.Context(found, root, info_name=topic)) if found else ""
    else:
        hint = documents.hint(topic, [*topics.TOPICS, *cli.GROUPS, *FORMS, *cli.OWN])
        known = f"the topics are {', '.join(topics.TOPICS)}, the groups {', '.join(cli.GROUPS)}"
        streams.tell(f'unknown command or topic "{topic}"{hint}; {known}')
        return program.USAGE
    shown = text if topic == JSON else widths.fitted(text)  # (a schema is for programs)
    context.obj.put((shown.rstrip("\n") + "\n").encode())
    return program.DONE


COMMAND = help_command
