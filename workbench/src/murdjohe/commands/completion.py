"""`murdjohe completion SHELL`: what a shell has to read so that it completes the command's words."""

from __future__ import annotations

import click
from click.shell_completion import BashComplete, FishComplete, ShellComplete, ZshComplete

SHELLS: dict[str, type[ShellComplete]] = {"bash": BashComplete, "zsh": ZshComplete, "fish": FishComplete}


def source(shell: str) -> str:
    """The text for a shell."""
    from murdjohe.commands import cli

    completion = SHELLS[shell](cli.command(), {}, cli.NAME, f"_{cli.NAME.upper()}_COMPLETE")
    return completion.source_template % completion.source_vars()


@click.command("completion")
@click.argument("shell", type=click.Choice(list(SHELLS)))
@click.pass_context
def completion(context: click.Context, shell: str) -> int:
    """Prints the completion for a shell, as: murdjohe completion bash > ~/.local/share/bash-completion/completions/murdjohe"""
    context.obj.put((source(shell).strip("\n") + "\n").encode())
    return 0


COMMAND = completion
