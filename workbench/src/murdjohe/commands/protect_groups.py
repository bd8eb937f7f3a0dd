"""`murdjohe protect --groups`: priorities by which no group of parts that fail together cuts anybody off."""

from __future__ import annotations

from murdjohe.answers import api, envelopes
from murdjohe.commands import form_run
from murdjohe.commands.form_run import Settings
from murdjohe.commands.options import one_input
from murdjohe.core import files, program, progress, streams
from murdjohe.core.streams import Output
from murdjohe.network import groups, plan_file
from murdjohe.protection import group_protection, promise


def on_none(text: bytes, settings: Settings, output: Output) -> int:
    """What is answered where `protect` gives no plan: its rows."""
    if status := form_run.put(output, text, settings.is_quiet):
        return status
    if not settings.is_quiet:
        streams.tell(*promise.on_none(text.decode("utf-8", "replace")), colour="yellow")
    return program.REFUTED


def run(plan: str, path: str, settings: Settings, output: Output) -> int:
    """Answers `protect PLAN --groups FILE`, and gives the exit status. Raises Wrong."""
    one_input(plan, path)
    taken = plan_file.read(plan)
    table = groups.read(path, taken)
    group_protection.small_enough(taken)
    answer = api.protect(taken.data)
    if answer.result.text is None:
        return on_none(answer.text, settings, output)
    with progress.watched("protect --groups"):
        made = group_protection.made_of(answer.text, table)
    status = program.DONE if made.is_good else program.REFUTED
    data = made.data
    if settings.is_json:
        found = {"answer": group_protection.as_data(made)}
        data = envelopes.text("protect", status, found, group_protection.said(made))
    if settings.path is not None:
        files.written(settings.path, data)
    elif lost := form_run.put(output, data, settings.is_quiet):
        return lost
    if not (settings.is_quiet or settings.is_json):
        streams.tell(*group_protection.said(made), colour="green" if made.is_good else "yellow")
    return status
