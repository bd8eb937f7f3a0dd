"""`murdjohe explain`: a sentence on what the program itself answered, for whoever runs it alone."""

from __future__ import annotations

import click

from murdjohe.core import documents, files, inputs, program, shapes
from murdjohe.core.faults import Wrong
from murdjohe.core.forms import FORMS
from murdjohe.core.inputs import Words
from murdjohe.core.program import Answer
from murdjohe.remarks import form_remarks
from murdjohe.sentences import answers

# How refusals begin, by their statuses.
BEGINNINGS = {status: tuple(one.rstrip(b" ") for one in all_of) for status, all_of in shapes.REFUSED.items()}
BEGINNINGS[program.REFUTED] = (b"falls", b"cycle")


def status_of(form: str, text: bytes) -> int:
    """The status with which the program writes such a text."""
    for status, beginnings in BEGINNINGS.items():
        if text.startswith(beginnings):
            return status
    if form == "prio-rank" and text.startswith(b"at,what,target,value\n"):
        return program.REFUTED
    last = text.rstrip(b"\n").rpartition(b"\n")[2]
    return program.STOPPED if last.startswith(b"stopped,") else program.DONE


def said_of(words: Words, answer: Answer) -> list[str]:
    """The sentences on an answer that was read. Raises Wrong where it is none of the program's."""
    try:
        if answer.status in (program.REFUTED, program.STOPPED):
            return form_remarks.remarks(words, answer)
        sentence = answers.sentence(words, answer)
    except (ValueError, IndexError, KeyError):
        sentence = None
    if answer.status != program.DONE and sentence is None:
        raise Wrong(f"{answer.said[:80]!r} is no answer of the program to these words")
    return [sentence] if sentence else []


@click.command("explain", context_settings={"ignore_unknown_options": True})
@click.argument("words", nargs=-1, type=click.UNPROCESSED, required=True)
@click.pass_context
def explain(context: click.Context, words: tuple[str, ...]) -> int:
    """Says in a sentence what the program's own answer means.

    \b
      $ murdjohe-core rank plan.toml | murdjohe explain rank plan.toml

    WORDS are those that the program was given; its answer comes on standard input. A refusal is told with the file and the
    line; anything else is passed on as it is. The status is that of the answer.
    """
    name, *given = words
    text = files.octets(inputs.STDIN)
    status = status_of(name, text)
    if name not in FORMS:
        said = [f'"{name}" is an unknown command{documents.hint(name, FORMS)}']
    else:
        form = FORMS[name]
        taken = inputs.taken(form, given)
        plain = Words(form, given, [name, *given], [])
        said = said_of(taken or plain, Answer(status, text))
    context.obj.put("".join(f"{line}\n" for line in said).encode("utf-8", "backslashreplace") or text)
    return status


COMMAND = explain
