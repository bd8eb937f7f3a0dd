"""A form of the program as a command: the program's bytes on standard output, its status, and a sentence beside them."""

from __future__ import annotations

import os

from murdjohe.core import inputs, program, streams
from murdjohe.core.forms import Form
from murdjohe.core.inputs import Words
from murdjohe.core.program import Answer
from murdjohe.core.streams import Output
from murdjohe.remarks import form_remarks

TYPE_CHECKING = False
if TYPE_CHECKING:
    from collections.abc import Callable

# Options that every form takes, as they are written.
QUIET, JSON = ("-q", "--quiet"), ("--json",)
# Forms that make a plan or a certificate: another answer than that isn't written to the file that is asked for.
MAKERS = ("rank", "prio-rank", "nominate", "protect")
COLOURS = {program.DONE: "green", program.REFUTED: "yellow", program.STOPPED: "yellow"}


class Settings:
    """How a command is to answer: without sentences, with JSON in place of the program's bytes, to a file of this path in place
    of standard output; and at which time of day its run begins, where that is said."""

    __slots__ = ("is_quiet", "is_json", "path", "start")

    def __init__(self, is_quiet: bool, is_json: bool, path: str | None = None, start: int | None = None) -> None:
        self.is_quiet = is_quiet
        self.is_json = is_json
        self.path = path
        self.start = start


def working(name: str) -> program.Working | None:
    """What shows that a form takes its time, on a terminal."""
    if not os.isatty(streams.ERR):
        return None

    def start() -> Callable[[], None]:
        from murdjohe.core import progress

        return progress.started(name)

    return start


def said_of(words: Words, answer: Answer) -> list[str]:
    """The sentences on an answer."""
    if answer.status in COLOURS:
        return form_remarks.remarks(words, answer)
    from murdjohe.sentences import answers

    sentence = answers.sentence(words, answer)
    if answer.status != program.BAD_EVENTS:
        return [sentence] if sentence else []
    from murdjohe.sentences import others

    return ([sentence] if sentence else []) + others.sentences(words, answer)


def answered(form: Form, given: list[str], start: int | None = None) -> tuple[Words, Answer]:
    """The words as the program is given them, and what it answers. Wrong words are answered by it too: `usage`."""
    said: list[str] = []
    if inputs.are_left_out(form, given):
        from murdjohe.survey import default_times

        given, said = default_times.filled(form, given, start)
    words = inputs.taken(form, given, start)
    if words is None:
        return Words(form, given, [form.name, *given], []), program.run([])
    words.chosen = said
    return words, program.run(words.passed, working(form.name))


def put(output: Output, data: bytes, is_quiet: bool) -> int:
    """Writes the data; where that can't be, says so, but not where its reader only went away. The status of that, or 0."""
    try:
        output.put(data)
    except streams.Lost as lost:
        if not (is_quiet or lost.is_gone):
            streams.tell(f"standard output: {lost}; free room, or keep it open, and run again")
        return lost.status
    return program.DONE


def is_filed(form: Form, status: int) -> bool:
    """Whether an answer is what a file is asked for: a plan or a certificate only where there is one."""
    return status in (program.DONE, program.STOPPED) or (status == program.REFUTED and form.name not in MAKERS)


def run(form: Form, given: list[str], settings: Settings, output: Output) -> int:
    """Answers the words of a form, and gives the exit status."""
    words, answer = answered(form, given, settings.start)
    said: list[str] | None = None
    data = answer.text
    if settings.is_json:
        from murdjohe.answers import answer_json

        said = said_of(words, answer)
        data = answer_json.text(words, answer, said)
    if settings.path is not None and is_filed(form, answer.status):
        from murdjohe.core import files

        files.written(settings.path, data)
    elif status := put(output, data, settings.is_quiet):
        return status
    elif settings.path is not None and not settings.is_quiet:
        streams.tell(f"{settings.path} isn't written: there is no answer for it", colour="yellow")
    if settings.is_json:
        return answer.status
    if not settings.is_quiet:
        streams.tell(*said_of(words, answer), colour=COLOURS.get(answer.status, "red"))
    return answer.status
