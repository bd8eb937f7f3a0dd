"""Each form of the program as a function, for notebooks and scripts.

A file is given by its path (text or PathLike) or by its bytes; a time as milliseconds or as text with units (`20m`), up to
a day; an option is "I" or "II". Each function gives a dataclass of `reports` or `inspections` with the program's bytes
and status beside it. What is refused is raised as Refused. Nothing is written anywhere.
"""

from __future__ import annotations

import os
from collections.abc import Callable, Iterator
from contextlib import contextmanager
from dataclasses import dataclass
from typing import Generic, TypeVar

from murdjohe.answers import inspections, reports
from murdjohe.core import inputs, program, refusals
from murdjohe.core.forms import FORMS
from murdjohe.core.inputs import Words
from murdjohe.core.program import Answer
from murdjohe.sentences import answers

Source = str | os.PathLike[str] | bytes
Time = int | str
ResultT = TypeVar("ResultT")
MEMORY = "/proc/self/fd/"  # where files in memory are found by their numbers


class Refused(Exception):
    """The program refused, or can't do, what it was asked.

    `status` is the program's (2 to 10), `number` and `place` those of the refusal, where it has them, `sentence` what is
    wrong and what would be right, and `text` the program's bytes.
    """

    def __init__(self, answer: Answer, sentence: str) -> None:
        super().__init__(sentence)
        found = refusals.of(answer.status, answer.text)
        self.status = answer.status
        self.text = answer.text
        self.sentence = sentence
        self.number = found.number if found else None
        self.place = found.place if found and found.place else None


@dataclass(frozen=True)
class Answered(Generic[ResultT]):
    """What the program answered: the result, its bytes, and its status: 0 done, 1 refuted, 11 stopped."""

    result: ResultT
    text: bytes
    status: int


@contextmanager
def named(sources: list[Source]) -> Iterator[list[str]]:
    """The sources as names of files; bytes are kept in memory meanwhile."""
    kept, names = [], []
    try:
        for source in sources:
            if isinstance(source, bytes):
                memory = os.memfd_create("bytes", 0)
                kept.append(memory)
                with os.fdopen(os.dup(memory), "wb") as file:
                    file.write(source)
                names.append(f"{MEMORY}{memory}")
            else:
                names.append(os.fspath(source))
        yield names
    finally:
        for memory in kept:
            os.close(memory)


def told(words: Words | None, form: str, given: list[str], answer: Answer) -> str:
    """The sentence on a refusal."""
    if words is None:
        return answers.on_words(FORMS[form], given)
    return answers.sentence(words, answer) or f"{form}: status {answer.status}"


def answered(form: str, reader: Callable[[Answer], ResultT], *given: Source | int) -> Answered[ResultT]:
    """Runs a form with its words, and reads what it answers. Raises Refused, core.Absent and core.Ended."""
    of_form = FORMS[form]
    with named([str(word) if isinstance(word, int) else word for word in given]) as texts:
        words = inputs.taken(of_form, texts)
        try:
            for file in words.files if words else []:
                file.name = "the bytes" if file.path.startswith(MEMORY) and file.memory is None else file.name
            answer = program.run([]) if words is None else program.run(words.passed)
            if answer.status not in reports.GOOD:
                raise Refused(answer, told(words, form, texts, answer))
        finally:
            if words is not None:
                words.close()
    return Answered(reader(answer), answer.text, answer.status)


def check(plan: Source, certificate: Source) -> Answered[reports.Verdict]:
    """Tests the ranks of a certificate."""
    return answered("check", reports.verdict, plan, certificate)


def rank(plan: Source) -> Answered[reports.Ranking]:
    """The least ranks, or the first ring."""
    return answered("rank", reports.ranking, plan)


def chains(plan: Source) -> Answered[reports.Chains]:
    """How long a chain of timing into each element may become, or the first ring."""
    return answered("chains", reports.chains, plan)


def protected(plan: Source, groups: Source | None = None) -> Answered[reports.Gaps]:
    """Whom each single failure cuts off that needn't be, and whom each group of a list that fails as a whole."""
    return answered("protected", reports.gaps, plan, *([] if groups is None else [groups]))


def agree(plan: Source) -> Answered[reports.Agreement]:
    """Whether a network of the plan comes to rest, and by when; or the lines that clash."""
    return answered("agree", reports.agreement, plan)


def hops(plan: Source) -> Answered[reports.Hops]:
    """How many links each element is from a clock."""
    return answered("hops", reports.hops, plan)


def nominate(plan: Source) -> Answered[reports.Written]:
    """The plan with priorities by fewest hops."""
    return answered("nominate", reports.written, plan)


def protect(plan: Source) -> Answered[reports.Protection]:
    """The plan with priorities by which no single failure cuts anybody off; or whom failures cut off in the one that was found."""
    return answered("protect", reports.protection, plan)


def sim(plan: Source, events: Source, until: Time) -> Answered[reports.Report]:
    """Runs the network from 0 to `until`."""
    return answered("sim", reports.report, plan, events, until)


def inspect(plan: Source, events: Source, at: Time) -> Answered[inspections.Inspection]:
    """Runs the network from 0 to `at`, and says why each input is taken or isn't."""
    return answered("inspect", inspections.inspection, plan, events, at)


def sweep(plan: Source, at: Time, until: Time) -> Answered[reports.Sweep]:
    """Lets each link fail alone at `at`, and looks at `until`."""
    return answered("sweep", reports.sweep, plan, at, until)


def study(plan: Source, cases: Source, until: Time) -> Answered[reports.Study]:
    """Runs each case of a list from 0 to `until`, by itself and with what is common to all."""
    return answered("study", reports.study, plan, cases, until)


def prio_check(plan: Source, certificate: Source) -> Answered[reports.Verdict]:
    """`check` for elements that choose by priority alone."""
    return answered("prio-check", reports.verdict, plan, certificate)


def prio_rank(plan: Source) -> Answered[reports.Ranking]:
    """`rank` for elements that choose by priority alone."""
    return answered("prio-rank", reports.ranking, plan)


def prio_sim(plan: Source, events: Source, until: Time) -> Answered[reports.Report]:
    """`sim` for elements that choose by priority alone."""
    return answered("prio-sim", reports.prio_report, plan, events, until)


def decode(option: str, frames: Source) -> Answered[reports.Frames]:
    """The rows of captured frames."""
    return answered("decode", reports.frames, option, frames)


def encode(option: str, rows: Source) -> Answered[reports.Written]:
    """The frames of rows, one a line as hexadecimal digits."""
    return answered("encode", reports.written, option, rows)


def pcap_decode(option: str, capture: Source) -> Answered[reports.Frames]:
    """The rows of a capture with their times."""
    return answered("pcap-decode", reports.capture, option, capture)


def pcap_encode(option: str, rows: Source) -> Answered[bytes]:
    """The capture of rows with times."""
    return answered("pcap-encode", reports.octets, option, rows)


def node(plan: Source, element: str, received: Source, until: Time) -> Answered[reports.Replay]:
    """The frames that an element has to send for what it received, up to `until`."""
    return answered("node", reports.replay, plan, element, received, until)


def gen(elements: int) -> Answered[reports.Written]:
    """The ladder of 2 to 100,000 elements."""
    return answered("gen", reports.written, elements)


def trial(elements: int) -> Answered[reports.Trial]:
    """What planner, test and simulator find of the ladder of 2 to 100,000 elements."""
    return answered("trial", reports.trial, elements)
