"""The sentence on whatever the program refused, by its words and its answer."""

from __future__ import annotations

import os
import stat

from murdjohe.core import documents, forms, program, refusals, times
from murdjohe.core.documents import Document
from murdjohe.core.inputs import STDIN, File, Words
from murdjohe.core.program import Answer
from murdjohe.plan.plan_lines import PlanLines
from murdjohe.sentences import frames, groups, plan as plan_sentences, records

# The files that stand beside a plan, as they are told where the two are swapped.
BESIDE = {
    forms.CERTIFICATE: "a certificate",
    forms.EVENTS: "an event list",
    forms.CASES: "a list of cases",
    forms.GROUPS: "a list of groups",
}
NO_MEMORY = "out of memory, and nothing is written; free some, and run again"


def word_fault(word: forms.Word, text: str) -> str | None:
    """What is wrong with a word of a form by itself, or None."""
    if word.is_file and not text:
        return f"{word.name} is empty; it is the name of a file"
    if word.kind == forms.OPTION and text not in ("I", "II"):
        return f'{word.name} is "{text}"; it is I or II'
    if word.kind == forms.TIME:
        time = times.milliseconds(text)
        if time is None and not (times.is_digits(text) and str(int(text)) == text):
            zero = ", without leading zeros" if times.is_digits(text) else ""
            return f'{word.name} is "{text}"; it is {forms.MEANINGS[forms.TIME]}{zero}'
        if (int(text) if time is None else time) > forms.DAY_MS:
            return (
                f'{word.name} is "{text}", which is more than a day; it is at most {forms.DAY_MS} milliseconds, or 24h'
            )
    if word.kind == forms.COUNT:
        least, greatest = forms.SIZES
        if not (times.is_digits(text) and str(int(text)) == text and least <= int(text) <= greatest):
            return f'{word.name} is "{text}"; it is a number of elements, {least} to {greatest:,}'
    return None


def on_words(form: forms.Form, given: list[str]) -> str:
    """Which word of a form is wrong, and what its words are."""
    told = f"the form is `murdjohe {form.usage}`; see `murdjohe {form.name} --help`"
    option = next((text for text in given if text.startswith("-") and text != STDIN and not text[1].isdigit()), None)
    if option:
        return f'{form.name}: "{option}" is no option; the options are --quiet, --json and --help; {told}'
    if len(given) < form.fewest:
        missing = form.words[len(given)]
        return f"{form.name}: {missing.name} is missing, {forms.MEANINGS[missing.kind]}; {told}"
    if len(given) > len(form.words):
        more = given[len(form.words)]
        its = f", and a list of groups is --groups {more}" if form.name == "protect" else ""
        return f'{form.name}: "{more}" is an unexpected argument{its}; {told}'
    if sum(word.is_file and text == STDIN for word, text in zip(form.words, given)) > 1:
        return f"{form.name}: `-`, standard input, can be read for one word alone; {told}"
    for word, text in zip(form.words, given):
        if fault := word_fault(word, text):
            return f"{form.name}: {fault}; {told}"
    if form.name == "sweep":
        return f'{form.name}: AT, "{given[1]}", is after UNTIL, "{given[2]}"; {told}'
    return f"{form.name}: a word isn't text in UTF-8; {told}"


def read_fault(file: File) -> str | None:
    """Why a file can't be read, or None where it can."""
    try:
        if stat.S_ISDIR(os.stat(file.path).st_mode):
            return "it is a folder"
        documents.read(file)
    except (OSError, ValueError) as fault:
        return getattr(fault, "strerror", None) or str(fault)
    return None


def on_reading(words: Words) -> str:
    """Which file can't be read, and why. The program reads them in the order of the words."""
    for file in words.files:
        if why := read_fault(file):
            return f"{file.name}: {why}; correct its name or its rights"
    return f"one of {', '.join(file.name for file in words.files)} could not be read a moment ago, and now it can"


def on_length(words: Words) -> str:
    """Which file is too long: of more bytes than any may have; or than one may have that isn't a plan, and stands beside none or
    beside a plan of standard size."""
    sizes = []
    for file in words.files:
        try:
            sizes.append((file, len(documents.read(file).data)))
        except OSError:
            continue
    for most, among in [
        (program.LONGEST_FILE, sizes),
        (program.LONGEST_BESIDE, [s for s in sizes if s[0].kind != forms.PLAN]),
    ]:
        for file, size in among:
            if size > most:
                remedy = "a capture is split by `editcap -c`" if file.kind == forms.CAPTURE else "split it"
                return f"{file.name}: it has more than {most:,} bytes; {remedy}"
    return f"a file has more than {program.LONGEST_FILE:,} bytes; split it"


def plan_of(words: Words) -> PlanLines | None:
    """The plan that the words name, where it can be read."""
    file = words.file(forms.PLAN)
    try:
        return PlanLines(documents.read(file)) if file else None
    except OSError:
        return None


def document_of(words: Words, *kinds: str) -> Document:
    """The file of these kinds. Raises OSError."""
    file = words.file(*kinds)
    return documents.read(file) if file else Document("the file", b"")


def swapped(words: Words) -> str | None:
    """The sentence on two files of a form that stand in each other's place."""
    plan, other = words.file(forms.PLAN), words.file(*BESIDE)
    if not plan or not other:
        return None
    wanted = BESIDE[other.kind]
    if read_fault(other) or documents.kind_of(documents.read(other)) != "a plan":
        return None
    if documents.kind_of(documents.read(plan)) != wanted:
        return None
    more = "" if len(words.given) == 2 else " .."
    right = f"murdjohe {words.form.name} {other.name} {plan.name}{more}"
    return f"{plan.name} is {wanted}, and {other.name} is a plan: the two words are swapped; write `{right}`"


def on_refusal(words: Words, refusal: refusals.Refusal) -> str:
    """The sentence on a file that is refused with a number. Raises OSError where it can't be read once more."""
    if refusal.table == "plan":
        both = swapped(words) if refusal.number == 22 else None
        return both or plan_sentences.sentence(document_of(words, forms.PLAN), refusal)
    if refusal.table == "certificate":
        return records.of_certificate(document_of(words, forms.CERTIFICATE), refusal, plan_of(words))
    if refusal.table == "groups":
        return groups.of_groups(document_of(words, forms.GROUPS), refusal, plan_of(words))
    if refusal.table in ("events", "cases"):
        return records.of_events(document_of(words, forms.EVENTS, forms.CASES), refusal, plan_of(words))
    if refusal.table == "node":
        document = Document("", b"") if refusal.number == 50 else document_of(words, forms.RECEIVED)
        return frames.of_node(document, refusal, words.given[1], plan_of(words))
    document = document_of(words, forms.FRAMES, forms.ROWS, forms.TIMED_ROWS, forms.CAPTURE)
    if refusal.table == "capture":
        return frames.of_capture(document, refusal)
    option = words.given[0] if words.given[0] in ("I", "II") else "I"
    return frames.of_frames(document, refusal, option, words.file(forms.TIMED_ROWS) is not None)


def refusal_of(words: Words, answer: Answer) -> refusals.Refusal | None:
    """The refusal in an answer to these words; what is said of a list of cases is written as of an event list."""
    refusal = refusals.of(answer.status, answer.text)
    if refusal and refusal.table == "events" and any(word.kind == forms.CASES for word in words.form.words):
        refusal.table = "cases"
    return refusal


def sentence(words: Words, answer: Answer) -> str | None:
    """The sentence on an answer that is a refusal or a fault; None for one that isn't."""
    if answer.status == program.NO_MEMORY:
        return NO_MEMORY
    if answer.status == program.USAGE:
        return on_words(words.form, words.given)
    if answer.status == program.READ_FAULT:
        return on_reading(words)
    if answer.status == program.TOO_LONG:
        return on_length(words)
    refusal = refusal_of(words, answer)
    if refusal is None:
        return None
    try:
        return on_refusal(words, refusal)
    except (OSError, ValueError):
        says, remedy = refusals.says(refusal.table, refusal.number), refusals.remedy(refusal.table, refusal.number)
        return f"{refusal.table} {refusal.place}: it {says}; {remedy}"
