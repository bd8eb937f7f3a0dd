"""What the tests of random refusals share: the program is asked, and its refusal and the sentence are compared."""

from __future__ import annotations

import re

from murdjohe.commands import form_run
from murdjohe.core.forms import FORMS

# What is broken: the number of the refusal, the line on which it is (None where the file has none), and words of the sentence.
Broken = tuple[int, int | None, str]


def told(form: str, given: list[str]) -> tuple[str, str]:
    """What the program writes, and the sentence on it."""
    words, answer = form_run.answered(FORMS[form], given)
    try:
        return answer.said.rstrip("\n"), "\n".join(form_run.said_of(words, answer))
    finally:
        words.close()


def refused(form: str, given: list[str], name: str, broken: Broken, written: str) -> None:
    """Asks the program, and compares the refusal, the place and the words of the sentence."""
    number, line, words = broken
    said, sentence = told(form, given)
    assert re.fullmatch(written.replace("N", str(number)), said), (said, number)
    place = f"{name}:{line}: " if line else f"{name}: "
    assert sentence.startswith(place) and words in sentence, (said, sentence, broken)
    assert "\n" not in sentence
