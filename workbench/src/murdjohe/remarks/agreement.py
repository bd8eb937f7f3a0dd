"""What is said of priorities beside an answer: whether elements of the plan may oscillate, by the program's `agree`."""

from __future__ import annotations

from murdjohe.core import forms, program
from murdjohe.core.inputs import Words


def on_oscillation(words: Words) -> list[str]:
    """Whether elements of a plan in which no loop is possible may oscillate, by `agree`, and which number ends that."""
    file = words.file(forms.PLAN)
    try:
        answer = program.run(["agree", file.path]) if file else None
    except (program.NoAnswer, program.Ended) as none:
        return [f"whether elements may oscillate isn't known: {none}"]
    if file is None or answer is None or answer.status != program.REFUTED:
        return []
    from murdjohe.network import oscillation

    return oscillation.beside(file, answer)
