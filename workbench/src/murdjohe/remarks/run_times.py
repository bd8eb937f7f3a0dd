"""What is said of times beside an answer: events after the end of a run, and times that are probably seconds."""

from __future__ import annotations

from murdjohe.core import forms, times
from murdjohe.core.inputs import Words
from murdjohe.core.row_columns import rows_of
from murdjohe.core.wording import plural


def event_times(words: Words) -> list[str]:
    """The times of the events of a list that the program took."""
    file = words.file(forms.EVENTS, forms.CASES)
    column = 1 if file and file.kind == forms.CASES else 0
    try:
        with open(file.path if file else "", encoding="utf-8-sig") as source:
            rows = [row.split(",") for row in rows_of(source.read())]
    except (OSError, ValueError):
        return []
    return [field.strip('"') for row in rows for field in row[column : column + 1]]


def after(words: Words) -> list[str]:
    """How many events of a run stand after its end."""
    until, told = int(words.passed[-1]), event_times(words)
    late = sum(time.isdigit() and int(time) > until for time in told)
    if not late:
        return []
    return [f"{late:,} of {plural(len(told), 'event')} {'is' if late == 1 else 'are'} after {until}, and had no effect"]


def on_seconds(words: Words) -> list[str]:
    """What is said where a time of the words, or the last event of a list, lies within the first second."""
    said: list[str] = []
    for word, given in zip(words.form.words, words.given):
        if word.kind == forms.TIME and times.is_digits(given):
            said += times.likely_seconds(int(given), word.name)
    file = words.file(forms.EVENTS, forms.CASES)
    if file is not None:
        moments = [int(time) for time in event_times(words) if time.isdigit()]
        said += times.likely_seconds(max(moments, default=None), f"the last event of {file.name}")
    return said
