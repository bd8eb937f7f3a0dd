"""The cases of failures by stretches: failures alone, then each failure with all that come behind it.

They are the cases of `failures.cases_of` with the same names, and what the cases of a stretch have in common is made once,
since a survey has millions.
"""

from __future__ import annotations

from collections.abc import Iterator, Sequence
from dataclasses import dataclass
from typing import NamedTuple

from murdjohe.runs.failures import BETWEEN, NAME, CaseNames, Failure, nested_behind

LONGEST = 32  # signs of a name
NUMBERED = "pair-"  # how a pair is called that gets no name of its own
Span = tuple[int, int | None]  # from one number to another, both from 1 on


@dataclass(frozen=True)
class Stretch:
    """Cases that follow one another: failures alone, or `first` with each of others; all by their places in the list.

    `number` is that of the first of these cases, from 1 on.
    """

    number: int
    first: int | None
    others: Sequence[int]

    def together(self, other: int) -> tuple[int, ...]:
        """What fails in one of the cases."""
        return (other,) if self.first is None else (self.first, other)

    def cut(self, span: Span) -> tuple[int, int]:
        """From which to which of its cases the span goes."""
        first, last = span
        end = len(self.others) if last is None else min(len(self.others), last + 1 - self.number)
        return max(0, first - self.number), max(0, end)

    def within(self, span: Span) -> Stretch:
        """Those of its cases that are in the span."""
        start, end = self.cut(span)
        return Stretch(self.number + start, self.first, self.others[start:end])


def stretches(failures: list[Failure], has_pairs: bool, span: Span) -> Iterator[Stretch]:
    """The stretches of all cases in the span; none that is empty."""
    count, number = len(failures), 1 + len(failures)
    alone = Stretch(1, None, range(count)).within(span)
    if alone.others:
        yield alone
    for place, nested in enumerate(nested_behind(failures) if has_pairs else []):
        length = count - place - 1 - len(nested)
        if span[0] < number + length and (span[1] is None or number <= span[1]) and length:
            behind = range(place + 1, count)
            others = [other for other in behind if other not in nested] if nested else behind
            yield Stretch(number, place, others).within(span)
        number += length


def has_other_way(name: str, names: set[str]) -> bool:
    """Whether a name could be read as a case of another one of the names, or by its number."""
    dashes = [at for at in range(len(name)) if name.startswith(BETWEEN, at)] if BETWEEN in name else []
    if name.endswith(BETWEEN[0]):
        dashes.append(len(name) - 1)
    return name.startswith(NUMBERED) or any(name[:at] in names for at in dashes)


def are_clear(names: Sequence[str]) -> bool:
    """Whether no case can have the name of another one, so that each is named without a look at those before.

    Two pairs that are called alike have first failures of whom one is called like the other and `-` or `--` behind it, and
    so has a pair that is called like a failure.
    """
    known = set(names)
    is_apart = len(known) == len(names) and all(map(NAME.fullmatch, names))
    return is_apart and not any(has_other_way(name, known) for name in names)


class Named(NamedTuple):
    """A stretch with the names of its cases, and whether each pair is called by both its failures."""

    stretch: Stretch
    names: list[str]
    are_usual: bool


def names_at(places: Sequence[int], names: list[str]) -> list[str]:
    """The names at these places."""
    return names[places.start : places.stop] if isinstance(places, range) else [names[place] for place in places]


def clear_names(stretch: Stretch, names: list[str], longest: int) -> Named:
    """The names of the cases of a stretch, where names are clear, and the longest has so many signs: a pair is called by its
    number where its name is too long."""
    its = names_at(stretch.others, names)
    if stretch.first is None:
        return Named(stretch, its, True)
    head = names[stretch.first] + BETWEEN
    room = LONGEST - len(head)
    if longest <= room or max(map(len, its)) <= room:
        return Named(stretch, [head + name for name in its], True)
    numbered = enumerate(its, stretch.number)
    return Named(
        stretch, [head + name if len(name) <= room else f"{NUMBERED}{number}" for number, name in numbered], False
    )


def named(failures: list[Failure], has_pairs: bool, span: Span) -> Iterator[Named]:
    """The stretches in the span, each with the names of its cases."""
    names = [one.name for one in failures]
    if are_clear(names):
        longest = max(map(len, names), default=0)
        for stretch in stretches(failures, has_pairs, span):
            yield clear_names(stretch, names, longest)
        return
    kept = CaseNames(failures)
    for stretch in stretches(failures, has_pairs, (1, span[1])):
        made = [
            kept.name_of(number, tuple(failures[place] for place in stretch.together(other)))
            for number, other in enumerate(stretch.others, stretch.number)
        ]
        start, end = stretch.cut(span)
        if start < end:
            yield Named(stretch.within(span), made[start:end], False)
