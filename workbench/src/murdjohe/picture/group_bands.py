"""Groups of parts that fail together in pictures: a colour each, as a band along its links and round its elements and sources."""

from __future__ import annotations

from collections.abc import Iterable
from dataclasses import dataclass

from murdjohe.network.groups import Group

# Light ones of ColorBrewer's Paired and Set2, by Cynthia Brewer, without the blues and greens of levels and the red of loops.
COLOURS = ("#FDBF6F", "#CAB2D6", "#FFD92F", "#E78AC3", "#E5C494", "#FC8D62", "#B3B3B3", "#FFFF99")
CIRCLED, LAST_CIRCLED = 0x2460, 20  # the sign of 1 in a circle, and the last number that has such a one
NAMED = 24  # groups that a legend names


@dataclass(frozen=True)
class Painted:
    """A group with its sign and its colour; colours come again where there are many, so signs stand at the links too."""

    group: Group
    sign: str
    colour: str

    @property
    def name(self) -> str:
        return self.group.name


def painted(groups: Iterable[Group]) -> tuple[Painted, ...]:
    """The groups with their colours, in order."""
    return tuple(Painted(group, sign_of(number), COLOURS[number % len(COLOURS)]) for number, group in enumerate(groups))


def sign_of(number: int) -> str:
    """The sign of a group, by its number from 0 on: a number in a circle, from 21 on in brackets."""
    return chr(CIRCLED + number) if number < LAST_CIRCLED else f"({number + 1})"


def along(groups: Iterable[Painted], links: Iterable[str]) -> list[Painted]:
    """The groups that have one of these links."""
    its = set(links)
    return [one for one in groups if its.intersection(one.group.links)]


def around(groups: Iterable[Painted], kind: str, name: str) -> list[Painted]:
    """The groups that have an element, or a source."""
    return [one for one in groups if (kind, name) in one.group.parts]


def legend(groups: tuple[Painted, ...]) -> list[tuple[str, str]]:
    """What a legend says of each of the first groups, with its colour."""
    more = len(groups) - NAMED
    rows = [(f"{one.sign} group {one.name}", one.colour) for one in groups[:NAMED]]
    return rows + ([(f"and {more:,} more groups", "#FFFFFF")] if more > 0 else [])
