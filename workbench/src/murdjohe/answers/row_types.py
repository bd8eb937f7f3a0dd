"""A row of each table that the program writes, as a dataclass; `None` stands where the program writes that there is nothing.

Made of docs/rows.toml by docs/row_tables, which says what stands here; nothing is changed by hand.
"""

from __future__ import annotations

from dataclasses import dataclass


@dataclass(frozen=True)
class Rank:
    """A nominated line with its rank."""

    line: str
    rank: int


@dataclass(frozen=True)
class Chain:
    """The longest chains into an element."""

    element: str
    links: int  # lines
    since: int  # lines
    clocks: int  # lines


@dataclass(frozen=True)
class Gap:
    """A failure, or a group, that cuts elements off although a path remains."""

    kind: str
    failure: str | None
    elements: int  # elements
    first: str


@dataclass(frozen=True)
class Hop:
    """How many links an element is from a clock."""

    element: str
    hops: int | None  # links
    via: str | None


@dataclass(frozen=True)
class Change:
    """What an element shows from a millisecond on; `level` is None in a run by priority alone."""

    at: int  # milliseconds
    element: str
    mode: str
    input: str | None
    level: str | None
    state: str


@dataclass(frozen=True)
class Input:
    """How an input stands at the end, and in how many milliseconds that ends by itself."""

    element: str
    input: str
    condition: str
    left: int  # milliseconds


@dataclass(frozen=True)
class Trace:
    """Where the timing of an element begins, and over how many lines."""

    element: str
    hops: int  # lines
    kind: str
    name: str


@dataclass(frozen=True)
class Command:
    """A command of an operator, and whether it was taken when it was applied."""

    at: int  # milliseconds
    element: str
    word: str
    input: str | None
    is_taken: bool


@dataclass(frozen=True)
class Inspected:
    """What an element chose."""

    element: str
    mode: str
    switched: str | None
    input: str | None
    level: str
    state: str


@dataclass(frozen=True)
class Reason:
    """What an input gives, and why it is taken or isn't."""

    element: str
    input: str
    condition: str
    left: int  # milliseconds
    level: str | None
    verdict: str


@dataclass(frozen=True)
class Cut:
    """What the network is at the end where one link failed."""

    link: str
    is_settled: bool
    locked: int  # elements
    holdover: int  # elements
    freerun: int  # elements
    loops: int  # closed walks
    worst: str
    bound: int | None  # milliseconds


@dataclass(frozen=True)
class Case:
    """What the network is at the end of the run of a case."""

    case: str
    is_settled: bool
    locked: int  # elements
    holdover: int  # elements
    freerun: int  # elements
    loops: int  # closed walks
    worst: str
    bound: int | None  # milliseconds
    lost: int  # elements
    first: str | None
    longest: int  # lines
    hurt: int  # elements
    dark: int  # milliseconds
    darkest: str | None
    still: int  # elements


@dataclass(frozen=True)
class Switch:
    """An event of the list that makes a loop."""

    at: int  # milliseconds
    what: str
    target: str
    value: str | None


@dataclass(frozen=True)
class Frame:
    """A frame: its source, kind and level; with an extended QL TLV the clock, flags and counts; with its time in a
    capture."""

    source: str
    kind: str
    level: str
    clock: str | None = None
    flags: str | None = None
    eeecs: int | None = None  # clocks
    eecs: int | None = None  # clocks
    seconds: int | None = None  # seconds
    microseconds: int | None = None  # microseconds


@dataclass(frozen=True)
class Sent:
    """A frame that an element has to send."""

    at: int  # milliseconds
    line: str
    frame: str
