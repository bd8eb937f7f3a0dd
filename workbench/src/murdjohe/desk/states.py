"""The states of a desk: a plan and its events, numbered, with every edit undone and redone; an edit of an older state is refused."""

from __future__ import annotations

import re
from bisect import bisect_right
from collections.abc import Iterable
from typing import NamedTuple

from murdjohe.core.faults import Wrong
from murdjohe.core.program import FOUND
from murdjohe.desk import edits, pieces
from murdjohe.desk.edits import AddEvents, AddRow, DropEvent, DropEvents, Edit, SetValue, TakeAway, TakeOver, TakeText
from murdjohe.desk.pieces import Piece, Value
from murdjohe.plan.edits import MARK
from murdjohe.plan.model import Plan
from murdjohe.plan.side_table import Cell
from murdjohe.runs import failures, simulation
from murdjohe.runs.moments import Event

UNDONE, REDONE = "undone", "redone"
ARRAY = re.compile(r"^[ \t]*[\"']?(element|link|source)[\"']?[ \t]*=", re.M)  # a section that stands in one value
Events = tuple[Event, ...]


class Conflict(Wrong):
    """An edit was made on an older state: what changed since, in words."""

    def __init__(self, since: list[str]) -> None:
        super().__init__("the plan has changed meanwhile, so this edit isn't made: " + "; ".join(since), status=FOUND)
        self.since = since


class Splice(NamedTuple):
    """Pieces from a place on, and those that stand in their place afterwards."""

    place: int
    old: list[Piece]
    new: list[Piece]


class Step(NamedTuple):
    """An edit that was made: what it is in words, its splices, one after the other, and the events before and after it."""

    edit: Edit
    words: str
    splices: list[Splice]
    old_events: Events
    new_events: Events


class Change(NamedTuple):
    """What brought a state about: its number, and in words what was done; whether rows came or went, and else the new values."""

    number: int
    words: str
    is_structure: bool
    rows: list[tuple[str, str]]


class States:
    """A plan with events in its newest state, and the way there and back.

    `number` rises with each change, undoing and redoing too. No state has the number of another one.
    """

    def __init__(self, data: bytes, name: str, events: Events = (), start: int = 0) -> None:
        self.name = name
        self.start = start
        self.mark = MARK if data.startswith(MARK) else b""
        self.pieces = pieces.pieces_of(data, name)
        self.events = events
        self.option = self.option_now()
        self.number = 0
        self.done: list[Step] = []
        self.undone: list[Step] = []
        self.log: list[Change] = []
        # (what is made of the pieces, and kept until they change)
        self._plan: Plan | None = None
        self._data: bytes | None = None
        self._places: dict[tuple[str, str], int] | None = None

    @property
    def data(self) -> bytes:
        """The plan's bytes, as Save writes them."""
        if self._data is None:
            self._data = self.mark + pieces.text_of(self.pieces).encode()
        return self._data

    @property
    def plan(self) -> Plan:
        """The plan as the field has it."""
        if self._plan is None:
            self._plan = pieces.plan_of(self.pieces, self.option)
        return self._plan

    @property
    def event_text(self) -> bytes:
        """The event list as `sim` reads it, with times in milliseconds."""
        rows = failures.lines_of((event.at, event.what, event.target, event.value) for event in self.events)
        return simulation.NO_EVENTS + rows.encode()

    @property
    def cells(self) -> tuple[Cell, ...] | None:
        """The table beside the plan, where the plan was made of tables here; None where it is the one on disk."""
        taken = [step.edit for step in self.done if isinstance(step.edit, TakeText)]
        return taken[-1].cells if taken else None

    def option_now(self) -> str:
        """The option of the plan."""
        head = next((piece.text for piece in self.pieces if not piece.section), "")
        tables = pieces.tables_in(head) or {}
        if "option" not in tables and any(piece.text.startswith(pieces.INLINE) for piece in self.pieces):
            tables = pieces.tables_in(pieces.text_of(self.pieces)) or {}
        return "II" if tables.get("option") == "II" else "I"

    def place(self, section: str, name: str) -> int:
        """The place of a row among the pieces. Raises Wrong where there is none."""
        if self._places is None:
            self._places = {(piece.section, piece.name): place for place, piece in enumerate(self.pieces)}
        try:
            return self._places[section, name]
        except KeyError:
            raise Wrong(f"there is no {section} {name!r}") from None

    def since(self, number: int) -> list[str]:
        """What was done after the state of a number, in words."""
        first = bisect_right([change.number for change in self.log], number)
        return [change.words for change in self.log[first:]]

    def meant_for(self, on: int) -> None:
        """Raises Conflict where an edit was made on another state than the newest one."""
        if on != self.number:
            raise Conflict(self.since(on) or ["the desk was started anew"])

    def apply(self, edit: Edit, on: int) -> Change:
        """Makes an edit that was made on a state. Raises Wrong where it can't be made, and nothing is changed then."""
        self.meant_for(on)
        edits.may_be(self.plan, len(self.events), edit)
        words = edits.told(edit, self.start)
        splices = self.splices_of(edit)
        step = Step(edit, words, splices, self.events, self.events)
        self.moved(splices, False)
        try:
            if isinstance(edit, (AddRow, TakeAway)) and not self.is_headed():
                self.verified()
            step = step._replace(new_events=self.events_after(edit))
        except Wrong:
            self.moved(splices, True)
            raise
        self.events = step.new_events
        self.done.append(step)
        self.undone.clear()
        return self.changed(step, words)

    def undo(self, on: int) -> Change:
        """Takes the last edit back. Raises Wrong where there is none."""
        self.meant_for(on)
        if not self.done:
            raise Wrong("there is nothing to undo")
        step = self.done.pop()
        self.undone.append(step)
        self.moved(step.splices, True)
        self.events = step.old_events
        return self.changed(step, f"{UNDONE}: {step.words}")

    def redo(self, on: int) -> Change:
        """Makes the edit again that was undone last. Raises Wrong where there is none."""
        self.meant_for(on)
        if not self.undone:
            raise Wrong("there is nothing to redo")
        step = self.undone.pop()
        self.done.append(step)
        self.moved(step.splices, False)
        self.events = step.new_events
        return self.changed(step, f"{REDONE}: {step.words}")

    def changed(self, step: Step, words: str) -> Change:
        """Counts a change, and says what is new by it."""
        self.number += 1
        is_structure = not isinstance(step.edit, (SetValue, TakeOver, AddEvents, DropEvent, DropEvents))
        rows = [(piece.section, piece.name) for splice in step.splices for piece in splice.new if piece.section]
        change = Change(self.number, words, is_structure, [] if is_structure else rows)
        self.log.append(change)
        return change

    def moved(self, splices: list[Splice], is_back: bool) -> None:
        """Makes splices, or takes them back in the order from the last to the first."""
        for place, old, new in reversed(splices) if is_back else splices:
            self.pieces[place : place + len(new if is_back else old)] = old if is_back else new
        self._data = None
        if any(self.is_moving(splice) for splice in splices):
            self._places = self._plan = None
            self.option = self.option_now()
        elif self._plan is not None:
            rows = [piece for splice in splices for piece in (splice.old if is_back else splice.new)]
            self._plan = pieces.with_rows(self._plan, rows)

    @staticmethod
    def is_moving(splice: Splice) -> bool:
        """Whether a splice makes the places of rows other ones."""
        return [(one.section, one.name) for one in splice.old] != [(one.section, one.name) for one in splice.new]

    def splices_of(self, edit: Edit) -> list[Splice]:
        """What an edit does to the pieces. Raises Wrong."""
        if isinstance(edit, SetValue):
            return [self.value_splice(edit.section, edit.name, {edit.key: edit.value})]
        if isinstance(edit, TakeOver):
            return self.priority_splices(edit.priorities)
        if isinstance(edit, AddRow):
            return [Splice(*pieces.with_row(self.pieces, edit.section, edit.row))]
        if isinstance(edit, TakeAway):
            return self.away_splices(edits.parts_of(self.plan, edit.section, edit.name))
        if isinstance(edit, TakeText):
            return [Splice(0, list(self.pieces), pieces.pieces_of(edit.text.encode(), edit.by))]
        return []

    def value_splice(self, section: str, name: str, values: dict[str, Value]) -> Splice:
        """The splice by which a row gets values. Raises Wrong."""
        place = self.place(section, name)
        return Splice(place, [self.pieces[place]], [pieces.with_values(self.pieces[place], values)])

    def priority_splices(self, priorities: dict[str, int]) -> list[Splice]:
        """The splices by which lines and sources get priorities."""
        rows: dict[tuple[str, str], dict[str, Value]] = {}
        lines = {line.name: line for line in self.plan.lines()}
        for name, priority in priorities.items():
            line = lines.get(name)
            key = ("source", name) if line is None else ("link", line.link)
            rows.setdefault(key, {})["priority" if line is None else line.key] = priority
        return [self.value_splice(section, name, values) for (section, name), values in rows.items()]

    def away_splices(self, parts: list[tuple[str, str]]) -> list[Splice]:
        """The splices by which rows go, the last one first, so that the places of the others stay."""
        left = list(self.pieces)
        found = []
        for place in sorted((self.place(*part) for part in parts), reverse=True):
            splice = Splice(*pieces.without_row(left, place))
            left[splice.place : splice.place + len(splice.old)] = splice.new
            found.append(splice)
        return found

    def is_headed(self) -> bool:
        """Whether each row stands under a head of its own, so that rows come and go without the others."""
        rows = all(piece.text.lstrip().startswith(pieces.HEADED) for piece in self.pieces if piece.section)
        return rows and not any(ARRAY.search(piece.text) for piece in self.pieces if not piece.section)

    def verified(self) -> None:
        """Reads the text of the plan again where more than the inside of rows changed. Raises Wrong where it isn't what was meant."""
        found = pieces.tables_in(pieces.text_of(self.pieces))
        for section in ("element", "link", "source"):
            rows = [piece.row for piece in self.pieces if piece.section == section]
            if found is None or found.get(section, []) != rows:
                raise Wrong(
                    f"{self.name}: its rows are spelled in a way that can't be edited; spell each as [[{section}]]"
                )

    def events_after(self, edit: Edit) -> Events:
        """The events after an edit: in order of time, a new one behind those of its millisecond; what names nothing any more goes."""
        if isinstance(edit, AddEvents):
            made = [Event(edit.at, what, target, value) for what, target, value in edit.rows]
            return in_order([*self.events, *made])
        if isinstance(edit, DropEvent):
            return self.events[: edit.number] + self.events[edit.number + 1 :]
        if isinstance(edit, DropEvents):
            return ()
        if isinstance(edit, (TakeAway, TakeText)):
            names = {event.what: edits.targets_of(self.plan, event.what) for event in self.events}
            return tuple(event for event in self.events if event.target in names[event.what])
        return self.events


def in_order(events: Iterable[Event]) -> Events:
    """Events in order of time; those of one millisecond keep theirs."""
    return tuple(sorted(events, key=lambda event: event.at))
