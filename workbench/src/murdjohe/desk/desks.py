"""A desk without a browser: a plan with its events, its draft, its verdicts, and where its things stand."""

from __future__ import annotations

import os
import threading
from collections.abc import Callable
from dataclasses import dataclass, field, replace
from typing import Any

from murdjohe.answers.reports import Gap, Report
from murdjohe.core.faults import Wrong
from murdjohe.desk import cut_off, drafts, edits, pieces, regions, saving, verdicts, views
from murdjohe.desk.drafts import Base, Draft
from murdjohe.desk.edits import Edit
from murdjohe.desk.states import Change, States
from murdjohe.desk.verdicts import Asked, Pool, Verdict
from murdjohe.desk.views import Sheet
from murdjohe.network import plan_file, wiring
from murdjohe.picture import page_data
from murdjohe.picture.places import Layout
from murdjohe.plan import side_table
from murdjohe.plan.model import Plan, Row
from murdjohe.plan.side_table import Cell, Side
from murdjohe.runs import simulation
from murdjohe.runs.moments import Event

UNTITLED = "untitled.toml"  # how a plan is called that has no file yet
LOGGED = 50  # changes that the page lists
CHANGE, VERDICT, SAVED = "change", "verdict", "saved"
News = Callable[[str, dict[str, Any]], None]
Place = tuple[float, float]


@dataclass(frozen=True)
class Files:
    """The files of a desk: those that the command line named, the folder in which it was started, and what was read."""

    plan: str | None
    events: str | None
    folder: str
    base: Base
    cells: tuple[Cell, ...] = ()
    start: int = 0


def opened(plan: str | None, events: str | None, folder: str, start: int | None = None) -> Files:
    """Reads the files of a desk, whose run may begin at a time of day. Raises Wrong where the program refuses one."""
    if plan is None:
        return Files(None, None, folder, Base(pieces.EMPTY, ()), (), start or 0)
    taken = plan_file.read(plan)
    rows: tuple[Event, ...] = ()
    if events is not None:
        file = simulation.read_events(events, start)
        simulation.report_of(taken, file, 0)  # (told here where it is refused)
        rows = file.events
    side = side_table.beside(plan, None, taken.network)
    cells = tuple((*key, column, value) for key, columns in side.items() for column, value in columns.items())
    return Files(plan, events, folder, Base(taken.data, rows), cells, start or 0)


@dataclass
class Kept:
    """What a desk knows of the files on disk: the plan's bytes and the events as they were last read or written, by their paths."""

    plan: bytes
    events: tuple[Event, ...]
    written: dict[str, bytes] = field(default_factory=dict)


class Desk:
    """A desk; `news` is told what changes, from the thread that changes it."""

    def __init__(self, files: Files) -> None:
        self.files = files
        self.draft = Draft(files.plan or os.path.join(files.folder, UNTITLED), files.events, files.base, files.start)
        self.kept = Kept(files.base.plan, files.base.events)
        if files.plan is not None and not self.draft.has_other_base:
            self.kept.written[os.path.realpath(files.plan)] = files.base.plan
        self.news: News = lambda kind, data: None
        self.said: dict[str, Verdict] = {}
        self.report: tuple[Asked, Report, int] | None = None
        self.draft_fault: str | None = None
        self.sheet = Sheet()
        self.parts: regions.Regions | None = None
        self.is_laid = threading.Event()
        self.pool = Pool(self.judged, self.ran)

    @property
    def states(self) -> States:
        """The states of the plan and its events."""
        return self.draft.states

    @property
    def name(self) -> str:
        """How the plan is called."""
        return self.files.plan or UNTITLED

    @property
    def is_saved(self) -> bool:
        """Whether the plan and the events are on disk as they are here."""
        return (self.states.data, self.states.events) == (self.kept.plan, self.kept.events)

    def begin(self) -> None:
        """Has the first state judged, and lays the plan out, which takes seconds for some thousand elements."""
        self.judge()
        try:
            self.lay_out()
        finally:
            self.is_laid.set()

    def end(self) -> None:
        """Ends the desk; its draft stays where something isn't saved."""
        self.pool.end()
        self.draft.end(self.is_saved)

    def lay_out(self) -> None:
        """Finds a place for everything; of a large plan for its regions."""
        plan = self.states.plan
        self.parts = regions.regions_of(plan) if len(plan.elements) > views.LARGEST else None
        self.sheet = Sheet() if self.parts else views.sheet_of(plan)

    def judge(self) -> None:
        """Has the newest state judged."""
        states = self.states
        self.said = {}
        self.pool.ask(Asked(states.number, states.data, states.plan, states.event_text, states.events))

    def judged(self, verdict: Verdict) -> None:
        """Keeps a verdict on the newest state, and tells it."""
        if verdict.number != self.states.number:
            return
        if verdict.name == verdicts.CUT and self.parts is not None:
            regions_cut = {self.parts.of[name] for name in verdict.said["elements"] if name in self.parts.of}
            verdict = replace(verdict, said={**verdict.said, "regions": sorted(regions_cut)})
        self.said[verdict.name] = verdict
        self.news(VERDICT, {"number": verdict.number, "name": verdict.name, "said": verdict.said})

    def gap(self, place: int) -> tuple[str, ...]:
        """The elements that a failure cuts off, by its place in the verdict on the newest state. Raises Wrong."""
        verdict = self.said.get(verdicts.PROTECTED)
        gaps = verdict.said["gaps"] if verdict is not None else []
        if not 0 <= place < len(gaps):
            raise Wrong("there is no such failure in the verdict on this state")
        return cut_off.cut_off(self.states.plan, [Gap(*gaps[place])]).elements

    def ran(self, asked: Asked, report: Report, until: int) -> dict[str, Any]:
        """Keeps the run of a state, of which the page asks for what it shows."""
        if asked.number == self.states.number:
            self.report = (asked, report, until)
        return {**verdicts.no_run(asked, report, until), "changes": len(report.changes)}

    def drafted(self, put: Callable[[], None]) -> None:
        """Keeps a change in the draft; where that fails, the page says so."""
        try:
            put()
            self.draft_fault = None
        except Wrong as wrong:
            self.draft_fault = f"the draft isn't written ({wrong}): save soon"

    def edit(self, edit: Edit, on: int, wishes: dict[str, Place] | None = None) -> Change:
        """Makes an edit that was made on a state. Raises Wrong, and Conflict where it isn't the newest one."""
        change = self.states.apply(edit, on)
        self.drafted(lambda: self.draft.edited(edit))
        return self.changed(change, wishes or {}, isinstance(edit, edits.TakeText))

    def undo(self, on: int) -> Change:
        """Takes the last edit back. Raises Wrong."""
        change = self.states.undo(on)
        self.drafted(lambda: self.draft.did(drafts.UNDO))
        return self.changed(change, {}, isinstance(self.states.undone[-1].edit, edits.TakeText))

    def redo(self, on: int) -> Change:
        """Makes the edit again that was undone last. Raises Wrong."""
        change = self.states.redo(on)
        self.drafted(lambda: self.draft.did(drafts.REDO))
        return self.changed(change, {}, isinstance(self.states.done[-1].edit, edits.TakeText))

    def changed(self, change: Change, wishes: dict[str, Place], is_other: bool) -> Change:
        """Has a change drawn, told and judged."""
        if change.is_structure and is_other:
            self.lay_out()
        elif change.is_structure and self.parts is not None:
            self.parts.follow(self.states.plan)
        elif change.is_structure:
            views.completed(self.sheet, self.states.plan, wishes)
        self.news(
            CHANGE, {**self.head(), "words": change.words, "structure": change.is_structure, "rows": self.rows(change)}
        )
        self.judge()
        return change

    def rows(self, change: Change) -> list[Row]:
        """What rows say that got other values."""
        found = []
        for section, name in change.rows:
            row = self.states.pieces[self.states.place(section, name)].row
            its: Row = {"section": section, **row}
            found.append(its)
        return found

    def head(self) -> dict[str, Any]:
        """What the page knows of the newest state besides the network."""
        states = self.states
        return {
            "number": states.number,
            "name": self.name,
            "undo": states.done[-1].words if states.done else None,
            "redo": states.undone[-1].words if states.undone else None,
            "saved": self.is_saved,
            "draftFault": self.draft_fault,
            "log": [change.words for change in states.log[-LOGGED:]],
            "events": self.event_rows(),
        }

    def cells(self) -> tuple[Cell, ...]:
        """The table beside the plan, as it is here, as far as its rows are still there."""
        names = side_table.names_of(self.states.plan)
        found = self.files.cells if self.states.cells is None else self.states.cells
        return tuple(cell for cell in found if cell[1] in names[cell[0]])

    def ports(self) -> dict[str, str]:
        """The port into which each line leads, where it is known."""
        side: Side = {}
        for kind, name, column, value in self.cells():
            side.setdefault((kind, name), {})[column] = value
        return side_table.ports_of(side, self.states.plan)

    def event_rows(self) -> list[dict[str, Any]]:
        """The events in their order."""
        return [
            {"number": number, "at": event.at, "text": " ".join(filter(None, (event.what, event.target, event.value)))}
            for number, event in enumerate(self.states.events)
        ]

    def state(self, region: int | None) -> dict[str, Any]:
        """All that the page begins with: the network, or a region of it, or the map of regions, and what is known of it. Waits until
        the plan is laid out."""
        self.is_laid.wait()
        found = {
            **self.head(),
            "planFile": self.files.plan,
            "eventFile": self.files.events,
            "found": self.draft.found,
            "otherBase": self.draft.has_other_base,
            "size": self.size(),
            "ports": self.ports(),
            "start": self.files.start,
            "said": [{"number": one.number, "name": one.name, "said": one.said} for one in self.said.values()],
        }
        if self.parts is None:
            return {**found, "region": None, "network": views.network_of(self.states.plan, self.sheet)}
        return {
            **found,
            "region": -1 if region is None else region,
            "network": self.parts.network(self.states.plan, region),
        }

    def size(self) -> dict[str, int]:
        """How many elements, links and sources the plan has."""
        plan = self.states.plan
        return {"elements": len(plan.elements), "links": len(plan.links), "sources": len(plan.sources)}

    def run(self, on: int, region: int | None) -> dict[str, Any]:
        """The run of the newest state, as far as a view shows it. Raises Wrong where there is none yet."""
        kept = self.report
        if kept is None or kept[0].number != on:
            raise Wrong("there is no run of this state yet")
        asked, report, until = kept
        plan: Plan = asked.plan
        if self.parts is not None:
            plan = self.parts.part_of(plan, region)
        return {"number": on, **views.run_of(plan, asked.events, report, until)}

    def layout(self) -> Layout:
        """Where things stand, as the page of `report` takes it."""
        if self.parts is not None:
            raise Wrong(f"a page has at most {views.LARGEST:,} elements: `report` in a terminal has more")
        return Layout(self.sheet.spots, self.sheet.width, self.sheet.height)

    def save(self, kind: str, word: str, is_over: bool) -> str:
        """Writes the plan, the events, the orders or the page of the run to a file. Raises Wrong. Gives what was written."""
        states = self.states
        named = {saving.PLAN: self.files.plan, saving.EVENTS: self.files.events}.get(kind)
        saving.fitting(kind, word, named)
        path = saving.place_of(word, named, self.files.folder)
        data = self.content(kind, word)
        known = self.kept.written.get(path)
        saving.written(path, word, data, known, is_over)
        self.kept.written[path] = data
        if kind == saving.PLAN:
            self.kept.plan = data
            self.drafted(lambda: self.draft.saved(data))
        if kind == saving.EVENTS or (kind == saving.PLAN and not states.events):
            self.kept.events = states.events
        self.news(SAVED, {"saved": self.is_saved, "word": word})
        return f"{word} written, {len(data):,} bytes"

    def content(self, kind: str, word: str) -> bytes:
        """What a file has that is saved. Raises Wrong."""
        states = self.states
        if kind == saving.PLAN:
            return states.data
        if kind == saving.EVENTS:
            return states.event_text
        if kind == saving.PORTS:
            return side_table.text_of(self.cells())
        if kind == saving.ORDERS:
            return saving.orders_of(states.plan, self.draft.first, os.path.splitext(word)[1])
        until = self.report[2] if self.report else 0
        return saving.page_of(self.name, states.data, states.event_text, until, self.layout(), self.files.start)

    def numbers(self) -> page_data.Numbers:
        """The numbers of the elements, inputs and levels."""
        plan = self.states.plan
        return page_data.numbers_of(wiring.wiring_of(plan), plan.option)
