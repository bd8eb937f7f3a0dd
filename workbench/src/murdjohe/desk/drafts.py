"""Drafts: what was done at a desk since its files were read, a line each, written before it is answered, and read again after a crash.

A draft stands in the user's folder of states, under a name made of the paths of the plan and the events. Its first line has both files as
they were read; each further one an edit, or that one was undone, redone or saved. A line that isn't whole, as after a loss of power,
is the last one, and is left out. One desk at a time has a draft open.
"""

from __future__ import annotations

import fcntl
import hashlib
import json
import os
from concurrent.futures import ThreadPoolExecutor
from typing import IO, Any, NamedTuple

from murdjohe.core.faults import Wrong, unwritten
from murdjohe.core.program import THERE
from murdjohe.desk import edits
from murdjohe.desk.edits import Edit
from murdjohe.desk.states import States
from murdjohe.runs.moments import Event

UNDO, REDO, SAVED = "undo", "redo", "saved"
VERSION = 1


class Base(NamedTuple):
    """The files of a desk as they were read: the plan's bytes and the events."""

    plan: bytes
    events: tuple[Event, ...]


def folder() -> str:
    """Where drafts stand: a folder of the user's states."""
    states = os.environ.get("XDG_STATE_HOME") or os.path.join(os.path.expanduser("~"), ".local", "state")
    return os.path.join(states, "murdjohe", "desk")


def path_of(plan: str, events: str | None) -> str:
    """The draft of a plan and its events."""
    key = "\0".join([os.path.realpath(plan), os.path.realpath(events) if events else ""])
    name = hashlib.sha256(os.fsencode(key)).hexdigest()[:24]
    return os.path.join(folder(), f"{name}.draft")


def line_of(data: dict[str, Any]) -> bytes:
    """A line of a draft."""
    return json.dumps(data, ensure_ascii=True, separators=(",", ":")).encode() + b"\n"


def head_of(plan: str, base: Base) -> bytes:
    """The first line of a draft."""
    rows = [[event.at, event.what, event.target, event.value] for event in base.events]
    text = base.plan.decode("utf-8", "surrogateescape")
    return line_of({"murdjohe-draft": VERSION, "plan": os.path.realpath(plan), "text": text, "events": rows})


def lines_in(data: bytes) -> list[dict[str, Any]]:
    """The lines of a draft, up to the first one that isn't whole."""
    found = []
    for line in data.split(b"\n")[:-1]:
        try:
            row = json.loads(line)
        except ValueError:
            break
        if not isinstance(row, dict):
            break
        found.append(row)
    return found


def base_of(head: dict[str, Any]) -> Base | None:
    """What a draft began with; None where it is none of this version."""
    if head.get("murdjohe-draft") != VERSION:
        return None
    events = tuple(Event(int(at), what, target, value) for at, what, target, value in head["events"])
    return Base(head["text"].encode("utf-8", "surrogateescape"), events)


def replayed(states: States, rows: list[dict[str, Any]]) -> int:
    """Does again what a draft says, and gives how many of its lines could be followed."""
    for number, row in enumerate(rows):
        try:
            if "edit" in row:
                states.apply(edits.of_data(row["edit"]), states.number)
            elif row.get("did") == UNDO:
                states.undo(states.number)
            elif row.get("did") == REDO:
                states.redo(states.number)
        except Wrong:
            return number
    return len(rows)


def digest(plan: bytes) -> str:
    """What tells whether a file is one that the desk has written."""
    return hashlib.sha256(plan).hexdigest()


def synced(number: int) -> None:
    """Has the disk keep what was written, as far as it can: for a loss of power, since a crash of the desk loses nothing that was written."""
    try:
        os.fdatasync(number)
    except OSError:
        pass


class Draft:
    """The draft of a desk. It is made by the first change; `states` is what it has, or what the files have where there is none."""

    def __init__(self, plan: str, events: str | None, base: Base, start: int = 0) -> None:
        self.plan = plan
        self.start = start
        self.path = path_of(plan, events)
        self.base = base
        self.file: IO[bytes] | None = None
        self.found = 0  # lines of an earlier desk that were done again
        self.states = States(base.plan, plan, base.events, start)
        self.first = self.states.plan  # as it was read
        self.disk = ThreadPoolExecutor(1, "draft")
        self.lock()
        self.read()

    def lock(self) -> None:
        """Takes the draft for this desk alone. Raises Wrong where another desk has it."""
        path = self.path.removesuffix(".draft") + ".lock"
        try:
            os.makedirs(os.path.dirname(path), mode=0o700, exist_ok=True)
            while True:
                self.guard = open(path, "ab")
                fcntl.flock(self.guard, fcntl.LOCK_EX | fcntl.LOCK_NB)
                if os.path.exists(path) and os.path.samestat(os.fstat(self.guard.fileno()), os.stat(path)):
                    return
                self.guard.close()  # (a desk that ended meanwhile took it away)
        except BlockingIOError:
            self.guard.close()
            raise Wrong(f"{self.plan}: another desk has it open; end that one first", status=THERE) from None
        except OSError as fault:
            raise unwritten(path, fault) from None

    def read(self) -> None:
        """Takes what an earlier desk left that ended before it was saved."""
        try:
            with open(self.path, "rb") as file:
                rows = lines_in(file.read())
        except FileNotFoundError:
            return
        except OSError as fault:
            raise unwritten(self.path, fault) from None
        base = base_of(rows[0]) if rows else None
        if base is None or len(rows) == 1:
            return
        states = States(base.plan, self.plan, base.events, self.start)
        followed = replayed(states, rows[1:])
        if (states.data, states.events) == (self.base.plan, self.base.events):
            return  # (all of it was saved)
        self.states, self.found = states, followed
        saved = {row.get("plan") for row in rows if row.get("did") == SAVED}
        self.has_other_base = base.plan != self.base.plan and digest(self.base.plan) not in saved
        self.base = base
        self.begin()
        for row in rows[1 : 1 + followed]:
            self.put(row)

    has_other_base = False

    def begin(self) -> None:
        """Begins the draft anew with what the files had. Raises Wrong."""
        try:
            number = os.open(self.path, os.O_WRONLY | os.O_CREAT | os.O_TRUNC, 0o600)
            self.file = os.fdopen(number, "wb", buffering=0)
        except OSError as fault:
            raise unwritten(self.path, fault) from None
        self.write(head_of(self.plan, self.base))

    def write(self, line: bytes) -> None:
        """Writes a line. Raises Wrong."""
        if self.file is None:
            self.begin()
        try:
            if self.file is not None:
                self.file.write(line)
                self.disk.submit(synced, self.file.fileno())
        except OSError as fault:
            raise unwritten(self.path, fault) from None

    def put(self, row: dict[str, Any]) -> None:
        """Keeps a line."""
        self.write(line_of(row))

    def edited(self, edit: Edit) -> None:
        """Keeps an edit."""
        self.put({"edit": edits.as_data(edit)})

    def did(self, what: str) -> None:
        """Keeps that an edit was undone or redone."""
        self.put({"did": what})

    def saved(self, plan: bytes) -> None:
        """Keeps that the plan was saved, so that the file is known as the desk's own after a crash."""
        if self.file is not None:
            self.put({"did": SAVED, "plan": digest(plan)})

    def end(self, is_saved: bool) -> None:
        """Ends the draft; where all is saved, it goes."""
        self.disk.shutdown(wait=True)
        if self.file is not None:
            self.file.close()
            self.file = None
        if is_saved and os.path.exists(self.path):
            os.unlink(self.path)
        os.unlink(self.guard.name)
        self.guard.close()
