"""What the operator's commands of an event list do by the command table: carried out or rejected, and why.

Whether a command is rejected depends on the commands to its element before it and on nothing else, so no run is needed. The
program has no form yet that says it; where it does, its rows take the place of `commands_of`.
"""

from __future__ import annotations

from collections.abc import Iterable
from dataclasses import dataclass, field

from murdjohe.network.wiring import Wiring
from murdjohe.runs.moments import Event

WORDS = ("lockout", "unlock", "forced", "manual", "clear")


@dataclass(frozen=True)
class Command:
    """A command: when, to which element, its word, its input (empty for `clear`), why it is rejected, if it is, and why it
    changes nothing of what commands have set, if it is taken and doesn't."""

    at: int
    element: str
    word: str
    input: str
    why: str | None
    idle: str | None = None

    @property
    def is_taken(self) -> bool:
        return self.why is None


@dataclass
class Switches:
    """What commands have set at an element."""

    locked: set[str] = field(default_factory=set)
    forced: str | None = None

    def why_not(self, word: str, target: str) -> str | None:
        """Why a command on a nominated input is rejected; None where it isn't."""
        if word in ("forced", "manual") and target in self.locked:
            return f"{target} is locked out"
        if word == "manual" and self.forced is not None:
            return f"{self.forced} is forced"
        return None

    def why_idle(self, word: str, target: str) -> str | None:
        """Why a command that isn't rejected changes nothing of what is set; None where it may."""
        if word == "lockout" and target in self.locked:
            return f"{target} is locked out already"
        if word == "unlock" and target not in self.locked:
            return f"{target} isn't locked out"
        if word == "forced" and self.forced == target:
            return f"{target} is forced already"
        return None

    def carry_out(self, word: str, target: str) -> None:
        """Applies a command that isn't rejected."""
        if word == "lockout":
            self.locked.add(target)
            self.forced = None if self.forced == target else self.forced
        elif word == "unlock":
            self.locked.discard(target)
        elif word == "forced":
            self.forced = target
        elif word == "clear":
            self.forced = None


def commands_of(wiring: Wiring, nominated: frozenset[str], events: Iterable[Event]) -> list[Command]:
    """Each command of an event list, in order."""
    switches: dict[str, Switches] = {name: Switches() for name in wiring.elements}
    found = []
    for event in events:
        if event.what not in WORDS:
            continue
        is_clear = event.what == "clear"
        element = event.target if is_clear else wiring.element_of(event.target) or ""
        why = None
        if not is_clear and event.target not in nominated:
            why = f"{event.target} is not nominated"
        else:
            why = switches[element].why_not(event.what, event.target)
        idle = None
        if why is None:
            idle = switches[element].why_idle(event.what, event.target)
            switches[element].carry_out(event.what, event.target)
        found.append(Command(event.at, element, event.what, "" if is_clear else event.target, why, idle))
    return found
