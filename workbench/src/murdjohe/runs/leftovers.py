"""What works leave behind at their end: what is still down, silent, locked out or under a switch, so that the next failure may hurt more."""

from __future__ import annotations

from collections.abc import Iterable

from murdjohe.network.wiring import Wiring
from murdjohe.runs.moments import Event, cut_at
from murdjohe.runs.switches import Command


def links_of(wired: Wiring, parts: Iterable[str]) -> list[str]:
    """These lines and sources by name, both lines of a link as the link."""
    left = set(parts)
    whole = {link for link, lines in wired.by_link.items() if left.issuperset(lines)}
    named = {
        wired.lines[part].link if part in wired.lines and wired.lines[part].link in whole else part for part in left
    }
    return sorted(named)


def switched(commands: Iterable[Command]) -> list[str]:
    """The lockouts and switches that commands have set and none has ended, as they stand in an event list."""
    locked: dict[str, None] = {}
    switches: dict[str, str] = {}
    for one in commands:
        if not one.is_taken:
            continue
        if one.word == "lockout":
            locked[one.input] = None
            if switches.get(one.element, "").endswith(f" {one.input}"):
                del switches[one.element]
        elif one.word == "unlock":
            locked.pop(one.input, None)
        elif one.word in ("forced", "manual"):
            switches[one.element] = f"{one.word} {one.input}"
        elif one.word == "clear":
            switches.pop(one.element, None)
    return [f"lockout {name}" for name in locked] + list(switches.values())


def left(wired: Wiring, events: tuple[Event, ...], commands: Iterable[Command], at: int) -> list[str]:
    """What is left behind at a millisecond, each as in an event list."""
    cut = cut_at(wired, events, at)
    down = [f"down {name}" for name in links_of(wired, cut.down)]
    return down + [f"esmc-off {name}" for name in sorted(cut.silent)] + switched(commands)
