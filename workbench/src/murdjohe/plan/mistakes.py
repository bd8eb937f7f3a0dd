"""All mistakes of what was given, told at once: each with its file, line, column and value, and what would be right."""

from __future__ import annotations

from dataclasses import dataclass, field

from murdjohe.core.faults import unusable

SHOWN = 20  # mistakes that are told before the rest is counted


@dataclass
class Mistakes:
    """The mistakes that were found, each with its file and line, from 1 on."""

    found: list[tuple[str, int, str]] = field(default_factory=list)

    def add(self, path: str, line: int, what: str) -> None:
        """One more mistake."""
        self.found.append((path, line, what))

    def lines(self, shown: int = SHOWN) -> list[str]:
        """The mistakes in the order of files and lines, at most so many, and how many more there are."""
        files = list(dict.fromkeys(path for path, _, _ in self.found))
        ordered = sorted(self.found, key=lambda mistake: (files.index(mistake[0]), mistake[1]))
        told = [f"{path}:{line}: {what}" for path, line, what in ordered[:shown]]
        more = len(ordered) - shown
        return told + ([f"and {more:,} more mistake{'s' if more > 1 else ''}"] if more > 0 else [])

    def end(self) -> None:
        """Raises Wrong where there is a mistake."""
        if self.found:
            raise unusable(*self.lines())
