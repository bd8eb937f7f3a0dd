"""A set of lines that breaks all rings of a large knot, found line by line and bettered by exchanges; perhaps not the least."""

from __future__ import annotations

import time
from collections.abc import Collection

import networkx as nx

from murdjohe.repair.knots import Inputs
from murdjohe.repair.rings import is_closed, ring_through


class Choice:
    """The lines of a knot that are kept, over which no ring goes, and those that are taken away."""

    def __init__(self, knot: nx.DiGraph, inputs: Inputs, kept: Collection[str] = ()) -> None:
        self.knot = knot
        self.inputs = inputs
        self.kept: set[str] = set(kept)
        self.removed: set[str] = set(knot).difference(kept)

    def weight(self, name: str) -> tuple[int, bool, int, str]:
        """What a line is worth: the last input of its element, then the last but one, a first choice, and how high its priority is."""
        others = self.inputs.of[self.inputs.lines[name].receiver]
        kept = sum(other not in self.removed for other in others if other != name)
        return max(0, 2 - kept), self.inputs.is_first(name), self.inputs.height(name), name

    def keep(self) -> None:
        """Keeps each line that closes no ring, the worthiest first."""
        for name in sorted(self.removed, key=self.weight, reverse=True):
            if not is_closed(self.kept, self.knot, name):
                self.kept.add(name)
                self.removed.discard(name)

    def exchange(self, name: str) -> bool:
        """Keeps a line and takes away one that is worth less, where that breaks all rings through it."""
        for other in sorted(ring_through(self.knot, self.kept, name), key=self.weight):
            if self.weight(other)[:3] >= self.weight(name)[:3]:
                return False
            self.kept.discard(other)
            if not is_closed(self.kept, self.knot, name):
                self.kept.add(name)
                self.removed.discard(name)
                self.removed.add(other)
                return True
            self.kept.add(other)
        return False

    def better(self, end: float) -> None:
        """Exchanges lines while any exchange helps and there is time."""
        is_bettered = True
        while is_bettered:
            is_bettered = False
            for name in sorted(self.removed, key=self.weight, reverse=True):
                if time.process_time() > end:
                    return
                is_bettered = self.exchange(name) or is_bettered
            self.keep()


def greedy_set(knot: nx.DiGraph, inputs: Inputs, seconds: float, kept: Collection[str] = ()) -> frozenset[str]:
    """Lines of a knot without which no loop is possible, found from some over which none goes and which are kept at first.

    The search for better ones ends after these seconds of processor time.
    """
    choice = Choice(knot, inputs, kept)
    choice.keep()
    choice.better(time.process_time() + seconds)
    return frozenset(choice.removed)
