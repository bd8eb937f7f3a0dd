"""What is said beside the tables of `hops` and `chains`: who has no way to a clock, and which chains are too long."""

from __future__ import annotations

from murdjohe.answers.reports import Chains, Hops
from murdjohe.core.wording import have
from murdjohe.network.reference_chain import LONGEST

EMPTY = "the plan is empty: is it the file that was meant?"


def on_hops(found: Hops) -> list[str]:
    """Which elements have no way to a clock over any links."""
    without = [row.element for row in found.rows if row.hops is None]
    if not found.rows:
        return [EMPTY]
    return [have(without, "no way to a clock: a link or a source is missing")] if without else []


def on_chains(found: Chains) -> list[str]:
    """Which elements may come to a longer chain of timing than G.803's reference chain."""
    if not found.rows:
        return [EMPTY]
    said = []
    for column, most, what in LONGEST:
        over = [row.element for row in found.rows if getattr(row, column) > most]
        if over:
            said.append(have(over, f"chains of more than G.803's {most} {what}"))
    return said or ["whatever fails, no chain is longer than G.803's 60 lines, 20 since a filter and 10 filters"]
