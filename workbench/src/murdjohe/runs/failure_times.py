"""When what fails goes down in a run that has works too, and when that is looked at: while the works stand.

A case that comes before works begin, or is looked at once they are over, says nothing of them: what they take down is up again by then.
"""

from __future__ import annotations

from dataclasses import dataclass

from murdjohe.network.plan_file import PlanFile
from murdjohe.runs import ends
from murdjohe.runs.ends import Bounds, Ending, Told
from murdjohe.runs.moments import Event

CLOSING = frozenset(("up", "esmc-on", "unlock", "clear"))  # what ends works
USUAL_AT = 600_000  # when what fails goes down


@dataclass(frozen=True)
class Moment:
    """When what fails goes down, and why then, where nobody gave that."""

    at: int
    why: str | None = None


def closing_after(common: tuple[Event, ...], at: int) -> Event | None:
    """The first event after a millisecond that ends works."""
    return next((event for event in common if event.what in CLOSING and event.at > at), None)


def within_works(plan: PlanFile, common: tuple[Event, ...], bounds: Bounds) -> Moment | None:
    """A moment at which works stand and the network is at rest: after what they begin with, and before the first event that ends
    them; none where there is no such moment."""
    closing = closing_after(common, -1)
    opening = [event for event in common if closing is None or event.at < closing.at]
    if not opening:
        return None
    begun = opening[-1]
    for wait in (bounds.failures or ends.way(plan.network), bounds.events):
        at = begun.at + 1 + (wait or 0)
        is_whole = closing is None or ends.whole(at) < closing.at
        at = ends.whole(at) if is_whole else at
        if wait is not None and (closing is None or at < closing.at) and ends.is_at_rest(plan, common, at - 1):
            before = f" and before `{closing.what} {closing.target}`" if closing else ""
            return Moment(at, f"while the works stand, after `{begun.what} {begun.target}`{before}")
    return None


def moment(plan: PlanFile, common: tuple[Event, ...], bounds: Bounds) -> Moment:
    """When what fails goes down, where nobody says it: ten minutes after the start, later where the network may not be at rest by
    then, and in works while these stand."""
    if common:
        return within_works(plan, common, bounds) or Moment(
            USUAL_AT, "the works have no settled moment: --at says another"
        )
    if bounds.events is None or bounds.events < USUAL_AT or ends.is_at_rest(plan, (), USUAL_AT - 1):
        return Moment(USUAL_AT)
    return Moment(ends.whole(bounds.events + 1, ends.MINUTE), "by when the network is at rest, by `bound B` of `agree`")


def of_failures(plan: PlanFile, common: tuple[Event, ...], at: int, bounds: Bounds) -> Ending:
    """When runs end in which parts go down at a millisecond: where that is seen, before the works come to their end."""
    closing = closing_after(common, at)
    seen = tuple(event for event in common if closing is None or event.at < closing.at)
    found = ends.ending(plan, Told(seen, frozenset(("down",)), at, at), bounds)
    if closing is None or found.until < closing.at:
        return found
    return Ending(closing.at - 1, f"the millisecond before `{closing.what} {closing.target}` of the works")
