"""What is asked of a placement: candidates and limits, and the search for what answers them."""

from __future__ import annotations

import time
from dataclasses import dataclass
from decimal import Decimal

from murdjohe.core import program
from murdjohe.core.faults import Wrong
from murdjohe.network import groups, wiring
from murdjohe.network.groups import GroupFile
from murdjohe.network.plan_file import PlanFile
from murdjohe.place import placement_text, placements, site_cover, sites
from murdjohe.place.placements import Placed
from murdjohe.place.site_cover import Late, Limits, Problem
from murdjohe.place.sites import Site
from murdjohe.plan.model import Plan

SINCE = 20  # lines since the last filter, of G.803
SECONDS = 60.0  # for how long a placement is sought


@dataclass(frozen=True)
class Wish:
    """What a placement has to keep: lines without and with a failure, candidates for filters and lines since the last one, whether
    the loss of a clock is a failure, groups of parts that fail together, whether the plan's own sources are left out, and whether what
    no site can cover is; and for how many seconds it is sought."""

    links: int | None = None
    links_failed: int | None = None
    filters: str | None = None
    since: int = SINCE
    survive: bool = True
    groups: str | None = None
    anew: bool = False
    partly: bool = False
    seconds: float = SECONDS


@dataclass(frozen=True)
class Given:
    """What is asked: the plan, parts of it that fail together, candidates for filters, and what is to be covered by sites."""

    network: Plan
    together: GroupFile | None
    filters: tuple[Site, ...]
    problem: Problem


def standing_of(network: Plan) -> tuple[tuple[str, int], ...]:
    """The nominated sources of a plan, with the numbers of their elements."""
    places = {row.name: place for place, row in enumerate(network.elements)}
    return tuple((row.name, places[row.at]) for row in network.sources if row.priority)


def candidates_of(network: Plan, path: str) -> tuple[Site, ...]:
    """The candidates of a table without those at which a clock of the plan stands. Raises Wrong."""
    at = {row.at for row in network.sources}
    found = sites.read(path, network, sites.SITES)
    for site in found:
        if site.element in at and site.cost:
            raise Wrong(
                f"{path}: {site.element!r} has a source in the plan, and a cost of {site.cost} here; "
                "a clock that stands costs 0, or leave the plan's sources out by --anew"
            )
    return tuple(site for site in found if site.element not in at)


def limits_of(links: int | None, links_failed: int | None) -> Limits:
    """The limits that were asked for. Raises Wrong."""
    if links is not None and links_failed is not None and links_failed < links:
        raise Wrong(
            f"--links-failed {links_failed}: it is less than --links {links}; after a failure ways are no shorter"
        )
    # (more lines than --links-failed are too many without a failure too)
    return Limits(links if links is not None else links_failed, links_failed)


def given(taken: PlanFile, table: str, wish: Wish) -> Given:
    """What a wish is for, with the candidates of a table. Raises Wrong."""
    plan = taken.network._replace(sources=()) if wish.anew else taken.network
    candidates, limits = candidates_of(plan, table), limits_of(wish.links, wish.links_failed)
    level = placements.FILTERING[plan.option]
    filters = sites.read(wish.filters, plan, sites.FILTERS, level) if wish.filters else ()
    together = groups.read(wish.groups, taken) if wish.groups else None
    network = site_cover.network_of(wiring.wiring_of(plan), together.groups if together else ())
    end = time.monotonic() + wish.seconds
    problem = Problem(network, standing_of(plan), candidates, limits, wish.survive, end)
    return Given(plan, together, filters, problem)


def sought(its: Given, since: int, partly: bool) -> tuple[Placed, dict[int | None, Decimal]]:
    """The placement and what other limits would cost. Raises Wrong where no set does."""
    problem = its.problem
    try:
        if (barred := problem.impossible()) and not partly:
            raise Wrong(*placement_text.on_impossible(problem, barred), status=program.REFUTED)
        found = placements.placed(problem, its.network, its.together, its.filters, since)
    except Late:
        raise Wrong(
            "the time ran out before a set of sites was found; give more by --seconds, or fewer candidates",
            status=program.REFUTED,
        ) from None
    return found, placements.costs_by_limit(problem, found.problem.cost(found.chosen.sites))
