"""What `place` says: sites and what each is there for, what other limits would cost, and what the program says of the plan."""

from __future__ import annotations

from collections.abc import Iterable
from decimal import Decimal
from typing import Any

from murdjohe.core import columns
from murdjohe.core.wording import listed, plural
from murdjohe.place import site_cover
from murdjohe.place.placements import Made, Placed, Run
from murdjohe.place.site_cover import Failure, Pair, Problem
from murdjohe.place.sites import Site

SHOWN = 8  # failures that are told of those that no site covers
NAMED = 3  # elements that are named of one failure


def number(cost: Decimal) -> str:
    """A cost as it is read: without needless zeros."""
    return f"{cost.normalize():f}"


def on_lines(limit: int | None) -> str:
    """Within how many lines, in words."""
    return "" if limit is None else f" within {plural(limit, 'line')}"


def by_failure(pairs: Iterable[Pair]) -> dict[Failure, list[int]]:
    """The elements of each failure."""
    found: dict[Failure, list[int]] = {}
    for pair in pairs:
        found.setdefault(pair.failure, []).append(pair.element)
    return found


def names_of(problem: Problem, elements: list[int]) -> str:
    """Some elements by name, and how many more there are."""
    names = [problem.network.names[element] for element in elements]
    more = f" and {len(names) - NAMED:,} more" if len(names) > NAMED else ""
    return ", ".join(names[:NAMED]) + more


def on_barred(problem: Problem, pairs: Iterable[Pair]) -> list[str]:
    """The failures after which no site covers some elements."""
    found = by_failure(pairs)
    said = [
        f"{failure.said} no clock can reach {names_of(problem, elements)}{on_lines(problem.limits.of(failure))}"
        for failure, elements in list(found.items())[:SHOWN]
    ]
    more = len(found) - SHOWN
    return said + ([f"and after {plural(more, 'further failure')}"] if more > 0 else [])


def on_impossible(problem: Problem, pairs: Iterable[Pair]) -> list[str]:
    """That no set of sites does, and why."""
    return [
        "no set of these sites covers all elements:",
        *on_barred(problem, pairs),
        "name a candidate there, raise the limit, or let --partly cover the rest",
    ]


def on_reasons(problem: Problem, pairs: list[Pair]) -> str:
    """What a site is there for."""
    if not pairs:
        return "no failure that was met needs it alone"
    first, *others = sorted(pairs, key=lambda pair: (pair.failure.kind != site_cover.NOTHING, pair.failure.kind))
    element = problem.network.names[first.element]
    more = f", and {len(others):,} more such" if others else ""
    return f"without it {element} has too few clocks {first.failure.said}{more}"


def site_rows(found: Placed) -> list[str]:
    """The table of sites and filters."""
    problem = found.problem
    reasons = site_cover.reasons(problem, found.chosen.sites)
    rows = [
        [site.element, site.level, number(site.cost), on_reasons(problem, reasons[place])]
        for place, site in zip(found.chosen.sites, found.sites)
    ]
    rows += [[site.element, f"filter, {site.level}", number(site.cost), "it cuts chains"] for site in found.filters]
    return columns.table(["site", "level", "cost", "what it is there for"], rows) if rows else []


def on_cost(found: Placed) -> str:
    """What it costs, and whether that is known to be least."""
    kinds = plural(len(found.sites), "site")
    if found.filters:
        kinds += f" and {plural(len(found.filters), 'filter')}"
    least = "least by shortest ways" if found.chosen.is_least else "found, perhaps not least"
    return f"cost {number(found.cost)}: {kinds} ({least})"


def on_added(found: Placed) -> list[str]:
    """That sites were added, or have to be, since ways by priorities are longer than the shortest."""
    too_long = found.made.too_long(found.limits)
    said = []
    if found.added:
        said.append(f"{plural(found.added, 'site')} added: the ways that `protect` takes are longer than the shortest")
    if too_long:
        worst = too_long[0]
        said.append(
            f"{plural(len(too_long), 'case')} {'has' if len(too_long) == 1 else 'have'} more lines than asked for, "
            f"{worst.longest} {on_run(worst)}: no further site was found that shortens them"
        )
    return said


def on_run(run: Run) -> str:
    """What fails in a case, in words."""
    return "without a failure" if run.failure is None else f"when {run.failure.kind} {run.failure.name} fails"


def on_made(made: Made) -> list[str]:
    """What the program says of the plan."""
    if made.judgement is None:
        gap = made.gaps[0]
        return [
            f"checked: `protect` found no plan: {plural(len(made.gaps), 'failure')} would cut elements off, first "
            f"{gap.kind} {gap.failure or ''} ({plural(gap.elements, 'element')}, first {gap.first})"
        ]
    said = [f"checked: {made.judgement.text}", *made.judgement.lines]
    if made.soon_ms is None:
        return said
    said.append(
        f"at most {plural(made.links, 'line')} to any element without a failure, {made.links_failed} after any single one "
        f"(study, {made.soon_ms / 1000:,.3f} s after it)"
    )
    if made.lost:
        worst = max(made.lost, key=lambda run: run.lost)
        said.append(
            f"{plural(len(made.lost), 'case')} left elements without a clock that they could have: "
            f"{plural(worst.lost, 'element')} {on_run(worst)}, first {worst.first}"
        )
    if made.since is not None:
        said.append(f"at most {plural(made.since, 'line')} since the last filter on any chain (chains)")
    return said


def on_limits(costs: dict[int | None, Decimal]) -> list[str]:
    """What each limit without a failure would cost: a line for each cost, with the least limit that has it."""
    if len(costs) < 2:
        return []
    kept: list[list[str]] = []
    last: Decimal | None = None
    for limit in sorted(limit for limit in costs if limit is not None):
        if costs[limit] != last:
            kept.append([str(limit), number(costs[limit])])
            last = costs[limit]
    return ["", *columns.table(["--links", "cost by shortest ways"], kept)]


def text_of(found: Placed, costs: dict[int | None, Decimal], most_since: int) -> list[str]:
    """All that is said."""
    said = [on_cost(found), *site_rows(found), *on_added(found), *on_made(found.made)]
    if found.uncut:
        said.append(f"no candidate for a filter cuts this chain: {listed(list(found.uncut.lines))}")
    elif found.made.since is not None and found.made.since > most_since and not found.filters:
        said.append(f"that is more than {most_since}: name candidates for filters by --filters")
    if found.problem.left_out:
        pairs = (Pair(failure, element) for failure, element in sorted(found.problem.left_out, key=str))
        said += on_barred(found.problem, pairs)
    return said + on_limits(costs)


def pair_data(problem: Problem, pair: Pair) -> dict[str, Any]:
    failure = (
        None if pair.failure.kind == site_cover.NOTHING else {"kind": pair.failure.kind, "name": pair.failure.name}
    )
    return {"failure": failure, "element": problem.network.names[pair.element]}


def site_data(site: Site) -> dict[str, Any]:
    return {"element": site.element, "level": site.level, "cost": float(site.cost)}


def as_data(found: Placed, costs: dict[int | None, Decimal]) -> dict[str, Any]:
    """The placement as JSON has it."""
    problem, made = found.problem, found.made
    reasons = site_cover.reasons(problem, found.chosen.sites)
    return {
        "cost": float(found.cost),
        "is_least": found.chosen.is_least,
        "added": found.added,
        "sites": [
            site_data(site) | {"needed_for": [pair_data(problem, pair) for pair in reasons[place]]}
            for place, site in zip(found.chosen.sites, found.sites)
        ],
        "filters": [site_data(site) for site in found.filters],
        "uncut": list(found.uncut.lines) if found.uncut else None,
        "uncovered": [pair_data(problem, Pair(*pair)) for pair in sorted(problem.left_out, key=str)],
        "verdict": made.judgement.text if made.judgement else None,
        "failures_ms": made.soon_ms,
        "links": made.links,
        "links_failed": made.links_failed,
        "since": made.since,
        "cases_that_lose": len(made.lost),
        "holds": found.holds() and not problem.left_out,
        "limits": [
            {"links": limit, "cost": float(cost)}
            for limit, cost in sorted(costs.items(), key=lambda item: item[0] if item[0] is not None else -1)
        ],
    }
