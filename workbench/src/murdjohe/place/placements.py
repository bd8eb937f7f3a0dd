"""Clocks put at sites, and what the program says of the plan that comes of them.

The sites are sought by the shortest ways. The plan is nominated by `protect`, whose ways after a failure may be longer: where a case
has more lines than it may have, a further site near the elements that it concerns is asked for, and all is sought again.
"""

from __future__ import annotations

from collections.abc import Iterable, Sequence
from dataclasses import dataclass, replace
from decimal import Decimal
from typing import Any

from murdjohe.answers import api
from murdjohe.network import plan_file, reachability, wiring
from murdjohe.network.groups import GroupFile
from murdjohe.network.plan_file import Judgement, PlanFile
from murdjohe.place import chain_cover, site_cover
from murdjohe.place.chain_cover import Uncut
from murdjohe.place.site_cover import Chosen, Late, Limits, Pair, Problem, Row
from murdjohe.place.sites import Site
from murdjohe.plan import tables
from murdjohe.plan.model import Plan, Source
from murdjohe.protection import group_protection
from murdjohe.runs import failures

ROUNDS = 20  # how often further sites are asked for
WORST = 5  # cases that are looked at in one round
MARGIN_MS = 1_000  # between what has to be over and the next thing
PLAN = "the plan"  # its name in sentences
QUIET = "none"  # the case in which nothing fails before its end
CLOCK = "CLK-{}"  # the name of a clock at an element
FILTERING = {"I": "QL-SSU-B", "II": "QL-ST3E"}  # the level of a filtering clock


@dataclass(frozen=True)
class Run:
    """A case by the program: what fails, the most lines to any element, and how many lost a clock that they could have."""

    failure: failures.Failure | None
    longest: int
    lost: int
    first: str | None


@dataclass(frozen=True)
class Made:
    """A plan with its clocks, what the program says of it, and its cases; the gaps are those of `protect` where it found no plan."""

    data: bytes
    judgement: Judgement | None
    gaps: tuple[Any, ...]
    soon_ms: int | None
    runs: tuple[Run, ...]
    since: int | None

    @property
    def links(self) -> int:
        """The most lines to any element without a failure."""
        return max((run.longest for run in self.runs if run.failure is None), default=0)

    @property
    def links_failed(self) -> int:
        """The most lines to any element after a failure."""
        return max((run.longest for run in self.runs if run.failure is not None), default=0)

    @property
    def lost(self) -> list[Run]:
        """The cases in which somebody lost a clock that could be had."""
        return [run for run in self.runs if run.lost]

    def too_long(self, limits: Limits) -> list[Run]:
        """The cases with more lines than there may be, the worst first."""
        found = []
        for run in self.runs:
            most = limits.links if run.failure is None else limits.links_failed
            if most is not None and run.longest > most:
                found.append(run)
        return sorted(found, key=lambda run: -run.longest)


@dataclass(frozen=True)
class Placed:
    """Sites and filters that were chosen within some limits, the plan, and how many sites were added since ways by priorities are
    longer than the shortest; the problem is the one that was solved last, perhaps within narrower limits."""

    problem: Problem
    limits: Limits
    chosen: Chosen
    filters: tuple[Site, ...]
    made: Made
    added: int
    uncut: Uncut | None

    @property
    def sites(self) -> tuple[Site, ...]:
        return tuple(self.problem.sites[number] for number in self.chosen.sites)

    @property
    def cost(self) -> Decimal:
        return sum((site.cost for site in (*self.sites, *self.filters)), Decimal(0))

    def holds(self) -> bool:
        """Whether the plan is what was asked for, by what the program says."""
        made = self.made
        said = made.judgement is not None and made.judgement.is_good and not made.judgement.gaps
        return said and not made.lost and not made.too_long(self.limits) and self.uncut is None


def fresh(name: str, names: set[str]) -> str:
    """A name that isn't there yet, as near to this one as can be; it is there from now on."""
    name, number = name[: tables.LONGEST_NAME], 1
    while name in names:
        number += 1
        name = f"{name[: tables.LONGEST_NAME - 6]}-{number}"
    names.add(name)
    return name


def with_clocks(plan: Plan, sites: Iterable[Site], filters: Iterable[Site]) -> bytes:
    """The text of a plan with sources at these sites, and with filtering clocks at these elements."""
    levels = {site.element: site.level for site in filters}
    names = {link.name for link in plan.links} | {source.name for source in plan.sources}
    elements = [element._replace(own=levels.get(element.name, element.own)) for element in plan.elements]
    clocks = [Source(fresh(CLOCK.format(site.element), names), site.element, site.level) for site in sites]
    return tables.text_of(plan._replace(elements=tuple(elements), sources=(*plan.sources, *clocks))).encode()


@dataclass(frozen=True)
class Wanted:
    """What a plan has to survive beside single failures of links, bundles and elements: whether sources, and which groups."""

    survives: bool
    groups: GroupFile | None


def failing(plan: PlanFile, wanted: Wanted) -> dict[str, failures.Case]:
    """The cases of all single failures and groups, by name."""
    kinds = [kind for kind in failures.KINDS if wanted.survives or kind != failures.SOURCES]
    found = failures.failures_of(plan.network, kinds)
    found += failures.of_groups(wanted.groups.groups, plan.network) if wanted.groups else []
    return {case.name: case for case in failures.cases_of(found, False, failures.in_order(plan.network))}


def runs_of(plan: PlanFile, cases: dict[str, failures.Case], settled: int, soon: int) -> tuple[Run, ...]:
    """What the program says of each case at its end, and of the network before."""
    at, until = settled + MARGIN_MS, settled + soon + 2 * MARGIN_MS
    part = next((case.down[0] for case in cases.values()), None)
    quiet = QUIET if QUIET not in cases else fresh(QUIET, set(cases))
    rows = "" if part is None else f"{quiet},{until + 1},down,{part},\n"
    text = failures.table_of((), cases.values(), at) + rows.encode()
    wired = wiring.wiring_of(plan.network)
    downs = {
        name: frozenset(line for part in case.down for line in reachability.parts_of(wired, part))
        for name, case in cases.items()
    }
    lost = dict(zip(downs, reachability.Reach(wired).lost(list(downs.values()))))
    found = []
    for row in api.study(plan.data, text, until).result.rows:
        case = cases.get(row.case)
        barred = lost[row.case].themselves + lost[row.case].beyond if case else 0
        needless = row.lost - barred
        found.append(Run(case.failures[0] if case else None, row.longest, needless, row.first if needless else None))
    return tuple(found)


def nominated_by(text: bytes, wanted: Wanted) -> tuple[PlanFile, Judgement]:
    """A plan of `protect`, with other priorities where groups want them, and what the program says of it."""
    if wanted.groups is None:
        plan = plan_file.taken(PLAN, text)
        return plan, plan_file.judged(plan, has_gaps=True)
    found = group_protection.made_of(text, wanted.groups)
    return plan_file.taken(PLAN, found.data), found.judgement


def made_of(data: bytes, wanted: Wanted) -> Made:
    """The plan that `protect` makes of one, and what the program says of it."""
    answer = api.protect(data).result
    if answer.text is None:
        return Made(data, None, answer.gaps, None, (), None)
    plan, judgement = nominated_by(answer.text.encode(), wanted)
    agreed = api.agree(plan.data).result
    if agreed.bound is None or agreed.failures is None:
        return Made(plan.data, judgement, (), None, (), None)
    runs = runs_of(plan, failing(plan, wanted), agreed.bound, agreed.failures)
    since = max((chain.since for chain in plan.chains()), default=0)
    return Made(plan.data, judgement, (), agreed.failures, runs, since)


def concerned(made: Made, run: Run, most: int) -> list[str]:
    """The elements with more lines than there may be at the end of a case."""
    agreed = api.agree(made.data).result
    at = (agreed.bound or 0) + MARGIN_MS
    parts = run.failure.down if run.failure else ()
    events = "at,what,target,value\n" + "".join(f"{at},down,{part},\n" for part in parts)
    report = api.sim(made.data, events.encode(), at + (agreed.failures or 0) + MARGIN_MS).result
    return [trace.element for trace in report.traces if trace.hops > most]


def pair_of(problem: Problem, run: Run, element: str) -> Pair:
    """The pair of a case and an element, as the search has it."""
    number = problem.network.names.index(element)
    kind, name = (run.failure.kind, run.failure.name) if run.failure else (site_cover.NOTHING, "")
    found = [one for one in problem.network.failures if (one.kind, one.name) == (kind, name)]
    return Pair(found[0] if found else site_cover.Failure(site_cover.SOURCE, name), number)


def ask_for_more(problem: Problem, limits: Limits, chosen: Sequence[int], made: Made) -> int:
    """Rows that ask for a further site near elements that have too many lines: how many there are."""
    found = 0
    for run in made.too_long(limits)[:WORST]:
        most = limits.links if run.failure is None else limits.links_failed
        assert most is not None
        for element in concerned(made, run, most)[: site_cover.PAIRS]:
            pair = pair_of(problem, run, element)
            sites = problem.row_of(pair).sites - frozenset(chosen)
            row = Row(sites, 1)
            if sites and row not in problem.rows:
                problem.rows[row] = pair
                found += 1
    return found


def filtered(
    plan: Plan, sites: list[Site], filters: tuple[Site, ...], most_since: int, wanted: Wanted
) -> tuple[tuple[Site, ...], Made, Uncut | None]:
    """The plan with clocks at these sites, with the filters that it needs of these candidates, and a chain that none can cut."""
    made = made_of(with_clocks(plan, sites, ()), wanted)
    if made.judgement is None or not filters or (made.since or 0) <= most_since:
        return (), made, None
    its, uncut = chain_cover.filters_for(made.data, filters, most_since)
    return its, made_of(with_clocks(plan, sites, its), wanted) if its else made, uncut


@dataclass
class Placing:
    """A placement in the making: the plan, what it has to survive, candidates for filters, and the limits that were asked for."""

    plan: Plan
    wanted: Wanted
    filters: tuple[Site, ...]
    most_since: int
    limits: Limits

    def within(self, problem: Problem) -> Placed:
        """The cheapest sites of a problem, and what is added until the program says that it holds, if it does. Raises Late."""
        chosen = problem.best()
        least = len(chosen.sites)
        for round_number in range(ROUNDS):
            sites = [problem.sites[number] for number in chosen.sites]
            its, made, uncut = filtered(self.plan, sites, self.filters, self.most_since, self.wanted)
            is_last = made.judgement is None or problem.left <= 0 or round_number == ROUNDS - 1
            if is_last or not ask_for_more(problem, self.limits, chosen.sites, made):
                break
            try:
                chosen = Chosen(problem.best().sites, False)
            except Late:
                break
        return Placed(problem, self.limits, chosen, its, made, max(0, len(chosen.sites) - least), uncut)

    def narrower(self, problem: Problem, found: Placed) -> Placed:
        """The same within ever narrower limits after a failure, until the program says that it holds; the best that was found."""
        best, failed = found, problem.limits.links_failed
        while failed and failed > (self.limits.links or 0) and best.made.too_long(self.limits) and problem.left > 0:
            failed -= 1
            other = problem.within(Limits(problem.limits.links, failed))
            try:
                if other.impossible():
                    break
                its = self.within(other)
            except Late:
                break
            if len(its.made.too_long(self.limits)) < len(best.made.too_long(self.limits)):
                least = len(found.sites) - found.added
                best = replace(its, chosen=Chosen(its.chosen.sites, False), added=max(0, len(its.sites) - least))
        return best


def placed(
    problem: Problem, plan: Plan, groups: GroupFile | None, filters: tuple[Site, ...], most_since: int
) -> Placed:
    """The cheapest sites, the plan, and what is added until the program says that it holds. Raises Late."""
    placing = Placing(plan, Wanted(problem.survives, groups), filters, most_since, problem.limits)
    found = placing.within(problem)
    return placing.narrower(problem, found) if found.made.judgement else found


def costs_by_limit(problem: Problem, cost: Decimal) -> dict[int | None, Decimal]:
    """What other limits without a failure would cost, as far as the time goes: the least limit of each cost, None for any."""
    greatest = max(1, problem.network.size - 1)
    found: dict[int | None, Decimal] = {}
    start = problem.limits.links
    if start is not None:
        found[start] = cost

    def cost_at(limit: int) -> Decimal | None:
        other = problem.within(Limits(limit, problem.limits.links_failed))
        # (what has to be covered after a failure is the same)
        other.rows = {row: pair for row, pair in problem.rows.items() if pair.failure.kind != site_cover.NOTHING}
        if other.impossible():
            return None
        return other.cost(other.best().sites)

    def between(low: int, low_cost: Decimal | None, high: int, high_cost: Decimal | None) -> None:
        if high - low <= 1 or low_cost == high_cost or problem.left <= 0:
            return
        middle = (low + high) // 2
        its = cost_at(middle)
        between(low, low_cost, middle, its)
        if its is not None and its != low_cost:
            found[middle] = its
        between(middle, its, high, high_cost)

    try:
        first, last = cost_at(0), cost_at(greatest)
        if first is not None:
            found[0] = first
        if last is not None:
            found[greatest] = last
        between(0, first, greatest, last)
    except Late:
        pass
    return found
