"""The promises on a running network, tried on random plans with the reference; and wrong texts of them, to be found.

A law goes through a run, counts in `met` how often what it asks for was there, and gives each contradiction.
"""

import collections
import dataclasses
import random
from collections import Counter
from collections.abc import Callable, Iterable, Iterator, Mapping, Sequence
from typing import Any

from bench.reference.network import Network, closed_walks, is_facing_pair, trace_of
from bench.reference.plan import Event, Link, Plan, PlanElement, Source, ladder
from bench.reference.random_plans import LINE_WORDS, random_events, random_plan

# A plan, events, and how long it runs; the contradictions to laws by name; and how often each was found, by kind of
# plan.
Case = tuple[Plan, list[Event], int]
Laws = dict[str, Iterator[str]]
Found = dict[str, Counter[str]]


class Run:
    """A network that was gone through, with what is asked of each millisecond."""

    def __init__(self, plan: Plan, events: list[Event], until: int, network: type[Network] = Network) -> None:
        self.plan, self.events, self.until = plan, events, until
        self.network = network(plan, events).go_to(until)
        self.last = events[-1].at if events else 0
        parts = [self.network.settled_parts(t) for t in range(until + 1)]
        self.parts = list(parts[0])
        self.settled = {
            without: [all(holds for part, holds in at.items() if part != without) for at in parts]
            for without in [None] + self.parts
        }
        self.taken = list(zip(*self.network.taken))
        walks = {taken: closed_walks(plan, taken) for taken in set(self.taken)}
        self.walks = [walks[taken] for taken in self.taken]

    def is_settled(self, t: int, without: str | None = None) -> bool:
        """Whether a millisecond is settled; a wrong text leaves a part out."""
        return self.settled[without][t]

    def line_events(self, lines: Iterable[int]) -> list[int]:
        """The events on the signals of some lines or their links, by time."""
        on_lines = [e for e in self.events if e.what in LINE_WORDS and set(self.plan.named(e.target)) & set(lines)]
        return [event.at for event in on_lines]


# ---- the laws


def loop_freedom(run: Run, met: Counter[str], plan: Plan | None = None, without: str | None = None) -> Iterator[str]:
    """Each closed walk is a facing pair or a cycle; none is settled where ranks rise; traces end as they say.

    `plan` says what a hop and a facing pair is.
    """
    plan = plan or run.plan
    rising = plan.least_ranks() is not None
    met["plans with rising ranks" if rising else "plans with a cycle"] += 1
    for t, walks in enumerate(run.walks):
        for walk in walks:
            pair, cycle = is_facing_pair(plan, walk), plan.is_cycle(walk)
            met["closed walks: facing pairs" if pair else "closed walks: cycles"] += 1
            met["closed walks where ranks rise"] += rising
            if not pair and (rising or not cycle):
                yield f"{t}: {walk} is no facing pair"
            if pair and run.is_settled(t, without):
                yield f"{t}: {walk} is settled"
        if rising and run.is_settled(t, without):
            yield from wrong_traces(run, met, t)


def wrong_traces(run: Run, met: Counter[str], t: int) -> Iterator[str]:
    """In a settled millisecond each trace ends in a source or own clock, whose level the element has."""
    network = run.network
    met["settled milliseconds where ranks rise"] += 1
    for e in range(len(run.plan.elements)):
        lines, (kind, end) = trace_of(run.plan, run.taken[t], e)
        met[f"traces of {len(lines)} lines"] += 1
        if kind == "loop":
            yield f"{t}: the trace of {e} is a loop"
            continue
        level = run.plan.elements[end].own if kind == "own" else network.input_level[end][t]
        if network.level[e][t] != level:
            yield f"{t}: {e} hasn't the level of {kind} {end}, in which its trace ends"


def settled_stays(run: Run, met: Counter[str], without: str | None = None, late_events: bool = False) -> Iterator[str]:
    """After the last event, and a delay after the last on each line's signals, a settled millisecond stays.

    A wrong text leaves the delay out.
    """
    network, plan = run.network, run.plan
    first = run.last
    if not late_events:
        late = [at + plan.delay_of[line] for line in plan.nominated_lines for at in run.line_events([line])]
        first = max([first] + late)
    for t in range(first, run.until):
        if run.is_settled(t, without):
            met["settled milliseconds with nothing after them"] += 1
            same = all(network.gives(e, t) == network.gives(e, t + 1) for e in range(len(plan.elements)))
            sent = all(network.out[line][t] == network.out[line][t + 1] for line in plan.nominated_lines)
            if not (same and sent and run.is_settled(t + 1, without)):
                yield f"{t}: settled, but not the next millisecond, or not the same"


def pairs_are_short(
    run: Run, met: Counter[str], lifetime: int = 5000, delay: Callable[[Iterable[int]], int] = max, spoken: int = 0
) -> Iterator[str]:
    """A facing pair stands less than the delay of a line of it that speaks all the while.

    Without an event on the signals of its links it stands less than 5000 and its greater delay.
    """
    plan, events = run.plan, dict[tuple[int, ...], list[int]]()
    since: dict[tuple[tuple[int, ...], int | str], int] = {}
    for t, walks in enumerate(run.walks):
        limits: dict[tuple[tuple[int, ...], int | str], int] = {}
        for pair in (tuple(walk) for walk in walks if is_facing_pair(plan, walk)):
            speaking = [line for line in pair if run.network.speaks[line][t]]
            met["milliseconds of a facing pair" if speaking else "milliseconds of a silent facing pair"] += 1
            limits |= {(pair, line): plan.delay_of[line] - spoken for line in speaking}
            if pair not in events:
                events[pair] = run.line_events([2 * (line // 2) + end for line in pair for end in (0, 1)])
            if t not in events[pair]:
                limits[pair, "left alone"] = lifetime + delay(plan.delay_of[line] for line in pair)
        since = {key: since.get(key, t) for key in limits}
        for (pair, premise), start in since.items():
            met[f"facing pairs, {premise if premise == 'left alone' else 'a line speaks'}"] += start == t
            if t - start >= limits[pair, premise]:
                yield f"{t}: {pair} has stood since {start}"


def bound_holds(run: Run, met: Counter[str], delays: int = 1, sooner: int = 0) -> Iterator[str]:
    """From the settling bound on every millisecond is settled."""
    bound = run.plan.settling_bound(run.last, delays)
    if bound is None:
        return
    met["plans with a settling bound"] += 1
    for t in range(run.last, run.until + 1):
        settled, due = run.is_settled(t), t >= bound - sooner
        met["milliseconds from the settling bound on"] += due
        met["milliseconds before the settling bound that aren't settled"] += not due and not settled
        if due and not settled:
            yield f"{t}: not settled, though the bound is {bound}"


def idle_elements_stay(run: Run, met: Counter[str]) -> Iterator[str]:
    """An element that isn't active gives what it gave, and nothing changes in a quiet millisecond."""
    network, elements = run.network, range(len(run.plan.elements))
    for t in range(1, run.until + 1):
        idle = [e for e in elements if not network.is_active(e, t)]
        met["elements idle in a millisecond"] += len(idle)
        met["elements active in a millisecond"] += len(elements) - len(idle)
        met["elements that change in a millisecond"] += sum(
            network.gives(e, t) != network.gives(e, t - 1) for e in elements
        )
        for e in idle:
            if network.gives(e, t) != network.gives(e, t - 1):
                yield f"{t}: {e} isn't active, and changes"
        if not network.is_busy(t):
            met["quiet milliseconds"] += 1
            if any(out[t] != out[t - 1] for out in network.out.values()):
                yield f"{t}: quiet, and another level is sent"


def same_until(one: Run, other: Run, until: int) -> bool:
    """Whether two histories of one plan are the same up to a millisecond."""

    def kept(network: Network) -> list[list[Any]]:
        lists: list[list[Any]] = [*network.taken, *network.level, *network.mode, *network.state]
        for flags in (network.up, network.failed, network.speaks, network.is_sent):
            lists += flags.values()
        lists += [*network.input_level.values(), *network.out.values()]
        return [values[: until + 1] for values in lists]

    return kept(one.network) == kept(other.network)


def past_stays(run: Run, met: Counter[str], chance: random.Random) -> Iterator[str]:
    """Later events change nothing earlier: a run that is cut off after some event is the same until the next one.

    On the run that is cut off a settled millisecond stays, too.
    """
    if not run.events:
        return
    cut = chance.choice(run.events).at
    later = [event.at for event in run.events if event.at > cut]
    other = Run(run.plan, [event for event in run.events if event.at <= cut], min(run.until, cut + 2000))
    met["runs that are cut off before an event"] += bool(later)
    if not same_until(run, other, min([other.until] + [at - 1 for at in later])):
        yield f"after {cut}: the past is another"
    yield from settled_stays(other, met)


def order_is_free(run: Run, met: Counter[str], chance: random.Random, touching: bool = True) -> Iterator[str]:
    """The order of a millisecond's events is free where those that touch an element keep theirs.

    A wrong text lets them stand in any order.
    """
    events, left = list[Event](), list(run.events)
    while left:
        now = [event for event in left if event.at == left[0].at]
        free = [event for k, event in enumerate(now) if not touching or is_apart(run.plan, event, now[:k])]
        events.append(chance.choice(free))
        left.remove(events[-1])
    if all(one is other for one, other in zip(events, run.events)):
        return
    met["runs with their events in another order"] += 1
    if not same_until(run, Run(run.plan, events, run.until), run.until):
        yield "the history is another"


def is_apart(plan: Plan, event: Event, others: list[Event]) -> bool:
    """No element is touched by an event and by one of the others."""
    touched = [e for e in range(len(plan.elements)) if plan.touches(event, e)]
    return not any(plan.touches(other, e) for other in others for e in touched)


def line_is_a_delay(run: Run, met: Counter[str]) -> Iterator[str]:
    """A line that was up all the way is heard as it spoke a delay ago, whether or not a message was sent then."""
    network = run.network
    for line in run.plan.nominated_lines:
        delay = run.plan.delay_of[line]
        for t in range(delay, run.until + 1):
            if network.speaks[line][t - delay] and all(network.up[line][t - delay : t + 1]):
                met["milliseconds in which a line was up and spoke a delay ago"] += 1
                if network.input_level[line][t] != network.out[line][t - delay]:
                    yield f"{t}: {line} isn't heard as it spoke"


def news_alone_settles(run: Run, met: Counter[str]) -> Iterator[str]:
    """A millisecond is settled exactly where it is by the messages that are news alone."""
    for t in range(run.until + 1):
        settled = run.is_settled(t)
        met["settled milliseconds" if settled else "milliseconds that aren't settled"] += 1
        if settled != all(run.network.settled_parts(t, news_alone=True).values()):
            yield f"{t}: settled by all messages or by news, and not both"


# ---- plans by hand, for what is rare


def small_plan(count: int, links: list[Link], sources: Sequence[tuple[int, str]] = (), wtr: int = 0) -> Plan:
    """A plan of option I whose sources are given by their element and level."""
    elements = [PlanElement(f"E{e}", "QL-SEC", None, 300, wtr) for e in range(count)]
    return Plan("I", elements, links, [Source(f"S{j}", at, level, 1) for j, (at, level) in enumerate(sources)])


CHAIN = [Link("L0", 0, 1, 0, 1, 10, 10, None), Link("L1", 1, 2, 0, 1, 10, 10, None)]
PAIR = [Link("L0", 0, 1, 1, 1, 10, 10, None)]
CROSSED = [Link("L0", 0, 1, 1, 2, 10, 10, None), Link("L1", 0, 1, 2, 1, 10, 10, None)]


def forced_and_cleared(at: int) -> list[Event]:
    """A switch that ends in the millisecond in which it is set."""
    return [Event(at, "forced", ("source", 1)), Event(at, "clear", ("element", 0))]


def plans_by_hand() -> list[Case]:
    """Plans, events and how long they run, that come to where a law just holds."""
    chain = small_plan(3, CHAIN, [(0, "QL-PRC")])
    slow = small_plan(3, CHAIN, [(0, "QL-PRC")], wtr=6000)
    both = [("line", 0), ("line", 1)]
    kept_apart = [Event(0, "lockout", line) for line in both]
    silent = [Event(1001, "esmc-off", line) for line in both]
    free = [Event(1002, "unlock", line) for line in both]
    return [
        # The line says nothing from 2500 on, its last message came at 2010, and it speaks again in the last
        # millisecond in which that counts.
        (chain, [Event(2500, "esmc-off", ("line", 0)), Event(7009, "esmc-on", ("line", 0))], 9000),
        # A source is good again 6000 milliseconds after its last event.
        (slow, [Event(1000, "down", ("source", 0)), Event(1400, "up", ("source", 0))], 9000),
        # A pair that swings.
        (small_plan(2, PAIR), [], 1000),
        # Two links alone, in no bundle, each preferred at one end: a loop that stands.
        (small_plan(2, CROSSED), [], 7000),
        # Both lines have just repeated their level and say nothing any more when the switches let the pair stand.
        (small_plan(2, PAIR), kept_apart + silent + free, 7000),
        # Silent in the next millisecond, with a message on its way.
        (chain, [Event(2000, "level", ("source", 0), "QL-SSU-A"), Event(2001, "esmc-off", ("line", 0))], 9000),
        # A level changes behind a line that has just failed.
        (chain, [Event(2000, "down", ("link", 0)), Event(2100, "level", ("source", 0), "QL-SSU-A")], 9000),
        # Switches that end in the millisecond in which they are set.
        (
            small_plan(1, [], [(0, "QL-PRC"), (0, "QL-SSU-A")]),
            [event for at in range(100, 900, 50) for event in forced_and_cleared(at)],
            1000,
        ),
        (ladder(5), [Event(500, "down", ("link", 2)), Event(600, "down", ("source", 0))], 7000),
    ]


# ---- the trial


def random_case(chance: random.Random) -> Case:
    """A plan, events, and how long it runs: past its settling bound, or past the loss of what was heard."""
    plan = random_plan(chance, [0, 0, 0, 500, 2000, 6000])
    events = random_events(chance, plan, chance.choice([300, 3000]))
    last = events[-1].at if events else 0
    return plan, events, max(plan.settling_bound(last) or 0, last + 5200) + 300


class NeverSentBack(Network):
    """A wrong network, in which do-not-use never goes back."""

    def is_way_back(self, line: int, taken: int | None) -> bool:
        return False


def parallel_links_bundled(plan: Plan) -> Plan:
    """The plan with each pair of elements joined by one bundle: a wrong text of hops and facing pairs."""
    links = [dataclasses.replace(link, bundle=f"{min(link.a, link.b)}-{max(link.a, link.b)}") for link in plan.links]
    return Plan(plan.option, plan.elements, links, plan.sources)


def right_laws(run: Run, met: Counter[str], seed: int) -> Laws:
    """The contradictions to each law, by its name; the sharper ones are this trial's own."""
    chance, unmet = random.Random(seed), collections.Counter[str]()
    return {
        "a line is a delay": line_is_a_delay(run, met),
        "settled by news alone": news_alone_settles(run, met),
        "loop freedom": loop_freedom(run, met),
        "a settled millisecond stays": settled_stays(run, met),
        "a facing pair is short": pairs_are_short(run, met),
        "sharper: a facing pair is short by 4998 and the lesser delay": pairs_are_short(run, unmet, 4998, min),
        "the settling bound holds": bound_holds(run, met),
        "sharper: the settling bound holds, less one": bound_holds(run, unmet, sooner=1),
        "idle elements stay": idle_elements_stay(run, met),
        "later events change nothing earlier": past_stays(run, met, chance),
        "the order of one millisecond's events": order_is_free(run, met, chance),
    }


# Texts that look wrong and aren't: the sharper laws, and what follows from the other parts of being settled.
NOT_WRONG = {
    "a facing pair is short by 4999",
    "loop freedom, settled without: lines that speak are heard",
    "settled stays, settled without: lines that speak are heard",
    "loop freedom, settled without: nothing is on its way on silent lines",
    "settled stays, settled without: nothing is on its way on silent lines",
}


def wrong_laws(run: Run, seed: int) -> Laws:
    """The contradictions to wrong texts, by name."""
    met, chance = collections.Counter[str](), random.Random(seed)
    never = Run(run.plan, run.events, run.until, NeverSentBack)
    laws = {
        "a facing pair is short by 4999": pairs_are_short(run, met, 4999),
        "a facing pair is short by 4997 and the lesser delay": pairs_are_short(run, met, 4997, min),
        "a facing pair that speaks is short by one less": pairs_are_short(run, met, spoken=1),
        "the bound without one delay": bound_holds(run, met, delays=0),
        "the bound less two": bound_holds(run, met, sooner=2),
        "a settled millisecond stays, whatever came late": settled_stays(run, met, late_events=True),
        "do-not-use never goes back": loop_freedom(never, met),
        "a way back over a parallel link is none": loop_freedom(run, met, parallel_links_bundled(run.plan)),
        "any order of events": order_is_free(run, met, chance, touching=False),
    }
    for part in run.parts:
        laws[f"loop freedom, settled without: {part}"] = loop_freedom(run, met, without=part)
        laws[f"settled stays, settled without: {part}"] = settled_stays(run, met, without=part)
    return laws


def count_found(found: Found, laws: Laws, kind: str) -> dict[str, str]:
    """In how many runs each text was contradicted; gives the first contradiction to each that was."""
    first = {name: next(iter(contradictions), None) for name, contradictions in laws.items()}
    for name, contradiction in first.items():
        found[name][kind] += contradiction is not None
    return {name: text for name, text in first.items() if text is not None}


def show(title: str, found: Mapping[str, Counter[str]]) -> None:
    """Prints how often each was found."""
    for name, counts in found.items():
        print(f"{title}  {name}: {counts['random']} and {counts['by hand']} by hand")


def try_laws(count: int, seed: int) -> int:
    """Tries all laws on so many random plans and on those by hand; gives how many texts are judged wrongly.

    A law is to be contradicted nowhere, and a wrong text somewhere.
    """
    chance = random.Random(seed)
    cases = [("random", random_case(chance)) for _ in range(count)] + [("by hand", case) for case in plans_by_hand()]
    met, right, wrong = (collections.defaultdict[str, Counter[str]](collections.Counter) for _ in range(3))
    for number, (kind, case) in enumerate(cases):
        run, counted = Run(*case), collections.Counter[str]()
        for name, text in count_found(right, right_laws(run, counted, number), kind).items():
            print(f"CONTRADICTION to {name}, plan {number} ({kind}), {text}")
        count_found(wrong, wrong_laws(run, number), kind)
        counted.update({"plans": 1, "milliseconds": run.until + 1, "events": len(run.events)})
        for premise, times in counted.items():
            met[premise][kind] += times
    show("how often", dict(sorted(met.items())))
    show("law, contradicted in", right)
    show("wrong text, found in", wrong)
    contradicted = {name for name, counts in right.items() if sum(counts.values())}
    found = {name for name, counts in wrong.items() if sum(counts.values())}
    missed = set(wrong) - found - NOT_WRONG | found & NOT_WRONG
    print(f"{len(contradicted)} laws contradicted, {len(missed)} wrong texts not found, or found and not wrong")
    return len(contradicted) + len(missed)
