"""Networks of any size to try things on: the ladder, random ones, and those that operators build.

usage: python3 -m bench.networks KIND N [--seed N]

Prints a plan of N elements without nominations, but for its sources: `nominate` and `protect` give it priorities. KIND is

  operator   a core in which each node is joined to two others on either side, rings of eight elements between two
             neighbours of it, rings of five between two neighbours of these, and chains of up to three at their ends
  random     links between elements whose numbers are at most 200 apart, two for each element in the mean
  ring       one ring, with one source

A source of QL-PRC stands at each twentieth node of the core, at two of it at least; in a random network at each five
hundredth element. The same seed gives the same plan. It needs Python 3.11 alone.
"""

import random
import sys
from collections.abc import Callable, Iterator

from bench.program import parser
from bench.reference.plan import Link, Plan, PlanElement, Source, plan_text

Pairs = list[tuple[int, int]]
CORE_SHARE, AGGREGATION_RING, ACCESS_RING, LONGEST_CHAIN = 50, 8, 5, 3


def ring_between(one: int, other: int, first: int, count: int) -> Pairs:
    """The links of new elements in a row between two that are there."""
    row = [one, *range(first, first + count), other]
    return list(zip(row, row[1:]))


def core_links(count: int) -> Pairs:
    """Each node of the core joined to the next and the next but one."""
    near = [(node, (node + step) % count) for node in range(count) for step in (1, 2)]
    return [pair for pair in dict.fromkeys((min(pair), max(pair)) for pair in near) if pair[0] != pair[1]]


def rings_on(pairs: Pairs, first: int, last: int, size: int) -> Iterator[tuple[int, int, int, int]]:
    """Rings between the ends of links in turn, until there are enough elements: ends, first element, and how many."""
    at, turn = first, 0
    while at < last:
        count = min(size, last - at)
        yield (*pairs[turn % len(pairs)], at, count)
        at, turn = at + count, turn + 1


def operator_links(chance: random.Random, count: int) -> tuple[int, Pairs]:
    """How many nodes the core has, and the links of the whole network."""
    core = max(4, count // CORE_SHARE)
    links = core_links(core) if core <= count else [(node, node + 1) for node in range(count - 1)]
    first, shares = core, [(0.35, AGGREGATION_RING), (0.85, ACCESS_RING)]
    below = list(links)
    for share, size in shares:
        made: Pairs = []
        for one, other, at, so_many in rings_on(below, first, int(count * share), size):
            made += ring_between(one, other, at, so_many)
            first = at + so_many
        links += made
        below = made or below
    while first < count:
        length = min(chance.randint(1, LONGEST_CHAIN), count - first)
        row = [chance.choice(below)[0], *range(first, first + length)]
        links += zip(row, row[1:])
        first += length
    return min(core, count), links


def random_links(chance: random.Random, count: int) -> tuple[int, Pairs]:
    """A tree of near elements, and as many links more."""
    tree = [(chance.randrange(max(0, e - 200), e), e) for e in range(1, count)]
    more = [(a, min(count - 1, a + chance.randint(1, 200))) for a in (chance.randrange(count) for _ in range(count))]
    return count, tree + [pair for pair in more if pair[0] != pair[1]]


def ring_links(_: random.Random, count: int) -> tuple[int, Pairs]:
    """One ring."""
    return 1, [(e, (e + 1) % count) for e in range(count)] if count > 2 else [(0, 1)]


KINDS: dict[str, tuple[Callable[[random.Random, int], tuple[int, Pairs]], int]] = {
    "operator": (operator_links, 20),
    "random": (random_links, 500),
    "ring": (ring_links, 1),
}


def network(kind: str, count: int, seed: int = 1) -> Plan:
    """A network of so many elements."""
    chance = random.Random(f"{kind} {count} {seed}")
    make, apart = KINDS[kind]
    core, pairs = make(chance, count)
    elements = [PlanElement(f"N{e}", "QL-SEC", None, 300, 300_000) for e in range(count)]
    links = [
        Link(f"L{k}", a, b, 0, 0, chance.randint(1, 5), chance.randint(1, 5), None) for k, (a, b) in enumerate(pairs)
    ]
    places = sorted({*range(0, core, apart), *([core // 2] if core > 1 else [])})
    sources = [Source(f"S{j}", at, "QL-PRC", 1) for j, at in enumerate(places)]
    return Plan("I", elements, links, sources)


def main() -> int:
    words = parser(__doc__, seed=1)
    words.add_argument("kind", choices=sorted(KINDS))
    words.add_argument("count", type=int)
    given = words.parse_args()
    sys.stdout.write(plan_text(network(given.kind, given.count, given.seed)))
    return 0


if __name__ == "__main__":
    sys.exit(main())
