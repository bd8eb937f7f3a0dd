"""How long chains may become in plans of `nominate` and of `protect`, side by side.

usage: python3 -m bench.measure.chain_lengths PROGRAM [--elements N]

Networks of N elements, 50 without a number: the ladder, a ring with one clock, one with two at opposite elements, and
meshes with 1.3 and 2 links for each element, and such of four times as many. In a mesh each element is joined with one
of the six before it, and further links are drawn at random between elements that are six apart at most; two clocks stand
at its first and its middle element. A row has how far the furthest element is from a clock, and of both plans the
longest row of `chains` and how many failures have a gap. It needs Python 3.11.
"""

import random
import sys
import tempfile
from collections.abc import Iterator

from bench.program import answer, program_words, put_files
from bench.reference.plan import Link, Plan, PlanElement, Source, ladder, plan_text

NEAR = 6


def mesh_ends(count: int, share: float, seed: int) -> list[tuple[int, int]]:
    """The ends of a mesh's links: a tree, and more up to this share of the elements."""
    chance = random.Random(seed)
    ends = [(chance.randrange(max(0, e - NEAR), e), e) for e in range(1, count)]
    while len(ends) < round(share * count):
        a = chance.randrange(count)
        b = min(count - 1, a + chance.randint(1, NEAR))
        if a != b and (a, b) not in ends:
            ends.append((a, b))
    return ends


def plan_of(count: int, ends: list[tuple[int, int]], clocks: list[int]) -> Plan:
    """A plan without priorities, with a clock at each of these elements."""
    elements = [PlanElement(f"E{e}", "QL-SEC", None, 300, 300_000) for e in range(count)]
    links = [Link(f"L{k}", a, b, 0, 0, 1, 1, None) for k, (a, b) in enumerate(ends)]
    return Plan("I", elements, links, [Source(f"S{j}", e, "QL-PRC", 1) for j, e in enumerate(clocks)])


def networks(count: int) -> Iterator[tuple[str, Plan]]:
    """The networks with their names."""
    ring = [(e, (e + 1) % count) for e in range(count)]
    yield f"the ladder of {count}", ladder(count)
    yield f"a ring of {count} with one clock", plan_of(count, ring, [0])
    yield f"a ring of {count} with two clocks", plan_of(count, ring, [0, count // 2])
    for seed, (size, share) in enumerate([(count, 1.3), (count, 2.0), (4 * count, 1.3), (4 * count, 2.0)], 1):
        ends = mesh_ends(size, share, seed)
        yield f"a mesh of {size} sites and {len(ends)} links", plan_of(size, ends, [0, size // 2])


def second_fields(text: str) -> list[int]:
    """The second field of each row of a table, where it is a number."""
    fields = [row.split(",")[1] for row in text.splitlines()[1:]]
    return [int(field) for field in fields if field.isdigit()]


def figures(program: str, folder: str, form: str) -> tuple[int, int]:
    """Of the plan that a form gives: the longest chain, and how many failures have a gap."""
    put_files(folder, {"found": answer(program, form, "plan", folder=folder)[1]})
    chains = second_fields(answer(program, "chains", "found", folder=folder)[1])
    return max(chains), max(0, answer(program, "protected", "found", folder=folder)[1].count("\n") - 1)


def main() -> int:
    given = program_words(__doc__, elements=50).parse_args()
    print("| network | furthest | longest by `nominate` | gaps | longest by `protect` | gaps |")
    print("|---|---|---|---|---|---|")
    with tempfile.TemporaryDirectory() as folder:
        for name, plan in networks(given.elements):
            put_files(folder, {"plan": plan_text(plan)})
            hops = max(second_fields(answer(given.program, "hops", "plan", folder=folder)[1]))
            both = [figures(given.program, folder, form) for form in ("nominate", "protect")]
            print(
                f"| {name} | {hops} | " + " | ".join(f"{longest} | {gaps}" for longest, gaps in both) + " |", flush=True
            )
    return 0


if __name__ == "__main__":
    sys.exit(main())
