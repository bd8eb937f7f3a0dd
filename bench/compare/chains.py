"""Compares `chains` on random plans with the greatest over all chains, and with the traces of random runs.

usage: python3 -m bench.compare.chains PROGRAM [--plans N] [--runs N] [--seed N] [--keep FOLDER]

All chains of a plan are tried one by one, so the plans are small: up to 8 elements, with bundles and both options.
Of a plan with a cycle of hops the answer has to be that of `rank`. Of each other plan `sim` runs N lists of random
events, 3 without a number, each to a random millisecond: no trace that ends at a source or an own clock may have
more lines than its element's row says, and how many elements came to as many is told. It needs Python 3.11.
"""

import collections
import random
import sys
from collections import Counter
from collections.abc import Iterator

from bench.compare.runs import compare, run_words
from bench.levels import LEVELS
from bench.program import answer, put_files
from bench.reference.plan import Plan, events_text
from bench.reference.random_plans import random_events, random_plan

# The greatest lines, lines since the last filter, and filters of a chain.
Row = tuple[int, int, int]
WORST_FILTER = {"I": "QL-SSU-B", "II": "QL-ST3E"}


def is_filter(plan: Plan, e: int) -> bool:
    """An own clock that is not worse than that of a synchronization supply unit."""
    levels = LEVELS[plan.option]
    return levels.index(plan.elements[e].own) <= levels.index(WORST_FILTER[plan.option])


def rows_of(plan: Plan) -> list[Row] | None:
    """For each element the greatest lines, lines since the last filter, and filters of a chain; none with a cycle."""
    if plan.least_ranks() is None:
        return None
    greatest = [(0, 0, 0)] * len(plan.elements)
    todo = [[line] for line in plan.nominated_lines]
    while todo:
        chain = todo.pop()
        begin = [is_filter(plan, plan.sender_of[line]) for line in chain]
        since = len(chain) - max((place for place, filters in enumerate(begin) if filters), default=0)
        e = plan.receiver_of[chain[-1]]
        links, lately, clocks = greatest[e]
        greatest[e] = max(links, len(chain)), max(lately, since), max(clocks, sum(begin))
        todo += [[*chain, line] for line in plan.nominated_lines if plan.hops(chain[-1], line)]
    return greatest


def chains_text(plan: Plan, rows: list[Row]) -> str:
    """What `chains` has to print."""
    text = "element,links,since,clocks\n"
    return text + "".join(f"{element.name},{','.join(map(str, row))}\n" for element, row in zip(plan.elements, rows))


def longest_traces(program: str, plan: Plan, folder: str, chance: random.Random, runs: int) -> list[int]:
    """For each element the most lines of its trace, where it ends at a source or an own clock, over random runs."""
    longest = [0] * len(plan.elements)
    for _ in range(runs):
        put_files(folder, {"events": events_text(plan, random_events(chance, plan, 3000))})
        text = answer(program, "sim", "plan", "events", chance.randint(0, 6000), folder=folder)[1]
        part = text.partition("traces\n")[2].partition("loops\n")[0]
        for e, row in enumerate(part.splitlines()):
            _, lines, end, _ = row.split(",")
            if end != "loop":
                longest[e] = max(longest[e], int(lines))
    return longest


def differences(
    program: str, plan: Plan, folder: str, chance: random.Random, runs: int, counted: Counter[str]
) -> Iterator[str]:
    """What is wrong with the answer on a plan, in words."""
    rows = rows_of(plan)
    if rows is None:
        counted["cyclic"] += 1
        if answer(program, "chains", "plan", folder=folder) != answer(program, "rank", "plan", folder=folder):
            yield "another answer than that of rank"
        return
    counted["elements"] += len(rows)
    if answer(program, "chains", "plan", folder=folder) != (0, chains_text(plan, rows)):
        yield "other rows"
    for (most, _, _), seen in zip(rows, longest_traces(program, plan, folder, chance, runs)):
        counted["reached"] += seen == most
        if seen > most:
            yield f"a trace of {seen} lines, and not {most}"


def main() -> int:
    given = run_words(__doc__, 300, 3).parse_args()
    chance, counted = random.Random(given.seed), collections.Counter[str]()

    def differences_of(folder: str, plan: Plan) -> Iterator[str]:
        return differences(given.program, plan, folder, chance, given.runs, counted)

    differ = compare(given, lambda: random_plan(chance, [0]), differences_of)
    print(
        f"{given.plans} plans, {counted['cyclic']} with a cycle; of {counted['elements']} elements of the others"
        f" {counted['reached']} came to as many lines as their row says; {differ} differ"
    )
    return 1 if differ else 0


if __name__ == "__main__":
    sys.exit(main())
