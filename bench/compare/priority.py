"""Compares `prio-check`, `prio-rank` and `prio-sim` on random plans with the rules in bench/reference/priority.py.

usage: python3 -m bench.compare.priority PROGRAM [--plans N] [--seed N] [--keep FOLDER]

Of each plan: what `prio-rank` prints, least ranks or the forced switches of the first loop; what `prio-check` says
of random ranks, and of those that `prio-rank` prints; the whole report of `prio-sim` under up to 40 random events
of every word. Where `prio-rank` prints events, `prio-sim` is run under them until 0, and its report has to have the
loop; where it prints ranks, no report may have one. The plans are those of bench/reference/random_plans.py: up to 8
elements, bundles, both options, floors, delays. How many of them have no loop for elements with quality levels is
counted as well. It needs Python 3.11.
"""

import collections
import random
import sys
import tempfile

from bench.compare.sim import SimCase
from bench.program import answer, program_words, put_files
from bench.reference.plan import Plan, certificate_text, events_text, plan_text, read_events, read_plan
from bench.reference.priority import PriorityPlan, priority_check, priority_rank, priority_sim_text
from bench.reference.random_plans import random_events, random_plan


def random_ranks(chance: random.Random, plan: Plan) -> dict[int, int]:
    """Ranks of all nominated lines: any, or the least ones with some of them lowered."""
    least = plan.least_ranks()
    if least is None or chance.random() < 0.3:
        span = chance.choice([2, 10, 2**64])
        return {line: chance.randrange(span) for line in plan.nominated_lines}
    return {line: max(rank - (chance.random() < 0.1), 0) for line, rank in least.items()}


def random_case(chance: random.Random) -> SimCase:
    """A plan, events, and how long it runs: one of forty past a wait-to-restore of a minute."""
    waits = [0, 60_000] if chance.random() < 0.025 else [0]
    plan = random_plan(chance, waits)
    events = random_events(chance, plan, chance.choice([300, 1500]))
    return plan, events, chance.randint(0, 2500) + max(element.wtr for element in plan.elements)


class Compared:
    """The program in a folder with the files of one case after another, and what was counted."""

    def __init__(self, program: str, folder: str) -> None:
        self.program, self.folder, self.counted = program, folder, collections.Counter[str]()
        self.wrong: list[str | int] = []

    def same(self, expected: tuple[int, str], *words: str | int) -> str:
        """The program's answer is the one that is expected. Gives its text."""
        answered = answer(self.program, *words, folder=self.folder)
        self.counted["answers"] += 1
        if answered != expected:
            self.wrong.append(words[0])
            put_files(self.folder, {"expected": expected[1], "answered": answered[1]})
            print(f"{' '.join(map(str, words))}: status {answered[0]}, and {expected[0]} is expected")
        return answered[1]

    def plan(self, chance: random.Random, case: SimCase) -> None:
        """All that is asked of one plan."""
        plan, events, until = case
        levels = read_plan(plan_text(plan))
        read = PriorityPlan(levels.option, levels.elements, levels.links, levels.sources)
        ranks = random_ranks(chance, read)
        texts = {"plan": plan_text(plan), "events": events_text(plan, events), "ranks": certificate_text(read, ranks)}
        put_files(self.folder, texts)
        self.same(priority_check(read, ranks), "prio-check", "plan", "ranks")
        planned = priority_rank(read)
        printed = self.same(planned, "prio-rank", "plan")
        put_files(self.folder, {"planned": printed})
        report = priority_sim_text(read, read_events(read, events_text(plan, events)), until)
        self.same((0, report), "prio-sim", "plan", "events", until)
        self.counted["lines"] += report.count("\n")
        if planned[0] == 0:
            self.same((0, "accepted\n"), "prio-check", "plan", "planned")
            self.no_loop(report)
        else:
            self.has_loop(printed)
            self.counted["safe with levels"] += levels.least_ranks() is not None

    def no_loop(self, report: str) -> None:
        """Ranks rise, so no report has a loop."""
        self.counted["ranked"] += 1
        if not report.endswith("loops\n"):
            self.wrong.append("a loop under ranks")
            print("ranks rise, and the report has a loop")

    def has_loop(self, printed: str) -> None:
        """Under the events that the program printed its report has the loop that they name."""
        self.counted["loops"] += 1
        walk = " ".join(row.split(",")[2] for row in printed.splitlines()[1:])
        status, report = answer(self.program, "prio-sim", "plan", "planned", 0, folder=self.folder)
        if status != 0 or walk not in report.partition("loops\n")[2].splitlines():
            self.wrong.append("no loop under the events that are printed")
            print(f"no loop {walk} under the events that are printed: status {status}")


def main() -> int:
    words = program_words(__doc__, plans=1000, seed=1)
    words.add_argument("--keep", help="work in this folder, and stop at the first difference with its files in it")
    given = words.parse_args()
    chance = random.Random(given.seed)
    with tempfile.TemporaryDirectory() as folder:
        compared = Compared(given.program, given.keep or folder)
        for number in range(given.plans):
            if number % 100 == 0 and number > 0:
                print(f"{number} plans, {len(compared.wrong)} differ", flush=True)
            before = len(compared.wrong)
            compared.plan(chance, random_case(chance))
            if len(compared.wrong) > before:
                print(f"plan {number} differs")
                if given.keep:
                    break
    counted = compared.counted
    print(
        f"{given.plans} plans, {counted['ranked']} with ranks, {counted['loops']} with a loop that was made, of which"
        f" {counted['safe with levels']} can't loop with quality levels;"
        f" {counted['answers']} answers, {counted['lines']} lines of reports: {len(compared.wrong)} differ"
    )
    return 1 if compared.wrong else 0


if __name__ == "__main__":
    sys.exit(main())
