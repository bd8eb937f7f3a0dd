"""How many plans go on swinging whose ranks rise and whose priorities clash, beside plans that agree.

usage: python3 -m bench.measure.swinging PROGRAM [--plans N] [--seed N] [--keep FOLDER]

Random plans as those of `bench.compare.agree` are made until N of them, 1,000 without a number, have ranks and clash,
and N have ranks and agree: by the models, and by what `rank` and `agree` answer to them. Each runs by `sim` with random
events, at the end of which each element's switches are cleared, and is then left alone: for 2,000 seconds in all, or
until 200,000 changes stop the run. A plan swings where some element changes in the last minute of its run, which is
longer than any wait of the plan; told is too in how many a level reaches such an element which is better than every own
clock: `agree` promises that this can't be in a plan that agrees. A run that stops before its waits and a minute have
passed since the last event is counted as too short. `--keep` leaves the last plan and events there of those that clash
and swing at such an element. It needs Python 3.11 and networkx.
"""

import os
import random
import shutil
import sys
import tempfile
from collections import Counter

from bench.compare.agree import EVENTS_UNTIL, Standing, expected, run_events, with_worse_clocks
from bench.program import answer, program_words, put_files
from bench.reference.plan import Event, Plan, events_text, plan_text, read_plan
from bench.reference.random_plans import random_plan

UNTIL = 2_000_000
LAST = 60_000  # milliseconds before the end in which a swinging element changes
WAIT = 65_000  # no wait of such a plan is longer: a minute to restore, and five seconds and a delay to fall silent


def end_of(text: str) -> int:
    """The last millisecond that a report tells."""
    rows = text.splitlines()
    return int(rows[-1].split(",")[1]) if rows[-1].startswith("stopped,") else UNTIL


def changing(text: str) -> set[str]:
    """The elements that change in the last minute of a report."""
    end = end_of(text)
    rows = text.partition("changes\n")[2].partition("inputs\n")[0].splitlines()
    fields = [row.split(",") for row in rows if not row.startswith("stopped,")]
    return {row[1] for row in fields if int(row[0]) > end - LAST}


def kind_of(plan: Plan) -> str | None:
    """What a plan does by the models, `clash` or `agreed`; none where it has no ranks."""
    return expected(plan)[1].split()[0] if plan.least_ranks() is not None else None


def is_so(program: str, folder: str, plan: Plan) -> bool:
    """The program gives the plan ranks, and answers `agree` as the model does."""
    is_ranked = answer(program, "rank", "plan", folder=folder)[0] == 0
    return is_ranked and answer(program, "agree", "plan", folder=folder) == expected(plan)


def counts_of(plan: Plan, events: list[Event], text: str) -> Counter[str]:
    """What a run shows, each once."""
    end, swings = end_of(text), changing(text)
    if end < EVENTS_UNTIL + WAIT + LAST:
        return Counter(["plans", "too short"])
    reached = {plan.elements[e].name for e in Standing(plan, events).reached()}
    found = {
        "plans": True,
        "swing": bool(swings),
        "stopped": bool(swings) and end < UNTIL,
        "reached": bool(swings & reached),
        "settled": text.endswith("settled yes\n"),
    }
    return Counter(word for word, is_so in found.items() if is_so)


def kept(folder: str, place: str) -> None:
    """Copies the plan and the events of a folder."""
    os.makedirs(place, exist_ok=True)
    for name in ("plan", "events"):
        shutil.copy(os.path.join(folder, name), os.path.join(place, name))


def told(kind: str, counts: Counter[str]) -> str:
    """A line on the plans of a kind."""
    return (
        f"{counts['plans']} plans with ranks, {kind}: {counts['swing']} swing at the end ({counts['stopped']} of them until the"
        f" limit of changes), {counts['reached']} of these where a level reaches that is better than every own clock;"
        f" {counts['settled']} settled, {counts['too short']} runs too short"
    )


def main() -> int:
    words = program_words(__doc__, plans=1000, seed=1)
    words.add_argument("--keep")
    given = words.parse_args()
    chance, tried, differ = random.Random(given.seed), 0, 0
    counted = {"clash": Counter[str](), "agreed": Counter[str]()}
    with tempfile.TemporaryDirectory() as folder:
        while any(counts["plans"] < given.plans for counts in counted.values()):
            text = plan_text(with_worse_clocks(chance, random_plan(chance, [0, 60_000])))
            tried, plan = tried + 1, read_plan(text)
            kind = kind_of(plan)
            if kind is None or counted[kind]["plans"] >= given.plans:
                continue
            events = run_events(chance, plan)
            put_files(folder, {"plan": text, "events": events_text(plan, events)})
            differ += not is_so(given.program, folder, plan)
            found = counts_of(plan, events, answer(given.program, "sim", "plan", "events", UNTIL, folder=folder)[1])
            counted[kind] += found
            if given.keep and kind == "clash" and found["reached"]:
                kept(folder, given.keep)
    print(f"{tried} random plans, {differ} answers differ from the models'")
    for kind, counts in counted.items():
        print(told(kind, counts))
    return 1 if counted["agreed"]["reached"] or differ else 0


if __name__ == "__main__":
    sys.exit(main())
