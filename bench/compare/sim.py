"""Compares the reports of `sim` on random plans and events with those of the reference.

usage: python3 -m bench.compare.sim PROGRAM [--plans N] [--seed N] [--sweep | --cuts | --study | --inspect]
       [--long | --short] [--keep FOLDER]

The plans have up to 8 elements, with bundles, both options and enhanced levels, and up to 40 events of every word.
With --sweep the tables of `sweep` are compared, with --cuts those tables with a study of the reference in which each
link's failure is a case, with --study those of `study`, where every fourth event is common to the cases and each other
one belongs to two of them, with --inspect what `inspect` says. With --long wait-to-restore times are up to ten minutes and
runs go up to 700000, for which the reference takes a minute each; with --short there are none, and runs go up to 4000.
It needs Python 3.11.
"""

import collections
import os
import random
import shutil
import sys
import tempfile

from bench.program import answer, program_words, put_files
from bench.reference.inspection import inspection_text
from bench.reference.plan import Event, Plan, events_text, plan_text, read_events, read_plan
from bench.reference.random_plans import random_events, random_plan
from bench.reference.report import sim_text, sweep_text
from bench.reference.study import cases_text, cuts_text, study_answer

# A plan, events, and how long it runs.
SimCase = tuple[Plan, list[Event], int]


def random_case(chance: random.Random, length: str) -> SimCase:
    """A plan, events and how long it runs; with a wait-to-restore of a minute long enough for it to end, mostly."""
    if length == "short":
        plan = random_plan(chance, [0])
        return plan, random_events(chance, plan, chance.choice([300, 3000])), chance.randint(0, 4000)
    if length == "long":
        plan = random_plan(chance, range(0, 660_000, 60_000))
        return (
            plan,
            random_events(chance, plan, chance.choice([9_000, 90_000, 600_000])),
            chance.randint(600_000, 700_000),
        )
    plan = random_plan(chance, [0] * 19 + [60000])
    events = random_events(chance, plan, chance.choice([300, 3000, 9000]))
    wait = max(element.wtr for element in plan.elements)
    return plan, events, chance.randint(0, 12000) + chance.choice([wait, wait, 0])


def expected_and_words(form: str, case: SimCase, folder: str) -> tuple[str, list[str | int]]:
    """What the reference prints of the files of a case, which are left in the folder, and the words for the program."""
    plan, events, until = case
    texts = {"plan": plan_text(plan), "events": events_text(plan, events)}
    put_files(folder, texts)
    read = read_plan(texts["plan"])
    if form in ("sweep", "cuts"):
        table = sweep_text if form == "sweep" else cuts_text
        return table(read, until // 3, until), ["sweep", "plan", until // 3, until]
    if form == "study":
        cases = cases_text(plan, events)
        put_files(folder, {"cases": cases})
        return study_answer(read, cases.encode("ascii"), until)[1], ["study", "plan", "cases", until]
    text = {"sim": sim_text, "inspect": inspection_text}[form]
    return text(read, read_events(read, texts["events"]), until), [form, "plan", "events", until]


def main() -> int:
    words = program_words(__doc__, plans=300, seed=1)
    forms = words.add_mutually_exclusive_group()
    forms.add_argument("--sweep", action="store_const", const="sweep", default="sim", dest="form")
    forms.add_argument("--cuts", action="store_const", const="cuts", dest="form")
    forms.add_argument("--study", action="store_const", const="study", dest="form")
    forms.add_argument("--inspect", action="store_const", const="inspect", dest="form")
    lengths = words.add_mutually_exclusive_group()
    lengths.add_argument("--long", action="store_const", const="long", default="usual", dest="length")
    lengths.add_argument("--short", action="store_const", const="short", dest="length")
    words.add_argument("--keep", help="write files and expected texts of cases that differ into this folder")
    given = words.parse_args()
    chance = random.Random(given.seed)
    counted = collections.Counter[str]()
    for number in range(given.plans):
        case = random_case(chance, given.length)
        with tempfile.TemporaryDirectory() as folder:
            expected, words_given = expected_and_words(given.form, case, folder)
            answered = answer(given.program, *words_given, folder=folder)
            stopped = "stopped," in expected
            counted.update({"lines": expected.count("\n"), "stopped": int(stopped)})
            if answered != (11 if stopped else 0, expected):
                counted["differ"] += 1
                print(f"plan {number}, {words_given}: status {answered[0]}")
                if given.keep:
                    keep(given.keep, number, folder, expected, answered[1])
    print(f"{given.plans} plans, {counted['lines']} lines, {counted['stopped']} stopped, {counted['differ']} differ")
    return 1 if counted["differ"] else 0


def keep(top: str, number: int, folder: str, expected: str, answered: str) -> None:
    """The files of a case, what is expected and what was answered, in a folder of its own."""
    kept = os.path.join(top, f"plan{number:05}")
    shutil.copytree(folder, kept, dirs_exist_ok=True)
    put_files(kept, {"expected": expected, "answered": answered})


if __name__ == "__main__":
    sys.exit(main())
