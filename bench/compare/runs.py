"""What the scripts share that compare the program with a model on random plans and run some of these: their words, and
the plans one after the other."""

import argparse
import tempfile
from collections.abc import Callable, Iterator

from bench.program import program_words, put_files
from bench.reference.plan import Plan, plan_text, read_plan

Differences = Callable[[str, Plan], Iterator[str]]  # what is wrong, in words, of the plan in this folder's file `plan`


def run_words(doc: str | None, plans: int, runs: int) -> argparse.ArgumentParser:
    """PROGRAM, how many plans and how many runs, the seed, and a folder for what differs."""
    words = program_words(doc, plans=plans, runs=runs, seed=1)
    words.add_argument("--keep", help="stop at a plan with a difference, and leave its files in this folder")
    return words


def compare(given: argparse.Namespace, plan_of: Callable[[], Plan], differences: Differences) -> int:
    """How many differences the plans show; each is printed."""
    differ = 0
    with tempfile.TemporaryDirectory() as passing:
        folder = given.keep or passing
        for number in range(given.plans):
            text = plan_text(plan_of())
            put_files(folder, {"plan": text})
            for difference in differences(folder, read_plan(text)):
                differ += 1
                print(f"plan {number}: {difference}")
            if given.keep and differ:
                break
    return differ
