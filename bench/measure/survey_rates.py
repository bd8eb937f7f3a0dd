"""How many cases a second `murdjohe survey` works, beside one process of `study` for each of its processors.

usage: python3 -m bench.measure.survey_rates PROGRAM [--elements N] [--processors N[,N..]] [--most CASES] [--repeats N]

The plan is the ladder of N elements; the cases are its links and each two of them, or the first CASES of these. What one
process of `study` works, where as many run at once as there are processors, each on its own, is told by the first, the
middle and the last part of the cases, as large as a survey's of so many. The surveys run on as many processors as are
named, each in a fresh folder of parts, without rows and with rows.csv.gz. Of each the least time of --repeats runs
counts, by the clock. A share is what the cases a second are of those of these processes of `study`: for the whole time,
and for it without the start, which the same command takes for one case.
It wants Debian's Python 3.11 with what the workbench needs, and a quiet machine.
"""

import math
import os
import subprocess
import sys
import tempfile
import time
from collections.abc import Iterator
from concurrent.futures import ThreadPoolExecutor
from contextlib import contextmanager
from typing import NamedTuple

from bench.program import TOP, WORKBENCH, answer, program_words, put_files

sys.path.insert(0, str(TOP / "workbench" / "src"))

from murdjohe.survey import portions

UNTIL = 1_800_000  # as a survey has it by itself: links fail at 600000
FAILURES = ["--links", "--pairs"]
ROWS: dict[str, list[str]] = {"none": [], "rows.csv.gz": ["-o", "rows.csv.gz"]}
HEAD = "processors  one study  rows           whole s    cases/s  share  without start s    cases/s  share"


class Survey(NamedTuple):
    """A survey: on how many processors, which rows it wrote, and the seconds that it and its start took."""

    processors: int
    rows: str
    whole: float
    start: float


def cases_of(links: int, most: int | None) -> int:
    """How many cases the links and each two of them are, at most so many."""
    every = links + math.comb(links, 2)
    return every if most is None else min(every, most)


def spans(total: int) -> list[tuple[int, int]]:
    """The numbers of the first and the last case of a usual part at the beginning, in the middle and at the end of so many."""
    size = min(total, portions.usual(total))
    firsts = dict.fromkeys((1, (total - size) // 2 + 1, total - size + 1))
    return [(first, first + size - 1) for first in firsts]


def rated(cases: int, seconds: float, processors: int, rate: float) -> str:
    """Cases a second, and their share of so many processors' at a rate; bars where no time was taken."""
    if seconds <= 0:
        return f"{'-':>9}  {'-':>5}"
    return f"{cases / seconds:9.0f}  {cases / seconds / (processors * rate):5.2f}"


def row(survey: Survey, cases: int, rate: float) -> str:
    """A row of the table under HEAD."""
    whole, rest = survey.whole, survey.whole - survey.start
    rates = [rated(cases, seconds, survey.processors, rate) for seconds in (whole, rest)]
    return f"{survey.processors:10}  {rate:9.0f}  {survey.rows:11}  {whole:9.3f}  {rates[0]}  {rest:15.3f}  {rates[1]}"


@contextmanager
def bound(processors: int) -> Iterator[None]:
    """Lets this process, and what it starts meanwhile, run on so many of its processors alone."""
    before = os.sched_getaffinity(0)
    os.sched_setaffinity(0, sorted(before)[:processors])
    try:
        yield
    finally:
        os.sched_setaffinity(0, before)


def least(words: list[str], folder: str, program: str, repeats: int) -> float:
    """The least seconds that a command takes, of so many runs; a word PARTS stands for a fresh folder."""
    times = []
    for _ in range(repeats):
        with tempfile.TemporaryDirectory(dir=folder) as parts:
            command = [parts if word == "PARTS" else word for word in words]
            before = time.perf_counter()
            environment = {**os.environ, "MURDJOHE_CORE": program}
            subprocess.run(command, cwd=folder, env=environment, capture_output=True, check=True)
            times.append(time.perf_counter() - before)
    return min(times)


def surveyed(folder: str, program: str, cases: int, rows: str, repeats: int) -> float:
    """The least seconds that a survey of the first so many cases takes."""
    words = ["survey", "plan.toml", *FAILURES, "--cases", f"1-{cases}", "--until", str(UNTIL), "--parts", "PARTS"]
    return least([str(WORKBENCH), *words, *ROWS[rows], "--force"], folder, program, repeats)


def tables(folder: str, program: str, total: int) -> list[list[str]]:
    """What `study` is asked for the parts of so many cases, whose tables are made."""
    asked = []
    for first, last in spans(total):
        name = f"{first}.csv"
        words = ["failures", "plan.toml", *FAILURES, "--cases", f"{first}-{last}", "-o", name]
        least([str(WORKBENCH), *words], folder, program, 1)
        asked.append([program, "study", "plan.toml", name, str(UNTIL)])
    return asked


def studied(folder: str, asked: list[list[str]], processors: int, repeats: int) -> float:
    """The least seconds in which as many processes as there are processors, each on its own, work all that is asked."""

    def work(processor: int) -> None:
        os.sched_setaffinity(0, {processor})  # (of this thread, and of what it starts)
        for words in asked:
            subprocess.run(words, cwd=folder, stdout=subprocess.DEVNULL, check=True)

    times = []
    for _ in range(repeats):
        with ThreadPoolExecutor(processors) as pool:
            before = time.perf_counter()
            list(pool.map(work, sorted(os.sched_getaffinity(0))[:processors]))
            times.append(time.perf_counter() - before)
    return min(times)


def count(text: str) -> int:
    """A number from 1 on. Raises ValueError."""
    number = int(text)
    if number < 1:
        raise ValueError(f"{number} is below 1")
    return number


def counts(text: str) -> list[int]:
    """Numbers from 1 on, with commas between them. Raises ValueError."""
    return [count(number) for number in text.split(",")]


def main() -> None:
    words = program_words(__doc__)
    words.add_argument("--elements", type=count, default=200)
    words.add_argument("--processors", type=counts, default=[1, 2, 4])
    words.add_argument("--most", type=count)
    words.add_argument("--repeats", type=count, default=3)
    given = words.parse_args()
    if (there := len(os.sched_getaffinity(0))) < max(given.processors):
        words.error(f"--processors: {there} are there")
    plan = answer(given.program, "gen", given.elements)[1]
    cases = cases_of(plan.count("[[link]]"), given.most)
    with tempfile.TemporaryDirectory() as folder:
        put_files(folder, {"plan.toml": plan})
        asked = tables(folder, given.program, cases)
        worked = sum(last - first + 1 for first, last in spans(cases))
        print(f"{cases:,} cases\n{HEAD}")
        for processors in given.processors:
            rate = worked / studied(folder, asked, processors, given.repeats)
            for rows in ROWS:
                with bound(processors):
                    whole, start = (surveyed(folder, given.program, its, rows, given.repeats) for its in (cases, 1))
                print(row(Survey(processors, rows, whole, start), cases, rate), flush=True)


if __name__ == "__main__":
    main()
