"""What the scripts share that time programs: runs in turn, a row of a table of them, and how times grow."""

import math
import os
import statistics
import time
from typing import NamedTuple

HEAD = "program            least ms  median ms  cpu ms  peak MB  status"


class Run(NamedTuple):
    """Wall and processor time in milliseconds, peak memory in MB, and the exit status."""

    wall: float
    processor: float
    memory: float
    status: int


def run(program: str, words: list[str]) -> Run:
    """Wall and processor time in milliseconds, peak memory in MB, and the exit status."""
    start = time.perf_counter()
    pid = os.posix_spawn(
        program, [program, *words], os.environ, file_actions=[(os.POSIX_SPAWN_OPEN, 1, "/dev/null", os.O_WRONLY, 0)]
    )
    _, status, usage = os.wait4(pid, 0)
    wall = (time.perf_counter() - start) * 1000
    used = (usage.ru_utime + usage.ru_stime) * 1000
    return Run(wall, used, usage.ru_maxrss / 1024, os.waitstatus_to_exitcode(status))


def measure(programs: list[str], words: list[str], repeats: int) -> dict[str, list[Run]]:
    """The runs of each program, in turn."""
    runs: dict[str, list[Run]] = {program: [] for program in programs}
    for _ in range(repeats):
        for program in programs:
            runs[program].append(run(program, words))
    return runs


def least(runs: list[Run]) -> float:
    """The least wall time of some runs."""
    return min(run.wall for run in runs)


def row(program: str, runs: list[Run]) -> str:
    """A row of the table under HEAD."""
    median = statistics.median(run.wall for run in runs)
    processor, memory = min(run.processor for run in runs), max(run.memory for run in runs)
    name = os.path.basename(program)
    return f"{name:18} {least(runs):8.2f}  {median:9.2f}  {processor:6.2f}  {memory:7.1f}  {runs[0].status:6}"


def growth(sizes: list[int], times: list[float]) -> float:
    """The power of the size with which times grow: the slope of the line that fits best on logarithmic paper."""
    slope, _ = statistics.linear_regression(
        [math.log(size) for size in sizes], [math.log(max(it, 1e-3)) for it in times]
    )
    return slope
