"""What the commands of the workbench cost on large plans, the program included, and how that grows with the number of elements.

usage: python3 -m bench.measure.large_commands PROGRAM [--elements N[,N..]] [--command NAME[,NAME..]]

For each number of elements (2,000, 20,000 and 100,000 where none is given) an operator's network (`bench.networks`) gets
priorities by `nominate`, and tables by `export`; then each command runs on it once. A line says its time by the clock,
its processor time with that of the programs that it starts, the peak memory of the greatest of these processes, and its
status; the last column is the power of the number of elements with which the processor time grows. `survey-100` has a
hundred failures of links worked, `survey` all links. It needs what the workbench needs.
"""

import os
import subprocess
import sys
import tempfile
import time
from typing import NamedTuple

from bench import networks
from bench.measure.times import growth
from bench.program import WORKBENCH, octets, program_words, put_files
from bench.reference.plan import plan_text

COMMANDS = {
    "check": ["check", "plan.toml", "ranks.csv"],
    "lint": ["lint", "plan.toml", "-o", "out"],
    "diff": ["diff", "other.toml", "plan.toml", "-o", "out"],
    "apply": ["apply", "other.toml", "plan.toml", "-o", "out"],
    "orders": ["orders", "plan.toml", "-o", "out"],
    "export": ["export", "plan.toml", "--force"],
    "import": ["import", "elements.csv", "links.csv", "sources.csv", "-o", "out"],
    "failures": ["failures", "plan.toml", "--links", "--sources", "--cases", "1-5000", "-o", "out"],
    "survey-100": ["survey", "plan.toml", "--cases", "1-100", "-o", "out"],
    "survey": ["survey", "plan.toml", "-o", "out"],
    "sweep": ["sweep", "plan.toml", "-o", "out"],
    "rehearse": ["rehearse", "plan.toml", "works.csv", "-o", "out"],
    "why": ["why", "plan.toml", "works.csv", "N7", "12m"],
    "draw": ["draw", "plan.toml", "-o", "out.svg"],
    "draw-near": ["draw", "plan.toml", "--near", "N7", "-o", "out.svg"],
    "report": ["report", "plan.toml", "works.csv", "-o", "out.html"],
}


class Cost(NamedTuple):
    """Time by the clock and the processor in seconds, peak memory in MB, the status, and what was said first beside the answer."""

    wall: float
    used: float
    memory: float
    status: int
    said: str


def make_files(program: str, folder: str, count: int) -> None:
    """A plan with priorities, the same with a line fewer, certificate, works, and tables."""
    network = networks.network("operator", count)
    put_files(folder, {"topology": plan_text(network)})
    _, text = octets(program, ["large", "nominate", "topology"], folder)
    put_files(folder, {"plan.toml": text, "other.toml": text.replace(b"\npriority_b = 1\n", b"\npriority_b = 2\n", 1)})
    _, ranks = octets(program, ["large", "rank", "plan.toml"], folder)
    names = [link.name for link in network.links[:3]]
    rows = [f"60s,down,{names[0]},", f"90s,down,{names[1]},", f"120s,up,{names[0]},"]
    put_files(folder, {"ranks.csv": ranks, "works.csv": "at,what,target,value\n" + "".join(f"{row}\n" for row in rows)})
    cost_of(program, folder, ["export", "plan.toml"])


def cost_of(program: str, folder: str, words: list[str]) -> Cost:
    """What a command takes, with the programs that it starts."""
    for name in ("out", "out.svg", "out.html"):
        if os.path.exists(os.path.join(folder, name)):
            os.remove(os.path.join(folder, name))
    environment = {**os.environ, "MURDJOHE_CORE": program}
    script = "import resource, subprocess, sys\n"
    script += "run = subprocess.run(sys.argv[1:], stdout=subprocess.DEVNULL, stderr=subprocess.PIPE)\n"
    script += "used = resource.getrusage(resource.RUSAGE_CHILDREN)\n"
    script += "print(used.ru_utime + used.ru_stime, used.ru_maxrss, run.returncode)\n"
    script += "print(run.stderr.decode(errors='replace').partition(chr(10))[0])\n"
    start = time.perf_counter()
    run = subprocess.run(
        [sys.executable, "-c", script, str(WORKBENCH), *words],
        cwd=folder,
        env=environment,
        capture_output=True,
        check=True,
        text=True,
    )
    wall = time.perf_counter() - start
    numbers, said, *_ = [*run.stdout.splitlines(), ""]
    used, memory, status = numbers.split()
    return Cost(wall, float(used), int(memory) / 1024, int(status), said)


def measured(program: str, counts: list[int], names: list[str]) -> None:
    """A line for each command."""
    costs: dict[str, dict[int, Cost]] = {name: {} for name in names}
    for count in counts:
        with tempfile.TemporaryDirectory() as folder:
            make_files(program, folder, count)
            for name in names:
                one = costs[name][count] = cost_of(program, folder, COMMANDS[name])
                print(f"{count:7} {name:10} {one.wall:7.2f} s, {one.used:7.2f} s of processors, ", end="")
                print(f"{one.memory:5.0f} MB ({one.status})  {one.said[:110]}", flush=True)
    for name, by_count in costs.items():
        if len(by_count) > 1:
            print(f"{name:10} ^{growth(list(by_count), [one.used for one in by_count.values()]):.2f}", flush=True)


def main() -> int:
    words = program_words(__doc__, elements="2000,20000,100000")
    words.add_argument("--command", default=",".join(COMMANDS))
    given = words.parse_args()
    measured(given.program, [int(count) for count in given.elements.split(",")], given.command.split(","))
    return 0


if __name__ == "__main__":
    sys.exit(main())
