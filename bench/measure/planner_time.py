"""How long the planner's commands of the workbench take on a large plan, and how much of it is the program's.

usage: python3 -m bench.measure.planner_time PROGRAM [--elements N]

The plan is the ladder of N elements, 2 to 2,000; `repair` has it with each link nominated at both ends, which makes
one knot of all its lines. For each command it prints the seconds that it took, those in the program, and the rest.
It wants Debian's Python 3.11 with what the workbench needs, and a quiet machine.
"""

import os
import pathlib
import re
import subprocess
import tempfile
import time

from bench import programs
from bench.program import WORKBENCH, answer, program_words

COMMANDS = [
    ["export", "plan.toml"],
    ["import", "elements.csv", "links.csv", "sources.csv", "-o", "back.toml"],
    ["apply", "bare.toml", "plan.toml", "-o", "applied.toml"],
    ["lint", "plan.toml"],
    ["orders", "plan.toml"],
    ["orders", "plan.toml", "--from", "bare.toml"],
    ["diff", "bare.toml", "plan.toml"],
    ["rehearse", "plan.toml", "events.csv", "--until", "10m"],
    ["why", "plan.toml", "events.csv", "LAST", "1m"],
    ["failures", "plan.toml", "--links"],
    ["repair", "both.toml", "-o", "mended.toml"],
]
CUT = "at,what,target,value\n20000,down,R2,\n"  # the ladder's first rail, behind which all others take their timing


def plans(folder: pathlib.Path, program: str, elements: int) -> None:
    """The ladder, without priorities, and with each link nominated at both ends; and a cut of it."""
    (folder / "events.csv").write_text(CUT)
    ladder = answer(program, "gen", elements)[1]
    (folder / "plan.toml").write_text(ladder)
    (folder / "bare.toml").write_text(re.sub(r"^(priority_[ab]) = \d+", r"\1 = 0", ladder, flags=re.M))
    (folder / "both.toml").write_text(re.sub(r"^(priority_[ab]) = 0", r"\1 = 7", ladder, flags=re.M))


def main() -> None:
    given = program_words(__doc__, elements=2000).parse_args()
    program = given.program
    with tempfile.TemporaryDirectory() as name:
        folder = pathlib.Path(name)
        plans(folder, program, given.elements)
        wrapper, times = folder / "program", folder / "times"
        wrapper.write_text(programs.text("timed.sh"))
        wrapper.chmod(0o755)
        environment = {**os.environ, "MURDJOHE_CORE": str(wrapper), "PROGRAM": program, "TIMES": str(times)}
        last = f"E{given.elements - 1}"
        for command in [[last if word == "LAST" else word for word in command] for command in COMMANDS]:
            times.write_text("")
            before = time.perf_counter()
            run = subprocess.run(
                [str(WORKBENCH), *command], cwd=folder, env=environment, capture_output=True, check=False
            )
            taken = time.perf_counter() - before
            its = sum(map(int, times.read_text().split())) / 1e9
            times_taken = f"{taken:6.2f} s, {its:6.2f} s in the program, {taken - its:5.2f} s else"
            print(f"{' '.join(command):<60} status {run.returncode}  {times_taken}")


if __name__ == "__main__":
    main()
