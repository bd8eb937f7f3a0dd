"""How much longer the workbench's command takes to start than the program itself.

usage: python3 -m bench.measure.start_time PROGRAM [--runs N]

A `check` of examples/metro-ring, by the program and by the command, in turn; the least of each is printed, and how
much more the command takes. It wants nothing but Python 3.11 and a quiet machine.
"""

import os
import subprocess
import time

from bench.program import TOP, WORKBENCH, program_words

WORDS = ["check", "plan.toml", "certificate.csv"]


def taken(words: list[str], environment: dict[str, str]) -> float:
    """The seconds that a run takes."""
    before = time.perf_counter()
    subprocess.run(words, cwd=TOP / "examples" / "metro-ring", env=environment, capture_output=True, check=True)
    return time.perf_counter() - before


def main() -> None:
    given = program_words(__doc__, runs=40).parse_args()
    program = given.program
    environment = {**os.environ, "MURDJOHE_CORE": program}
    command = str(WORKBENCH)
    pairs = [(taken([program, *WORDS], environment), taken([command, *WORDS], environment)) for _ in range(given.runs)]
    its, own = (1000 * min(times) for times in zip(*pairs))
    print(f"program {its:.1f} ms, command {own:.1f} ms, {own - its:.1f} ms more")


if __name__ == "__main__":
    main()
