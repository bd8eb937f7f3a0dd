"""Makes each allocation of a run fail in turn, and looks at what the program answers.

usage: python3 -m bench.measure.failing_allocations PROGRAM [WORD..]

PROGRAM is run with the words, or, where none are given, with those of each work of bench/measure/works.py, once for
N = 1, 2, .. until a run makes fewer than N allocations; in run N the N-th call of malloc, calloc, realloc or
aligned_alloc gives no memory, and every later one does. Each run has to end with status 10 and nothing written, or
with the status and the text of a run in which none fails. After 100,000 runs it gives up with an error. Needs a C
compiler.
"""

import argparse
import os
import sys
import tempfile

from bench.measure import failing
from bench.measure.works import works
from bench.program import program_words, put_files

# The greatest N.
GREATEST = 100_000


def fail_each(program: str, words: list[str], shim: str, folder: str) -> int:
    """Makes each allocation fail in turn, tells what came of it, and gives how many answers were wrong."""
    words = [program, *words]

    def run(at: int) -> failing.Failed:
        return failing.run(words, shim, folder, FAIL_AT=str(at))

    usual = run(0)[:2]
    print(f"{' '.join(words[1:])}: usual answer: status {usual[0]}, {usual[1][:100]!r}")
    no_memory_left = same = wrong = at = 0
    while True:
        at += 1
        if at > GREATEST:
            sys.exit(f"more than {GREATEST} allocations")
        status, text, _, fewer = run(at)
        if fewer:
            break
        if (status, text) == (10, b""):
            no_memory_left += 1
        elif (status, text) == usual:
            same += 1
        else:
            wrong += 1
            print(f"allocation {at}: status {status}, {text[:200]!r}")
    told = f"{no_memory_left} out of memory with nothing written, {same} the usual answer, {wrong} wrong"
    print(f"{at - 1} allocations: {told}", flush=True)
    return wrong


def main() -> int:
    words = program_words(__doc__)
    words.add_argument("words", nargs=argparse.REMAINDER, metavar="WORD")
    given = words.parse_args()
    with tempfile.TemporaryDirectory() as folder:
        shim = failing.build(folder, "failing_allocations")
        if given.words:
            return 1 if fail_each(given.program, given.words, shim, os.getcwd()) else 0
        wrong = 0
        for work, files in works().values():
            put_files(folder, files)
            wrong += fail_each(given.program, work, shim, folder)
    return 1 if wrong else 0


if __name__ == "__main__":
    sys.exit(main())
