"""Makes each open, read and write of a run fail in turn, or do less than was asked, and looks at what the program
answers.

usage: python3 -m bench.measure.faults PROGRAM

Each work of bench/measure/works.py is run once for each call that it makes and each way in which that may go wrong,
alone and from there on:

- a file that can't be opened, a read that fails, one that is interrupted: `read fault` with status 7, or, interrupted,
  the usual answer
- a read that gives one octet, and then fails: the same, or, at the end of a file, the usual answer
- a read that gives one octet: the usual answer
- a write that fails, takes nothing, or is interrupted: status 8 and a front of the text, or, interrupted, the usual
  answer
- a write that takes half, and then fails: the same
- a write that takes one octet, or half: the usual answer

Nothing else may be answered, and the front is what the writes before had taken. Then the output is full, closed,
and a pipe that nobody reads. Needs a C compiler and Linux.
"""

import collections
import os
import subprocess
import sys
import tempfile
from typing import Any

from bench.measure import failing
from bench.measure.works import works
from bench.program import program_words, put_files

Answer = tuple[int, bytes]  # the status and the text
READ_FAULT = (7, b"read fault\n")
# For each call the ways in which it may go wrong.
WAYS = {
    "open": ("failed", "interrupted"),
    "read": ("failed", "interrupted", "cut", "one"),
    "write": ("failed", "interrupted", "nothing", "cut", "one", "half"),
}
GREATEST = 10_000


def is_right(call: str, how: str, usual: Answer, answer: Answer) -> bool:
    """The answer to a run in which a call went wrong is one that may be given."""
    status, text = answer
    if how in ("one", "half"):
        return answer == usual
    if answer == usual and (how == "interrupted" or (call, how) == ("read", "cut")):
        return True
    if call != "write":
        return answer == READ_FAULT
    return status == 8 and usual[1].startswith(text) and text != usual[1] and (text != b"" or how != "cut")


def settings_of(how: str) -> list[dict[str, str]]:
    """A call goes wrong alone and from there on; one that is interrupted for ever may be tried for ever."""
    alone, from_on = dict[str, str](), {"FAIL_ON": "1"}
    return {"interrupted": [alone], "cut": [from_on]}.get(how, [alone, from_on])


def fail_each(program: str, words: list[str], shim: str, folder: str) -> int:
    """Makes each call of a work go wrong in turn; gives how many answers were wrong, and tells them."""

    def run(at: int, call: str, how: str, more: dict[str, str]) -> failing.Failed:
        return failing.run([program, *words], shim, folder, FAIL_AT=str(at), FAIL_CALL=call, FAIL_HOW=how, **more)

    usual = run(0, "", "", {})
    wrong, told = 0, collections.Counter[str]()
    for call, how, more in (
        (call, how, more) for call, ways in WAYS.items() for how in ways for more in settings_of(how)
    ):
        for at in range(1, GREATEST):
            failed = run(at, call, how, more)
            if failed.fewer:
                break
            told[f"{call} {how}"] += 1
            if not is_right(call, how, (usual.status, usual.text), (failed.status, failed.text)):
                wrong += 1
                what = f"{call} {at} {how}{' and all after it' if more else ''}"
                print(f"{' '.join(words)}: {what}: {failed.status}, {failed.text[:200]!r}")
    counts = ", ".join(f"{count} {what}" for what, count in told.items())
    print(f"{' '.join(words)}: status {usual.status}, {len(usual.text)} octets; {counts}; {wrong} wrong", flush=True)
    return wrong


def outputs(program: str, folder: str) -> int:
    """How many of the outputs that take nothing are not answered with a write fault."""
    words, wrong = [program, "gen", "100"], 0
    read, write = os.pipe()
    os.close(read)
    with open("/dev/full", "wb") as full:
        ways: dict[str, dict[str, Any]] = {
            "full": {"stdout": full},
            "closed": {"preexec_fn": lambda: os.close(1)},
            "not read": {"stdout": write},
        }
        for what, how in ways.items():
            status = subprocess.run(words, cwd=folder, check=False, **how).returncode
            if status != 8:
                wrong += 1
                print(f"output {what}: status {status}")
    os.close(write)
    print(f"output full, closed, not read: {wrong} wrong")
    return wrong


def main() -> int:
    given = program_words(__doc__).parse_args()
    program = given.program
    with tempfile.TemporaryDirectory() as folder:
        shim, wrong = failing.build(folder, "failing_calls"), 0
        for words, files in works().values():
            put_files(folder, files)
            wrong += fail_each(program, words, shim, folder)
        wrong += outputs(program, folder)
    print(f"{wrong} wrong")
    return 1 if wrong else 0


if __name__ == "__main__":
    sys.exit(main())
