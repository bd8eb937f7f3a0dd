"""Runs the gate from nothing in a clone, and says how much processor time each crate takes of it, and for what.

usage: python3 -m bench.measure.gate_time [COMMIT] [--keep FOLDER]

The clone is of this repository, at the commit or at HEAD. While `rt ci` runs, the processes below it are looked at once
a second; the crate is the one that the prover was given, and the time what the process had used when it was last seen,
so a process of less than a second may be missed. It is told apart what a crate's proofs take, those of its tests, the
check of the whole crate that its must-fail edits begin with and the one that they end with, and the edits. Wall time
means something on a quiet machine alone. It wants the toolchain, Linux and Python 3.11, and an hour and a half on four
processors.
"""

import collections
import os
import re
import shutil
import subprocess
import sys
import tempfile
import time

from bench.program import TOP, parser

TICKS = os.sysconf("SC_CLK_TCK")


# Of a process its parent, the words that it was started with, and its processor time in seconds.
Process = tuple[int, str, float]


def processes() -> dict[int, Process]:
    """Each process by its number: its parent, the words that it was started with, and its processor time in seconds."""
    found: dict[int, Process] = {}
    for name in filter(str.isdigit, os.listdir("/proc")):
        try:
            with open(f"/proc/{name}/stat", encoding="utf-8", errors="replace") as file:
                fields = file.read().rpartition(") ")[2].split()
            with open(f"/proc/{name}/cmdline", encoding="utf-8", errors="replace") as file:
                words = file.read().replace("\0", " ")
        except OSError:
            continue
        found[int(name)] = int(fields[1]), words, (int(fields[11]) + int(fields[12])) / TICKS
    return found


def below(found: dict[int, Process], top: int) -> list[int]:
    """The numbers of the processes below one."""
    children = collections.defaultdict(list)
    for number, (parent, _, _) in found.items():
        children[parent].append(number)
    waiting, all_below = [top], []
    while waiting:
        for number in children[waiting.pop()]:
            all_below.append(number)
            waiting.append(number)
    return all_below


# What a crate's time is told apart by.
KINDS = ("proofs", "tests", "first checks", "edits")


def kind_of(words: str) -> str:
    """What a process that was started with these words does for its crate: one of KINDS."""
    if "--test" in words.split():
        return "tests"
    if re.search(r"--incremental \S*/seed( |$)", words):
        return "first checks"
    return "edits" if "check" in words.split() else "proofs"


def told(crate: str, shares: dict[str, float]) -> str:
    """A line on a crate: its seconds, and how many of them each kind of work takes."""
    parts = ", ".join(f"{kind} {shares[kind]:.0f}" for kind in KINDS if shares.get(kind))
    return f"{crate}: {sum(shares.values()):.0f} s ({parts})"


def main() -> int:
    words = parser(__doc__)
    words.add_argument("commit", nargs="?", default="HEAD")
    words.add_argument("--keep")
    given = words.parse_args()
    folder = given.keep or tempfile.mkdtemp(prefix="gate-time-")
    clone, log = f"{folder}/repository", f"{folder}/log"
    used: dict[int, tuple[str, str, float]] = {}
    try:
        subprocess.run(["git", "clone", "-q", str(TOP), clone], check=True)
        subprocess.run(["git", "checkout", "-q", given.commit], cwd=clone, check=True)
        start = time.monotonic()
        with open(log, "w", encoding="utf-8") as out:
            gate = subprocess.Popen(["rt", "ci", "--anew"], cwd=clone, stdout=out, stderr=subprocess.STDOUT)
            while gate.poll() is None:
                found = processes()
                for number in below(found, gate.pid):
                    named = re.search(r"--crate-name (\S+)", found[number][1])
                    if named:
                        used[number] = named[1], kind_of(found[number][1]), found[number][2]
                time.sleep(1)
        wall = time.monotonic() - start
        shares: dict[str, dict[str, float]] = collections.defaultdict(lambda: collections.defaultdict(float))
        for crate, kind, seconds in used.values():
            shares[crate][kind] += seconds
        for crate, share in sorted(shares.items(), key=lambda item: -sum(item[1].values())):
            print(told(crate, share))
        whole = {kind: sum(share[kind] for share in shares.values()) for kind in KINDS}
        with open(log, encoding="utf-8") as file:
            last = file.read().strip().rpartition("\n")[2]
        print(f"{told('in all', whole)} of processor time, {wall:.0f} s of wall time; {last}")
        return gate.returncode
    finally:
        if not given.keep:
            shutil.rmtree(folder)


if __name__ == "__main__":
    sys.exit(main())
