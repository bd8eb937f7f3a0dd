"""Lists the functions of a crate by what they took to prove, from the files that a check left.

usage: python3 -m bench.measure.proof_times CRATE [--most N]

`rt check --jobs 1` in the crate's folder keeps a file of each part that it proved, in the order in which it came to
them; the time between two files is that of the later one. So the list is of the check that wrote them: after a change
it mixes those of two checks, unless `out/` was taken away before. Of each function it says for how many seconds it was
translated, and for how many its goals were searched for. The first grows with the steps on all ways out of a function,
the second with the facts that are known at a goal ([docs/build/proving.md](../../docs/build/proving.md) says what helps).

It wants Python 3.11 alone, and no time.
"""

import collections
import os
import re
import sys

from bench.program import TOP, parser

# A file that a check keeps: of which function or file it is, and what part of the work.
FILE = re.compile(
    r"Rattle-\w+-(?:proofs\.)?(?P<of>.*?)(?:\.(?P<part>Lts|Proof|[A-Z]\w*(?:-\d+)*))?(?:\.View)?(?:\.decls)?\.oantt$"
)

# What the parts are called here; each other one is "other".
PARTS = {"Lts": "translated", "Proof": "searched"}

Shares = dict[str, dict[str, float]]


def shares_of(files: list[tuple[float, str]]) -> Shares:
    """The seconds of each function by the part of the work, from names of files and when each was written."""
    shares: dict[str, dict[str, float]] = collections.defaultdict(lambda: collections.defaultdict(float))
    for (before, _), (written, name) in zip(sorted(files), sorted(files)[1:], strict=False):
        found = FILE.match(name)
        of, part = (found["of"] or found["part"], found["part"]) if found else (name, None)
        shares[of][PARTS.get(part or "", "other")] += written - before
    return {of: dict(share) for of, share in shares.items()}


def files_below(folder: str) -> list[tuple[float, str]]:
    """The names of all files below a folder, and when each was written."""
    found = [(at, name) for at, _, names in os.walk(folder) for name in names]
    return [(os.lstat(os.path.join(at, name)).st_mtime, name) for at, name in found]


def main() -> int:
    words = parser(__doc__, most=20)
    words.add_argument("crate")
    given = words.parse_args()
    folder = TOP / "crates" / given.crate / "out" / "incremental"
    if not folder.is_dir():
        print(
            f"{folder.relative_to(TOP)} isn't there: `rt check --jobs 1` in the crate's folder makes it",
            file=sys.stderr,
        )
        return 1
    shares = shares_of(files_below(str(folder)))
    print(f"in all {sum(sum(share.values()) for share in shares.values()):.0f} s")
    for of, share in sorted(shares.items(), key=lambda item: -sum(item[1].values()))[: given.most]:
        print(
            f"{sum(share.values()):7.1f} {of}: " + ", ".join(f"{part} {seconds:.1f}" for part, seconds in share.items())
        )
    return 0


if __name__ == "__main__":
    sys.exit(main())
