"""Tries wrong bodies that the contracts have to refuse, and says which were refused, and where.

usage: python3 -m bench.mutants [CRATE ..] [--changed SINCE] [--jobs N] [--look]

The edits are those of the merge gate (crates/CRATE/must-fail/) and those of bench/mutants/CRATE/, of all crates, of
those that are named, or with --changed of those that differ from a commit and all that stand on them. They are tried in
a clone, by N processors (by itself half of them): first the module alone that an edit changes, and where that is proved,
or a definition was changed, the whole crate. An edit that the prover takes is an error, unless a line `# gap: REASON` of
its file says why no contract can refuse it.
--look tries none: it looks whether each edit still applies, which takes a second.

The last line counts; the status is 1 where an edit passed, doesn't apply, or wasn't tried. It wants the toolchain and
Python 3.11, and half a minute for each edit once the crates below are proved.
"""

import collections
import os
import pathlib
import sys
import tempfile
import time

from bench.mutants.edits import Edit, applies, edits_of, twice
from bench.mutants.trying import changed_since, make_clone, tried
from bench.program import TOP, parser


def told(edit: Edit, verdict: str, reason: str) -> str:
    """A line on an edit."""
    if verdict == "passed" and edit.gap:
        return f"{edit.label}: a gap: {edit.gap}"
    return f"{edit.label}: {verdict}{': ' + reason if reason else ''}"


def counted(edits: list[Edit], found: dict[str, tuple[str, str]]) -> collections.Counter[str]:
    """How many came to what; an edit that passed and is named as a gap counts apart."""
    counts: collections.Counter[str] = collections.Counter()
    for edit in edits:
        verdict = found.get(edit.label, ("not tried", ""))[0]
        counts["gap" if verdict == "passed" and edit.gap else verdict] += 1
    return counts


def is_well(counts: collections.Counter[str]) -> bool:
    """Whether each edit was refused or is a gap."""
    return not (counts["passed"] or counts["doesn't apply"] or counts["not tried"])


def looked(edits: list[Edit], top: pathlib.Path) -> int:
    """Says which edits don't apply, or have a name twice."""
    bad = [edit.label for edit in edits if not applies(edit, top)] + twice(edits)
    for label in bad:
        print(f"{label}: doesn't apply, or stands twice")
    print(f"{len(edits) - len(bad)} apply, {len(bad)} don't")
    return 1 if bad else 0


def try_all(edits: list[Edit], top: pathlib.Path, jobs: int) -> int:
    """Tries edits crate by crate, and says what came of each."""
    found: dict[str, tuple[str, str]] = {}
    start = time.monotonic()
    with tempfile.TemporaryDirectory(prefix="mutants-") as name:
        folder = pathlib.Path(name)
        make_clone(top, folder, edits)
        for crate in dict.fromkeys(edit.crate for edit in edits):
            those = [edit for edit in edits if edit.crate == crate]
            found |= tried(folder, crate, those, jobs)
            for edit in those:
                print(told(edit, *found.get(edit.label, ("not tried", "the crate isn't proved"))), flush=True)
    counts = counted(edits, found)
    parts = ", ".join(f"{counts[word]} {word}" for word in ("refused", "gap", "passed", "doesn't apply", "not tried"))
    print(f"{parts}; {time.monotonic() - start:.0f} s")
    return 0 if is_well(counts) else 1


def main() -> int:
    words = parser(__doc__, look=False)
    words.add_argument("crates", nargs="*", metavar="CRATE")
    words.add_argument("--changed", metavar="SINCE")
    words.add_argument("--jobs", type=int, default=max(1, (os.cpu_count() or 2) // 2))
    given = words.parse_args()
    edits = edits_of(TOP)
    wanted = set(given.crates) | (changed_since(TOP, given.changed) if given.changed else set())
    if given.crates or given.changed:
        edits = [edit for edit in edits if edit.crate in wanted]
    if lacking := sorted(set(given.crates) - {edit.crate for edit in edits}):
        words.error(f"there is no edit of {', '.join(lacking)}")
    return looked(edits, TOP) if given.look else try_all(edits, TOP, given.jobs)


if __name__ == "__main__":
    sys.exit(main())
