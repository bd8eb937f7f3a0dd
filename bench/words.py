"""Prints each file of specs/ and each definition in it on which a public clause rests, with the first sentence over it.

usage: python3 -m bench.words [CRATE ..]

Without names those of all crates. Definitions in specs/private/ are left out, since no public clause rests on them. It needs
Python 3.11.
"""

from __future__ import annotations

import sys

from bench.clauses import crate_names, first_sentence
from bench.definitions.publicness import Specs
from bench.definitions.spec_files import read_specs
from bench.program import TOP, parser


def said_of(lines: list[str]) -> str:
    """The first sentence of the comment that some lines begin with, behind a colon; nothing without a comment."""
    found = []
    for line in lines:
        if not line.lstrip().startswith("--"):
            break
        found.append(line.strip().removeprefix("--").strip())
    return f": {first_sentence(' '.join(found))}" if found else ""


def listed(specs: Specs, crate: str) -> list[str]:
    """The definitions of a crate, file by file."""
    rows = []
    for (owner, module), file in sorted(specs.items()):
        if owner != crate or module.startswith("private") or not file.items:
            continue
        rows.append(f"{crate}/specs/{module.replace('.', '/')}.antt{said_of(file.head)}")
        rows += [f"  {item.name}{said_of(item.lines)}" for item in file.items]
    return rows


def main(given: list[str] | None = None) -> int:
    words = parser(__doc__)
    words.add_argument("crates", nargs="*", metavar="CRATE")
    specs = read_specs(TOP / "crates")
    for crate in words.parse_args(given).crates or crate_names():
        print(*listed(specs, crate), sep="\n")
    return 0


if __name__ == "__main__":
    sys.exit(main())
