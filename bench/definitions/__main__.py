"""Looks whether specs/private/ of each crate has just the definitions on which no public clause rests.

usage: python3 -m bench.definitions [--crates FOLDER]

A definition is public where a `requires`, `ensures` or `ghost` clause, or the value of a type, that lib.rt makes reachable names
it, in its own crate or one above, or a public definition does; invariants of types don't count, since no caller sees them. It
errs to one side: a bound variable or a field that is spelled like a definition makes it public. Each that stands on the wrong
side is a line; the last line is `N definitions, M on the wrong side`, and the status is 0 where M is 0. It needs Python 3.11.
"""

from __future__ import annotations

import pathlib
import sys

from bench.definitions.publicness import Specs, public_definitions, read_crates
from bench.definitions.spec_files import Key, read_specs
from bench.program import TOP, parser

PRIVATE = "private."


def misplaced(specs: Specs, public: set[Key]) -> list[str]:
    """The definitions that stand on the wrong side of private/, each with the side on which it belongs."""
    found = []
    for (crate, module), file in specs.items():
        is_private = module.startswith(PRIVATE)
        wrong = [item.name for item in file.items if (Key(crate, module, item.name) in public) == is_private]
        side = "a public clause rests on" if is_private else "no public clause rests on"
        found += [f"{crate}/specs/{module.replace('.', '/')}.antt: {side} {name}" for name in wrong]
    return found


def main(given: list[str] | None = None) -> int:
    words = parser(__doc__)
    words.add_argument("--crates", type=pathlib.Path, default=TOP / "crates", metavar="FOLDER")
    crates = words.parse_args(given).crates
    specs = read_specs(crates)
    wrong = misplaced(specs, public_definitions(specs, read_crates(crates)))
    for line in wrong:
        print(line)
    print(f"{sum(len(file.items) for file in specs.values())} definitions, {len(wrong)} on the wrong side")
    return 1 if wrong else 0


if __name__ == "__main__":
    sys.exit(main())
