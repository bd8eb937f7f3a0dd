"""Puts the names of the files of specs/ into docs/verify/definitions.md, or says whether they stand there.

usage: python3 -m bench.notions [--write]

They stand in the line below `<!-- specs: PLACE .. -->`. A PLACE is a crate, for all its files on which a clause of `run` rests, or
`CRATE.FILE` for one file on which some public clause rests. A file that has a PLACE of its own is left out of its crate's. Without
--write the status is 1 where the document differs. With and without it the status is 1 where a file on which a clause of `run` rests
isn't in the document, where one stands there twice, or where no public clause rests on one. `python3 -m bench.words CRATE` prints
what each file says. It needs Python 3.11.
"""

from __future__ import annotations

import collections
import pathlib
import re
import sys

from bench.clauses import TOP_CALL
from bench.definitions.publicness import Crate, Specs, public_definitions, read_crates, rested_on
from bench.definitions.spec_files import Key, read_specs
from bench.program import TOP, parser

WRITTEN = TOP / "docs" / "verify" / "definitions.md"
CRATES = "../../crates"  # from the document
PLACE = re.compile(r"(?<=<!-- specs: )([\w. ]+) -->\n.*")
MODULE = re.compile(r"^(?:pub )?mod (\w+)$", re.M)

File = tuple[str, str]  # a crate, and a module of its specs/


def files_of(keys: set[Key]) -> set[File]:
    """The files that some definitions stand in."""
    return {(key.crate, key.module) for key in keys}


def rest_of_call(specs: Specs, crates: dict[str, Crate]) -> set[File]:
    """The files on which the clauses of the program's top call rest."""
    crate, _, name = TOP_CALL
    return files_of(rested_on(specs, crates, lambda owner, item: owner == crate and item.name == name))


def orders_of(crates: pathlib.Path) -> dict[str, list[str]]:
    """The modules of each crate's specs/, as its Lib.antt has them."""
    paths = sorted(crates.glob("*/specs/Lib.antt"))
    return {path.parent.parent.name: MODULE.findall(path.read_text(encoding="utf-8")) for path in paths}


def in_order(crate: str, files: set[File], orders: dict[str, list[str]]) -> list[File]:
    """The files of a crate among some, as its Lib.antt has them."""
    found = [file for file in files if file[0] == crate]
    return sorted(found, key=lambda file: (orders[crate].index(file[1].split(".")[0]), file))


def named(places: list[str]) -> list[File]:
    """The files that are named one by one."""
    return [(crate, module) for place in places for crate, dot, module in [place.partition(".")] if dot]


def placed(places: list[str], files: set[File], orders: dict[str, list[str]]) -> list[File]:
    """The files of a section, of `files` those of each crate that it names as such."""
    found: list[File] = []
    for place in places:
        found += named([place]) or in_order(place, files, orders)
    return found


def link(crate: str, module: str) -> str:
    """A file as the document names it; files of a folder are named by the folder."""
    folder, dot, _ = module.rpartition(".")
    shown, path = (f"{folder}/", folder) if dot else (module, f"{module}.antt")
    return f"[`{shown}`]({CRATES}/{crate}/specs/{path})"


def line(files: list[File]) -> str:
    """The files of a section as the document has them: crate by crate."""
    crates: dict[str, dict[str, None]] = {}
    for crate, module in files:
        crates.setdefault(crate, {})[link(crate, module)] = None
    return "; ".join(f"{crate} {', '.join(links)}" for crate, links in crates.items())


def filled(document: str, files: set[File], orders: dict[str, list[str]]) -> tuple[str, list[File]]:
    """A document with its sections as the source has them, and all files that these name."""
    sections = [found[1].split() for found in PLACE.finditer(document)]
    rest = files - {file for places in sections for file in named(places)}
    shown = [placed(places, rest, orders) for places in sections]
    lines = iter(shown)
    text = PLACE.sub(lambda found: f"{found[1]} -->\n{line(next(lines))}", document)
    return text, [file for section in shown for file in section]


def faults(shown: list[File], files: set[File], public: set[File]) -> list[str]:
    """What is wrong with the places of a document."""
    twice = sorted(file for file, count in collections.Counter(shown).items() if count > 1)
    return [
        *(f"{crate} {module}: no public clause rests on it" for crate, module in sorted({*shown} - public)),
        *(f"{crate} {module}: it stands in two sections" for crate, module in twice),
        *(f"{crate} {module}: no section has it" for crate, module in sorted(files - {*shown})),
    ]


def main(given: list[str] | None = None) -> int:
    words = parser(__doc__, write=False)
    is_written = words.parse_args(given).write
    specs, crates = read_specs(TOP / "crates"), read_crates(TOP / "crates")
    files = rest_of_call(specs, crates)
    before = WRITTEN.read_text(encoding="utf-8")
    text, shown = filled(before, files, orders_of(TOP / "crates"))
    wrong = faults(shown, files, files_of(public_definitions(specs, crates)))
    if is_written:
        WRITTEN.write_text(text, encoding="utf-8")
    elif before != text:
        wrong.append("docs/verify/definitions.md isn't what the source says: python3 -m bench.notions --write")
    print(*wrong, f"{len(files)} files that `{TOP_CALL[-1]}` rests on, {len(shown)} in the document", sep="\n")
    return 1 if wrong else 0


if __name__ == "__main__":
    sys.exit(main())
