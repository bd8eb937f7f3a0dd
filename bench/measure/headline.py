"""Lists the definitions of specs/ on which a word of a clause rests, file by file, with their lengths.

usage: python3 -m bench.measure.headline CRATE.FILE.NAME [CRATE.FILE.NAME ..]
       python3 -m bench.measure.headline --document [--write]

As `sync_top.LoopFree.IsCheckedLoopFree`: a definition counts with the lines of its signature and body, without
comments, and each once. Words of the toolchain's library aren't counted. With --document the numbers in
docs/verify/headline.md are compared, or written: a section says by `<!-- rests on: NAME .. -->` of which words it is, and each
row which files it counts; each definition counts in the first section that rests on it. Two of the numbers stand in README.md too.
The status is 1 where a number differs or a file has no row. It needs Python 3.11.
"""

from __future__ import annotations

import re
import sys
from collections.abc import Iterator

from bench.definitions.publicness import Specs, named_by
from bench.definitions.spec_files import Key, read_specs
from bench.program import TOP, parser


def key_of(name: str) -> Key:
    """What `CRATE.FILE.NAME` names; a file may be in a folder, as `private.FILE`."""
    crate, _, rest = name.partition(".")
    module, _, last = rest.rpartition(".")
    return Key(crate, module, last)


def named(specs: Specs, key: Key) -> Iterator[Key]:
    """The definitions that one names, as its file calls them."""
    file = specs[key.crate, key.module]
    for near, origin in named_by(file, file.names[key.name].code):
        if near:
            yield Key(key.crate, key.module, near)
        elif origin and origin[1].startswith("specs."):
            yield Key(origin[0], origin[1].removeprefix("specs."), origin[2])


def closure(specs: Specs, roots: list[Key]) -> list[Key]:
    """All definitions that the roots rest on, in the order in which they are met, the deepest first."""
    seen: set[Key] = set()
    order: list[Key] = []

    def visit(key: Key) -> None:
        file = specs.get((key.crate, key.module))
        if file is None or key.name not in file.names:
            return
        own = Key(key.crate, key.module, file.names[key.name].name)
        if own in seen:
            return
        seen.add(own)
        for other in named(specs, own):
            visit(other)
        order.append(own)

    for root in roots:
        visit(root)
    return order


def length(specs: Specs, key: Key) -> int:
    """How many lines a definition has, without comments."""
    code = specs[key.crate, key.module].names[key.name].code
    return sum(1 for line in code.split("\n") if line.strip())


def files_of(cell: str) -> list[tuple[str, str]]:
    """The files of specs/ that the first cell of a row names: each with its crate."""
    found, crate = [], ""
    for word, file in re.findall(r"([a-z]\w+)|`([\w.]+)`", cell):
        crate = word or crate
        if file:
            found.append((crate, file))
    return found


def counted_row(row: str, counts: dict[tuple[str, str], int]) -> str:
    """A row of a table with its number of lines; what it counts is taken out of the counts."""
    cells = row.split("|")
    lines = sum(counts.pop(file, 0) for file in files_of(cells[1]))
    return "|".join([*cells[:2], f" {lines} ", *cells[3:]])


def counted_section(specs: Specs, text: str, seen: set[Key]) -> tuple[str, list[str]]:
    """A section with its numbers, and the files that have no row; `seen` is what earlier sections counted."""
    rests = re.search(r"<!-- rests on: ([\w. ]+) -->", text)
    if rests is None:
        return text, []
    counts: dict[tuple[str, str], int] = {}
    for key in closure(specs, [key_of(name) for name in rests[1].split()]):
        if key not in seen:
            seen.add(key)
            counts[key.crate, key.module] = counts.get((key.crate, key.module), 0) + length(specs, key)
    whole = sum(counts.values())
    rows = [counted_row(line, counts) if re.match(r"\| [a-z]\w+ `", line) else line for line in text.split("\n")]
    made = re.sub(r"\d+ lines", f"{whole} lines", "\n".join(rows), count=1)
    return made, [f"{crate} `{file}` has no row" for crate, file in counts]


def lost_in_readme(readme: str, headline: str) -> list[str]:
    """What README.md should say of how much has to be read, where it has other numbers than headline.md."""
    numbers = dict(re.findall(r"^## .*\(`(\w+)`\): (\d+) lines", headline, re.M))
    first, more = numbers["IsLoopFree"], numbers["IsCheckedLoopFree"]
    wanted = f"read {first} lines of definitions; that it is the plan in your file, {more} more"
    return [] if wanted in readme else [f"README.md should say: {wanted}"]


def document(is_written: bool) -> int:
    """Compares the numbers of docs/verify/headline.md with what stands in specs/, or writes them."""
    path, specs, seen = TOP / "docs" / "verify" / "headline.md", read_specs(TOP / "crates"), set[Key]()
    text = path.read_text(encoding="utf-8")
    made = [counted_section(specs, part, seen) for part in re.split(r"(?m)^(?=## )", text)]
    lost, whole = [line for _, lines in made for line in lines], "".join(part for part, _ in made)
    lost += lost_in_readme((TOP / "README.md").read_text(encoding="utf-8"), whole)
    if is_written:
        path.write_text(whole, encoding="utf-8")
    elif whole != text:
        lost.append("docs/verify/headline.md has other numbers: python3 -m bench.measure.headline --document --write")
    print(*lost, f"{sum(length(specs, key) for key in seen)} lines", sep="\n")
    return 1 if lost else 0


def main() -> int:
    words = parser(__doc__, document=False, write=False)
    words.add_argument("names", nargs="*", metavar="CRATE.FILE.NAME")
    given = words.parse_args()
    if given.document:
        return document(given.write)
    if not given.names:
        words.error("name a word, or ask for --document")
    specs = read_specs(TOP / "crates")
    files: dict[tuple[str, str], list[Key]] = {}
    for key in closure(specs, [key_of(name) for name in given.names]):
        files.setdefault((key.crate, key.module), []).append(key)
    for (crate, module), keys in files.items():
        count = sum(length(specs, key) for key in keys)
        listed = ", ".join(f"`{key.name}`" for key in keys)
        print(f"| {crate} `specs/{module.replace('.', '/')}.antt` | {count} | {listed} |")
    print(f"{sum(length(specs, key) for keys in files.values() for key in keys)} lines")
    return 0


if __name__ == "__main__":
    sys.exit(main())
