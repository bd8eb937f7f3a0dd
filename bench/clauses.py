"""Puts what the source says of the clauses of the program's top call into docs/verify/promises.md, or prints the contracts of crates.

usage: python3 -m bench.clauses [--write]
       python3 -m bench.clauses CRATE ..

The parts of promises.md between `<!-- clauses: PART -->` and `<!-- end -->` are made of the comments over the clauses of `run`: those
that a form's answer brings with it, and all others. Without --write the status is 1 where the document differs. Of the crates that
are named each public call is printed, which is one that lib.rt makes reachable, with its first sentence, its clauses and what the
source says above them; `all` stands for every crate of which something is promised. It needs Python 3.11.
"""

from __future__ import annotations

import dataclasses
import pathlib
import re
import sys
from collections.abc import Callable, Iterator

from bench.definitions import rust_items
from bench.definitions.publicness import Crate, impl_type, read_crate, shown_names
from bench.program import TOP, parser

WRITTEN = TOP / "docs" / "verify" / "promises.md"
TOP_CALL = ("sync_top", "", "run")
HEADLINE = re.compile(r"Of (?P<forms>`[^.]*)\. ")
PLACE = re.compile(r"(<!-- clauses: (\w+) -->\n).*?(<!-- end -->)", re.S)
CRATE = re.compile(r"^([a-z]\w*)(?: [a-z_]+=\w+)*:", re.M)
FUNCTION = re.compile(r"^(?P<space> *)(?P<shown>pub )?(?:const )?fn (?P<name>\w+)", re.M)
BLOCK = re.compile(r"^(?:pub )?(?P<kind>impl|trait)\b[^\n{;]*", re.M)


@dataclasses.dataclass(frozen=True)
class Clause:
    """One clause of a contract."""

    word: str  # requires or ensures
    name: str  # nothing for one that has no name
    formula: str
    comment: str  # what the source says above it


@dataclasses.dataclass(frozen=True)
class Call:
    """A public function, with the type that it is a method of, the first sentence of its comment, and its clauses."""

    owner: str
    name: str
    summary: str
    clauses: tuple[Clause, ...]


def comment_above(lines: list[str], number: int, mark: str) -> str:
    """The comment that ends just above a line, as one text."""
    found: list[str] = []
    for line in reversed(lines[:number]):
        bare = line.strip()
        if bare.startswith("#["):
            continue
        if not bare.startswith(mark) or (mark == "//" and bare.startswith("///")):
            break
        found.append(bare.removeprefix(mark).strip())
    return "\n".join(reversed(found)).strip()


def one_line(text: str) -> str:
    """A text with each run of blanks as one space."""
    return re.sub(r"\s+", " ", text).strip()


def first_sentence(comment: str) -> str:
    """The first sentence of a comment."""
    paragraph = one_line(comment.split("\n\n", 1)[0])
    end = re.search(r"\.(?= [A-Z`]|$)", paragraph)
    return paragraph[: end.end()] if end else paragraph


def clauses_at(plain: str, whole: str, place: int) -> Iterator[Clause]:
    """The clauses of the function whose head begins at a place; `plain` is `whole` with comments blanked."""
    lines = whole.split("\n")
    place = rust_items.head_end(plain, place)
    while found := rust_items.CLAUSE.match(plain, place := rust_items.skip_space(plain, place)):
        place = rust_items.closing(plain, found.end() - 1)
        formula = one_line(re.sub(r"//[^\n]*", "", whole[found.end() : place - 1]))
        above = comment_above(lines, whole.count("\n", 0, found.start()), "//")
        yield Clause(found.group(1), found.group(2) or "", formula, one_line(above))


def owners(plain: str) -> list[tuple[int, int, str, bool]]:
    """The impls and traits of a file: where each begins and ends, its type, and whether its functions are public as such."""
    found = []
    for block in BLOCK.finditer(plain):
        start = rust_items.head_end(plain, block.start())
        if plain[start : start + 1] != "{":
            continue
        head = plain[block.start() : start]
        name = impl_type(head.removeprefix("impl")) if block["kind"] == "impl" else rust_items.WORD.findall(head)[-1]
        if block["kind"] == "trait":
            name = re.sub(r".*\btrait (\w+).*", r"\1", one_line(head))
        found.append((start, rust_items.closing(plain, start), name, block["kind"] == "trait" or " for " in head))
    return found


def calls_of_file(crate: Crate, module: tuple[str, ...], whole: str) -> Iterator[Call]:
    """The public calls of a file."""
    plain = rust_items.without_hidden(whole)
    lines, blocks, shown = whole.split("\n"), owners(plain), shown_names(crate)
    for found in FUNCTION.finditer(plain):
        inside = [block for block in blocks if block[0] < found.start() < block[1]]
        owner, is_trait = (inside[0][2], inside[0][3]) if inside else ("", False)
        is_public = (
            (owner in shown and (bool(found["shown"]) or is_trait))
            if inside
            else (module, found["name"]) in crate.shown
        )
        if not is_public or (found["space"] and not inside):
            continue
        clauses = tuple(clauses_at(plain, whole, found.start()))
        above = comment_above(lines, whole.count("\n", 0, found.start()), "///")
        if clauses:
            yield Call(owner, found["name"], first_sentence(above), clauses)


def front(crate_folder: pathlib.Path) -> str:
    """The first sentence of a crate's front page."""
    lines = (crate_folder / "src" / "lib.rt").read_text().splitlines()
    page = [line.removeprefix("//!").strip() for line in lines if line.startswith("//!")]
    return first_sentence("\n".join(page))


def calls_of(folder: pathlib.Path) -> list[Call]:
    """The public calls of a crate that have clauses, file by file."""
    crate = read_crate(folder)
    source = folder / "src"
    found: list[Call] = []
    for module in crate.files:
        path = source.joinpath(*module).with_suffix(".rt") if module else source / "lib.rt"
        if not path.is_file():
            path = source.joinpath(*module) / "mod.rt"
        found += calls_of_file(crate, module, path.read_text())
    return found


def clause_name(clause: Clause) -> str:
    """A clause's name, with what marks one that a caller owes."""
    name = f"`{clause.name}`" if clause.name else "unnamed"
    return name if clause.word == "ensures" else f"{name} (owed)"


def title_of(call: Call) -> str:
    """A call's name and its first sentence."""
    name = f"{call.owner}::{call.name}" if call.owner else call.name
    return f"**`{name}`**{': ' + call.summary if call.summary else ''}"


def headlines(clauses: tuple[Clause, ...]) -> str:
    """The clauses that say what a form's answer brings with it, a paragraph each."""
    parts = []
    for clause in clauses:
        if of := HEADLINE.match(clause.comment):
            text = clause.comment[of.end() :].replace("Not said:", "*Not said*:")
            parts.append(f"**`{clause.name}`** ({of['forms']}). {text}\n")
    return "\n".join(parts)


def others(clauses: tuple[Clause, ...]) -> str:
    """All other clauses, a row each."""
    rows = [f"| `{one.name}` | {one.comment} |\n" for one in clauses if not HEADLINE.match(one.comment)]
    return "".join(["| clause | what it says |\n", "|---|---|\n", *rows])


PARTS: dict[str, Callable[[tuple[Clause, ...]], str]] = {"headlines": headlines, "others": others}


def filled(document: str, clauses: tuple[Clause, ...]) -> str:
    """A document with its parts as the source has them."""
    return PLACE.sub(lambda found: f"{found[1]}\n{PARTS[found[2]](clauses)}\n{found[3]}", document)


def whole(call: Call) -> str:
    """A call with the formulas of its clauses."""
    lines = [
        f"- {clause_name(clause)}: {clause.comment + ' ' if clause.comment else ''}`{clause.formula}`"
        for clause in call.clauses
    ]
    return "\n".join([title_of(call), "", *lines, ""])


def page(names: list[str]) -> list[str]:
    """The crates with their calls, in this order; those without a call that has clauses are left out."""
    parts = []
    for name in names:
        folder = TOP / "crates" / name
        if (folder / "src" / "lib.rt").is_file() and (calls := calls_of(folder)):
            parts += [f"## {name}\n\n{front(folder)}\n", *map(whole, calls)]
    return parts


def crate_names() -> list[str]:
    """The crates of which something is promised, in the order in which they stand on one another."""
    names = CRATE.findall((TOP / "crates.txt").read_text())
    return [name for name in names if not name.endswith("_tests") and name not in ("ears", "test_makers", "sync_main")]


def top_clauses() -> tuple[Clause, ...]:
    """The clauses of the program's top call."""
    crate, owner, name = TOP_CALL
    return next(call.clauses for call in calls_of(TOP / "crates" / crate) if (call.owner, call.name) == (owner, name))


def main(given: list[str] | None = None) -> int:
    words = parser(__doc__, write=False)
    words.add_argument("crates", nargs="*", metavar="CRATE")
    said = words.parse_args(given)
    if said.crates:
        print(*page(crate_names() if said.crates == ["all"] else said.crates), sep="\n", end="")
        return 0
    clauses = top_clauses()
    if silent := [clause.name for clause in clauses if not clause.comment]:
        print(f"clauses of {TOP_CALL[-1]} without a comment: {', '.join(silent)}")
        return 1
    before = WRITTEN.read_text()
    text = filled(before, clauses)
    if said.write:
        WRITTEN.write_text(text)
    elif before != text:
        print("docs/verify/promises.md isn't what the source says: python3 -m bench.clauses --write")
        return 1
    print(f"{len(clauses)} clauses, {len(PLACE.findall(text))} parts")
    return 0


if __name__ == "__main__":
    sys.exit(main())
