"""Which definitions a public clause rests on: one of what lib.rt makes reachable names them, or a definition that one names.

Invariants and ghost fields of types don't count, since no caller sees them.
"""

from __future__ import annotations

import dataclasses
import pathlib
import re
from collections.abc import Callable

from bench.definitions.rust_items import WORD, Item, RustFile, parse_rust
from bench.definitions.spec_files import Key, SpecFile, references, uses

Specs = dict[tuple[str, str], SpecFile]
Declared = tuple[str, str]  # a crate and a type that it declares
Origin = tuple[str, str, str]  # a crate, a path below it, a name there ('' for the module itself)


@dataclasses.dataclass
class Crate:
    """A crate's files of src/, by module, and the items that are reachable."""

    name: str
    files: dict[tuple[str, ...], RustFile]
    shown: set[tuple[tuple[str, ...], str]]  # module and name of each item that lib.rt makes reachable


def rust_module(source: pathlib.Path, path: pathlib.Path) -> tuple[str, ...]:
    """The module of a file of src/: none for the root."""
    parts = path.relative_to(source).with_suffix("").parts
    return () if parts in (("lib",), ("main",)) else tuple(part for part in parts if part != "mod")


def used_names(body: str) -> list[tuple[tuple[str, ...], str]]:
    """The paths that a `use` names, each with the name by which it is known."""
    body = re.sub(r"\s+", " ", body).strip()
    if "{" not in body:
        path, _, alias = body.partition(" as ")
        parts = tuple(path.strip().split("::"))
        return [(parts, alias.strip() or parts[-1])]
    front, inside = body.split("{", 1)
    parts = tuple(part for part in front.strip().split("::") if part)
    found = []
    for word in inside.rsplit("}", 1)[0].split(","):
        path, _, alias = word.strip().partition(" as ")
        if path:
            below = tuple(path.split("::"))
            found.append((parts + below, alias or below[-1]))
    return found


def absolute(module: tuple[str, ...], parts: tuple[str, ...]) -> tuple[str, ...]:
    """A path of a `use` from the crate's root; one of another crate stays as it is."""
    if parts[0] == "crate":
        return parts[1:]
    if parts[0] == "self":
        return module + parts[1:]
    while parts[0] == "super":
        module, parts = module[:-1], parts[1:]
    return module + parts


def show(crate: Crate, module: tuple[str, ...]) -> None:
    """Notes what is reachable where a module is."""
    file = crate.files.get(module)
    for item in file.items if file else []:
        if not item.is_pub:
            continue
        if item.kind == "mod":
            show(crate, (*module, item.name))
        elif item.kind == "use":
            for parts, _ in used_names(item.body):
                show_one(crate, absolute(module, parts))
        else:
            crate.shown.add((module, item.name))


def show_one(crate: Crate, path: tuple[str, ...]) -> None:
    """Notes an item that a `pub use` names, where it is of this crate."""
    module, name = path[:-1], path[-1]
    if path in crate.files:
        show(crate, path)
    elif module in crate.files:
        for item in crate.files[module].items:
            if item.name == name and item.kind == "use" and item.is_pub:
                show_one(crate, absolute(module, used_names(item.body)[0][0]))
        crate.shown.add((module, name))


def read_crate(folder: pathlib.Path) -> Crate:
    """A crate's files, and what is reachable of it."""
    source = folder / "src"
    files = {
        rust_module(source, path): parse_rust(rust_module(source, path), path.read_text())
        for path in sorted(source.rglob("*.rt"))
    }
    crate = Crate(folder.name, files, set())
    show(crate, ())
    return crate


def impl_type(head: str) -> str:
    """The type of an `impl`: its name."""
    bare = re.sub(r"<[^<>]*>", "", re.sub(r"<[^<>]*>", "", head))
    words: list[str] = WORD.findall(bare.split(" for ", 1)[-1].split(" where ", 1)[0])
    return words[-1] if words else ""


def shown_names(crate: Crate) -> set[str]:
    """The names of what is reachable of a crate."""
    return {name for _, name in crate.shown}


def clauses_of_item(crate: Crate, module: tuple[str, ...], item: Item) -> list[str]:
    """The clauses of an item that a caller meets: none where it isn't reachable."""
    if item.kind == "impl":
        if impl_type(item.head) not in shown_names(crate):
            return []
        is_trait = " for " in item.head
        kept = [inner for inner in item.inner if is_trait or inner.is_pub or inner.kind == "ghost"]
        return [clause for inner in kept for clause in inner.clauses]
    if (module, item.name) not in crate.shown:
        return []
    return item.clauses + [clause for inner in item.inner for clause in inner.clauses]


def without_invariants(item: Item) -> Item:
    """The item without the invariants of its types."""
    inner = [it for it in item.inner if not (it.kind == "ghost" and it.name == "invariant")]
    return dataclasses.replace(item, inner=inner, clauses=[] if item.kind == "struct" else item.clauses)


def types_in(file: RustFile, items: list[Item], name: str) -> list[str]:
    """What a type that a definition names has: its fields, and the value that clauses see of it."""
    found = []
    for item in items:
        if item.kind in ("struct", "enum") and item.name == name:
            found.append(item.body)
        if item.kind == "impl" and item.head.startswith("Model") and impl_type(item.head) == name:
            found += [
                clause for it in item.inner if it.kind == "ghost" and it.name != "invariant" for clause in it.clauses
            ]
    return found


class Closure:
    """The definitions that some clauses rest on."""

    def __init__(self, specs: Specs, crates: dict[str, Crate]) -> None:
        self.specs = specs
        self.crates = crates
        self.reached: set[Key] = set()
        self.types: set[Declared] = set()

    def resolve(self, crate: str, module: str) -> tuple[str, str]:
        """The crate and module that a path of specs/ names, through what Lib.antt passes on."""
        if (crate, module) in self.specs or (crate, "Lib") not in self.specs:
            return crate, module
        first = module.split(".", 1)[0]
        for line in self.specs[crate, "Lib"].imports:
            if line.lead.startswith("pub") and line.local == first and line.module:
                return line.crate, line.module + module[len(first) :]
        return crate, module

    def note(self, crate: str, path: str, name: str) -> None:
        """Takes in what an import brings: a definition, or a type that a crate declares."""
        if not path.startswith("specs."):
            return
        crate, module = self.resolve(crate, path.removeprefix("specs."))
        if module.startswith("declared."):
            parts = [part for part in (*module.split("."), name) if part[:1].isupper() and part != "TheVariants"]
            if parts:
                self.note_type(crate, parts[0])
        elif (crate, module) in self.specs and name in self.specs[crate, module].names:
            self.note_definition(Key(crate, module, self.specs[crate, module].names[name].name))

    def note_type(self, crate: str, name: str) -> None:
        """Takes in a type: what is seen of it, and the types of its fields."""
        if (crate, name) in self.types or crate not in self.crates:
            return
        self.types.add((crate, name))
        for file in self.crates[crate].files.values():
            for text in types_in(file, file.items, name):
                self.note_clause(file, text)
                for word in set(WORD.findall(text)):
                    if word != name and any(
                        it.name == word and it.kind in ("struct", "enum")
                        for f in self.crates[crate].files.values()
                        for it in f.items
                    ):
                        self.note_type(crate, word)

    def note_definition(self, key: Key) -> None:
        """Takes in a definition, and those that it names."""
        if key in self.reached:
            return
        self.reached.add(key)
        file = self.specs[key.crate, key.module]
        for near, origin in named_by(file, file.names[key.name].code):
            if near:
                self.note_definition(Key(key.crate, key.module, file.names[near].name))
            if origin:
                self.note(*origin)

    def note_clause(self, file: RustFile, clause: str) -> None:
        """Takes in what a clause names by its file's imports."""
        words = references(clause)
        for word in words:
            first, _, rest = word.partition(".")
            for name in {word, first}:
                for crate, path, there in file.names.get(name, []):
                    self.note(crate, path, there or rest.split(".", 1)[0])
        for name, origins in file.names.items():
            if "◌" in name and uses(words, name):
                for crate, path, there in origins:
                    self.note(crate, path, there)


def named_by(file: SpecFile, code: str) -> list[tuple[str, Origin | None]]:
    """What a definition's text names: definitions of its own file, and what imports bring."""
    words = references(code)
    found: list[tuple[str, Origin | None]] = [(name, None) for name in file.names if uses(words, name)]
    for line in file.imports:
        for name in line.names:
            first, _, last = name.partition(" as ")
            if uses(words, last or first):
                found.append(("", (line.crate, line.path, first)))
        if not line.names and line.module:
            start = line.local + "."
            found += [
                ("", (line.crate, line.path, word[len(start) :].split(".", 1)[0]))
                for word in words
                if word.startswith(start)
            ]
    return found


def rested_on(specs: Specs, crates: dict[str, Crate], is_meant: Callable[[str, Item], bool]) -> set[Key]:
    """The definitions that the public clauses of some items rest on; which items, a test of the crate's name and the item says."""
    closure = Closure(specs, crates)
    for crate in crates.values():
        for module, file in crate.files.items():
            for item in file.items:
                if is_meant(crate.name, item):
                    for clause in clauses_of_item(crate, module, without_invariants(item)):
                        closure.note_clause(file, clause)
    return closure.reached


def public_definitions(specs: Specs, crates: dict[str, Crate]) -> set[Key]:
    """The definitions that some public clause rests on."""
    return rested_on(specs, crates, lambda _, __: True)


def read_crates(folder: pathlib.Path) -> dict[str, Crate]:
    """All crates with a src/."""
    return {path.parent.name: read_crate(path.parent) for path in sorted(folder.glob("*/src"))}
