"""Files of specs/: their imports, and the definitions with the lines that are theirs."""

from __future__ import annotations

import dataclasses
import functools
import pathlib
import re

USE = re.compile(r"^(?P<lead>(?:pub )?use )Rattle\.(?P<path>[\w.]+?)(?:\.\{(?P<names>[^}]*)\}| as (?P<alias>\w+))?$")
KEYWORDED = re.compile(r"^(?:(?:abbrev|unfoldable)(?: pub)?|pub(?: record| data)?|record|data) ([^\s:({]+)")
PLAIN = re.compile(r"^([^\s:({]+)(?: \([^=]*?\))* :(?: |$)")
DATA = re.compile(r"^(?:pub )?data ")
CASE = re.compile(r"^  ([^\s:({]+) :(?: |$)")
NOT_HEADS = ("use ", "pub use ", "pub mod ", "mod ", "unfolding ", "infix", "--", "}", ")")
PIECES = re.compile(r"[^\s(){}\[\],;`]+")
FIELDS = re.compile(r"(?<=[{;])\s*[\w-]+\s*=(?!=)")
DECLARED_FIELD = re.compile(r"^\s+(?:pub )?[\w-]+ :(?= )", re.M)


@dataclasses.dataclass(frozen=True, order=True)
class Key:
    """A definition: its crate, the module of specs/ that has it, and its name."""

    crate: str
    module: str
    name: str


@dataclasses.dataclass(frozen=True)
class Import:
    """What a line of imports names: the crate and the path below it, and names, an alias or the module itself."""

    lead: str
    crate: str
    path: str  # `specs.Condition`, `specs.declared.levels.Level`, `proofs.Windows`
    names: tuple[str, ...]  # as they are written, `a` or `a as b`
    alias: str | None

    @property
    def module(self) -> str | None:
        """The module of specs/ that it names, where it names one."""
        return self.path.removeprefix("specs.") if self.path.startswith("specs.") else None

    @property
    def local(self) -> str:
        """The name by which a module that is imported whole is called."""
        return self.alias or self.path.rsplit(".", 1)[-1]


@dataclasses.dataclass
class Item:
    """A definition with the comment over it: its name and its lines."""

    name: str
    lines: list[str]

    @property
    def code(self) -> str:
        """Its lines without comments and texts."""
        bare = (re.sub(r'"(?:[^"\\]|\\.)*"', '""', line) for line in self.lines if not line.lstrip().startswith("--"))
        return "\n".join(re.sub(r"(?<!\S)--.*", "", line) for line in bare)

    @property
    def cases(self) -> list[str]:
        """The cases of a type that has some, which are names of their own."""
        is_data = any(DATA.match(line) for line in self.lines)
        return [found.group(1) for line in self.lines if is_data and (found := CASE.match(line))]


@dataclasses.dataclass
class SpecFile:
    """A file of specs/: the lines at its head, its imports, and its definitions in order."""

    crate: str
    module: str
    head: list[str]
    imports: list[Import]
    items: list[Item]

    @functools.cached_property
    def names(self) -> dict[str, Item]:
        """Each name that the file gives, with the definition that gives it: its own, and those of a type's cases."""
        return {name: item for item in self.items for name in (item.name, *item.cases)}


def import_of(line: str) -> Import | None:
    """The import of a line of .antt, where it is one of a crate's."""
    found = USE.match(line)
    if not found:
        return None
    crate, _, path = found["path"].partition(".")
    names = tuple(name.strip() for name in (found["names"] or "").split(",") if name.strip())
    return Import(found["lead"], crate, path, names, found["alias"])


def head_of(line: str, current: str | None) -> str | None:
    """The name of the definition that a line begins, where it begins one."""
    if not line or line[0] in " \t" or line.startswith(NOT_HEADS):
        return None
    keyworded = KEYWORDED.match(line)
    if keyworded:
        return keyworded.group(1)
    plain = PLAIN.match(line)
    return plain.group(1) if plain and plain.group(1) != current else None


def leading(lines: list[str]) -> int:
    """How many of the last lines belong to the definition that comes next: its comment and its fixity."""
    count = 0
    while count < len(lines) and (lines[-1 - count].startswith(("--", "infix"))):
        count += 1
    return count


def items_of(lines: list[str]) -> tuple[list[str], list[Item]]:
    """The lines before the first definition, and the definitions."""
    before: list[str] = []
    items: list[Item] = []
    for line in lines:
        rest = items[-1].lines if items else before
        name = head_of(line, items[-1].name if items else None)
        if name is None:
            rest.append(line)
            continue
        count = leading(rest)
        taken = rest[len(rest) - count :]
        del rest[len(rest) - count :]
        items.append(Item(name, [*taken, line]))
    return before, items


def trimmed(lines: list[str]) -> list[str]:
    """The lines without empty ones at the end."""
    end = len(lines)
    while end and not lines[end - 1].strip():
        end -= 1
    return lines[:end]


def parse(crate: str, module: str, text: str) -> SpecFile:
    """A file of specs/, taken apart."""
    lines = text.split("\n")
    imports = [(number, found) for number, line in enumerate(lines) if (found := import_of(line))]
    native = [number for number, line in enumerate(lines) if line.startswith("use ") and not import_of(line)]
    last = max([number for number, _ in imports] + native, default=-1)
    first = min([number for number, _ in imports] + native, default=0)
    before, items = items_of(lines[last + 1 :])
    head = lines[:first] if last >= 0 else before
    for item in items:
        item.lines = trimmed(item.lines)
    kept = [Import(lines[number], "native", "", (), None) for number in native]
    return SpecFile(crate, module, trimmed(head), kept + [found for _, found in imports], items)


def references(code: str) -> set[str]:
    """The words of a text by which definitions may be named: the first piece of each, and whole paths.

    A step of a `do`, written with an arrow, names `◌>>=◌`.
    """
    bare = DECLARED_FIELD.sub(" ", FIELDS.sub(" ", code))
    found = {word for word, sign in ((">>=", "←"), ("[]", "[]")) if sign in code}
    for piece in PIECES.findall(bare):
        found.add(piece)
        found.add(piece.split(".", 1)[0])
        if piece.startswith(("¬", "λ")) or not piece[0].isalnum():
            found.update(re.findall(r"[\w-]+", piece))
    return found


def uses(code_words: set[str], name: str) -> bool:
    """Whether a text with these words uses the name, which may be an operator with gaps."""
    if "◌" not in name:
        return name in code_words
    return all(part in code_words for part in name.split("◌") if part)


def module_of(specs: pathlib.Path, path: pathlib.Path) -> str:
    """The module of a file below specs/."""
    return ".".join(path.relative_to(specs).with_suffix("").parts)


def read_specs(crates: pathlib.Path) -> dict[tuple[str, str], SpecFile]:
    """All files of specs/ of all crates."""
    return {
        (specs.parent.name, module_of(specs, path)): parse(specs.parent.name, module_of(specs, path), path.read_text())
        for specs in sorted(crates.glob("*/specs"))
        for path in sorted(specs.rglob("*.antt"))
    }
