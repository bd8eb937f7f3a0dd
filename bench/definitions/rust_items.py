"""Files of src/: their items, which are `pub`, and what their clauses say."""

from __future__ import annotations

import dataclasses
import re

GHOST_USE = re.compile(
    r"^(?P<space>[ \t]*)ghost use Rattle\.(?P<path>[\w.]+?)(?:\.\{(?P<names>[^}]*)\}| as (?P<alias>\w+))?;$", re.M
)
HIDDEN = re.compile(r'//[^\n]*|"(?:[^"\\]|\\.)*"|\'(?:[^\'\\\n]|\\[^\n]{1,8}?)\'', re.S)
WORD = re.compile(r"[A-Za-z_]\w*")
VISIBILITY = re.compile(r"pub(\([a-z]+\))?\s+")
CLAUSE = re.compile(r"\b(requires|ensures)\b\s*([a-z_]\w*)?\s*\*?\s*\{")
KINDS = ("fn", "struct", "enum", "trait", "impl", "mod", "use", "const", "type", "static", "ghost", "union")
BEFORE_FN = ("const", "unsafe")


@dataclasses.dataclass
class Item:
    """An item of a file: what it is, its name, whether `pub` stands before it, and its clauses."""

    kind: str
    name: str
    is_pub: bool
    head: str  # what stands before its body, without clauses
    clauses: list[str]
    inner: list["Item"]  # the methods of a trait or an impl, with its ghost items; the items of a module
    body: str  # the fields of a struct or an enum, the names of a `use`


def without_hidden(text: str) -> str:
    """The text with comments, texts and characters blanked, at the same places."""
    return HIDDEN.sub(lambda found: re.sub(r"[^\n]", " ", found.group()), text)


def closing(text: str, start: int) -> int:
    """The place after the bracket that closes the one at this place."""
    depth = 0
    for place in range(start, len(text)):
        if text[place] in "([{":
            depth += 1
        elif text[place] in ")]}":
            depth -= 1
            if depth == 0:
                return place + 1
    raise ValueError(f"no bracket closes the one at {start}: {text[start:start + 60]!r}")


def skip_space(text: str, place: int) -> int:
    """The place of what comes next after blanks."""
    while place < len(text) and text[place].isspace():
        place += 1
    return place


def end_of_plain(text: str, place: int) -> int:
    """The place after the `;` that ends an item, brackets passed over."""
    while text[place] != ";":
        place = closing(text, place) if text[place] in "([{" else place + 1
    return place + 1


def head_end(text: str, place: int) -> int:
    """Where the head of an item ends: at its body, its first clause or its `;`."""
    while place < len(text):
        if text[place] in "{;" or CLAUSE.match(text, place):
            return place
        place = closing(text, place) if text[place] in "([" else place + 1
    return place


def take_function(text: str, place: int, name: str, is_pub: bool) -> tuple[Item, int]:
    """The function whose head begins here, and the place after it."""
    start = place
    place = head_end(text, place)
    head, clauses = text[start:place], []
    while found := CLAUSE.match(text, place := skip_space(text, place)):
        end = closing(text, found.end() - 1)
        clauses.append(text[found.end() : end - 1])
        place = end
    place = closing(text, place) if text[place] == "{" else place + 1
    return Item("fn", name, is_pub, head, clauses, [], ""), place


def take_block(text: str, kind: str, place: int, name: str, is_pub: bool) -> tuple[Item, int]:
    """The struct, enum, trait, impl or module whose head begins here, and the place after it."""
    start = place
    place = head_end(text, place)
    head = text[start:place]
    if text[place] == ";":
        return Item(kind, name, is_pub, head, [], [], head), place + 1
    end = closing(text, place)
    inside = text[place + 1 : end - 1]
    if kind in ("struct", "enum", "union"):
        return Item(kind, name, is_pub, head, ghost_fields(inside), [], inside), end
    return Item(kind, name, is_pub, head, [], items_of(inside), ""), end


def ghost_fields(inside: str) -> list[str]:
    """What the ghost fields of a struct say."""
    found = []
    for field in re.finditer(r"\bghost \w+:\s*\{", inside):
        found.append(inside[field.end() : closing(inside, field.end() - 1) - 1])
    return found


def take_plain(text: str, kind: str, place: int, name: str, is_pub: bool) -> tuple[Item, int]:
    """A `use`, a constant, a type or a ghost item, which ends at a `;`."""
    end = end_of_plain(text, place)
    body = text[place : end - 1]
    clauses = [body.split("{", 1)[1].rsplit("}", 1)[0]] if kind == "ghost" and "{" in body else []
    return Item(kind, name, is_pub, "", clauses, [], body), end


def take_item(text: str, place: int, is_pub: bool) -> tuple[Item | None, int]:
    """The item that begins here, after what says how visible it is, and the place after it."""
    word = WORD.match(text, place)
    if not word:
        return None, place + 1
    kind, after = word.group(), skip_space(text, word.end())
    if kind in BEFORE_FN and (second := WORD.match(text, after)) and second.group() in ("fn", *BEFORE_FN):
        return take_item(text, after, is_pub)
    if kind not in KINDS:
        end = text.find(";", place)
        bracket = min((p for b in "([{" if (p := text.find(b, place)) >= 0), default=len(text))
        return None, closing(text, bracket) if bracket < end or end < 0 else end + 1
    named = WORD.match(text, after)
    name = named.group() if named else ""
    if kind == "ghost" and name == "use":
        return None, end_of_plain(text, after)
    if kind == "fn":
        return take_function(text, after, name, is_pub)
    if kind in ("struct", "enum", "trait", "impl", "mod", "union"):
        return take_block(text, kind, after, name, is_pub)
    return take_plain(text, kind, after, name, is_pub)


def items_of(text: str) -> list[Item]:
    """The items of a text whose comments and texts are blanked; those of tests are left out."""
    found: list[Item] = []
    place, is_test = 0, False
    while (place := skip_space(text, place)) < len(text):
        if text[place] == "#":
            end = closing(text, text.index("[", place))
            is_test = is_test or "cfg(test)" in text[place:end]
            place = end
            continue
        shown = VISIBILITY.match(text, place)
        item, place = take_item(text, shown.end() if shown else place, bool(shown) and not (shown and shown.group(1)))
        if item and not is_test:
            found.append(item)
        is_test = False
    return found


@dataclasses.dataclass
class RustFile:
    """A file of src/: its module, its items, and the names that its ghost imports bring."""

    module: tuple[str, ...]
    items: list[Item]
    names: dict[str, list[tuple[str, str, str]]]  # a name: crate, path, the name there ('' for the module itself)


def ghost_names(text: str) -> dict[str, list[tuple[str, str, str]]]:
    """Where the names come from that the ghost imports of a file bring."""
    names: dict[str, list[tuple[str, str, str]]] = {}
    for found in GHOST_USE.finditer(text):
        crate, _, path = found["path"].partition(".")
        if found["names"] is None:
            names.setdefault(found["alias"] or path.rsplit(".", 1)[-1], []).append((crate, path, ""))
        for word in (found["names"] or "").split(","):
            first, _, last = word.strip().partition(" as ")
            if first:
                names.setdefault(last or first, []).append((crate, path, first))
    return names


def parse_rust(module: tuple[str, ...], text: str) -> RustFile:
    """A file of src/, taken apart."""
    return RustFile(module, items_of(without_hidden(text)), ghost_names(text))
