"""Sentences on refused plans: the file, its line and text, the key, what would be right, and the nearest name."""

from __future__ import annotations

import re

from murdjohe.core import documents, levels, refusals
from murdjohe.core.documents import Document
from murdjohe.core.refusals import Refusal
from murdjohe.plan import plan_lines
from murdjohe.plan.plan_lines import PlanLines

TYPE_CHECKING = False
if TYPE_CHECKING:
    from collections.abc import Callable
    from typing import Any

NAME = re.compile(r"[A-Za-z0-9_-]{1,32}")
POSITION = re.compile(r" \(at line (\d+), column (\d+)\)$")
BIG_NUMBER = re.compile(r"^[^#\n]*=[ \t]*[+-]?[\d_]{19,}[ \t]*(?:#|$)", re.M)
KINDS = {
    plan_lines.TEXT: "a text in quotes",
    plan_lines.NUMBER: "a whole number without quotes",
    "array": "an array of tables",
}


class Finding:
    """What is wrong in a plan: its line, what it is, and what would be right, where that is more than the number says."""

    def __init__(self, line: int | None, what: str, remedy: str | None = None) -> None:
        self.line = line
        self.what = what
        self.remedy = remedy


def legal(name: str) -> str:
    """A name that a plan can have, as near to this one as can be."""
    return re.sub(r"[^A-Za-z0-9_-]", "-", name.strip())[:32] or "N1"


def name_fault(name: str) -> tuple[str, str]:
    """How a name breaks the rule for names, and what would be right."""
    signs = "".join(dict.fromkeys(re.findall(r"[^A-Za-z0-9_-]", name)))
    if not name:
        what = "is empty"
    elif len(name) > 32:
        what = f"has {len(name)} signs"
    else:
        what = "has a dot" if signs == "." else f"has the sign{'s' * (len(signs) > 1)} {' '.join(map(repr, signs))}"
    return what, f'a name is 1 to 32 of A-Z a-z 0-9 _ -, as "{legal(name)}"'


def kind_of(value: Any) -> str:
    """What kind of value it is, in words."""
    if isinstance(value, bool):
        return "true or false"
    kinds = ((str, "a text"), (int, "a whole number"), (float, "a number with a point"), (list, "an array"))
    return next((said for kind, said in (*kinds, (dict, "a table")) if isinstance(value, kind)), "a date or time")


def is_kind(value: Any, kind: str) -> bool:
    wanted = {plan_lines.TEXT: str, plan_lines.NUMBER: int}.get(kind, list)
    return isinstance(value, wanted) and not isinstance(value, bool)


def title(plan: PlanLines, section: str, number: int) -> str:
    """How a sentence calls a row."""
    if section == "head":
        return "the head"
    name = plan.row(section, number).get("name")
    return f'{section} "{name}"' if isinstance(name, str) else f"{section} number {number}"


def keys_of(plan: PlanLines, section: str) -> dict[str, str]:
    """The keys that a row of a section may have in the version of the plan."""
    keys = dict(plan_lines.KEYS[section])
    if section == "link" and plan.tables.get("version") != 2:
        keys.pop("bundle")
    return keys


def on_document(plan: PlanLines) -> Finding:
    """Where the bytes are no TOML document."""
    document = plan.document
    if kind := documents.binary_kind_of(document):
        return Finding(None, f"it is {kind}, and no plan", "name the plan here; are two words of the command swapped?")
    if fault := documents.encoding_fault(document):
        return Finding(fault[0], fault[1], "")
    kind = documents.kind_of(document)
    if kind not in (None, "a plan"):
        return Finding(1, f"it is {kind}, and no plan", "name the plan here; are two words of the command swapped?")
    first = document.line(1)
    if not plan.masked.count("=") and re.search(r"[,;\t]", first):
        return Finding(1, "it is a table, and no plan", "`murdjohe import` makes a plan of tables")
    if plan.fault:
        found = POSITION.search(plan.fault)
        what = "it is no TOML document: " + (plan.fault[: found.start()] if found else plan.fault)
        if not found:
            return Finding(len(document.lines), what)
        return Finding(int(found[1]), f"{what}, at column {found[2]}")
    if number := BIG_NUMBER.search(plan.masked):
        return Finding(plan.line_at(number.start()), "it has an integer beyond 64 bits")
    return Finding(None, "it is no TOML document that is read", "tables may be nested up to 80 deep")


def on_keys(plan: PlanLines, section: str, number: int) -> Finding:
    """Where a table has an unknown key, or lacks one (23)."""
    row, known = plan.row(section, number), keys_of(plan, section)
    name = title(plan, section, number)
    for key in row:
        if key in known:
            continue
        line = plan.line_of_table(key) if section == "head" else plan.line(section, number, key)
        if key == "bundle" and section == "link":
            return Finding(line, f'{name} has the key "bundle"', "write `version = 2` at the head")
        remedy = f"the keys are {', '.join(known)}"
        return Finding(line, f'{name} has the unknown key "{key}"{documents.hint(key, known)}', remedy)
    for key in plan_lines.MUST[section]:
        if key not in row:
            return Finding(plan.line(section, number), f'{name} lacks the key "{key}"', f"add `{key} = ..`")
    return Finding(plan.line(section, number), f"{name} {refusals.says('plan', 23)}")


def on_head_kinds(plan: PlanLines) -> Finding:
    """Where a value at the head is of another kind (24)."""
    for key, value in plan.tables.items():
        kind, line = plan_lines.KEYS["head"].get(key, ""), plan.line_of_table(key)
        if kind == "array" and isinstance(value, dict):
            return Finding(line, f'"{key}" is one table', f"write `[[{key}]]`, with two brackets")
        if kind and not is_kind(value, kind):
            return Finding(line, f'"{key}" is {kind_of(value)}', f"it has to be {KINDS[kind]}")
        if key == "version" and value not in (1, 2):
            return Finding(line, f"the version is {value}", "the versions are 1 and 2")
        if key == "option" and value not in levels.LEVELS:
            remedy = 'the options are "I" and "II"'
            return Finding(line, f'the option is "{value}"', remedy)
    return Finding(None, f"the head {refusals.says('plan', 24)}")


def on_kinds(plan: PlanLines, section: str, number: int) -> Finding:
    """Where a value is of another kind than its key's (24)."""
    if section == "head":
        return on_head_kinds(plan)
    name = title(plan, section, number)
    for key, value in plan.row(section, number).items():
        kind = plan_lines.KEYS[section].get(key)
        if kind and not is_kind(value, kind):
            line = plan.line(section, number, key)
            return Finding(line, f'{name} has for "{key}" {kind_of(value)}', f"it has to be {KINDS[kind]}")
    return Finding(plan.line(section, number), f"{section} number {number} is no table", f"write `[[{section}]]`")


def inputs_of(plan: PlanLines, element: str, section: str, number: int) -> int:
    """How many nominated inputs an element has by the rows up to this one."""
    links = plan.rows("link")[: number if section == "link" else None]
    sources = plan.rows("source")[: number if section == "source" else 0]
    lines = sum(1 for link in links for end in "ab" if link.get(end) == element and link.get(f"priority_{end}", 0) != 0)
    return lines + sum(1 for row in sources if row.get("at") == element and row.get("priority", 1) != 0)


def on_limit(plan: PlanLines, section: str, number: int) -> Finding:
    """Where there are too many rows, or inputs at an element (15)."""
    line, name = plan.line(section, number), title(plan, section, number)
    if number > plan_lines.ROWS[section]:
        return Finding(
            line, f"{name} is number {number}", f"a plan has at most {plan_lines.ROWS[section]:,} {section}s"
        )
    row = plan.row(section, number)
    ends = [row.get(key) for key in ("a", "b", "at") if key in row]
    full = [str(end) for end in ends if inputs_of(plan, str(end), section, number) > plan_lines.INPUTS]
    whose = f' of element "{full[0]}"' if full else " of an element"
    return Finding(
        line, f"{name} is nominated input {plan_lines.INPUTS + 1}{whose}", f"an element has at most {plan_lines.INPUTS}"
    )


def on_name(plan: PlanLines, section: str, number: int, key: str = "name") -> Finding:
    """Where a name breaks the rule for names (16, and 39 for a bundle)."""
    name = str(plan.row(section, number).get(key, ""))
    line, whose = plan.line(section, number, key), "its bundle's name" if key == "bundle" else "its name"
    what, remedy = name_fault(name)
    return Finding(line, f'{section} number {number}: {whose} "{name}" {what}', remedy)


def on_twice(plan: PlanLines, section: str, number: int) -> Finding:
    """Where an earlier row has the name (17)."""
    name = plan.row(section, number).get("name")
    spaces = ("link", "source") if section == "source" else (section,)
    for other in spaces:
        for earlier in range(1, number if other == section else len(plan.rows(other)) + 1):
            if plan.row(other, earlier).get("name") == name:
                first = plan.line(other, earlier, "name")
                what = f'{section} number {number} has the name "{name}" of {other} number {earlier}'
                return Finding(plan.line(section, number, "name"), what + (f", line {first}" if first else ""))
    return Finding(plan.line(section, number, "name"), f"{title(plan, section, number)} {refusals.says('plan', 17)}")


def on_element(plan: PlanLines, section: str, number: int) -> Finding:
    """Where an end or a source's element isn't there (18)."""
    row, names = plan.row(section, number), plan.names("element")
    for key in ("a", "b", "at"):
        if key in row and row[key] not in names:
            where = "is at" if key == "at" else f"has end {key}"
            what = f'{title(plan, section, number)} {where} "{row[key]}", which names no element'
            return Finding(plan.line(section, number, key), what + documents.hint(str(row[key]), names))
    return Finding(plan.line(section, number), f"{title(plan, section, number)} {refusals.says('plan', 18)}")


def on_self(plan: PlanLines, section: str, number: int) -> Finding:
    """Where both ends of a link are one element (19)."""
    end = plan.row(section, number).get("a")
    what = f'{title(plan, section, number)} joins "{end}" to itself'
    return Finding(plan.line(section, number, "b"), what)


def on_range(plan: PlanLines, section: str, number: int) -> Finding:
    """Where a number is outside its limits (20)."""
    row = plan.row(section, number)
    for key, (least, greatest, unit) in plan_lines.LIMITS.items():
        if key in row and not least <= row[key] <= greatest:
            what = f"{title(plan, section, number)} has {key} = {row[key]}"
            return Finding(plan.line(section, number, key), what, f"it has to be {least} to {greatest}{unit}")
    return Finding(plan.line(section, number), f"{title(plan, section, number)} {refusals.says('plan', 20)}")


def on_level(plan: PlanLines, section: str, number: int) -> Finding:
    """Where a level is none of the option, or do-not-use where that can't be (21)."""
    row, option = plan.row(section, number), plan.option
    known = levels.LEVELS[option]
    right = known if section == "source" else known[:-1]
    for key in ("own", "floor", "level"):
        if key in row and row[key] not in right:
            likely = levels.likely(str(row[key]), option) or documents.nearest(str(row[key]), right)
            meant = f' (nearest: "{likely}")' if likely and likely in right else ""
            other = " is do-not-use" if row[key] == known[-1] else f" is no level of option {option}"
            what = f'{title(plan, section, number)} has {key} = "{row[key]}", which{other}{meant}'
            return Finding(plan.line(section, number, key), what, f"the levels are {', '.join(right)}")
    return Finding(plan.line(section, number), f"{title(plan, section, number)} {refusals.says('plan', 21)}")


def on_bundle(plan: PlanLines, section: str, number: int) -> Finding:
    """Where a bundle's name breaks the rule, or joins other elements (39)."""
    row = plan.row(section, number)
    bundle, ends = row.get("bundle"), {row.get("a"), row.get("b")}
    if not NAME.fullmatch(str(bundle)):
        return on_name(plan, section, number, "bundle")
    for earlier in range(1, number):
        other = plan.row(section, earlier)
        if other.get("bundle") == bundle and {other.get("a"), other.get("b")} != ends:
            what = (
                f'{title(plan, section, number)} joins "{row.get("a")}" and "{row.get("b")}" in bundle "{bundle}", in which '
                f'link "{other.get("name")}" joins "{other.get("a")}" and "{other.get("b")}"'
            )
            return Finding(plan.line(section, number, "bundle"), what)
    return Finding(plan.line(section, number, "bundle"), f"{title(plan, section, number)} {refusals.says('plan', 39)}")


ON: dict[int, Callable[[PlanLines, str, int], Finding]] = {
    23: on_keys,
    24: on_kinds,
    15: on_limit,
    16: on_name,
    17: on_twice,
    18: on_element,
    19: on_self,
    20: on_range,
    21: on_level,
    39: on_bundle,
}


def finding(plan: PlanLines, refusal: Refusal) -> Finding:
    """What is wrong in the plan, by the refusal."""
    section = refusal.place.partition(" ")[0]
    if refusal.number == 22 or section not in plan_lines.KEYS:
        return on_document(plan)
    if plan.fault:  # (a document that Python's older reader doesn't take)
        what = f"{section} number {refusal.row} {refusals.says('plan', refusal.number)}"
        return Finding(plan.line(section, refusal.row), what)
    return ON[refusal.number](plan, section, refusal.row)


def sentence(document: Document, refusal: Refusal) -> str:
    """The sentence on a refused plan."""
    found = finding(PlanLines(document), refusal)
    remedy = refusals.remedy("plan", refusal.number) if found.remedy is None else found.remedy
    return document.place(found.line) + found.what + (f"; {remedy}" if remedy else "")
