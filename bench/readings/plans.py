"""Plan files, whole or damaged, read as docs/use/formats.md says, and the answer of `rank`; ranks are those of the
reference."""

import collections
import re
import tomllib
from typing import Any

from bench.levels import LEVELS
from bench.readings.refused import Refused, Unsure
from bench.reference.plan import Plan, certificate_text, read_plan

Row = dict[str, Any]

# For each section its keys with their kind, those that a row must have first.
KEYS = {
    "element": {"name": str, "own": str, "floor": str, "holdoff": int, "wtr": int},
    "link": dict(name=str, a=str, b=str, priority_a=int, priority_b=int, delay_a=int, delay_b=int, bundle=str),
    "source": {"name": str, "at": str, "level": str, "priority": int},
}
MUST = {"element": ["name"], "link": ["name", "a", "b"], "source": ["name", "at", "level"]}
RANGES = {"holdoff": (300, 1800), "wtr": (0, 12), "priority": (0, 255), "delay": (1, 2000)}
SECTIONS = ["element", "link", "source"]


class Other(str):
    """A value that is neither text nor integer, as it is written."""


def is_kind(value: object, kind: type) -> bool:
    """A value is of a kind that plans have."""
    return isinstance(value, kind) and not isinstance(value, Other)


def is_name(text: str) -> bool:
    """A text is a name."""
    return re.fullmatch(r"[A-Za-z0-9_-]{1,32}", text) is not None


def refuse(broken: object, text: str) -> None:
    """Refuses a plan where something is broken."""
    if broken:
        raise Refused(f"bad plan {text}\n")


def read_tables(head: dict[str, Any]) -> tuple[str, list[list[Row]]]:
    """The option and the rows of each section, by the rules for keys and kinds."""
    known = {"version", "option", *SECTIONS}
    refuse(set(head) - known, "23 head 0")
    version, option = head.get("version", 1), head.get("option", "I")
    sections = [head.get(section, []) for section in SECTIONS]
    right = is_kind(version, int) and version in (1, 2) and is_kind(option, str) and option in LEVELS
    refuse(not right or not all(isinstance(rows, list) for rows in sections), "24 head 0")
    for section, rows in zip(SECTIONS, sections):
        for number, row in enumerate(rows, 1):
            place = f"{section} {number}"
            refuse(not isinstance(row, dict), f"24 {place}")
            known = set(KEYS[section]) - ({"bundle"} if version == 1 else set())
            refuse(set(row) - known or set(MUST[section]) - set(row), f"23 {place}")
            refuse(not all(is_kind(value, KEYS[section][key]) for key, value in row.items()), f"24 {place}")
    return option, sections


def out_of_range(row: Row) -> bool:
    """Some number of a row is out of its range."""
    for key, value in row.items():
        low, high = RANGES.get(key.removesuffix("_a").removesuffix("_b"), (value, value))
        if isinstance(value, int) and not low <= value <= high:
            return True
    return False


def read_rows(option: str, sections: list[list[Row]]) -> None:
    """The rules for names, ends, numbers, levels and bundles, row by row."""
    elements, links, sources = sections
    inputs = collections.Counter[str]()

    def check(number: int, place: str, broken: object) -> None:
        refuse(broken, f"25 {number} {place}")

    for number, row in enumerate(elements):
        place = f"element {number + 1}"
        check(16, place, not is_name(row["name"]))
        check(17, place, any(row["name"] == earlier["name"] for earlier in elements[:number]))
        check(20, place, out_of_range(row))
        levels = [row[key] for key in ("own", "floor") if key in row]
        check(21, place, any(level not in LEVELS[option][:-1] for level in levels))
    names = [row["name"] for row in elements]
    for number, row in enumerate(links):
        place, ends = f"link {number + 1}", {row["a"], row["b"]}
        check(16, place, not is_name(row["name"]))
        check(17, place, any(row["name"] == earlier["name"] for earlier in links[:number]))
        check(18, place, not ends <= set(names))
        check(19, place, row["a"] == row["b"])
        check(20, place, out_of_range(row))
        if "bundle" in row:
            bundle = [earlier for earlier in links[:number] if earlier.get("bundle") == row["bundle"]]
            others = [earlier for earlier in bundle if {earlier["a"], earlier["b"]} != ends]
            check(39, place, not is_name(row["bundle"]) or others)
        for end in "ab":
            inputs[row[end]] += row.get("priority_" + end, 0) > 0
        check(15, place, max(inputs[end] for end in ends) > 64)
    for number, row in enumerate(sources):
        place = f"source {number + 1}"
        check(16, place, not is_name(row["name"]))
        check(17, place, any(row["name"] == earlier["name"] for earlier in links + sources[:number]))
        check(18, place, row["at"] not in names)
        check(20, place, out_of_range(row))
        check(21, place, row["level"] not in LEVELS[option])
        inputs[row["at"]] += row.get("priority", 1) > 0
        check(15, place, inputs[row["at"]] > 64)


# What TOML 1.1 takes and Python's reader doesn't: two escapes, times without seconds, inline tables over several
# lines or with a
# comma at the end.
NEWER = re.compile(rb"\\[ex]|\d:\d|\{")


def plain(value: Any) -> Any:
    """A value of Python's TOML reader as the tables have it: what is neither text, integer, list nor table is
    another.
    """
    if isinstance(value, dict):
        return {key: plain(item) for key, item in value.items()}
    if isinstance(value, list):
        return [plain(item) for item in value]
    if isinstance(value, bool) or not isinstance(value, (str, int)):
        return Other(value)
    if isinstance(value, int) and not -(2**63) <= value < 2**63:
        raise Refused("bad plan 22\n")
    return value


def text_of_plan(data: bytes) -> str:
    """The text of a plan file without its byte order mark."""
    try:
        return data.decode("utf-8").removeprefix("\ufeff")
    except UnicodeDecodeError:
        raise Refused("bad plan 22\n") from None


def plan_of(data: bytes) -> Plan:
    """The plan of a file, or it is refused."""
    text = text_of_plan(data)
    try:
        head = plain(tomllib.loads(text))
    except tomllib.TOMLDecodeError:
        if NEWER.search(data):
            raise Unsure from None
        raise Refused("bad plan 22\n") from None
    read_rows(*read_tables(head))
    return read_plan(text)


def rank_answer(data: bytes) -> tuple[int, str]:
    """The status and the text of `rank` on a plan file."""
    try:
        plan = plan_of(data)
    except Refused as refused:
        return 3, refused.args[0]
    ranks = plan.least_ranks()
    if ranks is not None:
        return 0, certificate_text(plan, ranks)
    return 1, "cycle " + " ".join(map(plan.input_name, plan.first_cycle() or [])) + "\n"
