"""Groups of parts that fail together, whole or damaged, read as docs/use/formats.md says, against an accepted plan."""

import re

from bench.compare.protected import Group, expected
from bench.readings.records import records
from bench.readings.refused import Refused
from bench.reference.plan import Plan

HEADER = ["group", "kind", "part"]
MOST_ROWS = 100_000
NAME = re.compile("[A-Za-z0-9_-]{1,32}", re.ASCII)


def names_of(plan: Plan) -> dict[str, set[str]]:
    """The names of each kind of part."""
    return {
        "link": {link.name for link in plan.links},
        "source": {source.name for source in plan.sources},
        "element": {element.name for element in plan.elements},
    }


def row_refusal(names: dict[str, set[str]], groups: dict[str, Group], last: str, row: list[str]) -> int | None:
    """The number that a row is refused with, below rows of these groups, the last of this name; none where it is a part."""
    if len(row) != len(HEADER):
        return 27
    group, kind, part = row
    if not NAME.fullmatch(group):
        return 51
    if group in groups and group != last:
        return 52
    if kind not in names:
        return 53
    is_there_already = group in groups and (kind, part) in groups[group].parts
    return 31 if part not in names[kind] or is_there_already else None


def read_groups(plan: Plan, data: bytes) -> list[Group]:
    """The groups of a table, or it is refused."""
    rows = records(data)
    if rows[:1] != [HEADER]:
        raise Refused("bad groups 26\n")
    names, last = names_of(plan), ""
    groups: dict[str, Group] = {}
    for number, row in enumerate(rows[1:], 1):
        if number > MOST_ROWS:
            raise Refused("bad groups 33\n")
        wrong = row_refusal(names, groups, last, row)
        if wrong:
            raise Refused(f"bad groups {wrong} {number}\n")
        last = row[0]
        groups.setdefault(last, Group(last, [])).parts.append((row[1], row[2]))
    return list(groups.values())


def protected_answer(plan: Plan, data: bytes) -> tuple[int, str]:
    """The status and the text of `protected` with a table of groups, over an accepted plan."""
    try:
        return expected(plan, read_groups(plan, data))
    except Refused as refused:
        return 5, str(refused.args[0])
