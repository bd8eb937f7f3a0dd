"""Groups of parts that fail together: a table `group,kind,part` as the program takes it, or an older one of names and links.

A table whose lines are spelled plainly and keep all rules is taken at once. Whatever else there is the program is asked, as by
`protected`, and says what is wrong.
"""

from __future__ import annotations

import csv
import re
from collections.abc import Iterable
from dataclasses import dataclass

from murdjohe.answers import api, reports
from murdjohe.core import documents, files, forms, inputs, program
from murdjohe.core.faults import Wrong, unusable
from murdjohe.core.inputs import STDIN, File
from murdjohe.network.plan_file import PlanFile
from murdjohe.plan import table_reader
from murdjohe.plan.mistakes import Mistakes
from murdjohe.plan.model import Plan
from murdjohe.plan.table_reader import Columns

HEADER = "group,kind,part"
KINDS = ("link", "source", "element")
OLD = Columns(("name", "links"), ())
NAME = re.compile(r"[A-Za-z0-9_-]{1,32}", re.ASCII)
PLAIN = re.compile(rb"([A-Za-z0-9_-]{1,32}),(link|source|element),([A-Za-z0-9_-]{1,32})\r?")
MOST_ROWS = 100_000  # that the program takes with a plan of any size
ENDING = ".groups.csv"  # of a table of groups that is written beside a plan


@dataclass(frozen=True)
class Group:
    """Parts that fail together: the name, and the links, sources and elements."""

    name: str
    links: tuple[str, ...] = ()
    sources: tuple[str, ...] = ()
    elements: tuple[str, ...] = ()

    @property
    def parts(self) -> list[tuple[str, str]]:
        """The kind and name of each part."""
        named = zip(KINDS, (self.links, self.sources, self.elements))
        return [(kind, name) for kind, names in named for name in names]


class GroupFile:
    """A table of groups that was taken: its name in sentences, and its groups in order."""

    def __init__(self, name: str, groups: tuple[Group, ...]) -> None:
        self.name = name
        self.groups = groups

    @property
    def data(self) -> bytes:
        """The table as the program takes it."""
        return text_of(self.groups).encode()


def text_of(groups: Iterable[Group]) -> str:
    """The table of groups."""
    rows = [f"{group.name},{kind},{part}\n" for group in groups for kind, part in group.parts]
    return "".join([f"{HEADER}\n", *rows])


def is_old(text: str) -> bool:
    """Whether a table has a row for each group, with the names of its links."""
    sign, rest, _ = table_reader.begun(text)
    first = rest.partition("\n")[0].split(sign)
    headers = [table_reader.plain(header.strip('"')) for header in first]
    return all(name in headers for name in OLD.needed)


def old_groups(path: str, text: str, network: Plan) -> tuple[Group, ...]:
    """The groups of a table of names and links. Raises Wrong with all that is wrong in it."""
    mistakes = Mistakes()
    table = table_reader.read(path, text, OLD, {}, mistakes)
    order = {link.name: number for number, link in enumerate(network.links)}
    groups: dict[str, set[str]] = {}
    for row in table.rows:
        name, links = row.fields.get("name", ""), row.fields.get("links", "").split()
        if not NAME.fullmatch(name):
            what = f"{name!r} is no name of a group" if name else "the group has no name"
            mistakes.add(path, row.line, f"{what}; a name is 1 to 32 of A-Z a-z 0-9 _ -")
        if not links:
            mistakes.add(path, row.line, f"the group {name!r} has no links; write their names with blanks between them")
        for link in links:
            if link not in order:
                what = f"links: {link!r} names no link of the plan{documents.hint(link, order)}"
                mistakes.add(path, row.line, f"{what}; correct the name, or take it out")
        groups.setdefault(name, set()).update(links)
    mistakes.end()
    return tuple(Group(name, tuple(sorted(links, key=order.__getitem__))) for name, links in groups.items())


def asked(plan: PlanFile, name: str, data: bytes) -> None:
    """Raises Wrong, with the program's status, where it refuses a table of groups for a plan."""
    with api.named([plan.data, data]) as (plan_path, path):
        answer = program.run(["protected", plan_path, path])
        if answer.status in reports.GOOD:
            return
        from murdjohe.sentences import answers

        its = [File(forms.PLAN, plan.name, plan_path), File(forms.GROUPS, name, path)]
        words = inputs.Words(forms.FORMS["protected"], [plan.name, name], [], its)
        raise Wrong(answers.sentence(words, answer) or f"protected: status {answer.status}", status=answer.status)


def plain_groups(data: bytes, network: Plan) -> tuple[Group, ...] | None:
    """The groups of a table without quotes, remarks or blank lines, which keeps every rule; None for any other table."""
    header, *lines = data.removesuffix(b"\n").split(b"\n")
    if header != HEADER.encode() or len(lines) > MOST_ROWS:
        return None
    names = {
        "link": {link.name for link in network.links},
        "source": {source.name for source in network.sources},
        "element": set(network.names()),
    }
    found: dict[str, set[tuple[str, str]]] = {}
    last = ""
    for line in lines:
        row = PLAIN.fullmatch(line)
        if row is None:
            return None
        name, kind, part = row[1].decode(), row[2].decode(), row[3].decode()
        its = found.setdefault(name, set()) if name not in found or name == last else None
        if its is None or part not in names[kind] or (kind, part) in its:
            return None
        its.add((kind, part))
        last = name
    return groups_of(data)


def groups_of(data: bytes) -> tuple[Group, ...]:
    """The groups of a table that the program took. Raises ValueError or KeyError for one that it wouldn't."""
    found: dict[str, dict[str, list[str]]] = {}
    for row in list(filter(None, csv.reader(data.decode("utf-8-sig").splitlines())))[1:]:
        name, kind, part = row
        found.setdefault(name, {kind: [] for kind in KINDS})[kind].append(part)
    return tuple(Group(name, *(tuple(parts[kind]) for kind in KINDS)) for name, parts in found.items())


def taken(name: str, data: bytes, plan: PlanFile) -> GroupFile:
    """The groups of some octets, whose parts are a plan's. Raises Wrong."""
    plain = plain_groups(data, plan.network)
    if plain is not None:
        return GroupFile(name, plain)
    asked(plan, name, data)
    try:
        return GroupFile(name, groups_of(data))
    except (ValueError, KeyError, csv.Error):
        raise unusable(f"{name}: the program takes it, and Python's reader doesn't; write its fields plainly") from None


def read(path: str, plan: PlanFile) -> GroupFile:
    """The groups of a file, whose parts are a plan's. Raises Wrong."""
    data = files.octets(path)
    name = "standard input" if path == STDIN else path
    text = data.decode("utf-8-sig", "replace")
    return GroupFile(name, old_groups(name, text, plan.network)) if is_old(text) else taken(name, data, plan)


def down_of(group: Group, network: Plan) -> tuple[str, ...]:
    """The links and sources that are down where a group fails, in the order of the plan: an element has all of its own."""
    its, elements = set(group.links), set(group.elements)
    links = [row.name for row in network.links if row.name in its or row.a in elements or row.b in elements]
    sources = [row.name for row in network.sources if row.name in group.sources or row.at in elements]
    return (*links, *sources)
