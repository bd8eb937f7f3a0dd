"""Tables that the page was given, made into a plan: the mistakes of all of them at once, as `import` tells them."""

from __future__ import annotations

import os
import tempfile

from murdjohe.core.faults import Wrong
from murdjohe.core.wording import plural
from murdjohe.desk.edits import TakeText
from murdjohe.network import plan_file
from murdjohe.plan import tables
from murdjohe.plan.tables import PORTS, Made, Settings

KINDS = ("element", "link", "source")


def plain_name(name: str, kind: str) -> str:
    """A name under which a table is kept meanwhile."""
    base = os.path.basename(name.replace("\\", "/")).replace("\0", "")
    return base if base not in ("", ".", "..") and len(base) < 200 else f"{kind}s.csv"


def made_in(folder: str, given: dict[str, tuple[str, bytes]], option: str) -> Made:
    """The plan of tables, written into a folder meanwhile."""
    paths = {}
    for kind, (name, data) in given.items():
        os.mkdir(os.path.join(folder, kind))
        paths[kind] = os.path.join(folder, kind, plain_name(name, kind))
        with open(paths[kind], "wb") as file:
            file.write(data)
    return tables.made_of(paths, Settings(option, ignores_extra=True, renames=True))


def without(text: str, folder: str) -> str:
    """A sentence without the paths of a folder."""
    for kind in KINDS:
        text = text.replace(f"{folder}/{kind}/", "")
    return text


def plan_of(given: dict[str, tuple[str, bytes]], option: str) -> tuple[TakeText, list[str]]:
    """The edit that takes tables of elements, links and perhaps sources, each with its name, and what is to be known beside it. Raises
    Wrong."""
    if "element" not in given or "link" not in given:
        raise Wrong("choose a table of elements and one of links; one of sources may follow")
    if option not in ("I", "II"):
        raise Wrong("the option is I or II")
    with tempfile.TemporaryDirectory(prefix="murdjohe-desk-") as folder:
        try:
            made = made_in(folder, given, option)
        except Wrong as wrong:
            raise Wrong(*(without(line, folder) for line in wrong.lines), status=wrong.status) from None
    plan_file.taken("the plan of these tables", made.plan.encode())
    said = [f"{kind} {old} is called {new}" for kind, old, new in made.renamed]
    said += [f"{without(one, folder)}: no columns of a plan, and ignored" for one in made.ignored]
    if "source" not in given:
        said.append("there is no table of sources: nothing in the plan is a clock yet")
    if made.ducts:
        said.append(
            f"{plural(len(made.ducts), 'duct')}: the desk has no place for these; `import` writes them as groups"
        )
    ports = tuple(cell for cell in made.cells if cell[2] in PORTS)
    if ports:
        said.append(f"{plural(len(ports), 'port')}: Save writes them beside the plan")
    return TakeText(f"{len(given)} tables", made.plan, ports), said
