"""What Save writes, and where it may: files that the command line named, and such as are chosen below the working folder."""

from __future__ import annotations

import csv
import io
import os

from murdjohe.core import files
from murdjohe.core.faults import Wrong
from murdjohe.core.program import THERE
from murdjohe.network import orders, plan_file
from murdjohe.network.orders import Order
from murdjohe.picture import page_data, pages
from murdjohe.picture.places import Layout
from murdjohe.plan.model import Plan
from murdjohe.runs import rehearsals
from murdjohe.runs.simulation import EventFile

PLAN, EVENTS, ORDERS, PAGE, PORTS = "plan", "events", "orders", "page", "ports"
KINDS = {PLAN: (".toml",), EVENTS: (".csv",), ORDERS: (".csv", ".txt", ".md"), PAGE: (".html",), PORTS: (".ports.csv",)}


def place_of(word: str, named: str | None, folder: str) -> str:
    """Where a file is written that is called so: the one that the command line named, or one below the working folder. Raises Wrong."""
    if named is not None and word == named:
        return os.path.realpath(os.path.join(folder, named))
    if not word or "\0" in word or os.path.isabs(word) or ".." in word.split("/"):
        raise Wrong(f"{word!r}: name a file below the folder in which the desk was started, without `..`")
    if any(part.startswith(".") for part in word.split("/")):
        raise Wrong(f"{word!r}: hidden files and folders aren't written")
    top = os.path.realpath(folder)
    path = os.path.realpath(os.path.join(top, word))
    if not path.startswith(top.rstrip("/") + "/"):
        raise Wrong(f"{word!r}: it leads out of the folder in which the desk was started")
    if not os.path.isdir(os.path.dirname(path)):
        raise Wrong(f"{word!r}: there is no such folder")
    return path


def fitting(kind: str, word: str, named: str | None) -> None:
    """Raises Wrong where a file of this kind doesn't end so."""
    if kind not in KINDS:
        raise Wrong(f"{kind!r}: what is saved is {', '.join(KINDS)}")
    if word != named and not word.endswith(KINDS[kind]):
        raise Wrong(f"{word}: {kind} end{'s' if kind in (PLAN, PAGE) else ''} in {' or '.join(KINDS[kind])}")


def written(path: str, word: str, data: bytes, known: bytes | None, is_over: bool) -> None:
    """Writes a file whole. What stands there and isn't what the desk read or wrote is written over by wish alone. Raises Wrong."""
    if os.path.isdir(path) or files.is_device(path):
        raise Wrong(f"{word}: it is no plain file")
    if os.path.exists(path) and not is_over:
        if known is None:
            raise Wrong(f"{word} is there already; write over it?", status=THERE)
        if files.octets(path) != known:
            raise Wrong(f"{word} was changed on disk since the desk read it; write over it?", status=THERE)
    files.written(path, data)


def orders_of(plan: Plan, old: Plan, ending: str) -> bytes:
    """The orders of a plan as a table or a text, and behind the text what differs from the plan as it was read."""
    found, before = orders.orders_of(plan), orders.orders_of(old)
    if ending == ".csv":
        out = io.StringIO(newline="")
        csv.writer(out, lineterminator="\n").writerows([orders.COLUMNS, *orders.rows_of(found)])
        return out.getvalue().encode()
    if ending == ".md":
        return joined(orders.markdown_of(orders.COLUMNS, orders.rows_of(found)))
    return joined(orders_text(found, before))


def orders_text(found: list[Order], before: list[Order]) -> list[str]:
    """The orders as a person reads them, and what differs from others."""
    changes = orders.changes_of(before, found) if before else []
    more = ["", "What changes:", *orders.change_text(changes)] if changes else []
    return orders.text_of(found) + more


def joined(lines: list[str]) -> bytes:
    """Lines as a file has them."""
    return "".join(f"{line}\n" for line in lines).encode()


def page_of(name: str, data: bytes, events: bytes, until: int, layout: Layout, start: int) -> bytes:
    """The page of `report` for the run of the desk. Raises Wrong."""
    taken, file = plan_file.taken(name, data), EventFile("the events of the desk", events)
    found = rehearsals.rehearsed(taken, file, until)
    title = f"{os.path.basename(name)}, {file.name}"
    return pages.page(
        title, page_data.data_of(taken, found, layout, start, title), pages.facts(taken, file, found, start)
    )
