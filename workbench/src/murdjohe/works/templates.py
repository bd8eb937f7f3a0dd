"""Orders by a template of Jinja: one file for each element, with whatever its makers call things.

A template is rendered in a sandbox. It sees `plan`, `element`, `inputs`, and with an old plan `changes` and `taken_back`; a name that
isn't known is an error with the template's line and the element.
"""

from __future__ import annotations

import os
import traceback
from collections.abc import Iterable, Mapping
from dataclasses import dataclass
from typing import Any

from murdjohe.core import files
from murdjohe.core.faults import Wrong, unusable
from murdjohe.network.orders import NONE, Input, Order
from murdjohe.plan.model import Plan
from murdjohe.plan.side_table import ENDING, Side, port_of

ENDINGS = (".j2", ".jinja", ".jinja2")
PLAIN = ".txt"  # the ending of what a template without one makes

Values = dict[str, Any]


@dataclass(frozen=True)
class Work:
    """What is to be done at an element: its order, what differs from an old plan, and the inputs that are taken back."""

    order: Order
    changes: tuple[tuple[str, str, str], ...] = ()
    taken_back: tuple[Input, ...] = ()


def ends_of(network: Plan) -> dict[str, dict[str, str]]:
    """The end of each link by its element."""
    return {link.name: {link.a: "a", link.b: "b"} for link in network.links}


def input_values(one: Input, element: str, end: str, side: Side, levels: Mapping[tuple[str, str], str]) -> Values:
    """What a template sees of an input. A port that isn't known isn't there."""
    kind, name = ("link", one.link) if one.link else ("source", one.name)
    found: Values = {
        "place": one.place,
        "priority": one.priority,
        "name": one.name,
        "kind": "line" if one.link else "source",
        "neighbour": one.neighbour or None,
        "link": one.link or None,
        "bundle": one.bundle or None,
        "level": levels.get((element, one.name)),
        "esmc": bool(one.link),
        "columns": side.get((kind, name), {}),
    }
    port = port_of(side, one.link, end) if one.link else side.get(("source", one.name), {}).get("port")
    return found | ({"port": port} if port is not None else {})


def values_of(
    work: Work, plan: Values, ends: dict[str, dict[str, str]], side: Side, levels: Mapping[tuple[str, str], str]
) -> Values:
    """What a template sees for an element."""
    order = work.order

    def seen(inputs: Iterable[Input]) -> list[Values]:
        return [
            input_values(one, order.element, ends.get(one.link, {}).get(order.element, ""), side, levels)
            for one in inputs
        ]

    element = {
        "name": order.element,
        "own": order.own,
        "floor": None if order.floor == NONE else order.floor,
        "holdoff": order.holdoff,
        "wtr": order.wtr,
        "columns": side.get(("element", order.element), {}),
    }
    changes = [{"what": what, "old": old, "new": new} for what, old, new in work.changes]
    inputs, taken_back = seen(order.inputs), seen(work.taken_back)
    return {"plan": plan, "element": element, "inputs": inputs, "changes": changes, "taken_back": taken_back}


def ending_of(path: str) -> str:
    """The ending of the files that a template makes: that of its name before `.j2`."""
    name = os.path.basename(path)
    for ending in ENDINGS:
        name = name.removesuffix(ending)
    return os.path.splitext(name)[1] or PLAIN


def line_of(path: str, fault: BaseException) -> int | None:
    """The line of the template on which it failed."""
    number = getattr(fault, "lineno", None)
    if number:
        return int(number)
    lines = [frame.lineno for frame in traceback.extract_tb(fault.__traceback__) if frame.filename == path]
    return lines[-1] if lines else None


def failed(path: str, fault: Exception, element: str | None) -> Wrong:
    """What is told of a template that can't be rendered: file, line, element and what is wrong."""
    line = line_of(path, fault)
    place = f"{path}:{line}" if line else path
    what = getattr(fault, "message", None) or str(fault) or type(fault).__name__
    return unusable(f"{place}: {f'for element {element}: ' if element else ''}{what}")


def unknown(name: str) -> str:
    """What is told of a name that isn't known."""
    where = f"; ports stand in the table PLAN{ENDING}, which `import --keep-extra` writes" if name == "port" else ""
    return f"{name!r} isn't known{where}"


def compiled(path: str) -> Any:
    """The template in a file, in a sandbox in which unknown names are errors. Raises Wrong."""
    from jinja2 import StrictUndefined, TemplateError
    from jinja2.loaders import FunctionLoader
    from jinja2.sandbox import ImmutableSandboxedEnvironment

    class Unknown(StrictUndefined):
        """A name that isn't known, told by its name and where it might come from."""

        @property
        def _undefined_message(self) -> str:
            return unknown(str(self._undefined_name))

    text = files.text(path)
    loader = FunctionLoader(lambda name: (text, path, lambda: True) if name == path else None)
    room = ImmutableSandboxedEnvironment(
        loader=loader, undefined=Unknown, trim_blocks=True, lstrip_blocks=True, keep_trailing_newline=True
    )
    try:
        return room.get_template(path)
    except TemplateError as fault:
        raise failed(path, fault, None) from None


def rendered(path: str, works: Iterable[tuple[str, Values]]) -> dict[str, bytes]:
    """The file of each work by the name of it: the template with its values. Raises Wrong, with the first element that fails."""
    template, ending = compiled(path), ending_of(path)
    found: dict[str, bytes] = {}
    for name, values in works:
        try:
            found[name + ending] = template.render(values).encode()
        except Exception as fault:  # (a template may do whatever an expression of Python can)
            raise failed(path, fault, values["element"]["name"]) from None
    return found
