"""`murdjohe orders`: what to set at each element, as a list, by a template, or step by step."""

from __future__ import annotations

import csv
import io
import os
from dataclasses import dataclass, field
from typing import Any

import click

from murdjohe.answers import api
from murdjohe.commands.options import free, output_options, put
from murdjohe.core import files, plain_json, program, streams
from murdjohe.core.faults import Wrong
from murdjohe.core.inputs import STDIN
from murdjohe.core.wording import plural
from murdjohe.network import orders, plan_file
from murdjohe.network.orders import Input, Order
from murdjohe.network.plan_file import PlanFile
from murdjohe.plan import priorities, side_table
from murdjohe.works import step_text, steps, templates
from murdjohe.works.templates import Values, Work

NO_EVENTS = b"at,what,target,value\n"
LONG_MS, DAY_MS = (
    600_000,
    86_400_000,
)  # when a network whose priorities may oscillate is looked at; the last millisecond


@dataclass(frozen=True)
class Done:
    """What is printed, if anything is, what is said beside it, and whether one may work so."""

    data: bytes | None
    said: list[str] = field(default_factory=list)
    is_safe: bool = True


def shown(columns: tuple[str, ...], rows: list[tuple[str, ...]], text: list[str], form: str) -> bytes:
    """The orders in one of their forms."""
    if form == "csv":
        out = io.StringIO(newline="")
        csv.writer(out, lineterminator="\n").writerows([columns, *rows])
        return out.getvalue().encode()
    if form == "json":
        return plain_json.text([dict(zip(columns, row)) for row in rows])
    lines = orders.markdown_of(columns, rows) if form == "markdown" else text
    return "".join(f"{line}\n" for line in lines).encode()


def orders_in(taken: PlanFile) -> list[Order]:
    """The orders of a plan."""
    return orders.orders_of(taken.network)


def listed(new: list[Order], old: PlanFile | None, form: str) -> bytes:
    """The list of what is to be set, or of what differs from an old plan."""
    if old is None:
        return shown(orders.COLUMNS, orders.rows_of(new), orders.text_of(new), form)
    changes = orders.changes_of(orders_in(old), new)
    rows: list[tuple[str, ...]] = [*changes]
    return shown(orders.CHANGES, rows, orders.change_text(changes), form)


def levels_at_rest(taken: PlanFile) -> dict[tuple[str, str], str]:
    """The level that each input brings to its element where nothing has failed, as the program says by the agreed bound."""
    bound = taken.agreement.bound if taken.ranking.ring is None else None
    at = min(bound if bound is not None else LONG_MS, DAY_MS)
    found = api.inspect(taken.data, NO_EVENTS, at).result.inputs
    return {(reason.element, reason.input): reason.level for reason in found if reason.level is not None}


def inputs_by_element(found: list[Order]) -> dict[str, dict[str, Input]]:
    return {order.element: {one.name: one for one in order.inputs} for order in found}


def works_of(new: list[Order], old: PlanFile | None) -> list[Work]:
    """What is to be done at each element: at all of them, or at those at which something differs."""
    if old is None:
        return [Work(order) for order in new]
    before = orders_in(old)
    was, now = inputs_by_element(before), inputs_by_element(new)
    changes: dict[str, list[tuple[str, str, str]]] = {}
    for element, what, first, last in orders.changes_of(before, new):
        changes.setdefault(element, []).append((what, first, last))
    gone = {
        element: tuple(one for name, one in inputs.items() if name not in now.get(element, {}))
        for element, inputs in was.items()
    }
    there = [order for order in new if order.element in changes]
    return [Work(order, tuple(changes[order.element]), gone.get(order.element, ())) for order in there]


def by_template(path: str, taken: PlanFile, old: PlanFile | None, ports: str | None, name: str) -> dict[str, bytes]:
    """The files of a template: one for each element. Raises Wrong."""
    side = side_table.beside(name, ports, taken.network)
    levels, ends = levels_at_rest(taken), templates.ends_of(taken.network)
    plan: Values = {"name": taken.name, "option": taken.network.option}
    works = works_of(orders_in(taken), old)
    values = ((work.order.element, templates.values_of(work, plan, ends, side, levels)) for work in works)
    return templates.rendered(path, values)


def stepped(taken: PlanFile, old: PlanFile, form: str) -> Done:
    """The steps from an old plan, and what is said of them. Raises Wrong where the plans aren't of one network."""
    priorities.same_network(taken.plan, old.plan)
    new = priorities.priorities_of(taken.network)
    way = steps.planned(old.network, priorities.priorities_of(old.network), new)
    found = step_text.followed(old, new, way.visits or ())
    data = shown(step_text.COLUMNS, step_text.rows_of(found), step_text.text_of(found), form)
    if way.visits is None:
        return Done(data, [step_text.no_order(way.is_whole)], False)
    is_good = plan_file.judged(old).is_good
    return Done(data, step_text.summary(found, is_good), step_text.is_safe(found, is_good))


def written_files(contents: dict[str, bytes], folder: str, force: bool, inputs: list[str | None]) -> list[str]:
    """Writes the files of a template into a folder, which is made where there is none; what is told of it. Raises Wrong."""
    paths = {os.path.join(folder, name): data for name, data in contents.items()}
    files.free(list(paths), force, inputs)
    try:
        os.makedirs(folder, exist_ok=True)
    except OSError as fault:
        raise Wrong(f"{folder}: {fault.strerror}", status=program.WRITE_FAULT) from None
    files.all_written(paths)
    return [f"{plural(len(paths), 'file')} in {folder}"]


def fitting(template: str | None, old: str | None, is_stepped: bool, output: str | None, form: str | None) -> None:
    """Raises Wrong where options don't go together."""
    if is_stepped and old is None:
        raise Wrong("--steps: from which plan? name the old one by --from")
    if template is None:
        return
    if is_stepped:
        raise Wrong("--template and --steps: ask for one of them; a template's files are the same in any order")
    if form is not None:
        raise Wrong("--template: it has a form of its own; leave --csv, --markdown and --json out")
    if output is None or output == STDIN:
        raise Wrong("--template: it makes a file for each element; name a folder by -o")


@click.command("orders")
@click.argument("plan", type=click.Path())
@click.option("--csv", "form", flag_value="csv", help="as a table with commas")
@click.option("--markdown", "form", flag_value="markdown", help="as a table in Markdown")
@click.option("--json", "form", flag_value="json", help="as JSON: the rows of that table")
@click.option("--from", "old", type=click.Path(), help="only what differs from this plan")
@click.option("--steps", "is_stepped", is_flag=True, help="in which order to work, from the plan of --from")
@click.option("--template", type=click.Path(), help="a template of Jinja: a file for each element, in the folder of -o")
@click.option("--ports", type=click.Path(), help="the table of ports; by default PLAN.ports.csv if there is one")
@output_options
@click.pass_context
def print_orders(
    context: click.Context, plan: str, form: str | None, old: str | None, output: str | None, force: bool, **asked: Any
) -> int:
    """Prints for each element what is to be set there.

    These are the inputs in their order with neighbour, link and bundle; the floor, the hold-off time in milliseconds, the
    wait-to-restore time in minutes, and the element's own clock. Inputs of equal priority have the same place. The program
    verifies the plan. If a loop is possible in it, or elements may oscillate, the command says so and the status is 1.

    With --from and --steps the command says in which order to visit the elements, so that no plan on the way can loop or
    oscillate and no element loses its last path to a clock. The program verifies the plan after each step. The status is 1 if
    there is no such order.

    \b
      $ murdjohe gen 5 > plan.toml
      $ murdjohe orders plan.toml
      $ murdjohe orders plan.toml --csv > orders.csv
    """
    form, template = form or ("json" if context.find_root().params["json"] else None), asked["template"]
    fitting(template, old, asked["is_stepped"], output, form)
    if template is None:
        free(output, force, plan, old)
    taken = plan_file.read(plan)
    before = plan_file.read(old) if old is not None else None
    judgement = plan_file.judged(taken)
    if template is not None and output is not None:
        contents = by_template(template, taken, before, asked["ports"], plan)
        done = Done(None, written_files(contents, output, force, [plan, old, template, asked["ports"]]))
    elif asked["is_stepped"] and before is not None:
        done = stepped(taken, before, form or "")
    else:
        done = Done(listed(orders_in(taken), before, form or ""))
    if done.data is not None:
        put(context, output, done.data)
    is_good = judgement.is_good and done.is_safe
    if not context.find_root().params["quiet"]:
        said = [f"checked: {judgement.text}", *judgement.lines, *done.said]
        streams.tell(*said, colour="green" if is_good else "yellow")
    return program.DONE if is_good else program.REFUTED


COMMAND = print_orders
