"""`murdjohe repair`: what to take away where timing may go round."""

from __future__ import annotations

from dataclasses import dataclass
from typing import Any

import click

from murdjohe.commands.options import free
from murdjohe.core import documents, files, plain_json, program, progress, streams
from murdjohe.core.faults import Wrong
from murdjohe.core.inputs import STDIN
from murdjohe.core.wording import plural
from murdjohe.network import plan_file
from murdjohe.network.plan_file import Judgement, PlanFile
from murdjohe.protection import promise
from murdjohe.repair import repairs
from murdjohe.repair.repairs import Found, Repair

TEXT, PATCH, JSON = "text", "patch", "json"  # what standard output has


def on_knots(repair: Repair) -> list[str]:
    """How many groups of interlocked inputs there are, with how many loops are possible in each."""
    said = []
    for lines, rings, are_all in repair.knots:
        number = plural(rings, "possible loop") if are_all else f"more than {rings:,} possible loops"
        said.append(f"a group of {lines:,} interlocked inputs, {number}")
    return said


def on_cost(found: Found) -> str:
    """What a set costs."""
    lost, gaps, first, _ = found.cost
    parts = (
        f"{plural(lost, 'element')} {'loses' if lost == 1 else 'lose'} the last input",
        f"{plural(gaps, 'gap')} {'arises' if gaps == 1 else 'arise'}",
        f"{plural(first, 'first choice')} {'goes' if first == 1 else 'go'}",
    )
    return ", ".join(parts)


def on_set(found: Found, kind: str) -> list[str]:
    """What a set takes away, and what it costs."""
    said = [f"take away {plural(len(found.lines), 'nomination')} ({kind}): {on_cost(found)}"] if found.lines else []
    if found.raised:
        number = plural(len(found.raised), "input")
        said.append(f"give {number} a greater number, so that no elements oscillate after a failure")
    return said


def on_others(repair: Repair, chosen: Found) -> list[str]:
    """The other sets: what they cost, and in what they differ."""
    said = []
    for number, found in enumerate(repair.sets, start=1):
        if found is not chosen:
            agrees = "" if found.agrees else "; elements may oscillate after it"
            said.append(f"--set {number}: {on_cost(found)}{agrees}; {repairs.difference(chosen, found)}")
    return said


def report(taken: PlanFile, repair: Repair, number: int, judgement: Judgement) -> list[str]:
    """The groups, the edits of the chosen set and what the program says of it, and what the others differ in."""
    checked = [f"checked: {judgement.text}", *judgement.lines]
    if not repair.sets:
        return [f"no loop is possible; {checked[0]}", *checked[1:]]
    chosen = repair.set_of(number)
    kind = "least" if repair.is_least and number == 1 else "found, perhaps not least"
    said = (on_knots(repair) or ["no loop is possible"]) + on_set(chosen, kind)
    said += [edit.told(taken.name) for edit in repairs.edits_of(taken.plan, chosen)]
    return said + checked + on_others(repair, chosen)


def staying_of(taken: PlanFile, keep: tuple[str, ...]) -> tuple[str, ...]:
    """The lines that stay nominated. Raises Wrong where one is no nominated line."""
    names = [line.name for line in taken.network.nominated_lines()]
    for name in keep:
        if name not in names:
            raise Wrong(f'--keep: the plan has no nominated line "{name}"{documents.hint(name, names)}')
    return keep


def form_of(plan: str, patch: bool, as_json: bool) -> str:
    """What standard output is to have. Raises Wrong."""
    if patch and as_json:
        raise Wrong("--patch and --json: standard output has one of them")
    if patch and plan == STDIN:
        raise Wrong("--patch: standard input has no name that a patch could have; name the file")
    return PATCH if patch else JSON if as_json else TEXT


def sought(taken: PlanFile, keep: tuple[str, ...]) -> Repair:
    """The sets for a plan. Raises Wrong."""
    staying = staying_of(taken, keep)
    with progress.watched("repair"):
        kept = promise.lines_kept(taken.data) if taken.ranking.ring else ()
        repair = repairs.repair_of(taken.network, kept=kept, staying=staying)
        return repairs.agreeing_sets(taken.plan, taken.data, repair)


@dataclass(frozen=True)
class Made:
    """A plan that was taken, its repair with the number of the chosen set, the repaired plan, and what the program says of it."""

    taken: PlanFile
    repair: Repair
    number: int
    data: bytes
    judgement: Judgement


def made_of(taken: PlanFile, repair: Repair, number: int) -> Made:
    """The repaired plan by the chosen set, or the plan as it is where there is none. Raises Wrong."""
    if not repair.sets:
        return Made(taken, repair, number, taken.data, plan_file.judged(taken, has_gaps=True))
    data = repairs.mended(taken.plan, repair.set_of(number))
    return Made(
        taken, repair, number, data, plan_file.judged(plan_file.taken("the repaired plan", data), has_gaps=True)
    )


def printed(context: click.Context, made: Made, form: str, is_plan: bool) -> None:
    """Prints the plan, or the repair in one of its forms; what isn't on standard output is said beside it."""
    said = report(made.taken, made.repair, made.number, made.judgement)
    if is_plan:
        context.obj.put(made.data)
    elif form == JSON:
        context.obj.put(plain_json.text(repairs.as_data(made.taken.plan, made.repair, made.number, made.judgement)))
    elif form == PATCH and made.repair.sets:
        context.obj.put(repairs.patch(made.taken.name, made.taken.data, made.data))
    elif made.repair.sets:
        context.obj.put("".join(f"{line}\n" for line in said).encode("utf-8", "surrogateescape"))
    is_beside = is_plan or form == PATCH or (form == TEXT and not made.repair.sets)
    if is_beside and not context.find_root().params["quiet"]:
        streams.tell(*said, colour="green" if made.judgement.is_good else "yellow")


@click.command("repair")
@click.argument("plan", type=click.Path())
@click.option(
    "--patch", is_flag=True, help="prints the first set as a patch for `git apply`; the rest goes to standard error"
)
@click.option(
    "--json",
    "as_json",
    is_flag=True,
    help="JSON: groups of interlocked inputs, sets with their edits, and what the program says",
)
@click.option("--keep", multiple=True, metavar="LINE", help="this line keeps its priority; may be repeated")
@click.option(
    "--set", "number", type=click.IntRange(1), default=1, show_default=True, help="the set that is taken away"
)
@click.option("-o", "--output", type=click.Path(), help="writes the repaired plan to this file")
@click.option("--force", is_flag=True, help="overwrites an existing file")
@click.pass_context
def repair_plan(context: click.Context, plan: str, patch: bool, as_json: bool, **asked: Any) -> int:
    """Finds the cheapest nominations to take away if `rank` says `cycle`, and what ends oscillation if `agree` says
    `clash`.

    It looks at all groups of interlocked inputs, and counts the possible loops in each. A set costs, in this order: the
    elements that lose their last input; the gaps that arise, which are single failures that cut off more elements than before;
    the first choices that it takes away; how high its priorities are. The search begins with the lines that `protect` would
    keep, improves that set part by part, and then looks for a cheaper one. A set is called least if the search proves it, for
    up to 400 inputs in a group and within 25 seconds of processor time. Otherwise it is called found, and a cheaper one may
    exist. Up to three sets are shown, with their differences. --set takes another set than the first. No set has a LINE of
    --keep.

    If elements may still oscillate after a failure without a set, some inputs also get a greater number, as the last resort of
    their elements. Sets after which no elements oscillate come first. The program verifies the plan without the set, and says
    whether it is protected. The status is 0 if no loop is possible in it and no elements oscillate.

    \b
      $ printf '[[element]]\\nname = "A"\\n[[element]]\\nname = "B"\\n[[element]]\\nname = "C"\\n' > plan.toml
      $ printf '[[link]]\\nname = "L1"\\na = "A"\\nb = "B"\\npriority_b = 1\\n' >> plan.toml
      $ printf '[[link]]\\nname = "L2"\\na = "B"\\nb = "C"\\npriority_b = 1\\n' >> plan.toml
      $ printf '[[link]]\\nname = "L3"\\na = "C"\\nb = "A"\\npriority_b = 2\\n' >> plan.toml
      $ murdjohe repair plan.toml
    """
    form, output = form_of(plan, patch, as_json or context.find_root().params["json"]), asked["output"]
    free(output, asked["force"], plan)
    taken = plan_file.read(plan)
    made = made_of(taken, sought(taken, asked["keep"]), asked["number"])
    if output and output != STDIN and made.repair.sets:
        files.written(output, made.data)
    printed(context, made, form, output == STDIN)
    return program.DONE if made.judgement.is_good else program.REFUTED


COMMAND = repair_plan
