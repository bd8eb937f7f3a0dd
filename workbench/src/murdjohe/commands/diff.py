"""`murdjohe diff`: what differs between two plans."""

from __future__ import annotations

import csv
import dataclasses
import io

import click

from murdjohe.answers import api
from murdjohe.commands.options import GROUPS, START, free, one_input, output_options, put
from murdjohe.core import plain_json, program, progress, streams, times
from murdjohe.core.faults import Wrong
from murdjohe.network import differences, group_remarks, groups, plan_file
from murdjohe.network.groups import GroupFile
from murdjohe.network.plan_file import Judgement, PlanFile


def swept(taken: PlanFile, words: tuple[str, str], start: int | None) -> differences.Facts:
    """What the program says of each link's failure. Raises Wrong where it refuses the times."""
    try:
        moments = [
            str(times.of_word(word, start)) if ":" in word and times.milliseconds(word) else word for word in words
        ]
        with progress.watched("diff"):
            return differences.facts_of_cuts(api.sweep(taken.data, *moments).result)
    except api.Refused as refused:
        raise Wrong(f"--sweep: {refused.sentence}", status=refused.status) from None
    except times.Early as early:
        raise Wrong(f"--sweep: {early}") from None


def grouped(taken: PlanFile, path: str | None) -> GroupFile | None:
    """The groups of a table, where one is named, for one of the plans. Raises Wrong where they aren't its parts."""
    return groups.read(path, taken) if path else None


def facts_of_plan(taken: PlanFile, table: GroupFile | None, judgement: Judgement) -> differences.Facts:
    """What a plan says, and whom groups cut off in it."""
    facts = differences.facts_of(taken.network, taken.plan.option)
    if table is None:
        return facts
    lost = group_remarks.parted(taken.network, table.groups)
    return facts | differences.facts_of_groups(table.groups, judgement.gaps or (), lost)


def verdicts(pair: list[PlanFile], judgements: list[Judgement]) -> str:
    """What the program says of both plans."""
    return "; ".join(f"{taken.name} checked: {one.text}" for taken, one in zip(pair, judgements))


def shown(found: list[differences.Difference], form: str) -> bytes:
    """The differences in one of their forms."""
    if form == "json":
        return plain_json.text([dataclasses.asdict(one) for one in found])
    if form != "csv":
        return "".join(f"{line}\n" for line in differences.text_of(found)).encode()
    out = io.StringIO(newline="")
    rows = [dataclasses.astuple(one) for one in found]
    csv.writer(out, lineterminator="\n").writerows([differences.COLUMNS, *rows])
    return out.getvalue().encode()


@click.command("diff")
@click.argument("old", metavar="A", type=click.Path())
@click.argument("new", metavar="B", type=click.Path())
@click.option(
    "--sweep", nargs=2, metavar="AT UNTIL", help="also compares what each link's failure at AT has led to at UNTIL"
)
@click.option("--csv", "form", flag_value="csv", help="as a table with commas: part, subject, what, old, new")
@click.option("--json", "form", flag_value="json", help="as JSON: the rows of that table")
@START
@GROUPS
@output_options
@click.pass_context
def diff(
    context: click.Context,
    old: str,
    new: str,
    sweep: tuple[str, str] | None,
    form: str | None,
    start: int | None,
    groups_path: str | None,
    output: str | None,
    force: bool,
) -> int:
    """Says how plan B differs from plan A, whatever their order and spelling.

    It compares topology, priorities, floors, times and levels. A key that is left out counts as its default. With --sweep it
    also compares what the program says of each link's failure. With --groups it compares which elements each group of parts
    that fail together cuts off, and which it leaves without a path to a clock. What the program says of both plans stands
    beside it. The status is 0 if nothing differs, and 1 if something does.

    \b
      $ murdjohe gen 5 > plan.toml
      $ sed 's/QL-PRC/QL-ePRC/' plan.toml > other.toml
      $ murdjohe diff plan.toml other.toml --sweep 60s 20m || true
    """
    one_input(old, new, groups_path)
    free(output, force, old, new, groups_path)
    pair = [plan_file.read(old), plan_file.read(new)]
    tables = [grouped(taken, groups_path) for taken in pair]
    judgements = [
        plan_file.judged(taken, table is not None, table.data if table else None) for taken, table in zip(pair, tables)
    ]
    facts = [facts_of_plan(*each) for each in zip(pair, tables, judgements)]
    if sweep:
        facts = [said | swept(taken, sweep, start) for taken, said in zip(pair, facts)]
    found = differences.between(*facts)
    put(context, output, shown(found, form or ("json" if context.find_root().params["json"] else "")))
    if not context.find_root().params["quiet"]:
        number = f"{len(found):,} difference{'' if len(found) == 1 else 's'}"
        lines = [line for one in judgements for line in one.lines] + ([group_remarks.ALONE] if groups_path else [])
        streams.tell(f"{number}; {verdicts(pair, judgements)}", *lines, colour="yellow" if found else "green")
    return program.REFUTED if found else program.DONE


COMMAND = diff
