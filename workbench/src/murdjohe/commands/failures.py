"""`murdjohe failures`: the failures of a plan as a table of cases, for `study`."""

from __future__ import annotations

from typing import Any

import click

from murdjohe.commands import failure_options
from murdjohe.commands.options import free, output_options, put
from murdjohe.core import plain_json, program, streams
from murdjohe.core.faults import Wrong
from murdjohe.core.wording import plural
from murdjohe.network import plan_file
from murdjohe.runs import failures
from murdjohe.runs.failures import Case
from murdjohe.sentences.records import MOST_ROWS


def small_enough(rows: int, data: bytes, cases: list[Case]) -> None:
    """Raises Wrong where a table is larger than the program takes one."""
    limit = f"a table of cases has at most {MOST_ROWS:,} rows and {program.LONGEST_FILE:,} bytes"
    if rows > MOST_ROWS or len(data) > program.LONGEST_FILE:
        told = f"{plural(len(cases), 'case')} have {rows:,} rows and {len(data):,} bytes"
        raise Wrong(f"{told}, and {limit}: write some after others, as by --cases 1-5000")


@click.command("failures")
@click.argument("plan", type=click.Path())
@failure_options.options
@click.option("--json", "as_json", is_flag=True, help="JSON: the cases with what fails in each")
@output_options
@click.pass_context
def write_failures(
    context: click.Context, plan: str, span: str | None, as_json: bool, output: str | None, force: bool, **asked: Any
) -> int:
    """Writes the failures of a plan as a table of cases, a row for each link or source that goes down.

    The columns are case, at, what, target and value. Rows without a case are common to all cases. Links come first, then
    bundles, sources, elements, groups and pairs, each in the order of the plan. A case is named after what fails, a pair with
    `--` between the two names. If that isn't a valid name, or an earlier case has it, the case is named by kind and number. A
    pair is left out if one of the two takes down all that the other does. An element without links and sources is left out too.
    The program verifies the events of --during.

    \b
      $ murdjohe gen 5 > plan.toml
      $ murdjohe failures plan.toml --links --sources --pairs -o cases.csv
      $ murdjohe study plan.toml cases.csv
    """
    first, last = failure_options.span_of(span)
    failure_options.with_start(asked)
    free(output, force, plan, asked["groups"], asked["during"])
    taken = plan_file.read(plan)
    found = failure_options.asked_of(taken, asked)
    common = failure_options.common_of(taken, asked)
    end, at = failure_options.placed(taken, common, asked, None), asked["at"]
    every = failures.cases_of(found, asked["pairs"], failures.in_order(taken.network))
    cases = list(failures.chosen(every, first, last))
    data = failures.table_of(common, cases, at)
    rows = data.count(b"\n") - 1
    small_enough(rows, data, cases)
    if as_json or context.find_root().params["json"]:
        data = plain_json.text(failures.as_data(common, cases, at))
    put(context, output, data)
    if not context.find_root().params["quiet"]:
        said = [*failure_options.remarks(found, common, asked), failure_options.on_end(asked, end)]
        streams.tell(f"{plural(len(cases), 'case')}, {plural(rows, 'row')}", *said, colour="green")
    return program.DONE


COMMAND = write_failures
