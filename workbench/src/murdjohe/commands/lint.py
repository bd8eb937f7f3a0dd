"""`murdjohe lint`: what to look at in a plan."""

from __future__ import annotations

import dataclasses
from typing import Any

import click

from murdjohe.commands.options import GROUPS, free, one_input, output_options, put
from murdjohe.core import plain_json, program, streams
from murdjohe.core.faults import Wrong
from murdjohe.core.wording import plural
from murdjohe.network import accepted, findings, group_remarks, groups, plan_file
from murdjohe.network.findings import ERROR, KINDS, NOTE, WARNING, Finding, Said
from murdjohe.network.plan_file import Judgement, PlanFile
from murdjohe.protection import promise

LARGE = 10_000  # elements from which on groups take long
LONG = "groups are looked at one by one, a fifth of a second or more each in a plan of this size"
LEFT_OUT = "single failures aren't looked at: `murdjohe protected` says what they cut off, or `lint` without --no-gaps"


def judged(taken: PlanFile, path: str | None, has_gaps: bool) -> tuple[Judgement, Said]:
    """What the program says of a plan, and of the groups of a table, where one is named. Raises Wrong."""
    if path and not has_gaps:
        raise Wrong("--no-gaps and --groups: what groups cut off is found together with what single failures cut off")
    table = groups.read(path, taken) if path else None
    judgement = plan_file.judged(taken, has_gaps=has_gaps, groups=table.data if table else None)
    known = table.groups if table else ()
    lost = group_remarks.parted(taken.network, known) if known else {}
    return judgement, Said(taken.ranking.ring, judgement.clash, judgement.gaps or (), taken.chains(), known, lost)


def shown(taken: PlanFile, found: list[Finding], is_json: bool) -> bytes:
    """The findings as JSON, or each in a line."""
    if is_json:
        return plain_json.text([dataclasses.asdict(finding) for finding in found])
    return "".join(f"{finding.told(taken.name)}\n" for finding in found).encode("utf-8", "surrogateescape")


def told(taken: PlanFile, judgement: Judgement, found: list[Finding]) -> list[str]:
    """How much was found, what the program says of the plan, and what isn't looked at."""
    counts = [plural(sum(one.kind == kind for one in found), kind) for kind in KINDS]
    has_gaps = judgement.gaps is None or bool(judgement.gaps)
    times = promise.beside_findings(taken.plan, taken.agreement, has_gaps) if judgement.is_good else []
    more = [LEFT_OUT] * (judgement.gaps is None) + [group_remarks.ALONE] * judgement.has_groups
    return [f"{', '.join(counts)}; checked: {judgement.text}", *times, *more]


def status_of(found: list[Finding], fail_on: str | None) -> int:
    """What the command ends with."""
    kinds = {finding.kind for finding in found}
    if ERROR in kinds:
        return program.REFUTED
    failing = KINDS[: KINDS.index(fail_on) + 1] if fail_on else ()
    return program.DONE if kinds.isdisjoint(failing) else program.FOUND


@click.command("lint")
@click.argument("plan", type=click.Path())
@click.option("--json", "as_json", is_flag=True, help="JSON: a list of line, kind, what and remedy")
@click.option(
    "--fail-on",
    type=click.Choice([WARNING, NOTE]),
    help="ends with status 21 if there are warnings, or warnings or notes",
)
@click.option("--no-gaps", is_flag=True, help="doesn't look at single failures")
@click.option("--accept", type=click.Path(), help="leaves out the findings in this file, as `lint` printed them before")
@GROUPS
@output_options
@click.pass_context
def lint(context: click.Context, plan: str, as_json: bool, fail_on: str | None, no_gaps: bool, **asked: Any) -> int:
    """Says what a planner should look at, each with its line and a remedy.

    Errors: no element; no source; elements without a path to a clock; a possible timing loop; priorities by which elements may
    oscillate after a failure (`agree`).

    Warnings: sources that aren't nominated, or that no element takes; elements with one way in; single failures that cut
    elements off although a path remains (`protected`); chains longer than G.803's 60 lines, 20 since a filter and 10 filters
    (`chains`); links and bundles that are nominated at both ends without floors; inputs of one element with the same priority.
    With --groups also groups that cut elements off although a path remains, or that leave elements without a path to a clock.

    Notes: sources whose name says another level.

    The status is 1 if there is an error. Otherwise it is 21 if there is something that --fail-on names. With --accept, the
    warnings and notes in that file are left out: what `lint` printed of an earlier plan, and what a planner accepted. Their
    lines may differ.

    \b
      $ murdjohe gen 5 > plan.toml
      $ murdjohe lint plan.toml
    """
    path = asked["groups_path"]
    one_input(plan, path)
    free(asked["output"], asked["force"], plan, path, asked["accept"])
    taken, root = plan_file.read(plan), context.find_root().params
    if path and not root["quiet"] and len(taken.network.elements) > LARGE:
        streams.tell(LONG, colour="yellow")
    judgement, said = judged(taken, path, not no_gaps)
    found, left_out = accepted.parted(findings.findings_of(taken.plan, said), asked["accept"])
    put(context, asked["output"], shown(taken, found, as_json or root["json"]))
    if not root["quiet"]:
        has_errors = any(finding.kind == ERROR for finding in found)
        streams.tell(*told(taken, judgement, found), *left_out, colour="yellow" if has_errors else "green")
    return status_of(found, fail_on)


COMMAND = lint
