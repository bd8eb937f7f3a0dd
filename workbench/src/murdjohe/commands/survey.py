"""`murdjohe survey`: what becomes of a network in each of many cases."""

from __future__ import annotations

from collections.abc import Iterator
from contextlib import ExitStack, contextmanager
from functools import partial
from typing import Any

import click
from click.core import ParameterSource

from murdjohe.commands import failure_options, map_options
from murdjohe.commands.options import RESTS, Milliseconds, free
from murdjohe.core import inputs, plain_json, program, progress, streams, times
from murdjohe.core.faults import Wrong
from murdjohe.core.files import Growing
from murdjohe.core.wording import plural
from murdjohe.network import plan_file, wiring
from murdjohe.network.plan_file import PlanFile
from murdjohe.runs import ends
from murdjohe.runs.ends import Ending
from murdjohe.runs.failures import KINDS
from murdjohe.sentences.records import MOST_ROWS
from murdjohe.survey import (
    case_files,
    case_lists,
    case_refusals,
    lost_names,
    portions,
    study_runs,
    survey_report,
    surveys,
    workers,
)
from murdjohe.survey.case_lists import CaseList
from murdjohe.survey.lost_names import Names
from murdjohe.survey.needless_losses import Losses
from murdjohe.survey.part_store import Finished
from murdjohe.survey.survey_report import FAILING
from murdjohe.survey.tallies import Tally
from murdjohe.survey.workers import Crew, Here, Survey

PARTS = "murdjohe-parts"
OF_FAILURES = (*KINDS, "groups", "pairs", "at", "during")


def cases_of(
    context: click.Context, taken: PlanFile, table: str | None, until: int | None, asked: dict[str, Any]
) -> tuple[CaseList, Ending]:
    """The cases of a table, or else those of the failures that are asked for, and when their runs end. Raises Wrong."""
    span = failure_options.span_of(asked["span"])
    if table is not None:
        given = [name for name in OF_FAILURES if context.get_parameter_source(name) == ParameterSource.COMMANDLINE]
        if given:
            raise Wrong(f"--{given[0]} makes cases, and {table} has them: leave out one or the other")
        asked["remarks"], asked["common"] = [], ()
        cases = case_files.CaseFile(table, asked["start"]).listed(span)
        end = ends.ending(taken, cases.told, ends.bounds_of(taken)) if until is None else Ending(until, None)
        return cases, end
    found = failure_options.asked_of(taken, asked)
    common = failure_options.common_of(taken, asked)
    end = failure_options.placed(taken, common, asked, until)
    asked["remarks"] = failure_options.remarks(found, common, asked, end.until)
    asked["common"] = common
    return case_lists.of_failures(taken.network, found, asked["pairs"], asked["at"], common, span), end


def crew_of(scheduler: str | None, jobs: int | None, plan: bytes, until: int) -> Crew:
    """Who works the parts. Raises Wrong."""
    if scheduler is None:
        return Here(plan, until, jobs or workers.processors())
    if jobs is not None:
        raise Wrong("--jobs is for this machine alone: a cluster's workers have their own numbers of threads")
    from murdjohe.survey.cluster import Cluster

    return Cluster(scheduler, plan, until)


@contextmanager
def kept(survey: Survey, cases: CaseList, parts: str) -> Iterator[None]:
    """Where what stands inside is ended before it is done, it is told where the survey goes on."""
    try:
        yield
    except (KeyboardInterrupt, program.Absent, program.Ended, program.NoAnswer):
        done, of = survey.worked + survey.found, plural(cases.total, "case")
        streams.tell(f"{done:,} of {of} are worked, and kept in {parts}: the same command goes on there")
        raise


def worked(
    taken: PlanFile, cases: CaseList, until: int, settings: dict[str, Any], file: Growing | Standard | None
) -> tuple[Tally, Survey]:
    """The summary of the cases, and what was worked for it."""
    alone = surveys.works_alone(taken, settings["common"], until)
    wired = wiring.wiring_of(taken.network)
    losses = Losses(wired, until, settings["worst"], surveys.lost_alone(alone))
    settings["alone"], settings["losses"] = alone, losses
    crew = crew_of(settings["scheduler"], settings["jobs"], taken.data, until)
    finished = Finished(settings["parts"], taken.data, until, study_runs.core_sum())
    refused = partial(case_refusals.refused, cases, taken.plan)
    with progress.counted("survey", cases.total) as tell:
        survey = Survey(crew, finished, refused, tell)
        with kept(survey, cases, settings["parts"]):
            size = settings["size"] or portions.usual(cases.total, len(wired.elements))
            tally = surveys.gone_through(cases, survey, size, settings["worst"], file, losses)
    return tally, survey


def named(taken: PlanFile, cases: CaseList, tally: Tally, until: int, asked: dict[str, Any]) -> list[Names]:
    """Who has no source at the end of each case that is told, first of those that needn't be. Raises Wrong."""
    told = [loss.case for loss in asked["losses"].outcomes()] + tally.lost.outcomes()
    worst = {case.case: case for case in told}
    jobs = asked["jobs"] or workers.processors()
    return lost_names.of_cases(taken, wiring.wiring_of(taken.network), cases, list(worst.values()), until, jobs)


class Standard:
    """Standard output as a file that rows are written to."""

    def write(self, data: bytes, packed: bytes | None = None) -> None:
        click.get_current_context().obj.put(data)


def growing(stack: ExitStack, path: str | None) -> Growing | Standard | None:
    """A file that is there once what stands inside is done, where one is named. Raises Wrong."""
    if path == inputs.STDIN:
        return Standard()
    return stack.enter_context(Growing(path)) if path else None


def written(
    taken: PlanFile, cases: CaseList, until: int, asked: dict[str, Any], output: str | None
) -> tuple[Tally, Survey]:
    """The same, with the rows and the map in their files, once all of it is made."""
    with ExitStack() as stack:
        file, picture = growing(stack, output), growing(stack, asked["map"])
        tally, survey = worked(taken, cases, until, asked, file)
        if asked["names"]:
            with kept(survey, cases, asked["parts"]), progress.watched("names"):
                asked["named"] = named(taken, cases, tally, until, asked)
        if picture:
            with kept(survey, cases, asked["parts"]), progress.watched("map"):
                picture.write(map_options.drawn(taken, cases, tally, until, asked))
    return tally, survey


def told(context: click.Context, tally: Tally, done: Survey, end: Ending, asked: dict[str, Any]) -> None:
    """Prints the summary, beside the rows where these are on standard output, and says how much was worked for it."""
    root = context.find_root().params
    found = survey_report.Ends(
        end.until, asked["start"], asked["alone"], asked["losses"], end.why, asked.get("named", [])
    )
    if asked["is_filled"]:
        streams.tell(*survey_report.text_of(tally, asked["worst"], found), colour="green")
    elif asked["as_json"] or root["json"]:
        context.obj.put(plain_json.text(survey_report.as_data(tally, found)))
    else:
        context.obj.put("".join(f"{line}\n" for line in survey_report.text_of(tally, asked["worst"], found)).encode())
    if not root["quiet"]:
        streams.tell(
            *asked["remarks"], *asked["clash"], *times.likely_seconds(asked["last"], "the last event"), colour="yellow"
        )
        before = f"{done.found:,} were worked before; parts are in {asked['parts']}"
        streams.tell(f"{plural(done.worked, 'case')} worked up to {end.until}, {before}", colour="green")


@click.command("survey")
@click.argument("plan", type=click.Path())
@click.argument("table", metavar="[CASES]", type=click.Path(), required=False)
@failure_options.options
@click.option("--until", type=Milliseconds(), help=f"the end of each run; {RESTS}")
@click.option(
    "--worst", type=click.IntRange(0, 100_000), default=10, show_default=True, help="how many cases are shown"
)
@click.option(
    "--size",
    type=click.IntRange(1, MOST_ROWS),
    help=f"cases in one run of the program; by default an eighth of all, {portions.LEAST:,} to {portions.MOST:,}, and "
    f"{portions.LEAST:,} for a plan of more than {portions.LARGE:,} elements",
)
@click.option(
    "--jobs", type=click.IntRange(1, 1_000), help="programs that run at once; by default one for each processor"
)
@click.option(
    "--scheduler", metavar="ADDRESS", help="runs the cases on the Dask cluster with this scheduler, as tcp://host:8786"
)
@click.option(
    "--parts", type=click.Path(), default=PARTS, show_default=True, help="a folder in which finished parts are kept"
)
@click.option(
    "--fail-on",
    type=click.Choice(FAILING),
    help="ends with status 21 if at the end of a case an element is without a source (lost), or is without one although a link "
    "could still serve it (needless), or if the case is unsettled there, or has loops",
)
@click.option("--json", "as_json", is_flag=True, help="JSON: the summary")
@click.option(
    "--names",
    is_flag=True,
    help="names all elements without a source in the cases that are shown; each case is run once more",
)
@click.option(
    "--map", type=click.Path(), help="draws which elements have no source in the worst cases: .svg, .png or .pdf"
)
@click.option("-o", "--output", type=click.Path(), help="writes all rows to this file, compressed if it ends in .gz")
@click.option("--force", is_flag=True, help="overwrites an existing file")
@click.pass_context
def survey(
    context: click.Context,
    plan: str,
    table: str | None,
    until: int | None,
    output: str | None,
    force: bool,
    **asked: Any,
) -> int:
    """Says what has become of a network at the end of each of many cases, and prints the worst.

    Losses are counted at the end, in the millisecond of --until. What is lost earlier and is back by then isn't counted.
    Elements that fail themselves, and elements that no link could still serve, are counted separately from those that a link
    could still serve. With --during the summary says what the common events do alone, which of them bring up again what a case
    took down, and which come after the end and aren't run.

    The cases are those that `failures` writes with the same options, or those of the table CASES, of any length. The program
    runs them with `study`, --size of them at once, on all processors or on a cluster. The same command continues a survey that
    was stopped: finished parts are kept in --parts, and none is run twice. That folder may be deleted when the survey is done.

    --map draws the worst cases. Each of them is run once more with `sim`. The map has a column for each element that has no
    source at the end of one of them, and each field shows what the element follows.

    \b
      $ murdjohe gen 5 > plan.toml
      $ murdjohe survey plan.toml --links --sources --pairs --map map.svg -o rows.csv.gz
    """
    if plan == inputs.STDIN and table == inputs.STDIN:
        raise Wrong("standard input is one file: the plan or the cases")
    until = failure_options.with_start(asked, until)
    map_options.can_be_drawn(asked["map"], output, asked["worst"])
    free(output, force, plan, table, asked["groups"], asked["during"], more=[asked["map"]])
    taken = plan_file.read(plan)
    cases, end = cases_of(context, taken, table, until, asked)
    asked["last"] = cases.told.end if until is None else until
    tally, done = written(taken, cases, end.until, asked, output)
    clash = plan_file.judged(taken).lines if tally.unsettled else []
    told(context, tally, done, end, asked | {"clash": clash, "is_filled": output == inputs.STDIN})
    return program.FOUND if survey_report.has(tally, asked["losses"], asked["fail_on"]) else program.DONE


COMMAND = survey
