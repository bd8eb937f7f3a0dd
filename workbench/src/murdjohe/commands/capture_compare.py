"""`murdjohe capture compare`: a device beside what it had to send."""

from __future__ import annotations

from typing import Any

import click

from murdjohe.commands.capture_options import EVENTS, LINE, LOCAL, ended
from murdjohe.commands.options import Milliseconds, free, output_options, put
from murdjohe.core import files, program, streams

TYPE_CHECKING = False
if TYPE_CHECKING:
    from murdjohe.capture.lab_report import Comparison


@click.command("compare", short_help="a device beside what it had to send")
@click.argument("plan", type=click.Path())
@click.argument("element")
@click.argument("file", type=click.Path())
@LINE
@LOCAL
@EVENTS
@click.option("--tolerance", type=Milliseconds(), default="100ms", show_default=True, help="what isn't late yet")
@click.option(
    "--from", "begin", type=Milliseconds(), default="5s", show_default=True, help="nothing before is compared"
)
@click.option("--until", type=Milliseconds(), help="nothing after is compared; by default the capture's end")
@click.option("--most", type=click.IntRange(0), default=0, show_default=True, help="how many differences still pass")
@click.option(
    "--reaction", type=Milliseconds(), help="the longest time after which a change may be told; by default any"
)
@click.option("--median", type=Milliseconds(), help="the same for the middle one of a line's times")
@click.option(
    "--rate",
    type=click.FloatRange(1, 100),
    default=1.1,
    show_default=True,
    help="how many information messages a second aren't too many",
)
@click.option("--json", "is_json", is_flag=True, help="the findings as JSON")
@click.option("--junit", type=click.Path(), help="also a file of JUnit: a case for each check on each line")
@click.option("--html", type=click.Path(), help="also a page with all of it, to print or to keep")
@click.option("-q", "--quiet", is_flag=True, help="without sentences on standard error")
@output_options
@click.pass_context
def compare(context: click.Context, plan: str, element: str, file: str, line: tuple[str, ...], **settings: Any) -> int:
    """Compares what a device sent with what ELEMENT of PLAN has to send for what the device received.

    What it received are the frames of the capture FILE on lines into ELEMENT, which go to `murdjohe node`. What it sent are the
    frames on lines out of ELEMENT. The first line is `pass` or `fail`. Each difference is a row with the number of the frame:
    missing, late by more than the tolerance, wrong level, unexpected, or too many, by --rate. Below stands how soon each line
    told a change. The device also fails if that is longer than --reaction or --median. Information messages may come in any
    part of a second. Millisecond 0 is that of the first packet. The first five seconds aren't compared, since it isn't known
    what the device had heard before. A capture may have any length. The status is 0 if it passes, and 1 if not; it is 3 or 6 if
    the plan or the capture is refused.

    \b
      $ murdjohe gen 2 > plan.toml
      $ yes 020000000001,info,QL-PRC | head -n 9 > rows
      $ murdjohe capture write rows -o capture.pcap
      $ murdjohe capture compare plan.toml E1 capture.pcap --line S1\\>E1=020000000001 --line S1\\>E0=020000000002
    """
    from murdjohe.answers import api
    from murdjohe.capture import lab_report
    from murdjohe.core import progress

    output, force, junit, html = (settings.pop(name) for name in ("output", "force", "junit", "html"))
    free(output, force, plan, file, settings["events"], more=(junit, html))
    is_json, _ = settings.pop("is_json") or context.find_root().params["json"], settings.pop("quiet")
    try:
        with progress.watched("capture compare"):
            done = lab_report.comparison(lab_report.Asked(plan, element, file, line, **settings))
    except api.Refused as refused:
        streams.tell(refused.sentence)
        return refused.status
    kept(done, junit, html)
    said = list(done.said)
    shown = lab_report.as_json(done.bench, done.found, said) if is_json else lab_report.text_of(done)
    put(context, output, shown.encode("utf-8", "backslashreplace"))
    return ended(context, done.taken, said) or (program.DONE if done.is_passed else program.REFUTED)


def kept(done: Comparison, junit: str | None, html: str | None) -> None:
    """Writes the files of JUnit and of HTML that are asked for. Raises Wrong."""
    from murdjohe.capture import lab_checks

    its = {junit: lab_checks.as_junit, html: lab_checks.as_page}
    files.all_written({path: made(done) for path, made in its.items() if path})
