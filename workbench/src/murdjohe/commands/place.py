"""`murdjohe place`: where to put clocks and filters."""

from __future__ import annotations

from decimal import Decimal
from typing import Any

import click

from murdjohe.commands.options import free
from murdjohe.core import files, plain_json, program, progress, streams
from murdjohe.core.inputs import STDIN
from murdjohe.network import plan_file
from murdjohe.picture import figures
from murdjohe.place import placement_text, questions
from murdjohe.place.placements import Placed
from murdjohe.place.questions import SECONDS, SINCE, Wish
from murdjohe.plan.model import Plan

WISHES = ("links", "links_failed", "filters", "since", "survive", "groups", "anew", "partly", "seconds")


def printed(
    context: click.Context, found: Placed, costs: dict[int | None, Decimal], is_plan: bool, asked: dict[str, Any]
) -> None:
    """Prints the plan with what is said beside it, or that alone, or as JSON."""
    said = placement_text.text_of(found, costs, asked["since"])
    if is_plan and found.made.judgement:
        context.obj.put(found.made.data)
        streams.tell(*said, colour="green" if found.holds() else "yellow")
    elif asked["as_json"] or context.find_root().params["json"]:
        context.obj.put(plain_json.text(placement_text.as_data(found, costs)))
    else:
        context.obj.put("".join(f"{line}\n" for line in said).encode("utf-8", "surrogateescape"))


def picture(found: Placed, network: Plan, ending: str) -> bytes:
    """The picture in a format."""
    from murdjohe.picture import site_picture

    return site_picture.drawn(found, network, ending)


@click.command("place")
@click.argument("plan", type=click.Path())
@click.argument("table", metavar="SITES", type=click.Path())
@click.option(
    "--links", type=click.IntRange(0), help="at most so many lines from a clock to any element without a failure"
)
@click.option("--links-failed", type=click.IntRange(0), help="at most so many after any single failure")
@click.option(
    "--filters",
    type=click.Path(),
    help="candidates for filtering clocks (SSU): a table with the columns element and cost",
)
@click.option("--since", type=click.IntRange(1), default=SINCE, show_default=True, help="lines since the last filter")
@click.option("--survive/--no-survive", default=True, help="whether the loss of a clock is a failure")
@click.option("--groups", type=click.Path(), help="parts that fail together, as ducts: a table group,kind,part")
@click.option("--anew", is_flag=True, help="leaves the sources of the plan out: the table has all candidates")
@click.option("--partly", is_flag=True, help="covers what sites can cover, and says what none can")
@click.option(
    "--seconds", type=click.FloatRange(1), default=SECONDS, show_default=True, help="how long the search may take"
)
@click.option(
    "--json", "as_json", is_flag=True, help="JSON: sites, costs, what each is there for, other limits, verdicts"
)
@click.option(
    "--picture",
    "drawn",
    type=click.Path(),
    help="draws the sites and the elements that each covers: .svg, .png or .pdf",
)
@click.option("-o", "--output", type=click.Path(), help="writes the plan with its clocks and priorities to this file")
@click.option("--force", is_flag=True, help="overwrites an existing file")
@click.pass_context
def place(context: click.Context, plan: str, table: str, **asked: Any) -> int:
    """Finds the cheapest sites for clocks with which every element keeps a clock after any single failure.

    SITES is a table of candidates: element,cost,level. Sources of the plan stay, and cost nothing. An element is covered if a
    path of at most --links lines leads to it from a clock, and after each failure of a link, bundle, element or clock a path of
    at most --links-failed lines. A set that is called least is proved to be the cheapest. Of sets that cost the same it has the
    fewest sites. Then `protect` nominates the plan. If its paths are longer than the shortest, a site is added, and the command
    says so.

    What is said of the plan comes from the program: `check`, `agree`, `protected`, and `study` of all single failures. The
    status is 0 if all of that holds. It is 1 if no set of sites covers every element; the command then names the element and
    the failure.

    \b
      $ murdjohe gen 6 > plan.toml
      $ printf 'element,cost,level\\nE0,0,QL-PRC\\nE5,4,QL-PRTC\\nE3,3,QL-PRTC\\n' > sites.csv
      $ murdjohe place plan.toml sites.csv --links 3
    """
    output, drawn = asked["output"], asked["drawn"]
    ending = figures.ending_of(drawn) if drawn else ""
    free(output, asked["force"], plan, table, asked["filters"], asked["groups"], more=[drawn])
    wish = Wish(**{name: asked[name] for name in WISHES})
    its = questions.given(plan_file.read(plan), table, wish)
    with progress.watched("place"):
        found, limit_costs = questions.sought(its, wish.since, wish.partly)
    written = {output: found.made.data} if output and output != STDIN and found.made.judgement else {}
    if drawn:
        written[drawn] = picture(found, its.network, ending)
    files.all_written(written)
    printed(context, found, limit_costs, output == STDIN, asked)
    return program.DONE if found.holds() and not its.problem.left_out else program.REFUTED


COMMAND = place
