"""The page of a run: one file that opens from disk and asks for nothing from outside, put together of the files in `page`."""

from __future__ import annotations

import hashlib
import html
import json
import re
from pathlib import Path
from typing import Any

import murdjohe
from murdjohe.core import program
from murdjohe.core.wording import plural
from murdjohe.network import plan_file
from murdjohe.network.plan_file import Judgement, PlanFile
from murdjohe.picture import colours, page_data
from murdjohe.picture.page_data import Cases
from murdjohe.runs.rehearsals import Rehearsal, clock, dark_text
from murdjohe.runs.simulation import EventFile

PARTS = Path(__file__).parent / "page"
# The modules of the page, each after those that it imports.
MODULES = ("model.js", "picture.js", "tables.js", "main.js")
PROMISE = (
    "no loop is possible: the ranks are greater over every step, so no timing loop can form in the network, whatever fails, comes back or is commanded; "
    "two elements on a link or bundle that is nominated at both ends may take timing from each other until the do-not-use of one "
    "has come to the other"
)


def part(name: str) -> str:
    """A file of the page."""
    return (PARTS / name).read_text(encoding="utf-8")


def script() -> str:
    """The modules as one: their names are all different, so imports and the word `export` may go."""
    texts = [re.sub(r"^import .*\n", "", part(name), flags=re.M) for name in MODULES]
    return "\n".join(re.sub(r"^export ", "", text, flags=re.M) for text in texts)


def as_json(data: dict[str, Any]) -> str:
    """Data as JSON that nothing in it can end: a page looks for `</` and `<!--`, whatever stands between."""
    return json.dumps(data, separators=(",", ":"), ensure_ascii=True).replace("<", "\\u003c")


def digest(data: bytes) -> str:
    return hashlib.sha256(data).hexdigest()


def settled_text(found: Rehearsal, start: int) -> str:
    """What `sim` says of the end of the run."""
    if found.report.stopped_at is not None:
        return f"stopped at {clock(found.until, start)}: more than 200,000 changes"
    if found.settled_at is None:
        return f"no at {clock(found.until, start)}: something would still change by itself"
    return f"yes, from {clock(found.settled_at, start)} on: nothing changes any more by itself"


def agreement_text(judgement: Judgement) -> str:
    """What the program says of the priorities of the plan."""
    if judgement.verdict != plan_file.ACCEPTED:
        return "it isn't looked at, since timing may go round"
    return (
        judgement.remedy
        or "agreed: after a failure no element oscillates if a level reaches it that is better than every internal oscillator (own clock)"
    )


def cuts_text(cases: Cases) -> str:
    """What the cases of a page are, and how many leave somebody without a source."""
    down, end = clock(cases.times.at), clock(cases.times.until)
    needless, others = page_data.losing_cases(cases.rows)
    leaves = "leaves" if needless == 1 else "leave"
    return (
        f"each link alone, down at {down} without the events of this run: {plural(needless, 'link')} {leaves} elements without a "
        f"source although another link could still serve them, {others:,} only elements that none could; the table and the map show "
        f"the end, {end}: what is lost and back by then isn't counted; {cases.way}; the end is chosen: {cases.times.why}"
    )


def facts(
    plan: PlanFile, events: EventFile, found: Rehearsal, start: int, cases: Cases | None = None
) -> list[tuple[str, str]]:
    """The verdicts with what they promise, the versions, and the checksums."""
    with open(program.find(), "rb") as file:
        checksum = hashlib.file_digest(file, "sha256").hexdigest()
    judgement = plan_file.judged(plan)
    verdict = judgement.verdict
    loops = " | ".join(" ".join(walk) for walk in found.report.loops) or "none"
    rejected = plural(len(found.rejected), "command") if found.rejected else "no command"
    return [
        (
            "rank, check",
            verdict + (f": {PROMISE}" if verdict == "accepted" else ": timing may go round over these lines"),
        ),
        ("agree", agreement_text(judgement)),
        ("sim: settled", settled_text(found, start)),
        ("sim: closed walks at the end", loops),
        ("commands", f"{rejected} rejected, by the table of commands"),
        ("between", "traces and walks before the end follow from what each element takes, by the rule of the report"),
        ("at the end", dark_text(found, start)),
        *([("cuts", cuts_text(cases))] if cases else []),
        ("plan", f"{plan.name}, sha256 {digest(plan.data)}"),
        ("events", f"{events.name}, sha256 {digest(events.data)}"),
        ("program", f"{program.NAME}, sha256 {checksum}"),
        ("page", f"murdjohe {murdjohe.__version__}"),
    ]


def page(title: str, data: dict[str, Any], its_facts: list[tuple[str, str]]) -> bytes:
    """The whole page."""
    rows = [f"<dt>{html.escape(name)}</dt><dd>{html.escape(said)}</dd>" for name, said in its_facts]
    filled = {
        "title": html.escape(title),
        "css": part("page.css"),
        "loop": colours.LOOP,
        "case_heads": "".join(f'<th scope="col">{head}</th>' for head in page_data.HEADS),
        "facts": "\n".join(rows),
        "data": as_json(data),
        "script": script(),
    }
    text = re.sub(r"\{\{(\w+)\}\}", lambda found: filled[found[1]], part("page.html"))
    return text.encode("utf-8", "backslashreplace")
