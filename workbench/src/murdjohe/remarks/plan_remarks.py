"""What is said of a plan beside answers on its ranks, its failures and its priorities."""

from __future__ import annotations

from murdjohe.core import forms
from murdjohe.core.inputs import Words
from murdjohe.core.program import Answer
from murdjohe.core.row_columns import rows_of
from murdjohe.core.wording import have, plural
from murdjohe.plan.plan_tables import network_of
from murdjohe.remarks.agreement import on_oscillation

RING = 40  # lines of a ring of which it is said where they are nominated
EMPTY = "the plan is empty: is it the file that was meant?"


def greatest_rank(certificate: str) -> int | None:
    """The greatest rank of a certificate that was accepted or written; None where it has no row."""
    rows = rows_of(certificate)
    return max((int(row.rpartition(",")[2].strip('"')) for row in rows), default=None)


def on_plan(words: Words, top: int | None) -> list[str]:
    """What an accepted plan has, and which elements have no way to a clock."""
    from murdjohe.network import clock_reach

    network = network_of(words)
    if network is None:
        return []
    elements, lines = len(network.elements), len(network.nominated_lines())
    rank = "" if top is None else f", greatest rank {top:,}"
    said = [f"{plural(elements, 'element')}, {plural(lines, 'nominated line')}{rank}"]
    if not elements:
        return [*said, EMPTY]
    if not clock_reach.roots_of(network):
        return [*said, "no source is nominated, so nothing ever has a clock"]
    without = clock_reach.without_way(network)
    return said + ([have(without, "no way to a clock over nominated lines")] if without else [])


def certificate_of(words: Words) -> str:
    """The text of the certificate; none where the disk doesn't give it any more."""
    file = words.file(forms.CERTIFICATE)
    try:
        with open(file.path if file else "", encoding="utf-8-sig") as source:
            return source.read()
    except (OSError, ValueError):
        return ""


def on_accepted(words: Words) -> list[str]:
    """What `check` accepted."""
    top = greatest_rank(certificate_of(words))
    first, *rest = on_plan(words, top) or ["no loop is possible"]
    return [f"accepted: {first}", *rest, *on_oscillation(words)]


def on_ranks(words: Words, text: str) -> list[str]:
    """What was ranked."""
    first, *rest = on_plan(words, greatest_rank(text)) or ["no loop is possible"]
    return [f"no loop is possible: {first}", *rest, *on_oscillation(words)]


def nominations(words: Words, lines: list[str]) -> list[str]:
    """Where each of these lines is nominated: the file, its line and the key."""
    from murdjohe.core import documents
    from murdjohe.plan import plan_lines

    file = words.file(forms.PLAN)
    try:
        plan = plan_lines.PlanLines(documents.read(file)) if file else None
    except OSError:
        plan = None
    found = plan.lines_of() if plan else {}
    said = []
    for line in lines:
        if plan and line in found:
            number, end = found[line]
            priority = plan.row("link", number).get(f"priority_{end}")
            place = plan.line("link", number, f"priority_{end}")
            said.append(
                f"{plan.document.name}:{place}: {line} is priority_{end} = {priority} of link {line.partition('>')[0]}"
            )
    return said


def on_ring(words: Words, lines: list[str]) -> list[str]:
    """The ring over which timing may go round, and where each of its lines is nominated."""
    if not lines:
        raise ValueError("a ring has lines")
    ring = " -> ".join([*lines, *lines[:1]])
    first = f"timing may go round over {ring}: take the priority away from one of these lines (0 is not nominated)"
    more = len(lines) - RING
    return [first, *nominations(words, lines[:RING]), *([f"and {more:,} lines more"] if more > 0 else [])]


def on_fall(words: Words, before: str, line: str) -> str:
    """The hop over which the rank doesn't rise, with both ranks."""
    rows = [row.replace('"', "").rpartition(",") for row in certificate_of(words).splitlines()]
    ranks = {name: f" ({rank})" for name, _, rank in rows}
    greater = f"the rank of {line}{ranks.get(line, '')} isn't greater than that of {before}{ranks.get(before, '')}"
    form = "prio-rank" if words.form.name.startswith("prio-") else "rank"
    return (
        f"timing may go on from line {before} to line {line}, and {greater}: `murdjohe {form}` says whether a loop is possible; "
        "correct the ranks, or break the loop"
    )


def on_gaps(words: Words, answer: Answer) -> list[str]:
    """How many failures, and which groups, cut off elements that needn't be, and what to do."""
    rows = rows_of(answer.said)
    grouped = sum(row.startswith("group,") for row in rows)
    counts = [plural(len(rows) - grouped, "failure")] if len(rows) > grouped else []
    counts += [plural(grouped, "group")] if grouped else []
    verb = "leaves" if len(rows) == 1 else "leave"
    said = [
        f"{' and '.join(counts)} {verb} elements without a clock that they could have: nominate lines that lead there "
        "from elements that have one"
    ]
    return said + on_groups(words, answer)


def on_groups(words: Words, answer: Answer) -> list[str]:
    """What is said of groups beside an answer of `protected`, where there are some."""
    if words.file(forms.GROUPS) is None:
        return []
    from murdjohe.answers import reports
    from murdjohe.network import group_remarks

    return group_remarks.beside(words, reports.gaps(answer).rows)


def on_clash(words: Words, text: str) -> list[str]:
    """The lines that bear on one another in a circle, and where each of them is nominated."""
    lines = text.split()[1:]
    if not lines:
        raise ValueError("a circle has lines")
    circle = " -> ".join([*lines, *lines[:1]])
    first = (
        f"elements may oscillate for ever over {circle}: give one of these lines the lowest priority at its element, a greater "
        "number than each other input there, or take its priority away"
    )
    more = len(lines) - RING
    return [first, *nominations(words, lines[:RING]), *([f"and {more:,} lines more"] if more > 0 else [])]


def on_agreed(words: Words, text: str) -> list[str]:
    """By when a network of the plan is at rest, after any events and after failures alone, and what the plan has."""
    _, _, bound, _, failures = text.split()
    reached = "wherever a level reaches that is better than every internal oscillator (own clock)"
    at_rest = f"at rest {int(bound) / 1000:,.3f} seconds after the last event, if no element is under a switch then, {reached}"
    premises = "out of a network at rest, if nothing comes up, no ESMC goes off and each source has its planned level at all times"
    soon = f"after failures alone, {premises}: {int(failures) / 1000:,.3f} seconds after the last"
    return [at_rest, soon, *on_plan(words, None)]


def on_prio_accepted(words: Words) -> list[str]:
    """What `prio-check` accepted."""
    return ["accepted: no loop can form among elements that choose by priority alone", *on_plan(words, None)[1:]]


def on_prio_ranks(words: Words, text: str) -> list[str]:
    """What `prio-rank` ranked."""
    return [": ".join(["no loop can form", *on_plan(words, greatest_rank(text))[:1]])]


def on_protected(words: Words, answer: Answer) -> list[str]:
    """What `protected` found in order."""
    first, *rest = on_plan(words, None) or ["no element loses sync by a single failure while another path exists"]
    return [f"protected: {first}", *rest, *on_groups(words, answer)]


def on_falling(words: Words, text: str) -> list[str]:
    """The hop over which ranks of a certificate don't rise."""
    _, before, line = text.split()
    return [on_fall(words, before, line)]


def on_cycle(words: Words, text: str) -> list[str]:
    """The first possible loop."""
    return on_ring(words, text.split()[1:])


def on_switches(words: Words, text: str) -> list[str]:
    """The commands that make a loop of elements that choose by priority alone."""
    lines = [row.split(",")[2] for row in rows_of(text)]
    return [*on_ring(words, lines), "these commands make the loop: `murdjohe prio-sim PLAN EVENTS 0` shows it"]
