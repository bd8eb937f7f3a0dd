"""What is said beside the report of a run and beside an inspection, by what they say of its end."""

from __future__ import annotations

from collections.abc import Sequence

from murdjohe.answers.inspections import Inspection
from murdjohe.answers.reports import Loop, Report
from murdjohe.core.inputs import Words
from murdjohe.core.wording import listed, plural
from murdjohe.remarks import run_times
from murdjohe.remarks.agreement import on_oscillation
from murdjohe.runs import idle_commands

LOOPS_NAMED = 3  # loops that a sentence lists


def own_by(report: Report) -> list[str]:
    """The elements whose trace ends at an own clock, each with that element where it is another."""
    own = [trace for trace in report.traces if trace.kind == "own"]
    return [one.element if one.element == one.name else f"{one.element} (that of {one.name})" for one in own]


def on_unsettled(words: Words) -> list[str]:
    """Why a run isn't settled at its end, and what to do."""
    clash = on_oscillation(words)
    if clash:
        return ["not settled, and a later end may not help", *clash]
    return ["not settled: something would still change by itself; run to a later time before you judge by the end"]


def pairs_of(words: Words, report: Report) -> list[Loop]:
    """The closed walks that are two elements facing each other on one link or bundle; by priority alone these are loops as well."""
    from murdjohe.network import wiring
    from murdjohe.plan import plan_tables
    from murdjohe.runs import moments

    plan = plan_tables.network_of(words) if words.form.name == "sim" else None
    return [walk for walk in report.loops if moments.is_pair(wiring.wiring_of(plan), walk)] if plan is not None else []


def on_walks(words: Words, report: Report) -> list[str]:
    """Which timing loops stand at the end, and which pairs."""
    pairs = pairs_of(words, report)
    loops = [walk for walk in report.loops if walk not in pairs]
    said = []
    if loops:
        verb = "loop stands" if len(loops) == 1 else "loops stand"
        said.append(f"{len(loops):,} timing {verb} at the end: {walks_text(loops)}")
    if pairs:
        verb = "pair takes" if len(pairs) == 1 else "pairs take"
        said.append(
            f"{len(pairs):,} {verb} timing from each other at the end, over one link or bundle: {walks_text(pairs)}"
        )
    return said


def walks_text(walks: Sequence[Loop]) -> str:
    """The first of some closed walks."""
    return "; ".join(" ".join(walk) for walk in walks[:LOOPS_NAMED])


def on_run(words: Words, report: Report) -> list[str]:
    """What a report of `sim` or `prio-sim` says at its end that a planner should not pass over."""
    said, own = run_times.after(words), own_by(report)
    if report.loops:
        said += on_walks(words, report)
    if own:
        follow = "follows" if len(own) == 1 else "follow"
        said.append(
            f"{plural(len(own), 'element')} {follow} no source, but internal oscillators (own clocks), at the end: {listed(own)}"
        )
    return said + (on_unsettled(words) if report.is_settled is False else [])


def on_inspection(words: Words, found: Inspection) -> list[str]:
    """Commands that were rejected, and inputs that are locked out at elements that take nothing."""
    said = run_times.after(words)
    rejected = [f"{one.word} {one.input or ''} at {one.at}" for one in found.commands if not one.is_taken]
    if rejected:
        verb = "was" if len(rejected) == 1 else "were"
        said.append(f"{plural(len(rejected), 'command')} {verb} rejected: {listed(rejected)}")
    if len(rejected) < len(found.commands):
        said += idle_commands.beside(words, int(words.passed[-1]))
    idle = {one.element for one in found.elements if one.state != "locked"}
    barred = [one.input for one in found.inputs if one.element in idle and one.verdict == "locked-out"]
    if barred:
        verb = "is" if len(barred) == 1 else "are"
        said.append(f"{plural(len(barred), 'input')} of elements that take nothing {verb} locked out: {listed(barred)}")
    return said
