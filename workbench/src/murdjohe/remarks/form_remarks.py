"""What a planner should know beside an answer that is no refusal: a sentence or some, for standard error.

What is said after an answer of a form stands in a table, for answers that are done and for those that are refuted. What takes long
to import is imported when it is needed, since every start of `check` reads this.
"""

from __future__ import annotations

from murdjohe.core import forms, program
from murdjohe.core.inputs import Words
from murdjohe.core.program import Answer
from murdjohe.core.wording import plural
from murdjohe.remarks import plan_remarks

TYPE_CHECKING = False
if TYPE_CHECKING:
    from collections.abc import Callable

    Remark = Callable[[Words, Answer], list[str]]


def on_hops(answer: Answer) -> list[str]:
    """Which elements have no way to a clock over any links."""
    from murdjohe.answers import reports
    from murdjohe.remarks import reach_remarks

    return reach_remarks.on_hops(reports.hops(answer))


def on_chains(answer: Answer) -> list[str]:
    """Which elements may come to a longer chain of timing than G.803's reference chain."""
    from murdjohe.answers import reports
    from murdjohe.remarks import reach_remarks

    return reach_remarks.on_chains(reports.chains(answer))


def on_nominated(words: Words) -> list[str]:
    """Which elements `nominate` and `protect` could give no input: by the program's own count of hops."""
    return on_hops(program.run(["hops", words.passed[1]]))


def on_found(words: Words, answer: Answer) -> list[str]:
    """What is said beside a plan of `protect`."""
    from murdjohe.protection import promise

    return on_nominated(words) + promise.on_found(answer.said)


def on_none(answer: Answer) -> list[str]:
    """Why `protect` found no plan."""
    from murdjohe.protection import promise

    return promise.on_none(answer.said)


def on_run(words: Words, answer: Answer) -> list[str]:
    """What a report says at its end."""
    from murdjohe.answers import reports
    from murdjohe.remarks import run_remarks

    return run_remarks.on_run(words, reports.end_of(answer.said, words.form.name))


def on_inspection(words: Words, answer: Answer) -> list[str]:
    """What an inspection says of commands and inputs."""
    from murdjohe.answers import inspections
    from murdjohe.remarks import run_remarks

    return run_remarks.on_inspection(words, inspections.inspection(answer))


def on_cuts(words: Words, answer: Answer) -> list[str]:
    """What a table of cuts says."""
    from murdjohe.answers import studies
    from murdjohe.remarks import losses

    return losses.on_cuts(words, studies.sweep(answer).rows)


def on_cases(words: Words, answer: Answer) -> list[str]:
    """What a table of cases says."""
    from murdjohe.answers import studies
    from murdjohe.remarks import losses, run_times

    return run_times.after(words) + losses.on_cases(words, studies.study(answer).rows)


def on_capture(words: Words, answer: Answer) -> list[str]:
    """How many packets were none, and whether the other option is meant."""
    from murdjohe.answers import reports

    found, other = reports.read(words.form.name, answer), "II" if words.passed[1] == "I" else "I"
    said = []
    if found.passed:
        what = "packet is no ESMC frame" if found.passed == 1 else "packets are no ESMC frames"
        said.append(f"{found.passed} {what} (another protocol, a VLAN tag, or cut below 60 bytes)")
    strange = sum(row.level.startswith("code-") for row in found.rows)
    if strange * 2 > len(found.rows):
        told = f"{strange:,} of {plural(len(found.rows), 'frame')} have a code that the option doesn't know"
        said.append(f"{told}: is option {other} meant?")
    return said


def on_trial(answer: Answer) -> list[str]:
    """Whether the ladder is settled."""
    return ["the ladder isn't settled at its end"] if answer.said.endswith("settled no\n") else []


def on_stopped(words: Words, answer: Answer) -> list[str]:
    """Where a run was stopped, and what to do."""
    last = answer.said.rstrip("\n").rpartition("stopped,")[2]
    if words.form.name == "node":
        return [f"stopped: more than 200,000 frames; all up to {last} ms are told. Replay to an earlier time"]
    return [
        f"stopped: more than 200,000 changes; all up to {last} ms are told. Run to an earlier time, or look whether two "
        "elements oscillate, each taking and dropping the other, and give both a floor"
    ]


DONE: dict[str, Remark] = {
    "check": lambda words, _: plan_remarks.on_accepted(words),
    "rank": lambda words, answer: plan_remarks.on_ranks(words, answer.said),
    "prio-check": lambda words, _: plan_remarks.on_prio_accepted(words),
    "prio-rank": lambda words, answer: plan_remarks.on_prio_ranks(words, answer.said),
    "protected": plan_remarks.on_protected,
    "agree": lambda words, answer: plan_remarks.on_agreed(words, answer.said),
    "chains": lambda _, answer: on_chains(answer),
    "hops": lambda _, answer: on_hops(answer),
    "nominate": lambda words, _: on_nominated(words),
    "protect": on_found,
    "sim": on_run,
    "prio-sim": on_run,
    "inspect": on_inspection,
    "sweep": on_cuts,
    "study": on_cases,
    "trial": lambda _, answer: on_trial(answer),
    "decode": on_capture,
    "pcap-decode": on_capture,
}
REFUTED: dict[str, Remark] = {
    "check": lambda words, answer: plan_remarks.on_falling(words, answer.said),
    "prio-check": lambda words, answer: plan_remarks.on_falling(words, answer.said),
    "rank": lambda words, answer: plan_remarks.on_cycle(words, answer.said),
    "chains": lambda words, answer: plan_remarks.on_cycle(words, answer.said),
    "prio-rank": lambda words, answer: plan_remarks.on_switches(words, answer.said),
    "protected": plan_remarks.on_gaps,
    "protect": lambda _, answer: on_none(answer),
    "agree": lambda words, answer: plan_remarks.on_clash(words, answer.said),
}
TABLES = {program.DONE: DONE, program.REFUTED: REFUTED}


def remarks(words: Words, answer: Answer) -> list[str]:
    """The sentences on an answer that is no refusal."""
    if answer.status == program.STOPPED:
        return on_stopped(words, answer)
    of_form = TABLES.get(answer.status, {}).get(words.form.name)
    said = of_form(words, answer) if of_form else []
    if answer.status == program.DONE and any(word.kind == forms.TIME for word in words.form.words):
        from murdjohe.remarks import run_times

        said = said + words.chosen + run_times.on_seconds(words)
    return said
