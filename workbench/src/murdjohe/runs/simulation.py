"""A plan and an event list as the program runs them: the report, the events as rows, and refusals with the names of the files."""

from __future__ import annotations

import csv

from murdjohe.answers import api, inspections, reports
from murdjohe.answers.inspections import Inspection
from murdjohe.answers.reports import Report
from murdjohe.core import event_times, forms, inputs, program, times
from murdjohe.core.faults import Wrong, reason
from murdjohe.core.inputs import File
from murdjohe.network.plan_file import PlanFile
from murdjohe.runs.moments import Event

NO_EVENTS = b"at,what,target,value\n"
NEAR = (0, 1, 10, 100, 1000)  # milliseconds after the last change in which a network is likely to be settled
AFTER = 1_200_000  # milliseconds that a run goes on after its last event: longer than every hold-off and wait


class EventFile:
    """An event list: its name in sentences, its octets with times in milliseconds, and its rows, as far as they are rows; where the
    user's file has other times, its octets as well."""

    def __init__(self, name: str, data: bytes, original: bytes | None = None) -> None:
        self.name = name
        self.data = data
        self.original = original

    @property
    def events(self) -> tuple[Event, ...]:
        """The rows of a list that the program took."""
        lines = self.data.decode("utf-8-sig", "replace").splitlines()
        rows = [row for row in csv.reader(lines) if row][1:]
        return tuple(Event(int(at), what, target, value) for at, what, target, value in rows)


def read_events(path: str, start: int | None = None) -> EventFile:
    """An event list, in a run that begins at a time of day, where that is said. Raises Wrong."""
    name = "standard input" if path == inputs.STDIN else path
    try:
        with open(0 if path == inputs.STDIN else path, "rb", closefd=path != inputs.STDIN) as file:
            data = file.read(program.LONGEST_FILE + 1)
        made = event_times.turned(name, data, False, start)
        return EventFile(name, made, None if made == data else data)
    except OSError as fault:
        raise Wrong(str(reason(name, fault)), status=program.READ_FAULT) from None
    except ValueError as fault:  # (a name with a zero octet)
        raise Wrong(f"{path}: {fault}", status=program.READ_FAULT) from None


def answer_of(name: str, plan: PlanFile, events: EventFile, at: int, running: set[int] | None = None) -> program.Answer:
    """What a form answers to a plan, events and a millisecond. Raises Wrong, with the program's status, where it refuses them."""
    form = forms.FORMS[name]
    with api.named([plan.data, events.data]) as (plan_path, events_path):
        its = File(forms.EVENTS, events.name, events_path, original=events.original)
        files = [File(forms.PLAN, plan.name, plan_path), its]
        words = inputs.Words(form, [plan.name, events.name, str(at)], [], files)
        given = [form.name, plan_path, events_path, str(at)]
        answer = program.run(given) if running is None else program.run_kept(given, running)
        if answer.status not in reports.GOOD:
            from murdjohe.sentences import answers, others

            said = answers.sentence(words, answer) or f"{name}: status {answer.status}"
            raise Wrong(said, *others.sentences(words, answer), status=answer.status)
    return answer


def report_text(plan: PlanFile, events: EventFile, until: int, running: set[int] | None = None) -> bytes:
    """What `sim` prints. Raises Wrong."""
    return answer_of("sim", plan, events, until, running).text


def inspection_of(plan: PlanFile, events: EventFile, at: int) -> Inspection:
    """What `inspect` says of a millisecond. Raises Wrong."""
    return inspections.inspection(answer_of("inspect", plan, events, at))


def report_of(plan: PlanFile, events: EventFile, until: int, running: set[int] | None = None) -> Report:
    """The report of a run. Raises Wrong."""
    return reports.report(program.Answer(program.DONE, report_text(plan, events, until, running)))


def likely_seconds(events: EventFile, until: int | None = None) -> list[str]:
    """What is said where all events, or the end of a run, come within the first second."""
    last = max((event.at for event in events.events), default=None)
    return times.likely_seconds(last, f"the last event of {events.name}") + times.likely_seconds(
        until, "the end of the run"
    )


def usual_end(events: EventFile) -> int:
    """A while after the last event of a list: twenty minutes, and at most the end of the day."""
    report_end = max((event.at for event in events.events), default=0) + AFTER
    return min(report_end, forms.DAY_MS)


def is_settled(plan: PlanFile, events: EventFile, until: int) -> bool:
    """Whether the network is settled at a millisecond, by the program."""
    return report_text(plan, events, until).endswith(b"\nsettled yes\n")


def settled_from(plan: PlanFile, events: EventFile, report: Report, until: int) -> int | None:
    """From which millisecond after the last event on the network is settled, by the program; None where it isn't at `until`.

    Nothing changes any more in a settled network that is told nothing. So there is one first such millisecond, not before the
    last change; it is looked for near that, and then by halves.
    """
    if not report.is_settled:
        return None
    low = max((event.at for event in events.events if event.at <= until), default=0)
    low = max([low, *(change.at for change in report.changes[-1:])])
    high = until
    for middle in (low + step for step in NEAR if low + step < until):
        if is_settled(plan, events, middle):
            high = middle
            break
        low = middle + 1
    while low < high:
        middle = (low + high) // 2
        low, high = (low, middle) if is_settled(plan, events, middle) else (middle + 1, high)
    return low
