"""What `survey` prints: the worst cases, and which elements are the first to lose their clock."""

from __future__ import annotations

import dataclasses
from typing import Any

from murdjohe.answers.studies import Case
from murdjohe.core import times
from murdjohe.core.columns import table
from murdjohe.core.wording import NAMED, listed, plural
from murdjohe.runs.ends import seconds
from murdjohe.runs.moments import Event
from murdjohe.survey.lost_names import Names
from murdjohe.survey.needless_losses import Loss, Losses
from murdjohe.survey.tallies import Tally

FAILING = ("lost", "needless", "unsettled", "loops")  # what a survey may be asked to fail on
FIRST = "is the first without a source, in the order of the plan; a row names no other element"


def of_cases(count: int, does: str, do: str) -> str:
    """That so many cases do something."""
    return f"{plural(count, 'case')} {does if count == 1 else do}"


def rows_of(outcomes: list[Case]) -> list[str]:
    """The columns of cases that a planner looks at."""
    heads = ["case", "lost", "first", "holdover", "freerun", "loops", "worst", "longest", "settled"]
    rows = [
        [one.case, str(one.lost), one.first or "-", str(one.holdover), str(one.freerun), str(one.loops), one.worst]
        + [str(one.longest), "yes" if one.is_settled else "no"]
        for one in outcomes
    ]
    return [f"  {line}" for line in table(heads, rows)]


def section(head: str, outcomes: list[Case]) -> list[str]:
    """The worst by one measure, where there are any."""
    return ["", head, *rows_of(outcomes)] if outcomes else []


@dataclasses.dataclass(frozen=True)
class Alone:
    """What the events common to all cases do by themselves: who has no source at the end, none known where the program stopped this
    run, whether it is settled then, and the events that come later."""

    lost: list[str] | None
    is_settled: bool
    later: tuple[Event, ...]


@dataclasses.dataclass(frozen=True)
class Ends:
    """The end of each run, the time of day at which runs begin, if one is said, what the common events do alone, if there are any,
    the losses by why they came, by what the end was chosen, where nobody gave it, and who has no source in cases whose names are
    asked for."""

    until: int
    start: int | None
    alone: Alone | None
    losses: Losses
    why: str | None = None
    names: list[Names] = dataclasses.field(default_factory=list)

    @property
    def time(self) -> str:
        """The end as it is told."""
        return f"{self.clock(self.until)} ({self.until:,} ms)"

    def clock(self, at: int) -> str:
        """A millisecond as a time of day, or from the start of the run on."""
        return times.clock(at, self.start or 0)


def losing_text(tally: Tally, losses: Losses) -> list[str]:
    """How many cases leave elements without a source at the end, by why."""
    needless = f"{of_cases(losses.cases, 'leaves', 'leave')} elements without a source at the end although a link could still serve them"
    worst = losses.outcomes()[:1]
    most = f", {plural(worst[0].needless, 'element')} at most: {worst[0].case.case}" if worst else ""
    rest = tally.losing - losses.cases
    apart = [f"{losses.themselves:,} with elements that fail themselves"] if losses.themselves else []
    apart += [f"{losses.beyond:,} with elements that no link could still serve"] if losses.beyond else []
    others = f"{rest:,} other {'case leaves' if rest == 1 else 'cases leave'} only elements without one that nothing could serve: {', '.join(apart)}"
    return [needless + most, others if rest else "no other case leaves an element without a source"]


def alone_text(ends: Ends) -> list[str]:
    """What the common events do by themselves, and how many cases come to more."""
    alone = ends.alone
    if alone is None:
        return []
    if alone.lost is None:
        return [
            "the program stopped the run of the common events alone: more than 200,000 changes",
            *later_text(ends, alone),
        ]
    who = f"{plural(len(alone.lost), 'element')} without a source at the end ({listed(alone.lost)})"
    left = who if alone.lost else "no element without a source at the end"
    restless = "" if alone.is_settled else ", and it isn't settled then"
    more = f"{of_cases(ends.losses.more, 'leaves', 'leave')} more elements without one than they do"
    look = f"what they do before {ends.clock(ends.until)} isn't looked at: --at and --until say another time"
    return [f"the common events alone leave {left}{restless}; {more}; {look}", *later_text(ends, alone)]


def later_text(ends: Ends, alone: Alone) -> list[str]:
    """Which common events come after the end."""
    if not alone.later:
        return []
    first, count = alone.later[0], len(alone.later)
    run = f"comes after the end and isn't run, `{named(first)}` at {ends.clock(first.at)}: `rehearse` runs it too"
    runs = f"come after the end and aren't run, the first `{named(first)}` at {ends.clock(first.at)}: `rehearse` runs all of them"
    return [f"{count:,} of the common events {run if count == 1 else runs}"]


def named(event: Event) -> str:
    """The word and the target of an event."""
    return f"{event.what} {event.target}"


def loss_rows(losses: list[Loss]) -> list[str]:
    """The columns of cases in which elements lose their source, with how many needn't have, how many no link could serve, and how many
    are taken away themselves."""
    heads = "case lost needless beyond themselves first holdover freerun loops worst settled".split()
    rows = [
        [one.case.case, *map(str, (one.case.lost, one.needless, one.beyond, one.themselves)), one.case.first or "-"]
        + [*map(str, (one.case.holdover, one.case.freerun, one.case.loops)), one.case.worst]
        + ["yes" if one.case.is_settled else "no"]
        for one in losses
    ]
    return [f"  {line}" for line in table(heads, rows)]


def names_text(names: list[Names]) -> list[str]:
    """Who has no source in each of some cases, all of them, by why."""
    said = []
    for one in names:
        found = "; ".join(f"{why}: {', '.join(who)}" for why, who in one.each)
        said.append(f"  {one.case}  {found if one.is_known else 'not known, since `sim` stops this run'}")
    return ["", "who has no source at the end, by name and why:", *said] if said else []


def end_text(tally: Tally, ends: Ends) -> list[str]:
    """That the end alone is looked at, when it is, and by what it was chosen."""
    looked = f"{plural(tally.cases, 'case')}, each looked at in its last millisecond, {ends.time}"
    chosen = [f"the end is chosen: {ends.why}"] if ends.why else []
    return [f"{looked}; a source lost and back by then isn't counted, a level worse on the way is", *chosen]


def unsettled_text(tally: Tally) -> str:
    """How many cases are unsettled at the end, with the names of the first, and how many have loops."""
    names = [case.case for case in tally.restless.outcomes() if not case.is_settled][:NAMED]
    more = tally.unsettled - len(names)
    told = f" ({', '.join(names)}{f' and {more:,} more' if more else ''})" if names else ""
    unsettled = f"{of_cases(tally.unsettled, 'is', 'are')} unsettled at the end, still changing then{told}"
    return f"{unsettled}, and {of_cases(tally.looping, 'has', 'have')} loops"


def way_text(tally: Tally) -> str:
    """How many cases make levels worse on the way to the end, for how long at most, and how many do yet."""
    if not tally.hurting:
        return "no case makes levels worse than before on the way"
    worst = tally.dark.outcomes()[0]
    longest = f"for {seconds(worst.dark)} at most, {worst.darkest} in {worst.case}"
    makes = f"{of_cases(tally.hurting, 'makes', 'make')} levels worse than before on the way"
    return f"{makes}, and {tally.still:,} still at the end; {'up to the end ' if tally.still else ''}{longest}"


def text_of(tally: Tally, most: int, ends: Ends) -> list[str]:
    """The summary as a person reads it."""
    said = [*end_text(tally, ends), *losing_text(tally, ends.losses), unsettled_text(tally), way_text(tally)]
    said += alone_text(ends)
    if needless := ends.losses.outcomes():
        head = "who loses the clock though a link could still serve them, most elements first:"
        said += ["", head, *loss_rows(needless)]
    if lost := ends.losses.all_outcomes():
        said += ["", "who has no source at the end, whatever the cause, most elements first:", *loss_rows(lost)]
    said += names_text(ends.names)
    said += section("unsettled, most loops first:", tally.restless.outcomes())
    said += section("longest chains, in lines:", tally.chains.outcomes())
    firsts = tally.first.most_common(most)
    if firsts:
        rows = [[name, f"{count:,}"] for name, count in firsts]
        said += ["", f"in how many cases an element {FIRST}:"]
        said += [f"  {line}" for line in table(["element", "cases"], rows)]
    return said


def has(tally: Tally, losses: Losses, what: str | None) -> bool:
    """Whether a survey has found what it is to fail on, if anything."""
    counts = {"lost": tally.losing, "needless": losses.cases, "unsettled": tally.unsettled, "loops": tally.looping}
    return what is not None and counts[what] > 0


def as_data(tally: Tally, ends: Ends) -> dict[str, Any]:
    """The summary as JSON has it."""
    losses, alone = ends.losses, ends.alone
    worst: dict[str, list[Any]] = {"lost": tally.lost.outcomes(), "worst_needless": losses.outcomes()}
    worst |= {"restless": tally.restless.outcomes(), "dark": tally.dark.outcomes(), "chains": tally.chains.outcomes()}
    return {
        "until": ends.until,
        "end_by": ends.why,
        "cases": tally.cases,
        "losing": tally.losing,
        "needless": losses.cases,
        "taken_away": losses.themselves,
        "beyond": losses.beyond,
        "common_alone": alone and alone.lost,
        "common_settled": alone and alone.lost is not None and alone.is_settled,
        "common_later": alone and len(alone.later),
        "more_than_common": losses.more if alone and alone.lost is not None else None,
        "unsettled": tally.unsettled,
        "looping": tally.looping,
        "hurting": tally.hurting,
        "still": tally.still,
        **{name: [dataclasses.asdict(one) for one in outcomes] for name, outcomes in worst.items()},
        "first": dict(tally.first.most_common()),
        "names": {
            one.case: {"needless": one.needless, "beyond": one.beyond, "themselves": one.themselves}
            if one.is_known
            else None
            for one in ends.names
        },
    }
