"""Why an element takes what it takes, in sentences and as JSON."""

from __future__ import annotations

from dataclasses import asdict
from typing import Any

from murdjohe.answers.inspections import Reason
from murdjohe.answers.reports import Change
from murdjohe.core.wording import listed, plural
from murdjohe.runs import moments, rehearsals
from murdjohe.runs.moments import Event
from murdjohe.runs.switches import Command
from murdjohe.why import causes
from murdjohe.why.causes import Cause, Silence
from murdjohe.why.choices import AUTO, Why, switch_of
from murdjohe.why.history import Message
from murdjohe.why.input_reasons import Moment, condition_text, input_text, who
from murdjohe.why.signals import Turn


def moment_of(start: int | None) -> Moment:
    """How times are told: in milliseconds, or as times of day in a run that began at `start`."""
    if start is None:
        return lambda at: f"{at} ms"
    beginning = start
    return lambda at: rehearsals.clock(at, beginning)


def since_text(why: Why, since: int | None, moment: Moment) -> str:
    """Since when something is shown, as far as the report tells."""
    if why.stopped_at is not None:
        return ""
    return " from the beginning on" if since is None else f" since {moment(since)}"


def chosen_text(why: Why, moment: Moment) -> str:
    """What the element takes, its level and state."""
    chosen, since = why.chosen, why.since
    if chosen.input is None:
        own = f"has the level of its internal oscillator (own clock), {chosen.level}"
        what = "is in holdover" if chosen.state == "holdover" else "runs free, as it never took anything"
        taken = f"takes nothing{since_text(why, since.input, moment)}: it {what}, and {own}"
        return f"At {moment(why.at)} {chosen.element} {taken}."
    taken = (
        f"{who(why, chosen.input)}, priority {why.priority(chosen.input)}, {since_text(why, since.input, moment)[1:]}"
    )
    later = since_text(why, since.level, moment) if since.level != since.input else ""
    return f"At {moment(why.at)} {chosen.element} takes {taken.rstrip(', ')}, and has {chosen.level}{later}."


def mode_text(why: Why, moment: Moment) -> list[str]:
    """By which switch the element chooses, where there is one, and whether the input that it takes is about to fail."""
    chosen, said = why.chosen, []
    if chosen.mode != AUTO:
        switch = switch_of(why.history, chosen, why.since)
        since = f" since {moment(switch.at)}" if switch else ""
        how = "is forced" if chosen.mode == "forced" else "is switched by hand"
        may = ", which may not be taken, so it takes nothing" if chosen.input is None else ""
        said.append(f"It {how} to {chosen.switched}{since}{may}.")
    taken = next((reason for reason in why.inputs if reason.verdict == "taken"), None)
    if taken and taken.condition != "good":
        said.append(f"Of {taken.input}: {condition_text(why, taken, moment)}.")
    return said


def inputs_text(why: Why, moment: Moment) -> list[str]:
    """Why each other input isn't taken, and which lines and sources there are no inputs."""
    others = [reason for reason in why.inputs if reason.verdict != "taken"]
    said = []
    if others:
        word = "other input" if why.chosen.input else "input"
        said.append(f"Why not its {word}{'' if len(others) == 1 else 's'}:")
        said += [f"  {input_text(why, reason, moment)}." for reason in others]
    else:
        said.append("It has no other input." if why.inputs else "It has no input.")
    wired, its = why.history.wired, {reason.input for reason in why.inputs}
    idle = [line.name for line in wired.lines.values() if line.receiver == why.element and line.name not in its]
    idle += [name for name, at in wired.sources.items() if at == why.element and name not in its]
    if idle:
        said.append(f"Not nominated there, so never taken: {listed(idle)}.")
    return said


def hop_text(why: Why, name: str) -> str:
    """A line of the way up, with the level that is heard on it, and that of its sender where that is another by now."""
    line = why.history.wired.lines[name]
    heard = next(reason.level for reason in why.inspection.inputs if reason.input == name)
    level = why.shown(line.sender).level
    other = f", which has {level} itself by now" if level != heard else ""
    return f"  {line.receiver} takes {name} from {line.sender}, at {heard}{other}."


def end_text(why: Why, moment: Moment) -> str:
    """Where the way up ends."""
    way = why.way
    if way.kind == moments.LOOP:
        walk = way.walk or ()
        what = (
            "two elements take timing from each other" if moments.is_pair(why.history.wired, walk) else "a timing loop"
        )
        return f"There it goes round: {what}, {' '.join(walk)}."
    if way.kind == moments.SOURCE:
        element = why.history.wired.sources[way.name]
        return f"  {element} takes its source {way.name}, at {why.shown(element).level}."
    row = why.shown(way.name)
    state = "in holdover" if row.state == "holdover" else "running free"
    return f"  {way.name} takes nothing: its internal oscillator (own clock), {state}, at {row.level}."


def way_text(why: Why, moment: Moment) -> list[str]:
    """The way up to where timing begins."""
    way = why.way
    if not way.lines:
        return []
    ends = {
        moments.SOURCE: f"to the source {way.name}",
        moments.OWN: f"to the internal oscillator (own clock) of {way.name}",
    }
    end = ends.get(way.kind, "and no clock")
    said = [f"Up the trace, {plural(len(way.lines), 'line')} {end}:"]
    return said + [hop_text(why, line.name) for line in way.lines] + [end_text(why, moment)]


def cause_text(why: Why, cause: Cause, moment: Moment) -> str:
    """A cause in a sentence; events stand behind a star."""
    if isinstance(cause, Event):
        return f"* {' '.join(word for word in (cause.what, cause.target, cause.value) if word)}"
    if isinstance(cause, Command):
        rejected = "" if cause.is_taken else f" (rejected: {cause.why})"
        none = f" (no effect: {cause.idle})" if cause.idle else ""
        return f"* {cause.word} {cause.input or cause.element}{rejected}{none}"
    if isinstance(cause, Turn):
        return turn_text(why, cause, moment)
    if isinstance(cause, Message):
        line = why.history.wired.lines[cause.line]
        return f"{line.receiver} hears {cause.level} on {cause.line}, sent by {line.sender} at {moment(cause.sent)}"
    if isinstance(cause, Silence):
        line = why.history.wired.lines[cause.line]
        return f"{line.receiver} has heard nothing on {cause.line} for five seconds, and its level is lost"
    before = why.history.shown(cause.element, cause.at - 1)
    return f"{cause.element}: {rehearsals.differs(before, cause)}"


def turn_text(why: Why, turn: Turn, moment: Moment) -> str:
    """A time of an input that ran out."""
    its, element = why.history.signals(turn.input), why.history.wired.element_of(turn.input)
    if turn.has_failed:
        return f"{turn.input} fails at {element}: its hold-off time of {its.holdoff} ms is over"
    if turn.is_cleared:
        return f"{turn.input} is good again at {element}: its wait-to-restore time is cleared"
    return f"{turn.input} is good again at {element}: its wait-to-restore time of {its.restoring} ms is over"


def causes_text(why: Why, moment: Moment) -> list[str]:
    """What brought it about, in order of time."""
    if why.stopped_at is not None:
        end = f"the program's report ends at {moment(why.stopped_at)}, after 200,000 changes"
        return [f"What brought it about isn't told: {end}."]
    if not why.causes:
        return ["Nothing has changed it since the beginning."]
    times = [moment(causes.time_of(cause)) for cause in why.causes]
    width = max(map(len, times))
    said = ["What brought it about" + ("" if why.is_whole else ", the last of it (all by --all)") + ":"]
    pairs = zip(times, why.causes)
    return said + [f"  {time:>{width}}  {cause_text(why, cause, moment)}" for time, cause in pairs]


def text_of(why: Why, start: int | None) -> list[str]:
    """All of it as a person reads it."""
    moment = moment_of(start)
    said = [chosen_text(why, moment), *mode_text(why, moment), *inputs_text(why, moment)]
    return said + way_text(why, moment) + causes_text(why, moment)


KINDS: dict[type[object], str] = {
    Event: "event",
    Command: "event",
    Turn: "timer",
    Message: "message",
    Silence: "silence",
    Change: "change",
}


def input_data(why: Why, reason: Reason, moment: Moment) -> dict[str, Any]:
    """An input as JSON has it."""
    line = why.history.wired.lines.get(reason.input)
    return {
        "input": reason.input,
        "from": line.sender if line else None,
        "priority": why.priority(reason.input),
        "condition": reason.condition,
        "left": reason.left,
        "level": reason.level,
        "verdict": reason.verdict,
        "why": None if reason.verdict == "taken" else input_text(why, reason, moment),
    }


def cause_data(why: Why, cause: Cause, moment: Moment) -> dict[str, Any]:
    """A cause as JSON has it."""
    what = cause_text(why, cause, moment).removeprefix("* ")
    return {"at": causes.time_of(cause), "kind": KINDS[type(cause)], "what": what}


def as_data(why: Why, start: int | None) -> dict[str, Any]:
    """All of it as JSON has it; times in milliseconds, and sentences as a person reads them."""
    moment, chosen, way = moment_of(start), why.chosen, why.way
    return {
        "element": why.element,
        "at": why.at,
        "mode": chosen.mode,
        "switched": chosen.switched,
        "input": chosen.input,
        "level": chosen.level,
        "state": chosen.state,
        "since": asdict(why.since),
        "inputs": [input_data(why, reason, moment) for reason in why.inputs],
        "trace": {
            "lines": [{"line": line.name, "from": line.sender, "into": line.receiver} for line in way.lines],
            "kind": way.kind,
            "name": way.name,
            "loop": way.walk,
        },
        "before": [cause_data(why, cause, moment) for cause in why.causes],
        "is_all": why.is_whole,
        "stopped_at": why.stopped_at,
    }
