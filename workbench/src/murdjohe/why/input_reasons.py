"""Why an input isn't taken, in a sentence: by the program's verdict on it, with since when and by what."""

from __future__ import annotations

from collections.abc import Callable

from murdjohe.answers.inspections import Reason
from murdjohe.core.wording import plural
from murdjohe.why import causes, signals
from murdjohe.why.choices import Why

Moment = Callable[[int], str]  # a millisecond as it is told


def who(why: Why, name: str) -> str:
    """An input, and whence it comes."""
    line = why.history.wired.lines.get(name)
    return f"{name} (from {line.sender})" if line else f"{name} (a source)"


def signal_since(why: Why, reason: Reason) -> int:
    """Since when an input in hold-off is down, or one that is restoring is up, by how much of that is left."""
    its = why.history.signals(reason.input)
    return why.at + reason.left - (its.holdoff if reason.condition == "holdoff" else its.restoring)


def condition_text(why: Why, reason: Reason, moment: Moment) -> str:
    """How an input stands."""
    if reason.condition == "good":
        return "it is up"
    if reason.condition == "failed":
        return failed_text(why, reason, moment)
    since, end = moment(signal_since(why, reason)), moment(why.at + reason.left)
    if reason.condition == "holdoff":
        return f"it is down since {since}, and fails at {end} unless it is up again before"
    minutes = plural(why.network.orders[reason.element].wtr, "minute")
    wait = f"its wait-to-restore time of {minutes} ends at {end}, if nothing happens"
    return f"it is up again since {since}, and counts as failed until {wait}"


def failed_text(why: Why, reason: Reason, moment: Moment) -> str:
    """Since when an input that is down has failed."""
    its = why.history.signals(reason.input)
    turn, flip = its.last_turn(why.at), signals.last_flip(its.ups, why.at)
    if turn is None or flip is None:
        return "it is down"
    if flip[0] > turn.at:
        return f"it failed at {moment(turn.at)}, and is down again since {moment(flip[0])}, before it was good"
    after = f"after the hold-off time of {its.holdoff} ms"
    return f"it is down since {moment(turn.since)}, and failed at {moment(turn.at)}, {after}"


def level_text(why: Why, reason: Reason) -> str:
    """What level an input has."""
    if reason.level is None:
        return "nothing is heard on it"
    return f"{reason.level} is heard on it" if reason.input in why.history.wired.lines else f"it has {reason.level}"


def level_since(why: Why, reason: Reason, moment: Moment) -> str:
    """Since when a line has brought the level that is heard on it, or a source has the level that it has."""
    if reason.input in why.history.wired.sources:
        told = why.history.signals(reason.input).told(0, why.at, "level")
        return f" since {moment(told[-1].at)}" if told and told[-1].value == reason.level else ""
    message = None if why.stopped_at is not None else why.history.heard(reason.input, why.at)
    if message is None or message.level != reason.level:
        return ""
    return f" since {moment(why.history.news(message).came)}"


def on_locked_out(why: Why, reason: Reason, moment: Moment) -> str:
    lockout = causes.lockout_of(why.history, reason.input)
    since = f" since {moment(lockout.at)}" if lockout else ""
    return f"is locked out by the operator{since}; {level_text(why, reason)}, and {condition_text(why, reason, moment)}"


def on_failed(why: Why, reason: Reason, moment: Moment) -> str:
    word = "is restoring" if reason.condition == "restoring" else "has failed"
    return f"{word}: {condition_text(why, reason, moment)}"


def on_silent(why: Why, reason: Reason, moment: Moment) -> str:
    its = why.history.signals(reason.input)
    silence = None if why.stopped_at is not None else causes.silence_of(why.history, reason.input, why.at)
    if silence:
        last = f"the last message over it came at {moment(silence.last.came)}, and counted for five seconds"
        said = f"is silent since {moment(silence.at)}: {last}"
    else:
        said = "is silent: nothing is heard on it"
    off, flip = signals.last_flip(its.messages, why.at), signals.last_flip(its.ups, why.at)
    if off and not off[1]:
        return f"{said}; its ESMC is off since {moment(off[0])}"
    # (it speaks from the last of these on)
    sent = max(off[0] if off else 0, flip[0] if flip else 0)
    came = sent + why.history.wired.lines[reason.input].delay
    if reason.condition == "good" and came > why.at:
        return f"{said}; what is sent over it since {moment(sent)} comes from {moment(came)} on"
    return said


def back_text(why: Why, name: str, moment: Moment) -> str:
    """Why a neighbour says do-not-use: it takes its timing from here, or took it so when it said that."""
    line, lines = why.history.wired.lines[name], why.history.wired.lines
    now = lines.get(why.shown(line.sender).input or "")
    back = now if now and now.sender == line.receiver and now.bundle == line.bundle else None
    verb, then = "takes", ""
    message = None if why.stopped_at is not None else why.history.heard(name, why.at)
    said = why.history.taken_back(line, message.sent) if message else None
    if message and said and said != back:
        back, verb, then = said, "took", f" when it said so, at {moment(message.sent)}"
    if back is None:
        return f"so {line.sender} tells the element that it takes its timing from"
    other = "" if back.link == line.link else ", which is of the same bundle"
    return f"{line.sender} {verb} its timing from {line.receiver} over {back.name}{other}{then}"


def on_do_not_use(why: Why, reason: Reason, moment: Moment) -> str:
    since = level_since(why, reason, moment)
    if reason.input in why.history.wired.lines:
        return f"says do-not-use, {reason.level}{since}: {back_text(why, reason.input, moment)}"
    return f"has do-not-use, {reason.level}{since}"


def on_below_floor(why: Why, reason: Reason, moment: Moment) -> str:
    floor = why.network.orders[reason.element].floor
    level = f"{level_text(why, reason)}{level_since(why, reason, moment)}"
    said = f"is below the floor: {level}, and the floor of {reason.element} is {floor}"
    line = why.history.wired.lines.get(reason.input)
    row = why.shown(line.sender) if line else None
    if row and row.input is None and row.level == reason.level:
        said += f"; {row.element} takes nothing, and has this of its internal oscillator (own clock)"
    return said


def on_reserve(why: Why, reason: Reason, moment: Moment) -> str:
    said = f"could be taken, with {reason.level}{losing_text(why, reason)}"
    return said if reason.condition == "good" else f"{said}; {condition_text(why, reason, moment)}"


def losing_text(why: Why, reason: Reason) -> str:
    """By what an input that could be taken loses."""
    chosen = why.chosen
    if chosen.mode == "forced":
        return f"; the forced switch to {chosen.switched} holds it off"
    taken = next(one for one in why.inputs if one.verdict == "taken")
    if taken.level != reason.level:
        return f"; {taken.input} has a better level, {taken.level}"
    if chosen.mode == "manual":
        return f" too; the manual switch to {chosen.switched} stands whatever the priorities, while no level is better"
    own, other = why.priority(reason.input), why.priority(taken.input)
    if own != other:
        return f" too; its priority is {own}, and {taken.input} comes first by {other}"
    return f" too, and the same priority, {own}; {tie_text(why, taken.input)}"


def tie_text(why: Why, taken: str) -> str:
    """Which of inputs of one level and priority is taken."""
    if why.stopped_at is not None:
        return "of such the one that is taken already stays, and otherwise the first of the plan is taken"
    is_new = why.since.input == why.at
    return f"of such {taken} is taken, the first of the plan" if is_new else f"{taken}, which is taken already, stays"


TEXTS: dict[str, Callable[[Why, Reason, Moment], str]] = {
    "locked-out": on_locked_out,
    "failed": on_failed,
    "silent": on_silent,
    "do-not-use": on_do_not_use,
    "below-floor": on_below_floor,
    "reserve": on_reserve,
}


def input_text(why: Why, reason: Reason, moment: Moment) -> str:
    """Why an input isn't taken."""
    return f"{who(why, reason.input)} {TEXTS[reason.verdict](why, reason, moment)}"
