"""Certificates and event files, whole or damaged, read as docs/use/formats.md says, against an accepted plan."""

import csv
import io
import re
import sys
from collections.abc import Collection, Mapping

from bench.levels import LEVELS
from bench.readings.refused import Refused
from bench.reference.plan import Plan

csv.field_size_limit(sys.maxsize)


def records(data: bytes) -> list[list[str]]:
    """The records of a file of commas, with each octet as one sign; blank lines are none."""
    text = data.removeprefix(b"\xef\xbb\xbf").decode("latin-1")
    return [record for record in csv.reader(io.StringIO(text, newline="")) if record]


def number_of(field: str, greatest: int) -> int | None:
    """The number that a field is, none where it is no number without sign and leading zero up to the greatest."""
    if not re.fullmatch("0|[1-9][0-9]{0,19}", field, re.ASCII) or int(field) > greatest:
        return None
    return int(field)


def ranks_of(plan: Plan, data: bytes) -> dict[int, int]:
    """The rank of each nominated line of a certificate, or it is refused."""
    rows = records(data)
    if rows[:1] != [["line", "rank"]]:
        raise Refused("bad certificate 34\n")
    named = {plan.input_name(line): line for line in plan.nominated_lines}
    ranks: dict[int, int] = {}
    for number, row in enumerate(rows[1:], 1):
        rank = number_of(row[1], 2**64 - 1) if len(row) == 2 else None
        if rank is None:
            raise Refused(f"bad certificate 35 {number}\n")
        if row[0] not in named:
            raise Refused(f"bad certificate 36 {number}\n")
        if named[row[0]] in ranks:
            raise Refused(f"bad certificate 37 {number}\n")
        ranks[named[row[0]]] = rank
    for line in plan.nominated_lines:
        if line not in ranks:
            raise Refused(f"bad certificate 38 {plan.input_name(line)}\n")
    return ranks


def check_answer(plan: Plan, data: bytes) -> tuple[int, str]:
    """The status and the text of `check` on a certificate of an accepted plan."""
    try:
        ranks = ranks_of(plan, data)
    except Refused as refused:
        return 4, refused.args[0]
    lines = plan.nominated_lines
    for line in lines:
        for after in lines:
            if plan.hops(line, after) and ranks[line] >= ranks[after]:
                return 1, f"falls {plan.input_name(line)} {plan.input_name(after)}\n"
    return 0, "accepted\n"


LINKS_TOO = ("down", "up")


LINES_ALONE = ("esmc-off", "esmc-on")


INPUTS = ("lockout", "unlock", "forced", "manual", "clear-wtr")


def targets_of(plan: Plan) -> dict[str, set[str]]:
    """For each word the names that it is said of."""
    links = {link.name for link in plan.links}
    lines = {plan.input_name(line) for line in range(plan.lines)}
    sources = {source.name for source in plan.sources}
    targets = {word: links | lines | sources for word in LINKS_TOO} | {word: lines for word in LINES_ALONE}
    return (
        targets
        | {word: lines | sources for word in INPUTS}
        | {"level": sources, "clear": {element.name for element in plan.elements}}
    )


def events_refusal(plan: Plan, data: bytes) -> str | None:
    """The text that an event list of an accepted plan is refused with, none where it is accepted."""
    rows = records(data)
    if rows[:1] != [["at", "what", "target", "value"]]:
        return "bad events 26\n"
    targets, last = targets_of(plan), 0
    for number, row in enumerate(rows[1:], 1):
        if number > 100_000:
            return "bad events 33\n"
        wrong = event_refusal(targets, LEVELS[plan.option], last, row)
        if wrong:
            return f"bad events {wrong} {number}\n"
        last = int(row[0])
    return None


def event_refusal(targets: Mapping[str, Collection[str]], levels: list[str], last: int, row: list[str]) -> int | None:
    """The number that a row is refused with, after one at the time `last`; none where it is an event."""
    if len(row) != 4:
        return 27
    at, what, target, value = row
    if number_of(at, 86_400_000) is None:
        return 28
    if int(at) < last:
        return 29
    if what not in targets:
        return 30
    if target not in targets[what]:
        return 31
    if value not in levels if what == "level" else value != "":
        return 32
    return None
