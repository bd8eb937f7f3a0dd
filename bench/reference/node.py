"""One element on captured frames for the reference: what it sends when it is told what it received, plain and slow.

usage: python3 -m bench.reference.node PLAN ELEMENT FILE UNTIL

`node_text` gives the status and the text of `node PLAN ELEMENT FILE UNTIL`; the script prints the text and ends
with the status. A refused plan is told as the program tells it. The element is a network of its own, in which its
inputs and all lines out of it are nominated and nothing else is, under the signals and commands of the file; each
line into it hears the frames of the file in place of messages. Every millisecond is looked at, not only those of
events and deadlines, and all are kept, so UNTIL had better stay below a few hundred thousand. It needs Python 3.11.
"""

import bisect
import dataclasses
import sys
from collections.abc import Iterator

from bench.levels import CODES, LEVELS, NOT_ENHANCED
from bench.program import parser
from bench.readings.frames import Wrong, frame_of, row_of
from bench.readings.plans import plan_of
from bench.readings.records import INPUTS, LINES_ALONE, LINKS_TOO, event_refusal, number_of
from bench.readings.refused import Refused, Unsure
from bench.reference.network import HEARD_FOR, Network
from bench.reference.plan import Event, Plan, Target
from bench.reference.report import MOST_ROWS, PIECE

# For each line the frames that come on it, each with the level that it says.
Frames = dict[int, list[tuple[int, str | None]]]
LONGEST_LINE = 4096  # in octets, with a carriage return and without the line feed
BEFORE = 43 - 27  # what is wrong with a line has the numbers 43 to 48, as 27 to 32 for a row of an event file


# ---- the file


def targets_of(plan: Plan, e: int) -> dict[str, dict[str, Target]]:
    """For each word the names that it is said of, each with what it names: lines and sources of this element alone."""
    lines = {plan.input_name(line): ("line", line) for line in range(plan.lines)}
    into = {name: line for name, line in lines.items() if plan.receiver_of[line[1]] == e}
    out_of = {name: line for name, line in lines.items() if plan.sender_of[line[1]] == e}
    sources = {source.name: ("source", j) for j, source in enumerate(plan.sources) if source.at == e}
    targets = {word: into | sources for word in INPUTS} | {word: into | out_of | sources for word in LINKS_TOO}
    targets |= {word: out_of for word in LINES_ALONE} | {
        "level": sources,
        "clear": {plan.elements[e].name: ("element", e)},
    }
    return targets | {"frame": {name: line for name, line in into.items() if plan.priority_of[line[1]] > 0}}


def read_file(plan: Plan, e: int, data: bytes) -> tuple[list[Event], Frames]:
    """The events of a file, and for each line the frames that come on it as (at, level); or its first wrong line is
    refused.
    """
    targets, last = targets_of(plan, e), 0
    events: list[Event] = []
    frames: Frames = {}
    for number, line in enumerate(data.split(b"\n"), 1):
        fields = line.removesuffix(b"\r").decode("latin-1").split(",")
        if len(line) > LONGEST_LINE:
            raise Refused(f"bad node 43 {number}\n")
        if fields == [""]:
            continue
        is_frame = len(fields) == 4 and fields[1] == "frame"
        wrong = event_refusal(targets, LEVELS[plan.option], last, fields[:3] + [""] if is_frame else fields)
        if wrong:
            raise Refused(f"bad node {BEFORE + wrong} {number}\n")
        at, what, target, value = int(fields[0]), fields[1], targets[fields[1]][fields[2]], fields[3]
        if is_frame:
            frames.setdefault(target[1], []).append((at, level_of_frame(plan.option, value, number)))
        else:
            events.append(Event(at, what, target, value or None))
        last = at
    return events, frames


def level_of_frame(option: str, digits: str, number: int) -> str | None:
    """The level of a frame on a line of the file, none where its codes name no level."""
    try:
        level = row_of(option, digits.encode("latin-1")).split(",")[2]
    except Wrong as wrong:
        what, error = wrong.args
        raise Refused(f"bad node {48 if what == 12 else 49} {number}{error}\n") from None
    return level if level in LEVELS[option] else None


# ---- the element


def plan_around(plan: Plan, e: int) -> Plan:
    """The plan with an element's own inputs and every line out of it nominated, and nothing else."""

    def priority(receiver: int, sender: int, own: int) -> int:
        return own if receiver == e else int(sender == e)

    links = [
        dataclasses.replace(
            link,
            priority_a=priority(link.a, link.b, link.priority_a),
            priority_b=priority(link.b, link.a, link.priority_b),
        )
        for link in plan.links
    ]
    sources = [source if source.at == e else dataclasses.replace(source, priority=0) for source in plan.sources]
    return Plan(plan.option, plan.elements, links, sources)


class Node(Network):
    """One element of a plan under the events and frames of a file."""

    def __init__(self, plan: Plan, e: int, events: list[Event], frames: Frames) -> None:
        super().__init__(plan_around(plan, e), events)
        self.e, self.frames = e, frames

    def heard(self, line: int, t: int) -> str | None:
        """The level of the last frame that came while the line was up at the end of its millisecond, as long as it
        counts.
        """
        frames = self.frames.get(line, [])
        first, last = (bisect.bisect_right(frames, at, key=lambda frame: frame[0]) for at in (t - HEARD_FOR, t))
        counting = [level for at, level in frames[first:last] if self.up[line][at]]
        return counting[-1] if counting else None

    def sent_rows(self, start: int) -> Iterator[tuple[int, str]]:
        """What is sent from a millisecond on, as (t, row), in each millisecond by line number."""
        for t in range(start, self.length):
            for line in range(self.plan.lines):
                if self.plan.sender_of[line] == self.e and self.is_sent[line][t]:
                    is_event = t > 0 and self.is_news(line, t)
                    frame = frame_text(self.plan.option, f"0200{self.e:08x}", self.out[line][t], is_event)
                    yield t, f"{t},{self.plan.input_name(line)},{frame}\n"


def frame_text(option: str, source: str, level: str, is_event: bool) -> str:
    """The frame of a level as digits, with an extended TLV, all zeros but its code, where the level has an enhanced
    code.
    """
    row = f"{source},{'event' if is_event else 'info'},{level}"
    enhanced = CODES[option][level][1]
    return frame_of(option, (row if enhanced == NOT_ENHANCED else f"{row},{'0' * 16},00,0,0").encode("ascii"))


def node_text(plan: Plan, element: str, data: bytes, until: int) -> tuple[int, str]:
    """The status and the text of what the element of this name sends up to a millisecond."""
    names = [row.name for row in plan.elements]
    if element not in names:
        return 6, "bad node 50\n"
    e = names.index(element)
    try:
        node = Node(plan, e, *read_file(plan, e, data))
    except Refused as refused:
        return 6, refused.args[0]
    rows: list[tuple[int, str]] = []
    while node.length <= until and len(rows) <= MOST_ROWS:
        start = node.length
        node.go_to(min(until, start + PIECE))
        rows += node.sent_rows(start)
    if len(rows) <= MOST_ROWS:
        return 0, "".join(row for _, row in rows)
    # All rows fit up to the millisecond before the first row that doesn't.
    end = rows[MOST_ROWS][0] - 1
    return 11, "".join(row for t, row in rows if t <= end) + f"stopped,{end}\n"


def octets(path: str) -> bytes:
    """The octets of a file."""
    with open(path, "rb") as file:
        return file.read()


def main() -> int:
    words = parser(__doc__)
    for word in ("plan", "element", "file", "until"):
        words.add_argument(word, metavar=word.upper())
    given = words.parse_args()
    until = number_of(given.until, 86_400_000)
    if until is None:
        sys.exit("UNTIL is no number up to 86400000")
    try:
        plan = plan_of(octets(given.plan))
        # The element is looked up before the file is read.
        is_there = any(row.name == given.element for row in plan.elements)
        data = octets(given.file) if is_there else b""
    except OSError as problem:
        sys.exit(f"{problem}")
    except Unsure:
        sys.exit("Python's TOML reader refuses the plan, and a newer version of TOML may take it")
    except Refused as refused:
        print(refused.args[0], end="")
        return 3
    status, text = node_text(plan, given.element, data, until)
    print(text, end="")
    return status


if __name__ == "__main__":
    sys.exit(main())
