"""Random plans with an element and a file for it: lines of every word, right and wrong, and now and then very many
frames."""

import random
from typing import NamedTuple

from bench.compare.frames import frame_line, mixed
from bench.levels import LEVELS
from bench.readings.records import number_of
from bench.reference.network import REPEAT
from bench.reference.node import LONGEST_LINE, frame_text, targets_of
from bench.reference.plan import Link, Plan, PlanElement, Source
from bench.reference.random_plans import random_plan
from bench.reference.report import MOST_ROWS


class Case(NamedTuple):
    """A plan, the name of an element or of none, the octets of a file (none where it isn't there), and UNTIL."""

    plan: Plan
    element: str
    data: bytes
    until: int
    is_there: bool = True


OTHER_TIMES = [
    "",
    "-1",
    "+1",
    "01",
    "00",
    " 1",
    "1 ",
    "1.0",
    "0x1",
    "86400001",
    "18446744073709551616",
    "1" * 30,
    "\xef\xbb\xbf1",
]
OTHER_WORDS = ["", "Frame", "frames", "fram", " down", "down ", "DOWN", "esmc", "clear-wt", "lock-out", "forced-switch"]


def element_of(chance: random.Random, plan: Plan) -> int:
    """An element, mostly one with lines."""
    joined = [end for link in plan.links for end in (link.a, link.b)]
    return chance.choice(joined if joined and chance.random() < 0.9 else range(len(plan.elements)))


def random_times(chance: random.Random, until: int) -> list[int]:
    """Times of a file in order: many together, where a time just ends, or where levels are repeated; and some after
    UNTIL.
    """
    times = [chance.randint(0, until) for _ in range(chance.choice([0, 1, 2, 5, 10, 20]))]
    offsets = [0, 0, 0, 1, 2, 299, 300, 301, 600, 999, 1000, 4998, 4999, 5000, 5001]
    for _ in range(2):
        times += [at + chance.choice(offsets) for at in times[:20]]
    times += [at - at % REPEAT for at in times[:5]]
    return sorted(times + [until + chance.choice([0, 1, 1000, 86_400_000 - until])] * (chance.random() < 0.3))


def some_frame(chance: random.Random, option: str, levels: list[str]) -> str:
    """A frame as digits: of one of these levels, or any that is right."""
    if chance.random() < 0.25:
        return frame_line(chance, True).decode("latin-1")
    digits = frame_text(option, chance.randbytes(6).hex(), chance.choice(levels), chance.random() < 0.5)
    return mixed(chance, digits)


def random_lines(chance: random.Random, plan: Plan, e: int, until: int) -> list[list[str]]:
    """The fields of lines that are right."""
    targets = targets_of(plan, e)
    often = {"frame": 8, "down": 2, "up": 3, "esmc-off": 1, "esmc-on": 2, "level": 2}
    words = [word for word in targets for _ in range(often.get(word, 1)) if targets[word]]
    levels = [source.level for source in plan.sources] + [plan.elements[e].own, LEVELS[plan.option][-1]]
    levels += chance.sample(LEVELS[plan.option], 2)
    lines = []
    for at in random_times(chance, until):
        word = chance.choice(words)
        value = chance.choice(levels) if word == "level" else ""
        value = some_frame(chance, plan.option, levels) if word == "frame" else value
        lines.append([str(at), word, chance.choice(list(targets[word])), value])
    return lines


def with_fault(chance: random.Random, plan: Plan, e: int, lines: list[list[str]], place: int) -> list[str]:
    """A line with something else in it, mostly a wrong one."""
    faults = ["time", "order", "word", "target", "target", "value", "fields", "frame", "frame", "long"]
    fields, how = list(lines[place]), chance.choice(faults)
    every_name = [row.name for row in plan.elements + plan.links + plan.sources]
    every_name += [plan.input_name(line) for line in range(plan.lines)]
    if how == "time":
        fields[0] = chance.choice(OTHER_TIMES)
    elif how == "order":
        fields[0] = str(max(0, (number_of(lines[place - 1][0], 86_400_000) or 0) - 1))
    elif how == "word":
        fields[1] = chance.choice(OTHER_WORDS)
    elif how == "target":
        fields[2] = chance.choice(every_name * 2 + ["", fields[2] + " ", fields[2].lower(), ">", "none"])
    elif how == "value":
        fields[3] = chance.choice(["", " ", "0", "0" * 120, "none", "ql-prc", *LEVELS["I"], *LEVELS["II"]])
    elif how == "fields":
        fields = chance.choice(
            [fields[:3], fields[:1], fields + [""], [""] * 4, [" "], ["\r"], [",".join(fields) + "\r"]]
        )
    elif how == "frame":
        fields[1:3] = ["frame", chance.choice(list(targets_of(plan, e)["frame"]) or [fields[2]])]
        fields[3] = frame_line(chance, False).decode("latin-1")
    else:
        # About as long as a line may be.
        length = LONGEST_LINE + chance.choice([-1, 0, 1, 2]) - len(",".join(fields))
        fields[3] += chance.choice("0 a") * length
    return fields


def file_of(chance: random.Random, lines: list[list[str]]) -> bytes:
    """The octets of a file: empty lines, carriage returns, and an end with or without a line feed."""
    data = b""
    for fields in lines:
        data += chance.choice([b"\n", b"\r\n", b"\n\n"]) if chance.random() < 0.1 else b""
        data += ",".join(fields).encode("latin-1") + chance.choice([b"\n", b"\n", b"\n", b"\r\n"])
    ending = chance.randrange(6)
    return data.removesuffix(b"\n") if ending == 0 else data + (b"\r" if ending == 1 else b"")


def some_case(chance: random.Random) -> Case:
    """An element of a plan, and a file for it, right or wrong."""
    is_long = chance.random() < 0.05
    plan = random_plan(chance, [0, 60_000] if is_long else [0] * 19 + [60_000])
    e = element_of(chance, plan)
    until = chance.randint(0, 90_000 if is_long else chance.choice([0, 10, 1_000, 7_000, 20_000, 20_000, 20_000]))
    lines = random_lines(chance, plan, e, until)
    for place in chance.sample(range(len(lines)), min(len(lines), chance.choice([0, 0, 0, 1, 1, 2]))):
        lines[place] = with_fault(chance, plan, e, lines, place)
    return Case(plan, plan.elements[e].name, file_of(chance, lines), until)


def random_case(chance: random.Random) -> Case:
    """The same, and now and then no element or no file, or a file for very many frames."""
    if chance.random() < 0.02:
        return many_frames(chance)
    case = some_case(chance)
    if chance.random() < 0.03:
        names = ["", "none", case.element.lower(), case.element + " ", "E99", *(link.name for link in case.plan.links)]
        case = case._replace(element=chance.choice(names), is_there=chance.choice([True, False]))
    return case


def many_frames(chance: random.Random) -> Case:
    """An element with many lines out of it, whose source changes its level in every millisecond: about the most
    rows there may be.
    """
    count = chance.randint(100, 200)
    elements = [PlanElement(name, "QL-SEC", None, 300, 0) for name in ("E0", "E1")]
    links = [Link(f"L{k}", *chance.choice([(0, 1), (1, 0)]), 0, 0, 1, 1, None) for k in range(count)]
    plan = Plan("I", elements, links, [Source("S", 0, "QL-PRC", 1)])
    until = MOST_ROWS // count + chance.choice([-2, -1, 0, 0, 1, 100])
    lines = [[str(at), "level", "S", ["QL-PRC", "QL-SSU-A"][at % 2]] for at in range(until + 1)]
    return Case(plan, "E0", file_of(chance, lines), until)
