"""Whole files of every kind that the program reads, and the same files damaged."""

from collections.abc import Callable
import random
import re
import struct
from typing import NamedTuple

from bench.compare.frames import frame_line, random_frame, row_line
from bench.compare.protected import groups_text, random_groups
from bench.program import TOP
from bench.reference.plan import Plan, events_text, plan_text, read_plan
from bench.reference.random_plans import random_events, random_plan
from bench.reference.study import cases_text

EXAMPLES = TOP / "examples"


class Whole(NamedTuple):
    """A file to damage: the words with {} for its name, its octets, and the plan that it is read against with its
    text.
    """

    words: list[str]
    data: bytes
    plan: Plan | None = None
    text: bytes | None = None


# ---- damage

NUMBERS = [
    0,
    1,
    2,
    3,
    12,
    13,
    15,
    64,
    65,
    255,
    256,
    299,
    300,
    1800,
    1801,
    2000,
    2001,
    65535,
    86399999,
    86400000,
    86400001,
]
NUMBERS += [2**31 - 1, 2**31, 2**32 - 1, 2**32, 2**63 - 1, 2**63, 2**64 - 1, 2**64, 10**30]
SPELLED = [
    b"-1",
    b"+1",
    b"00",
    b"01",
    b"0x1",
    b"1.0",
    b"1e3",
    b"1_0",
    b"",
    b" 1",
    b"nan",
    b"true",
    b'"1"',
    b"[1]",
    b"{a = 1}",
]
TOKENS = [
    b'"',
    b"'",
    b'"""',
    b",",
    b"\n",
    b"\r",
    b"\r\n",
    b"\n\n",
    b"#",
    b"=",
    b"[",
    b"]",
    b"[[",
    b"{",
    b"}",
    b"\\",
    b"\\u0041",
    b">",
    b".",
    b" ",
    b"\t",
]
TOKENS += [
    b"\0",
    b"\x7f",
    b"\x80",
    b"\xff",
    b"\xef\xbb\xbf",
    "ä".encode(),
    "\u2028".encode(),
    b"-",
    b"_",
    b"QL-DNU",
    b"QL-DUS",
    b"code-3",
]
WORD = re.compile(rb"[\w>-]+")


def between(chance: random.Random, data: bytes) -> tuple[int, int]:
    """Two places of the data in order, mostly close to each other."""
    start = chance.randrange(len(data) + 1)
    return start, min(len(data), start + chance.choice([1, 1, 2, 4, 16, chance.randint(0, len(data))]))


def with_line(chance: random.Random, data: bytes, what: str) -> bytes:
    """The data with lines swapped, doubled or left out."""
    lines = data.split(b"\n")
    at, other = chance.randrange(len(lines)), chance.randrange(len(lines))
    if what == "swap":
        lines[at], lines[other] = lines[other], lines[at]
    elif what == "double":
        lines.insert(other, lines[at])
    else:
        del lines[at]
    return b"\n".join(lines)


def with_section(chance: random.Random, data: bytes) -> bytes:
    """The data with a section of a plan, or a line where it has none, at another place, doubled or left out."""
    parts = re.split(rb"(?=^\[\[)", data, flags=re.M)
    if len(parts) < 3:
        return with_line(chance, data, chance.choice(["swap", "double", "leave out"]))
    part = chance.randrange(1, len(parts))
    taken = parts[part] if chance.random() < 0.3 else parts.pop(part)
    if chance.random() < 0.7:
        parts.insert(chance.randint(1, len(parts)), taken)
    return b"".join(parts)


def with_word(chance: random.Random, data: bytes, put: bytes | None) -> bytes:
    """The data with something in place of one of its words, or of one of its numbers."""
    words = [word.span() for word in WORD.finditer(data)]
    if put is None:
        words, put = [(a, b) for a, b in words if data[a:b].isdigit()], chance.choice(
            [str(chance.choice(NUMBERS)).encode(), chance.choice(SPELLED)]
        )
    if not words:
        return data + put
    start, end = chance.choice(words)
    return data[:start] + put + data[end:]


def damaged_once(chance: random.Random, data: bytes) -> bytes:
    """The data with one thing wrong, at random."""
    how, (start, end) = chance.randrange(20), between(chance, data)
    if how == 0 and data:
        at = chance.randrange(len(data))
        return data[:at] + bytes([data[at] ^ 1 << chance.randrange(8)]) + data[at + 1 :]
    if how == 1:
        return data[:start] + bytes([chance.randrange(256)]) + data[end:]
    if how == 2:
        return data[:start] + data[end:]
    if how == 3:
        return data[:end] + data[start:]
    if how == 4:
        return data[:start]
    if how in (5, 6):
        return data[:start] + chance.choice(TOKENS) + data[start if how == 5 else end :]
    if how in (7, 8, 9):
        return with_line(chance, data, ("swap", "double", "leave out")[how - 7])
    if how in (10, 11, 12, 13):
        return with_word(chance, data, None)
    if how in (14, 15):
        return with_section(chance, data)
    words = WORD.findall(data) or [b"x"]
    return with_word(
        chance,
        data,
        chance.choice(words) if how < 19 else chance.choice(words) + chance.choice([b"x", b">", b"\xff", b"x" * 32]),
    )


def damaged_number(chance: random.Random, data: bytes) -> bytes:
    """The data with another number of 32 bits at a place where a capture has one."""
    at = chance.choice(
        [0, 4, 8, 16, 20, 24, 32, 36, 24 + 76 * chance.randrange(1 + len(data) // 76) + 4 * chance.randrange(4)]
    )
    order = chance.choice("<>")
    return (
        data[:at]
        + struct.pack(
            order + "I", chance.choice([0, 1, 59, 60, 61, 1514, 1515, 2**16, 2**31, 2**32 - 1, len(data)])
        )
        + data[at + 4 :]
    )


def damaged(chance: random.Random, reader: str, data: bytes) -> bytes:
    """The data with one thing wrong, or some."""
    for _ in range(chance.choice([1, 1, 1, 1, 2, 4])):
        is_number = reader == "capture" and chance.random() < 0.3
        data = damaged_number(chance, data) if is_number else damaged_once(chance, data)
    return data


# ---- whole files


def read(*path: str) -> bytes:
    """The octets of an example's file."""
    return EXAMPLES.joinpath(*path).read_bytes()


def whole_plan(chance: random.Random) -> tuple[Plan, bytes]:
    """A plan and its text: an example's, or a random one, with rows as tables or inline."""
    if chance.random() < 0.2:
        data = read(chance.choice(["metro-ring", "bundle", "ring", "option-two", "mesh"]), "plan.toml")
        return read_plan(data.decode()), data
    plan = random_plan(chance, [0, 60000])
    return plan, plan_text(plan).encode("ascii")


def whole_certificate(chance: random.Random) -> Whole:
    """A certificate with the plan that it is of."""
    plan, text = whole_plan(chance)
    ranks = plan.least_ranks() or {line: chance.randrange(5) for line in plan.nominated_lines}
    lines = chance.sample(plan.nominated_lines, len(plan.nominated_lines))
    rows = "".join(f"{plan.input_name(line)},{ranks[line] * chance.choice([1, 1, 7])}\n" for line in lines)
    return Whole(["check", "plan", "{}"], ("line,rank\n" + rows).encode("ascii"), plan, text)


def whole_events(chance: random.Random) -> Whole:
    """An event list with the plan that it is of."""
    plan, text = whole_plan(chance)
    until = chance.choice([1, 40, 400])
    return Whole(
        ["sim", "plan", "{}", str(until)],
        events_text(plan, random_events(chance, plan, until)).encode("ascii"),
        plan,
        text,
    )


def whole_cases(chance: random.Random) -> Whole:
    """A table of cases with the plan that it is of."""
    plan, text = whole_plan(chance)
    until = chance.choice([1, 40, 400])
    cases = cases_text(plan, random_events(chance, plan, until))
    return Whole(["study", "plan", "{}", str(until)], cases.encode("ascii"), plan, text)


def whole_groups(chance: random.Random) -> Whole:
    """A table of groups with the plan that it is of."""
    plan, text = whole_plan(chance)
    return Whole(["protected", "plan", "{}"], groups_text(random_groups(chance, plan)).encode("ascii"), plan, text)


def whole_text(chance: random.Random, form: str) -> Whole:
    """Lines of frames or rows, most of them right."""
    option, right = chance.choice(["I", "II"]), chance.random() < 0.8

    def line() -> bytes:
        if form == "decode":
            return frame_line(chance, right)[:600]
        is_timed = form == "pcap-encode"
        times = b"%d,%d," % (chance.choice([0, 1, 2**32 - 1]), chance.randrange(10**6)) if is_timed else b""
        return times + row_line(chance, option, right)

    lines = [line() for _ in range(chance.randint(0, 4))]
    return Whole(
        [form, option, "{}"], b"".join(line + chance.choice([b"\n", b"\n", b"\r\n", b"\n\n"]) for line in lines)
    )


def whole_capture(chance: random.Random) -> Whole:
    """A capture of either order of octets."""
    option, order = chance.choice(["I", "II"]), chance.choice("<>")
    data = struct.pack(order + "IHHIIII", 0xA1B2C3D4, 2, 4, 0, 0, 65535, 1)
    for _ in range(chance.randint(0, 4)):
        packet = bytes(random_frame(chance))[: chance.choice([60, 60, 64, 128, 1514])]
        data += (
            struct.pack(order + "4I", chance.randrange(2**32), chance.randrange(10**6), len(packet), len(packet))
            + packet
        )
    return Whole(["pcap-decode", option, "{}"], data)


def whole_plan_alone(chance: random.Random) -> Whole:
    """A plan that is asked for its ranks."""
    return Whole(["rank", "{}"], whole_plan(chance)[1])


READERS: dict[str, Callable[[random.Random], Whole]] = {
    "plan": whole_plan_alone,
    "certificate": whole_certificate,
    "events": whole_events,
    "cases": whole_cases,
    "groups": whole_groups,
    "frames": lambda chance: whole_text(chance, "decode"),
    "rows": lambda chance: whole_text(chance, "encode"),
    "capture": whole_capture,
    "timed-rows": lambda chance: whole_text(chance, "pcap-encode"),
}
