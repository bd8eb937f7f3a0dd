"""Random refusals of frames, rows, captures and what an element received: the sentence names the line that was broken.

Each kind makes a whole file, breaks one line of it whose number is known by how it is made, and asks the program, which
has to refuse it with the number of this kind.
"""

from __future__ import annotations

import random
import struct
from collections.abc import Callable
from pathlib import Path

import pytest
from conftest import CASES
from plans_spelled import spelled
from refusing import refused

FRAME = bytes.fromhex("0180c200000202000000000188090a0019a700011000000001000402" + "00" * 32)
# For each part that may be wrong its place, or a length.
PARTS = {5: 0, 6: 12, 7: 14, 8: 15, 9: 18, 10: 20, 11: 24}


def broken_frame(chance: random.Random, part: int) -> bytes:
    """A frame whose first wrong part is this."""
    if part == 4:
        return chance.choice([FRAME[: chance.randrange(60)], FRAME + bytes(chance.randint(1455, 1500))])
    frame = bytearray(FRAME)
    frame[PARTS[part]] ^= 0x20
    return bytes(frame)


def with_lines(chance: random.Random, right: Callable[[], str], wrong: str) -> tuple[str, int]:
    """Some right lines, blank ones and the wrong one, and its number."""
    before = [chance.choice([right(), right(), ""]) for _ in range(chance.randrange(5))]
    after = [right() for _ in range(chance.randrange(3))]
    end = chance.choice(["\n", "\r\n"])
    return end.join([*before, wrong, *after]) + end, len(before) + 1


@pytest.mark.parametrize("part", [4, 5, 6, 7, 8, 9, 10, 11])
def test_frames(folder: Path, part: int) -> None:
    says = {
        4: "60 to 1514",
        5: "address",
        6: "Ethertype",
        7: "subtype",
        8: "OUI",
        9: "ITU",
        10: "version",
        11: "QL TLV",
    }
    for seed in range(CASES):
        chance = random.Random(f"frame {part} {seed}")
        wrong = broken_frame(chance, part).hex() or "00"
        text, line = with_lines(chance, lambda: chance.choice([FRAME.hex(), FRAME.hex().upper()]), wrong)
        (folder / "frames").write_bytes(text.encode())
        refused("decode", ["I", "frames"], "frames", (13, line, says[part]), rf"bad frames N {line} {part}")


def test_frames_that_are_no_digits(folder: Path) -> None:
    for seed in range(CASES):
        chance = random.Random(f"digits {seed}")
        wrong, words = chance.choice(
            [
                (FRAME.hex()[:-1], "no even number"),
                (FRAME.hex(":"), "':'"),
                (" " + FRAME.hex(), "' '"),
                ("x" * 120, "'x'"),
            ]
        )
        text, line = with_lines(chance, FRAME.hex, wrong)
        (folder / "frames").write_bytes(text.encode())
        refused("decode", ["II", "frames"], "frames", (12, line, words), rf"bad frames N {line}")


WRONG_ROWS = [
    ("020000000001,info", "2 fields"),
    ("020000000001;info;QL-PRC", "semicolons"),
    ("02000000001,info,QL-PRC", "twelve hexadecimal digits"),
    ("02:00:00:00:00:01,info,QL-PRC", "twelve hexadecimal digits"),
    ("020000000001,Info,QL-PRC", '"Info" is neither `info` nor `event` (nearest: "info")'),
    ("020000000001,info,QL-EEC1", 'no level of option I (nearest: "QL-SEC")'),
    ("020000000001,info,QL-PRTC", "needs all seven fields"),
    ("020000000001,info,code-2", "is no row of a frame"),
]


def test_rows(folder: Path) -> None:
    for seed in range(CASES):
        chance = random.Random(f"rows {seed}")
        wrong, words = chance.choice(WRONG_ROWS)
        text, line = with_lines(chance, lambda: "020000000001,info,QL-PRC", wrong)
        (folder / "rows").write_bytes(text.encode())
        refused("encode", ["I", "rows"], "rows", (14, line, words), rf"bad frames N {line}")


def test_rows_with_times(folder: Path) -> None:
    for seed in range(CASES):
        chance = random.Random(f"timed {seed}")
        wrong, words = chance.choice(WRONG_ROWS)
        wrong, words = chance.choice(
            [
                (f"1,2,{wrong}", words),
                ("passed,9", "the last line of `pcap-decode`"),
                ("020000000001,info,QL-PRC", "two numbers"),
            ]
        )
        text, line = with_lines(chance, lambda: "1,5,020000000001,info,QL-PRC", wrong)
        (folder / "rows").write_bytes(text.encode())
        refused("pcap-encode", ["I", "rows"], "rows", (14, line, words), rf"bad frames N {line}")


def capture(chance: random.Random, count: int) -> bytes:
    """A capture of so many frames, in either order of octets."""
    order = chance.choice("<>")
    data = struct.pack(order + "IHHIIII", 0xA1B2C3D4, 2, 4, 0, 0, 65535, 1)
    return data + b"".join(struct.pack(order + "4I", 1, 5, 60, 60) + FRAME for _ in range(count))


@pytest.mark.parametrize("number", [40, 41, 42])
def test_captures(folder: Path, number: int) -> None:
    for seed in range(CASES):
        chance = random.Random(f"capture {number} {seed}")
        count = chance.randint(1, 4)
        data, words, place = bytearray(capture(chance, count)), "", ""
        if number == 40:
            start, words = chance.choice(
                [
                    (b"\x0a\x0d\x0d\x0a", "a capture in the format pcapng"),
                    (b"\x4d\x3c\xb2\xa1", "a capture with nanoseconds"),
                    (b"\x1f\x8b\x08\x00", "packed by gzip"),
                    (b"abcd", "no header of a classic pcap file"),
                ]
            )
            data[:4] = start
        elif number == 41:
            link = chance.choice([113, 276, 101])
            data[20:24] = struct.pack("<I" if data[0] == 0xD4 else ">I", link)
            words = f"its link type is {link} and not 1"
        else:
            record = chance.randint(1, count)
            del data[24 + 76 * record - chance.randint(1, 75) :]
            words, place = f"it ends within its record {record}", f" {record}"
        (folder / "capture.pcap").write_bytes(data)
        refused("pcap-decode", ["I", "capture.pcap"], "capture.pcap", (number, None, words), f"bad capture N{place}")


WRONG_RECEIVED = {
    43: [(row, "hasn't four fields") for row in ("10,down,L1>B", "10;down;L1>B;", "9" * 4097)],
    44: [("20m,down,L1>B,", "write 1200000"), *((f"{at},down,L1>B,", "no millisecond") for at in ("x", "86400001"))],
    45: [("9,down,L1>B,", "is before the line before it")],
    46: [("10,Down,L1>B,", '(nearest: "down")'), ("10,cut,L1>B,", '"cut" is no word')],
    47: [
        ("10,down,L1,", '"L1" is a link: name its line, L1>B or L1>A'),
        ("10,down,L3>C,", '"L3>C" names nothing at this element'),
    ],
    48: [("10,down,L1>B,x", "has a value"), ("10,frame,L1>B,xyz", "has a value")],
    49: [(f"10,frame,L1>B,{FRAME.hex()[:-2]}", "its frame isn't 60 to 1514 bytes long")],
}
NODE_PLAN = spelled(
    "element A",
    "element B",
    "link L1 a=A b=B priority_b=1",
)


@pytest.mark.parametrize("number", list(WRONG_RECEIVED))
def test_what_an_element_received(folder: Path, number: int) -> None:
    (folder / "plan.toml").write_text(NODE_PLAN)
    for seed in range(CASES):
        chance = random.Random(f"node {number} {seed}")
        wrong, words = chance.choice(WRONG_RECEIVED[number])
        before = [
            chance.choice(["10,up,L1>B,", f"10,frame,L1>B,{FRAME.hex()}", ""]) for _ in range(chance.randrange(4))
        ]
        lines = [*before, "10,up,L1>B,", wrong, *["11,down,L1>B,"] * chance.randrange(2)]
        (folder / "received").write_bytes(chance.choice(["\n", "\r\n"]).join(lines).encode() + b"\n")
        line = len(before) + 2
        given = ["plan.toml", "B", "received", "1s"]
        refused("node", given, "received", (number, line, words), rf"bad node N {line}{' 4' * (number == 49)}")


def test_an_element_that_is_not_there(folder: Path) -> None:
    (folder / "plan.toml").write_text(NODE_PLAN)
    words = 'it has no element "b" (nearest: "B")'
    refused("node", ["plan.toml", "b", "nosuch", "1s"], "plan.toml", (50, None, words), r"bad node N")
