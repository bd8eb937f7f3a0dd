"""Compares `decode` and `encode` with a reading of its own on random files of both options.

usage: python3 -m bench.compare.frames PROGRAM [--cases N] [--seed N]
       python3 -m bench.compare.frames --write FOLDER [--cases N] [--seed N]

What is expected is made from the tables of docs/use/formats.md alone (bench/readings/frames.py). A case is a file of up to
eight lines, of which most are right and some have one thing wrong: a part of a frame, its length, a digit, a field, a
number, a level. A few files have thousands of lines. Status and text have to be as expected. With --write the files are
written to a folder, each with its words and the text that is expected, for `rt try --cases FOLDER`, which compares no
status.
"""

import collections
import random
import re
import sys

from bench.compare import cases
from bench.levels import CODES, LEVELS, NOT_ENHANCED
from bench.readings.frames import FIXED, expected, lines_of


def mixed(chance: random.Random, text: str) -> str:
    """The digits in one case or in both."""
    how = chance.randrange(4)
    return [text, text, text.upper(), "".join(chance.choice([c.lower(), c.upper()]) for c in text)][how]


def random_frame(chance: random.Random) -> bytearray:
    """A frame that is right, of any codes and any length."""
    length = chance.choice([60, 60, 60, 61, 64, 128, 1513, 1514, chance.randint(60, 1514)])
    frame = bytearray(chance.randbytes(length) if chance.random() < 0.7 else bytes(length))
    for at, octets, _ in FIXED:
        frame[at : at + len(octets) // 2] = bytes.fromhex(octets)
    frame[20] = 0x10 + chance.randrange(16)
    known = [codes for levels in CODES.values() for codes in levels.values()]
    code, enhanced = chance.choice(known) if chance.random() < 0.6 else (chance.randrange(16), chance.randrange(256))
    if chance.random() < 0.2:
        enhanced = chance.choice([0x20, 0x21, 0x22, 0x23, 0x24, 0x1F, 0xFF])
    frame[27] = code + 16 * chance.choice([0, 0, chance.randrange(16)])
    if chance.random() < 0.6:
        frame[28:32] = bytes([2, 0, 0x14, enhanced])
        if chance.random() < 0.1:
            frame[28 + chance.randrange(3)] ^= 1 << chance.randrange(8)
    return frame


def frame_line(chance: random.Random, right: bool) -> bytes:
    """A frame as digits; where it isn't to be right, mostly with one thing wrong."""
    frame = random_frame(chance)
    how = None if right else chance.choice(["length", "octet", "octet", "octets", "version", "odd", "sign", "blank"])
    if how == "length":
        length = chance.choice([0, 1, 20, 59, 59, 59, 1515, 1515, 1516, 3000])
        frame = (frame + chance.randbytes(3000))[:length] or bytearray(b"\x01")
        # Digits count before the length.
        how = chance.choice(["length", "length", "odd", "sign"])
    for _ in range({"octet": 1, "octets": 3}.get(how or "", 0)):
        frame[chance.choice([*range(6), *range(12, 20), *range(24, 27)])] ^= 1 << chance.randrange(8)
    if how == "version":
        frame[20] = chance.randrange(256)
    line = mixed(chance, frame.hex()).encode("ascii")
    at = chance.randrange(len(line) + 1)
    if how == "odd":
        line = line[:at] + line[at + 1 :] if chance.random() < 0.5 else line[:at] + b"0" + line[at:]
    if how == "sign":
        sign = chance.choice([b"g", b"G", b"/", b":", b"@", b"`", b"\0", b"\xff", b",", b"\r"])
        line = line[:at] + sign + line[at + 1 :]
    if how == "blank":
        line = chance.choice([b" " + line, line + b" ", line[:at] + b" " + line[at:], b"0x" + line, b" ", b"\t"])
    return line


def random_row(chance: random.Random, option: str) -> list[str]:
    """The fields of a row that is right."""
    kind = chance.choice(["info", "event"])
    source = mixed(chance, chance.randbytes(6).hex())
    codes = {code for code, _ in CODES[option].values()}
    unnamed = [f"code-{code}" for code in range(16) if code not in codes]
    if chance.random() < 0.5:
        plain = [name for name, codes in CODES[option].items() if codes[1] == NOT_ENHANCED]
        return [source, kind, chance.choice(plain + unnamed)]
    numbers = [0, 1, 9, 10, 99, 100, 199, 200, 249, 250, 255, chance.randrange(256)]
    counts = [str(number) for number in chance.choices(numbers, k=2)]
    clock, flags = mixed(chance, chance.randbytes(8).hex()), mixed(chance, chance.randbytes(1).hex())
    return [source, kind, chance.choice(LEVELS[option] + unnamed), clock, flags, *counts]


def row_line(chance: random.Random, option: str, right: bool) -> bytes:
    """A row; where it isn't to be right, mostly with one thing wrong."""
    fields = random_row(chance, option)
    if right:
        return ",".join(fields).encode("ascii")
    at = chance.randrange(len(fields))
    how = chance.randrange(9)
    if how == 0:
        names = [name for levels in LEVELS.values() for name in levels] + [f"code-{code}" for code in range(18)]
        names += ["code-", "code-00", "code-03", "code--1", "code-+3", "code-3 ", "code-0x3", "Code-3", "code3"]
        names += ["QL-prc", "QL-PR", "QL-PRCC", "ql-dnu", "QL-", "", "QL-EEEC", "QL-eeec", "QL-SSU", "QL-SSU-C"]
        fields[2] = chance.choice(names)
    elif how == 1:
        fields[1] = chance.choice(["Info", "EVENT", "", "inf", "events", " info", "info ", "0", "8"])
    elif how == 2 and len(fields) == 7:
        numbers = ["256", "257", "00", "01", "007", "0255", "-1", "+1", "", " 1", "1 ", "1.0", "0x1", "999", "1" * 30]
        fields[chance.choice([5, 6])] = chance.choice(numbers)
    elif how == 3:
        which = chance.choice([0, 3, 4] if len(fields) == 7 else [0])
        field = fields[which]
        shorter, longer = [field[1:], field[2:], ""], [field + "0", field + "00", " " + field]
        fields[which] = chance.choice(shorter + longer + ["g" + field[1:], field[:-1] + " "])
    elif how == 4:
        del fields[at]
    elif how == 5:
        fields.insert(at, chance.choice(["", fields[at], "0"]))
    elif how == 6:
        fields = fields[: chance.choice([1, 2, 3, 4, 5, 6])]
    elif how == 7:
        fields = (fields + ["0011223344556677", "00", "1", "1", "1"])[: chance.choice([7, 7, 8])]
    else:
        line = bytearray(",".join(fields).encode("ascii"))
        line[chance.randrange(len(line))] = chance.choice([byte for byte in range(256) if byte != 10])
        return bytes(line)
    return ",".join(fields).encode("ascii")


def random_case(chance: random.Random) -> tuple[str, str, bytes]:
    """A form, an option and a file of frames or rows."""
    form, option = chance.choice(["decode", "encode"]), chance.choice(["I", "II"])
    count = chance.choice([3000, 9000]) if chance.random() < 0.002 else chance.randint(0, 8)
    share = 1 if count > 8 else chance.choice([0, 0.6, 0.9, 1])
    file = bytearray()
    for _ in range(count):
        if chance.random() < 0.1:
            file += chance.choice([b"\n", b"\r\n", b"\n\n"])
        if chance.random() < 0.03 * (1 - share):
            file += b"\r\r\n"
        right = chance.random() < share
        file += frame_line(chance, right) if form == "decode" else row_line(chance, option, right)
        file += chance.choice([b"\n", b"\n", b"\n", b"\r\n"])
    ending = chance.randrange(6)
    if ending == 0 and file.endswith(b"\n"):
        file = file[:-1]
    if ending == 1:
        file += chance.choice([b"\r", b"\n", b"\r\n", b"\n\r"])
    if chance.random() < 0.01:
        file[:0] = b"\xef\xbb\xbf"
    # A file is refused as too long before any of its lines is read.
    return form, option, bytes(file[: 8 * 1024 * 1024])


def main() -> int:
    given = cases.read(cases.case_words(__doc__, cases=5000, seed=1))
    chance = random.Random(given.seed)
    made = [random_case(chance) for _ in range(given.cases)]
    lines = sum(len(list(lines_of(file))) for _, _, file in made)
    told = collections.Counter[str]()
    wanted = []
    for form, option, file in made:
        status, text = expected(form, option, file)
        told[re.sub(r"(\d+) \d+( ?\d*)\n", r"\1\2", text) if status else "taken"] += 1
        wanted.append(cases.Case((form, option, "{}"), file, status, text.encode("ascii")))
    counts = ", ".join(f"{count} {what}" for what, count in sorted(told.items()))
    print(f"{len(made)} cases of {lines} lines: {counts}")
    return cases.finish(given, wanted)


if __name__ == "__main__":
    sys.exit(main())
