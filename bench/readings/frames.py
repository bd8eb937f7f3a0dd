"""Frames and rows read and written as docs/use/formats.md says, from its tables alone."""

from collections.abc import Iterator

from bench.levels import CODES
from bench.readings.records import number_of

DIGITS = b"0123456789abcdefABCDEF"
# The octets that a frame must have, each with the place where they begin and the number of the error.
FIXED = [(0, "0180c2000002", 5), (12, "8809", 6), (14, "0a", 7), (15, "0019a7", 8), (18, "0001", 9), (24, "010004", 11)]


class Wrong(Exception):
    """What is wrong with a line: the number and what stands behind the line's."""


def lines_of(file: bytes) -> Iterator[tuple[int, bytes]]:
    """The lines that aren't empty, each with its number."""
    for number, line in enumerate(file.split(b"\n"), 1):
        if line.endswith(b"\r"):
            line = line[:-1]
        if line:
            yield number, line


def level_name(option: str, code: int, enhanced: int) -> str:
    """The level of a four-bit code and an enhanced one, or the code where none has it."""
    for wanted in (enhanced, 0xFF):
        for name, codes in CODES[option].items():
            if codes == (code, wanted):
                return name
    return f"code-{code}"


def first_wrong(frame: bytes) -> int | None:
    """The number of the first thing that is wrong with a frame; none where it is right."""
    if not 60 <= len(frame) <= 1514:
        return 4
    broken = [error for at, octets, error in FIXED if frame[at : at + len(octets) // 2] != bytes.fromhex(octets)]
    if frame[20] // 16 != 1:
        broken.append(10)
    return min(broken, default=None)


def row_of(option: str, line: bytes) -> str:
    """The row of a frame, or what is wrong with it."""
    if len(line) % 2 or any(byte not in DIGITS for byte in line):
        raise Wrong(12, "")
    frame = bytes(int(line[at : at + 2], 16) for at in range(0, len(line), 2))
    error = first_wrong(frame)
    if error:
        raise Wrong(13, f" {error}")
    extended = frame[28:43] if frame[28:31] == b"\x02\x00\x14" else None
    kind = "event" if frame[20] & 8 else "info"
    row = f"{frame[6:12].hex()},{kind},{level_name(option, frame[27] % 16, extended[3] if extended else 0xFF)}"
    if extended:
        row += f",{extended[4:12].hex()},{extended[12]:02x},{extended[13]},{extended[14]}"
    return row


def hexadecimal(field: bytes, count: int) -> bytes:
    """So many octets of digits."""
    if len(field) != 2 * count or any(byte not in DIGITS for byte in field):
        raise Wrong(14, "")
    return bytes.fromhex(field.decode("ascii"))


def count_of(field: bytes, greatest: int) -> int:
    """The number that a field is."""
    number = number_of(field.decode("latin-1"), greatest)
    if number is None:
        raise Wrong(14, "")
    return number


def codes_of(option: str, field: bytes) -> tuple[int, int]:
    """Both codes of a level, or of a code that no level has."""
    for name, codes in CODES[option].items():
        if field == name.encode("ascii"):
            return codes
    if not field.startswith(b"code-"):
        raise Wrong(14, "")
    code = count_of(field[5:], 15)
    if code in [known for known, _ in CODES[option].values()]:
        raise Wrong(14, "")
    return code, 0xFF


def frame_of(option: str, line: bytes) -> str:
    """The frame of a row as digits, or what is wrong with it."""
    fields = line.split(b",")
    if len(fields) not in (3, 7) or fields[1] not in (b"info", b"event"):
        raise Wrong(14, "")
    source, (code, enhanced) = hexadecimal(fields[0], 6), codes_of(option, fields[2])
    frame = bytes.fromhex("0180c2000002") + source + bytes.fromhex("88090a0019a70001")
    frame += bytes([0x18 if fields[1] == b"event" else 0x10, 0, 0, 0, 1, 0, 4, code])
    if len(fields) == 7:
        frame += bytes([2, 0, 0x14, enhanced]) + hexadecimal(fields[3], 8) + hexadecimal(fields[4], 1)
        frame += bytes([count_of(fields[5], 255), count_of(fields[6], 255)])
    elif enhanced != 0xFF:
        raise Wrong(14, "")
    return (frame + bytes(60 - len(frame))).hex()


def expected(form: str, option: str, file: bytes) -> tuple[int, str]:
    """The status and the text of the answer."""
    written = []
    for number, line in lines_of(file):
        try:
            written.append((row_of if form == "decode" else frame_of)(option, line))
        except Wrong as wrong:
            return 6, "bad frames {} {}{}\n".format(wrong.args[0], number, wrong.args[1])
    return 0, "".join(text + "\n" for text in written)
