"""The answers of `decode`, `encode`, `pcap-decode` and `pcap-encode`, by docs/use/formats.md."""

import struct

from bench.readings.frames import Wrong, expected, frame_of, lines_of, row_of
from bench.readings.records import number_of


def rows_answer(form: str, option: str, data: bytes) -> tuple[int, bytes]:
    """The status and the text of `decode` or `encode`."""
    status, text = expected(form, option, data)
    return status, text.encode("ascii")


def pcap_answer(option: str, data: bytes) -> tuple[int, bytes]:
    """The status and the text of `pcap-decode`."""
    order = {bytes.fromhex("a1b2c3d400020004"): ">", bytes.fromhex("d4c3b2a102000400"): "<"}.get(data[:8])
    if len(data) < 24 or order is None:
        return 6, b"bad capture 40\n"
    if struct.unpack(order + "I", data[20:24]) != (1,):
        return 6, b"bad capture 41\n"
    written, passed, at, number = list[str](), 0, 24, 0
    while at < len(data):
        number += 1
        head = data[at : at + 16]
        seconds, micros, length, _ = struct.unpack(order + "4I", head) if len(head) == 16 else (0, 0, 2**32, 0)
        packet = data[at + 16 : at + 16 + length]
        if len(packet) < length:
            return 6, f"bad capture 42 {number}\n".encode("ascii")
        try:
            written.append(f"{seconds},{micros}," + row_of(option, packet.hex().encode("ascii")) + "\n")
        except Wrong:
            passed += 1
        at += 16 + length
    return 0, ("".join(written) + f"passed,{passed}\n").encode("ascii")


def pcap_bytes(option: str, data: bytes) -> tuple[int, bytes]:
    """The status and the bytes of `pcap-encode`."""
    written = struct.pack("<IHHIIII", 0xA1B2C3D4, 2, 4, 0, 0, 65535, 1)
    for number, line in lines_of(data):
        try:
            *times, row = line.split(b",", 2)
            seconds, micros = (number_of(time.decode("latin-1"), 2**32 - 1) for time in times)
            if seconds is None or micros is None:
                raise ValueError
            frame = bytes.fromhex(frame_of(option, row))
        except (ValueError, Wrong):
            return 6, f"bad frames 14 {number}\n".encode("ascii")
        written += struct.pack("<4I", seconds, micros, len(frame), len(frame)) + frame
    return 0, written
