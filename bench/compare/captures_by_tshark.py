"""Compares what `murdjohe capture read` reads of captures of every kind with what Debian's tshark reads of them.

usage: python3 -m bench.compare.captures_by_tshark PROGRAM

The captures are those of bench/captures.py, those that editcap, text2pcap and mergecap make of the
plain one among them, and those that scapy writes, with the tags and cooked headers that it puts on. Time (to the
nanosecond), source, event flag, both codes, clock and counts of each frame have to be the same. The codes of a
level are those of the table below, and not the program's. Ends with status 1 where anything differs.

Wants tshark, editcap, text2pcap and mergecap, of Wireshark 4 (Debian: tshark), python3-scapy, python3-dpkt,
python3-pytest and python3-hypothesis.
"""

import os
import pathlib
import subprocess
import sys
import tempfile
from typing import Any

from scapy.layers.l2 import CookedLinux, Dot1AD, Dot1Q, Ether
from scapy.utils import EDecimal, PcapNgWriter, PcapWriter

from bench import captures as made
from bench.program import WORKBENCH, program_words

# The nanosecond, the source, event or info, both codes, the clock and the counts.
Row = tuple[int | str | None, ...]
# The codes of the levels in the stored capture, of option I.
CODES = {"QL-PRTC": (2, 0x20), "QL-eEEC": (11, 0x22), "QL-SEC": (11, None), "code-3": (3, None)}
FIELDS = (
    *("frame.time_epoch", "eth.src", "sll.src.eth", "ossp.esmc.event_flag", "ossp.esmc.tlv_ql_ssm"),
    *("ossp.esmc.tlv_ext_ql_essm", "ossp.esmc.tlv_ext_ql_clockid"),
    *("ossp.esmc.tlv_ext_ql_eeec", "ossp.esmc.tlv_ext_ql_eec"),
)


def output(*words: str) -> str:
    """What a command prints, where it succeeds."""
    run = subprocess.run(words, capture_output=True, text=True, check=False)
    if run.returncode:
        sys.exit(f"{' '.join(words)}: {run.stderr}")
    return run.stdout


def number(text: str) -> int | None:
    """The number that tshark writes, none where there is none."""
    return int(text, 0) if text else None


def by_tshark(path: str) -> list[Row]:
    """The frames of a capture, read by tshark."""
    words = [word for field in FIELDS for word in ("-e", field)]
    rows: list[Row] = []
    for line in output(
        "tshark", "-r", path, "-Y", "ossp.esmc.version", "-T", "fields", "-E", "separator=,", *words
    ).splitlines():
        time, ethernet, cooked, event, code, enhanced, clock, eeecs, eecs = line.split(",")
        seconds, _, part = time.partition(".")
        source = (ethernet or cooked).replace(":", "")
        kind = "event" if number(event) else "info"
        said = (number(code), number(enhanced), number(clock), number(eeecs), number(eecs))
        rows.append((int(seconds) * 10**9 + int(part.ljust(9, "0")), source, kind, *said))
    return rows


def by_us(path: str) -> list[Row]:
    """The frames of a capture, read by the workbench."""
    rows: list[Row] = []
    for line in output(str(WORKBENCH), "capture", "read", "-q", "--frames", path).splitlines()[1:]:
        time, _, _, source, kind, level, clock, _, eeecs, eecs = line.split(",")
        day, _, part = time.partition(".")
        seconds = int(output("date", "-u", "-d", f"{day} UTC", "+%s"))
        said = (*CODES[level], int(clock, 16) if clock else None, number(eeecs), number(eecs))
        rows.append((seconds * 10**9 + int(part), source, kind, *said))
    return rows


def remade(folder: pathlib.Path, plain: str) -> dict[str, str]:
    """The captures that Wireshark's tools make of the plain one, by name."""
    found: dict[str, str] = {}
    for kind in ("pcap", "nsecpcap", "modpcap", "pcapng"):
        kinds: dict[str, list[str]] = {kind: [], f"{kind}, 50 octets of each packet": ["-s", "50"]}
        for name, words in kinds.items():
            found[f"editcap {name}"] = path = str(folder / f"{kind}{len(words)}")
            output("editcap", "-F", kind, *words, plain, path)
    dump, path = folder / "dump", str(folder / "text2pcap")
    dump.write_text("".join(f"000000 {frame.hex(' ')}\n" for frame in made.FRAMES))
    for kind in ("pcap", "pcapng"):
        output("text2pcap", "-q", "-F", kind, str(dump), path + kind)
        found[f"text2pcap {kind}"] = path + kind
    (folder / "cooked").write_bytes(made.KINDS["cooked 2, tagged"])
    output("mergecap", "-w", str(folder / "merged"), plain, str(folder / "cooked"))
    found["mergecap, of Ethernet and a cooked header"] = str(folder / "merged")
    return found


def tagged(tags: Any, frame: bytes) -> Any:
    """A frame behind these tags, as scapy puts them on."""
    whole = Ether(frame)
    tags.lastlayer().type = whole.type
    return Ether(src=whole.src, dst=whole.dst) / tags / whole.payload


def cooked(frame: bytes) -> Any:
    """A frame with a cooked header in place of its own, as scapy writes it."""
    whole = Ether(frame)
    header = CookedLinux(pkttype=2, lladdrlen=6, src=bytes.fromhex(whole.src.replace(":", "")), proto=whole.type)
    return header / whole.payload


def by_scapy(folder: pathlib.Path) -> dict[str, str]:
    """The captures that scapy writes, by name."""
    kinds = {
        "plain": Ether,
        "tagged": lambda frame: tagged(Dot1Q(vlan=100, prio=6), frame),
        "tagged twice": lambda frame: tagged(Dot1AD(vlan=7) / Dot1Q(vlan=100), frame),
        "cut at 60": lambda frame: Ether(frame[:60]),
        "cooked": cooked,
    }
    writers = {
        "pcap": lambda path: PcapWriter(path),
        "pcap in nanoseconds": lambda path: PcapWriter(path, nano=True),
        "pcap, big-endian": lambda path: PcapWriter(path, endianness=">"),
        "pcap, packed": lambda path: PcapWriter(path, gz=True),
        "pcapng": PcapNgWriter,
    }
    found: dict[str, str] = {}
    for writer_name, writer in writers.items():
        for kind, change in kinds.items():
            path = str(folder / f"scapy{len(found)}")
            with writer(path) as out:
                if kind == "cooked":
                    out.linktype = 113  # (scapy's writer of pcapng says Ethernet of whatever it writes)
                for time, frame in made.RECORDS:
                    packet = change(frame)
                    packet.time = EDecimal(time) / 10**9
                    out.write(packet)
            found[f"scapy {writer_name}, {kind}"] = path
    return found


def main() -> int:
    os.environ["MURDJOHE_CORE"] = program_words(__doc__).parse_args().program
    with tempfile.TemporaryDirectory() as name:
        folder = pathlib.Path(name)
        paths = {}
        for index, (kind, data) in enumerate(made.KINDS.items()):
            paths[kind] = str(folder / str(index))
            pathlib.Path(paths[kind]).write_bytes(data)
        paths |= remade(folder, paths["pcap"]) | by_scapy(folder)
        differ, frames = list[str](), 0
        for kind, path in paths.items():
            theirs, ours = by_tshark(path), by_us(path)
            frames += len(theirs)
            is_same = theirs == ours and len(ours) >= len(made.ROWS)
            print(f"{kind}: {len(theirs)} frames, {'the same' if is_same else 'DIFFER'}")
            if not is_same:
                differ.append(kind)
                print(*zip(theirs, ours), sep="\n")
    print(f"{len(paths)} captures, {frames} frames, {len(differ)} differ")
    return 1 if differ else 0


if __name__ == "__main__":
    sys.exit(main())
