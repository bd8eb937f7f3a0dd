"""Times `murdjohe capture read` on a long capture, and says how much memory it takes at most.

usage: python3 -m bench.measure.long_capture PROGRAM [--frames N]

The capture is a pcapng of N frames (1,000,000) of ten ports with a VLAN tag, one each second on each port, whose
level changes each 50,000 frames. The report has to count them all. Memory is the greatest that one process held,
the command or the program.

Wants python3-dpkt, python3-pytest and python3-hypothesis.
"""

import os
import resource
import subprocess
import sys
import tempfile
import time

from bench import captures as made
from bench.program import WORKBENCH, program_words

PORTS = 10
BEGIN = 1_764_288_000_000_000  # microseconds


def write(path: str, count: int) -> None:
    """Writes the capture."""
    frames = [made.tagged(made.FRAMES[at], (0x8100, 100)) for at in (0, 4)]
    with open(path, "wb") as file:
        file.write(made.section() + b"".join(made.interface(name=b"port %d" % port) for port in range(PORTS)))
        for at in range(count):
            file.write(made.packet(BEGIN + at * 100_000, frames[at // 50_000 % 2], at=at % PORTS))


def main() -> int:
    asked = program_words(__doc__, frames=1_000_000).parse_args()
    os.environ["MURDJOHE_CORE"] = os.path.abspath(asked.program)
    with tempfile.TemporaryDirectory() as name:
        path = os.path.join(name, "long.pcapng")
        write(path, asked.frames)
        size, start = os.path.getsize(path), time.monotonic()
        words = [str(WORKBENCH), "capture", "read", path]
        run = subprocess.run(words, capture_output=True, text=True, check=True)
        seconds = time.monotonic() - start
    head, _, rest = run.stdout.partition("\n")
    changes = sum(min(PORTS, asked.frames - at) for at in range(50_000, asked.frames, 50_000))
    if f": {asked.frames} packets, {asked.frames} ESMC frames from {PORTS} sources, " not in head:
        sys.exit(f"it says: {head}")
    if rest.count(" info  1.000000 s") != changes or "silent" in rest:
        sys.exit(rest)
    most = resource.getrusage(resource.RUSAGE_CHILDREN).ru_maxrss
    print(f"{asked.frames:,} frames, {size / 1e6:.0f} MB: {seconds:.1f} s, {most / 1024:.0f} MB of memory at most")
    return 0


if __name__ == "__main__":
    sys.exit(main())
