"""Plans and works that reassure where they shouldn't, for tests; and programs that answer as a script says."""

from __future__ import annotations

from pathlib import Path

from plans_spelled import spelled

# A ring of three elements beside the two that oscillate.
THREE = spelled(
    *("element X", "element Y", "element Z"),
    *("link XY a=X b=Y priority_b=1", "link YZ a=Y b=Z priority_b=1", "link ZX a=Z b=X priority_b=2"),
    "source clock at=X level=QL-PRC",
)
# B has its timing over L1 from A, which has the clock, and in reserve over L2 from C.
RESERVE = spelled(
    *("element A", "element B", "element C"),
    *("link L1 a=A b=B priority_b=1", "link L2 a=C b=B priority_b=2", "link L3 a=A b=C priority_b=1"),
    "source clock at=A level=QL-PRC",
)
# After these B has nothing: its line to C is locked out, and the other one is cut and stays so.
UNMENDED = "at,what,target,value\n60000,lockout,L2>B,\n90000,down,L1,\n"
# D takes its timing from B alone.
BEHIND = spelled(
    "element D",
    "link L4 a=B b=D priority_b=1",
)


def played(folder: Path, script: str) -> str:
    """A program that does nothing but what a script says."""
    path = folder / "core"
    path.write_text(f"#!/bin/sh\n{script}\n")
    path.chmod(0o755)
    return str(path)
