"""Plans for the tests of the desk."""

from __future__ import annotations

from plans_spelled import spelled

# A ring of three, spelled by a hand: comments, blanks and a key in quotes.
RING = b"""# the core ring, spelled by hand
version = 2

[[element]]
name = "A"     # the exchange
[[element]]
name = "B"
holdoff = 500
[[element]]
name = "C"

# the fibre along the river
[[link]]
name = "L1"
a = "A"
b = "B"
"priority_b" = 1  # first choice
[[link]]
name = "L2"
a = "B"
b = "C"
priority_b = 1
[[link]]
name = "L3"
a = "C"
b = "A"
priority_a = 2

[[source]]
name = "S"
at = "A"
level = "QL-PRC"
"""
INLINE = b"""element = [{ name = "A" }, { name = "B", floor = "QL-SSU-B" }, { name = "C" }]
link = [{ name = "L1", a = "A", b = "B", priority_b = 1 }, { name = "L2", a = "B", b = "C" }]
source = [{ name = "S", at = "A", level = "QL-PRC" }]
"""
# Two elements that each prefer the other to a source of their own: they oscillate.
PAIR = spelled(
    *("element A", "element B", "link L a=A b=B priority_a=1 priority_b=1 delay_a=10 delay_b=10"),
    *("source SA at=A level=QL-PRC priority=2", "source SB at=B level=QL-PRC priority=2"),
).encode()
