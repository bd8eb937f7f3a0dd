"""Small works of the program, for scripts that make calls fail: what each is called, its words, and the files that
they name."""

import random

from bench.reference.plan import Event, events_text, read_plan
from bench.reference.random_plans import random_events

DELAYS = "delay_a = 10\ndelay_b = 10\n"
# Three elements in a row; and the same with delays and a source at the first.
ROW = """[[element]]
name = "A"
[[element]]
name = "B"
[[element]]
name = "C"
[[link]]
name = "L1"
a = "A"
b = "B"
priority_b = 1
[[link]]
name = "L2"
a = "B"
b = "C"
priority_b = 1
"""
CHAIN = (
    ROW.replace("priority_b = 1\n", "priority_b = 1\n" + DELAYS)
    + '[[source]]\nname = "S"\nat = "A"\nlevel = "QL-PRC"\n'
)
# Two elements that may take their timing from each other.
PAIR = (
    '[[element]]\nname = "A"\n[[element]]\nname = "B"\n'
    '[[link]]\nname = "L1"\na = "A"\nb = "B"\npriority_a = 1\npriority_b = 1\n' + DELAYS
)
# Three elements in a ring, whose first has the source.
RING = CHAIN + '[[link]]\nname = "L3"\na = "C"\nb = "A"\n'
CASES = "case,at,what,target,value\none,2000,down,L1,\ntwo,2000,down,L2,\ntwo,3000,up,L2,\n"
GROUPS = "group,kind,part\nD,link,L1\nD,link,L3\nE,element,B\n"
CERTIFICATE = "line,rank\nL1>B,0\nL2>C,1\n"
NO_EVENTS = "at,what,target,value\n"
ROWS = "020000000001,info,QL-PRC\n020000000002,event,QL-PRTC,0011223344556677,00,1,0\n"
TIMED_ROWS = "".join(f"{second},{5 * second},{row}\n" for second, row in enumerate(ROWS.splitlines() * 20))


def many_events() -> str:
    """A thousand events of every word on the chain, in twenty seconds."""
    plan, chance, events = read_plan(CHAIN), random.Random(1), list[Event]()
    while len(events) < 1000:
        events += random_events(chance, plan, 20_000)
    return events_text(plan, sorted(events[:1000], key=lambda event: event.at))


def works() -> dict[str, tuple[list[str], dict[str, str]]]:
    """The works by name: words, and the text of each file that they name."""
    return {
        "check": (["check", "row", "certificate"], {"row": ROW, "certificate": CERTIFICATE}),
        "rank": (["rank", "pair"], {"pair": PAIR}),
        "encode": (["encode", "I", "rows"], {"rows": ROWS}),
        "pcap-encode": (["pcap-encode", "I", "rows"], {"rows": TIMED_ROWS}),
        "nominate": (["nominate", "chain"], {"chain": CHAIN}),
        "protect": (["protect", "ring"], {"ring": RING}),
        "protected": (["protected", "ring", "groups"], {"ring": RING, "groups": GROUPS}),
        "study": (["study", "chain", "cases", "10000"], {"chain": CHAIN, "cases": CASES}),
        "sweep": (["sweep", "chain", "1000", "10000"], {"chain": CHAIN}),
        "trial": (["trial", "10"], {}),
        "sim": (["sim", "chain", "events", "100"], {"chain": CHAIN, "events": NO_EVENTS}),
        "sim-many": (["sim", "chain", "events", "30000"], {"chain": CHAIN, "events": many_events()}),
    }
