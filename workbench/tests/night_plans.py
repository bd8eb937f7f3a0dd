"""Networks and a night's works with a trap each, for tests: what a new user has in hand who asks whether the night is safe.

In each nothing is wrong at first sight: `check` accepts the plan, and a look at the end alone reassures.
"""

from __future__ import annotations

from dataclasses import dataclass

from plans_spelled import spelled

HEAD = "at,what,target,value\n"


def plan_of(elements: str, links: tuple[str, ...], sources: tuple[str, ...]) -> str:
    """A plan of elements by name, links as `name a b priority_a priority_b`, and sources as `name at level priority`."""
    rows = [f"element {name} floor=QL-SSU-B" for name in elements.split()]
    rows += ["link {} a={} b={} priority_a={} priority_b={}".format(*link.split()) for link in links]
    return spelled(*rows, *("source {} at={} level={} priority={}".format(*source.split()) for source in sources))


@dataclass(frozen=True)
class Night:
    """A plan and its works."""

    plan: str
    works: str


# A hub with three sites behind it. Its reserve is locked out for the works and its fibre cut for twenty minutes: then nobody has
# lost anything at the end, and four elements had no clock for twenty-five minutes.
LONG = Night(
    plan_of(
        "core hub site-1 site-2 site-3 other",
        (
            *("fibre core hub 0 1", "detour other hub 0 2", "trunk core other 0 1"),
            *("spur-1 hub site-1 0 1", "spur-2 hub site-2 0 1", "spur-3 hub site-3 0 1"),
        ),
        ("clock core QL-PRC 1",),
    ),
    f"{HEAD}23:05,lockout,detour>hub,\n23:10,down,fibre,\n23:30,up,fibre,\n23:40,unlock,detour>hub,\n",
)
# Two exchanges that prefer the fibre between them to their own receivers: no loop is possible and no failure cuts anybody off; but
# once both lines from the core are cut, which lie in one duct, they take and drop each other's timing for ever.
SWINGING = Night(
    plan_of(
        "core station harbour",
        ("duct-s core station 0 1", "duct-h core harbour 0 1", "trunk station harbour 2 2"),
        ("clock core QL-PRC 1", "gnss-s station QL-PRC 3", "gnss-h harbour QL-PRC 3"),
    ),
    f"{HEAD}23:10,down,duct-s,\n23:10,down,duct-h,\n",
)
# A ring that survives each failure. The works take one of its links out, nobody notices, and a lockout is left behind.
LEFT = Night(
    plan_of(
        "west middle east",
        ("north west middle 0 1", "south east middle 0 2", "outer west east 2 2"),
        ("clock west QL-PRC 1", "reserve east QL-PRC 1"),
    ),
    f"{HEAD}23:05,lockout,south>middle,\n23:10,down,outer,\n23:30,up,outer,\n",
)
# A ring in which north is forced to one side for works on the other; the switch is left behind, and then that side is cut: north takes
# nothing although the other side is up. Whoever looks while the first works stand sees nobody without a source.
FORCED = Night(
    plan_of(
        "hub mill north park",
        ("F1 hub mill 0 1", "F2 mill north 2 1", "F3 north park 2 2", "F5 park hub 1 0"),
        ("clock hub QL-PRC 1",),
    ),
    f"{HEAD}23:00,forced,F2>north,\n23:15,down,F3,\n01:00,up,F3,\n01:30,down,F2,\n",
)
