"""Murdjohe's workbench: a command around the proved program, and its forms as typed functions.

    >>> import murdjohe
    >>> murdjohe.rank("plan.toml").result.ranks

What the program refuses is raised as `murdjohe.Refused`, with the number, the place and a sentence. The functions are those
of `murdjohe.api`, the dataclasses those of `murdjohe.reports`, `murdjohe.inspections` and `murdjohe.studies`, modules of
`murdjohe.answers`; what the workbench's own commands do is in `murdjohe.tasks`. They are read when first asked for.
"""

from __future__ import annotations

__version__ = "1.0.0"

TYPE_CHECKING = False
if TYPE_CHECKING:
    from murdjohe.answers import api, inspections, reports, studies
    from murdjohe.answers.api import (
        Answered,
        Refused,
        agree,
        chains,
        check,
        decode,
        encode,
        gen,
        hops,
        inspect,
        node,
        nominate,
        pcap_decode,
        pcap_encode,
        prio_check,
        prio_rank,
        prio_sim,
        protect,
        protected,
        rank,
        sim,
        study,
        sweep,
        trial,
    )

__all__ = [
    "Answered",
    "Refused",
    "agree",
    "chains",
    "check",
    "decode",
    "encode",
    "gen",
    "hops",
    "inspect",
    "node",
    "nominate",
    "pcap_decode",
    "pcap_encode",
    "prio_check",
    "prio_rank",
    "prio_sim",
    "protect",
    "protected",
    "rank",
    "sim",
    "study",
    "sweep",
    "trial",
]
MODULES = ("api", "inspections", "reports", "studies")


def __dir__() -> list[str]:
    return sorted([*__all__, *MODULES, "tasks", "__version__"])


def __getattr__(name: str) -> object:
    """The functions of `api`, and modules of `answers`, which are imported when first asked for: the command has no need of them."""
    if name in __all__:
        from murdjohe.answers import api

        return getattr(api, name)
    if name in MODULES or name == "tasks":
        from importlib import import_module

        return import_module(f"murdjohe.{name}" if name == "tasks" else f"murdjohe.answers.{name}")
    raise AttributeError(f"module {__name__!r} has no attribute {name!r}")
