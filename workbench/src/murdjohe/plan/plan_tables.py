"""The plan among the words of a form, as Python's reader gives it."""

from __future__ import annotations

from murdjohe.core import forms
from murdjohe.core.inputs import Words

TYPE_CHECKING = False
if TYPE_CHECKING:
    from murdjohe.plan.model import Plan


def network_of(words: Words) -> Plan | None:
    """The plan; None where Python's reader, or the disk, doesn't give them."""
    from murdjohe.core import toml_reader
    from murdjohe.plan import model

    file = words.file(forms.PLAN)
    try:
        with open(file.path if file else "", encoding="utf-8-sig") as source:
            return model.plan_of(toml_reader.tables(source.read()))
    except (OSError, ValueError, TypeError, AttributeError, RecursionError):
        return None
