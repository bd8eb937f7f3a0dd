"""Findings that somebody looked at and accepts: lines as `lint` printed them, whatever line of a plan they named."""

from __future__ import annotations

import re

from murdjohe.core import files
from murdjohe.core.faults import unusable
from murdjohe.core.wording import plural
from murdjohe.network.findings import ERROR, KINDS, Finding

TOLD = re.compile(rf"(?:.*?:\d+: )?({'|'.join(KINDS)}): (.+)")


def accepted_in(name: str, text: str) -> set[str]:
    """The findings in a file, without the lines of a plan; blank lines and those with `#` say nothing. Raises Wrong."""
    found = set()
    for line, words in enumerate(text.splitlines(), start=1):
        if not words.strip() or words.startswith("#"):
            continue
        told = TOLD.fullmatch(words)
        if told is None:
            raise unusable(f"{name}:{line}: it is no finding, as `lint` prints them")
        if told[1] == ERROR:
            raise unusable(f"{name}:{line}: an error can't be accepted; correct the plan")
        found.add(f"{told[1]}: {told[2]}")
    return found


def key_of(finding: Finding) -> str:
    """A finding without its line."""
    return f"{finding.kind}: {finding.what}; {finding.remedy}"


def parted(found: list[Finding], path: str | None) -> tuple[list[Finding], list[str]]:
    """The findings that aren't accepted, and what is told of those that are. Raises Wrong."""
    if path is None:
        return found, []
    known = accepted_in(path, files.text(path))
    rest = [finding for finding in found if key_of(finding) not in known]
    gone = known - {key_of(finding) for finding in found}
    said = [f"{plural(len(found) - len(rest), 'finding')} of {path} left out as accepted"]
    said += [f"{path}: no longer found: {what}" for what in sorted(gone)]
    return rest, said
