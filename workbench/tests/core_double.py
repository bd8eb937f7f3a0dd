#!/usr/bin/python3 -IS
"""A double of the proved program, for what a survey does with it: it answers `study` by the text of each case alone.

As a program it stands in a folder with `settings.json` and writes a line for each `study` to `calls` there. The settings:
`slow`, seconds that a study takes; `waits`, a case whose study goes on once there is a file `go`; `dies`, a case whose study a
signal ends; `refuses`, a case whose first row is refused; `short`, a case whose row is left out;
`model`, the top of the repository: rows are those of the model of studies in `bench`; `stays`, seconds that a `sim` takes,
which writes a line to `runs` then. A file `old` there: it has no `study`.
"""

from __future__ import annotations

import hashlib
import json
import os
import sys
import time
from typing import Any

HEADER = "case,settled,locked,holdover,freerun,loops,worst,bound,lost,first,longest,hurt,dark,darkest,still"
ANSWERS = {"rank": "line,rank", "check": "accepted", "agree": "agreed\nbound 5\nfailures 5"}
RUN = "changes\ninputs\ntraces\nloops\nsettled yes\n"


def row_of(common: list[str], own: list[str], until: str) -> str:
    """A row for a case, by nothing but its text and that of the common rows."""
    name = own[0].partition(",")[0]
    digits = hashlib.sha256("\n".join([*common, *own, until]).encode()).digest()
    lost, loops = digits[0] % 4, max(0, digits[1] % 9 - 6)
    first = f"E{digits[2] % 7}" if lost else ""
    settled = "no" if loops or digits[3] % 11 == 0 else "yes"
    bound = "none" if digits[4] % 5 == 0 else str(digits[4])
    hurt, still = lost + digits[6] % 3, lost
    way = f"{hurt},{digits[7] * 1000 + 1},E{digits[8] % 7},{still}" if hurt else "0,0,,0"
    return f"{name},{settled},{9 - lost},{lost},0,{loops},QL-PRC,{bound},{lost},{first},{digits[5] % 30},{way}"


def cases_of(table: str) -> tuple[list[str], dict[str, list[str]]]:
    """The common rows of a table, and those of each case."""
    common: list[str] = []
    cases: dict[str, list[str]] = {}
    for row in table.splitlines()[1:]:
        name = row.partition(",")[0]
        (cases.setdefault(name, []) if name else common).append(row)
    return common, cases


def rows_of(table: str, until: str) -> list[str]:
    """The rows of all cases of a table."""
    common, cases = cases_of(table)
    return [row_of(common, own, until) for own in cases.values()]


def settings_of(folder: str) -> dict[str, Any]:
    """The settings of the double in a folder."""
    with open(os.path.join(folder, "settings.json"), encoding="utf-8") as file:
        return dict(json.load(file))


def sim(folder: str) -> int:
    settings = settings_of(folder)
    if "stays" in settings:
        with open(os.path.join(folder, "runs"), "a", encoding="utf-8") as runs:
            runs.write("sim\n")
        time.sleep(settings["stays"])
    print(RUN, end="")
    return 0


def study(folder: str, plan: str, path: str, until: str) -> int:
    settings = settings_of(folder)
    with open(path, encoding="utf-8") as file:
        table = file.read()
    names = list(cases_of(table)[1])
    with open(os.path.join(folder, "calls"), "a", encoding="utf-8") as calls:
        calls.write(f"{names[0]} {names[-1]} {len(names)} {until}\n")
    time.sleep(settings.get("slow", 0))
    while settings.get("waits") in names and not os.path.exists(os.path.join(folder, "go")):
        time.sleep(0.02)
    if settings.get("dies") in names:
        os.kill(os.getpid(), 9)
    if settings.get("refuses") in names:
        rows = [row.partition(",")[0] for row in table.splitlines()]
        print(f"bad events 31 {rows.index(settings['refuses'])}")
        return 5
    if "model" in settings:
        os.chdir(settings["model"])
        os.execv(sys.executable, [sys.executable, "-m", "bench.reference", "--study", plan, path, until])
    short = settings.get("short")
    print("\n".join([HEADER, *(row for row in rows_of(table, until) if row.partition(",")[0] != short)]))
    return 0


def main() -> int:
    folder, form, words = os.path.dirname(os.path.abspath(__file__)), sys.argv[1], sys.argv[2:]
    if form == "large":
        form, *words = words
    if form in ANSWERS:
        print(ANSWERS[form])
    elif form == "sim":
        return sim(folder)
    elif form != "study" or os.path.exists(os.path.join(folder, "old")):
        print("usage")
        return 2
    else:
        return study(folder, *words)
    return 0


if __name__ == "__main__":
    sys.exit(main())
