"""What `murdjohe help TOPIC` says of files, levels, statuses and the program: enough to write them without another document."""

from __future__ import annotations

import json

from murdjohe.core import forms, levels, program, refusals
from murdjohe.plan import plan_lines
from murdjohe.sentences import records

PLAN = """\
A plan is a TOML file. An element is what selects one reference; a link joins two elements and is two lines, one each
way: L1>B is the line of L1 into B; a source is a clock at an element. A line is nominated where its end has a priority.

[[element]]
name = "A"

[[element]]
name = "B"

[[link]]
name = "L1"
a = "A"
b = "B"
priority_b = 1

[[source]]
name = "S"
at = "A"
level = "QL-PRC"

If a plan has no priorities, `murdjohe nominate` gives them. `murdjohe protect` gives them so that no single failure cuts elements
off. The head may have option = "I" or "II", and version = 2, in which a link may have a bundle. The keys of each row, and their limits:
"""
EVENTS = """\
An event list is a table with commas. `at` is in milliseconds, or a time as 90s, 5m, 02:10 or 23:00:00, and rises; with --start
a time with colons is a time of day. `value` is empty but for `level`.

at,what,target,value
60000,down,L1,
360000,up,L1,
400000,level,S,QL-SSU-A
500000,lockout,L1>B,

"""
CASES = """\
A list of cases is a table with commas: events, each behind the name of its case. Events without a name are common to all
cases, and stand above them. In the run of a case its own events happen and the common ones. The rows of one case stand together.
Their times rise, and begin anew with each case. `murdjohe help events` has the words of an event, and the times.

case,at,what,target,value
,1000,lockout,L1>B,
,5000,unlock,L1>B,
cut,60000,down,L1,
cut,360000,up,L1,
clock,60000,down,S,

`murdjohe study PLAN CASES UNTIL` says what becomes of the network in each case. `murdjohe failures PLAN` writes a list of
cases: links, bundles, sources, elements and groups that fail, each alone and, with --pairs, each two together.
"""
GROUPS = """\
A list of groups is a table with commas: parts that fail together, as the fibres of one duct or the antennas of one roof. A
group has a name, and a row for each part, one below the other. The kind is link, source or element. An element fails with all
its links and sources. A part may stand in several groups, and in each once.

group,kind,part
duct-7,link,L1
duct-7,link,L5
roof,source,GPS1
roof,source,GPS2

`murdjohe protected PLAN GROUPS` says what each group cuts off although a path remains, and `murdjohe protect PLAN --groups GROUPS`
gives priorities under which none does. `lint`, `diff`, `draw`, `failures` and `survey` take the same list with --groups, and `import`
makes it of a column `duct` of the links' table. These commands read a table of the columns name and links too, with the names
of a group's links between blanks.
"""
CERTIFICATE = """\
A certificate has a rank, a number from 0 on, for each nominated line. `murdjohe rank` writes it.

line,rank
L1>B,0
"""
TABLES = """\
`murdjohe import ELEMENTS LINKS SOURCES` makes a plan of tables with commas, semicolons or tabs and a header in any case.
The columns, in any order, those in brackets may be missing; an empty field has its default. Times are milliseconds, wtr is
in minutes.

  ELEMENTS  name [own] [holdoff] [wtr] [floor]
  LINKS     name a b [priority_a] [priority_b] [delay_a] [delay_b] [bundle] [duct] [port_a] [port_b]
  SOURCES   name at level [priority] [port]

A plan has no ducts: those of the links, several with semicolons between them, become a list of groups beside the plan. Nor has it
ports: they stand in a table beside it, PLAN.ports.csv, for `orders` and `draw`; --keep-extra puts all other columns there too.

  $ murdjohe import elements.csv links.csv sources.csv -o topology.toml
  $ murdjohe nominate topology.toml > plan.toml
  $ murdjohe rank plan.toml > certificate.csv
  $ murdjohe check plan.toml certificate.csv
  accepted
"""
CORE = f"""\
`murdjohe` runs the proved program, {program.NAME}, for every verdict. It is looked for

  1. where the variable {program.VARIABLE} says,
  2. beside the package,
  3. on the PATH, as {program.NAME},
  4. in a checkout, at {program.BUILT}.

In a checkout `make core` builds it, and `make install` installs both.
"""

SIGNALS = "  129, 130, 143  ended by SIGHUP, by Ctrl-C, by SIGTERM: nothing half-written is left\n"


def limits(key: str) -> str:
    """The limits of a key, in words, where it has any."""
    if key not in plan_lines.LIMITS:
        return ""
    least, greatest, unit = plan_lines.LIMITS[key]
    return f": {least} to {greatest}{unit}"


def plan() -> str:
    """The plan: an example, and each key."""
    lines = []
    for section in plan_lines.SECTIONS:
        lines.append(f"\n  {section}")
        for key in plan_lines.KEYS[section]:
            must = " (must be there)" if key in plan_lines.MUST[section] else ""
            lines.append(f"    {key}{must}{limits(key)}")
    return PLAN + "\n".join(lines) + "\n\n`murdjohe help levels` has the levels.\n"


def events() -> str:
    """The event list: an example, and each word with what it is said of."""
    words = {
        "down, up": "a link, a line, or a source",
        "esmc-off, esmc-on": "a line",
        "level": "a source; the value is a level",
        ", ".join(records.ON_INPUTS): "a line or a source",
        "clear": "an element",
    }
    return EVENTS + "\n".join(f"  {word}: {target}" for word, target in words.items()) + "\n"


def level_table() -> str:
    """The levels of both options, best first."""
    rows = [f"Option {option}: {', '.join(names)}." for option, names in levels.LEVELS.items()]
    return "Quality levels, best first. The last is do-not-use.\n\n" + "\n\n".join(rows) + "\n"


def statuses(numbers: tuple[int, ...] | None = None) -> str:
    """The exit statuses, or those of these numbers."""
    entries = refusals.meanings()["status"]
    rows = [
        f"  {entry['number']:>2}  {entry['when']}" for entry in entries if numbers is None or entry["number"] in numbers
    ]
    return "\n".join(rows) + "\n"


def json_text() -> str:
    """What `--json` prints, as a JSON Schema."""
    from murdjohe.answers import json_schema

    return json.dumps(json_schema.schema(), indent=2) + "\n"


TOPICS = {
    "plan": ("the plan file", plan),
    "tables": ("tables that become a plan", lambda: TABLES),
    "events": ("the event list", events),
    "cases": ("the list of cases", lambda: CASES),
    "groups": ("the list of groups, parts that fail together", lambda: GROUPS),
    "certificate": ("the certificate", lambda: CERTIFICATE),
    "levels": ("quality levels", level_table),
    "statuses": ("exit statuses", lambda: "Exit statuses, none of which means two things:\n\n" + statuses() + SIGNALS),
    "json": ("what --json prints, as a JSON Schema", json_text),
    "core": ("the proved program, and where it is", lambda: CORE),
}
# What is said of a form beside its words.
MORE = {
    "protect": """\
With --groups FILE, a list of groups (murdjohe help groups), it looks for priorities under which no group of parts that fail together
cuts elements off either. The search is exact, or goes by steps if that takes too long. It takes at most 25 seconds of processor time,
and networks of at most 5,000 elements. The status is 1 if a group still cuts elements off, 5 or 24 if the list is refused.

  $ murdjohe gen 5 > plan.toml
  $ printf 'group,kind,part\\nduct,link,S1\\nduct,link,R2\\n' > ducts.csv
  $ murdjohe protect plan.toml --groups ducts.csv > protecting.toml
""",
}
ALWAYS = (
    *(program.USAGE, program.WRITE_FAULT, program.NO_MEMORY, program.THERE, program.NO_SPACE),
    *(program.UNAVAILABLE, program.MISTAKE),
)


def of_form(form: forms.Form) -> str:
    """What `--help` says of a form below its first lines: words, statuses and an example."""
    width = max(len(word.name) for word in form.words)
    words = [f"  {word.name:<{width}}  {forms.MEANINGS[word.kind]}" for word in form.words]
    has_files = any(word.is_file for word in form.words)
    stdin = "  A file may be `-`, standard input.\n" if has_files else ""
    numbers = tuple(sorted({*form.statuses, *ALWAYS}))
    example = "\n".join(f"  $ {line}" for line in form.example)
    text = "Words:\n" + "\n".join(words) + f"\n{stdin}\nStatuses:\n{statuses(numbers)}\nExample:\n{example}\n"
    return text + (f"\n{MORE[form.name]}" if form.name in MORE else "")
