"""What the forms of the program cost on large plans, and how that grows with the number of elements.

usage: python3 -m bench.measure.large PROGRAM [--elements N[,N..]] [--kind KIND[,KIND..]] [--form FORM[,FORM..]] [--instructions]

For each kind of network (ladder, operator, random, ring: see `bench.networks`) and each number of elements (2,000, 10,000
and 50,000 where none is given) a plan is made, with priorities by `nominate`, and each form runs on it once, with the
word `large` before its words: `check` with the certificate of `rank`, `sim` and `inspect` with one event and with a
thousand, `study` of a hundred cases, `sweep` of every link where the network has settled, and so on. A line says its
processor time, its peak memory and its status, and the last column the power of the number of elements with which the
processor time grows from the least number to the greatest. With --instructions callgrind counts instead, which is exact,
wants valgrind, and takes fifty times as long. In a plan by `nominate`, of which `protected` is, many failures cut somebody
off; `protecting` is `protected` of the plan that `protect` writes, in which none does, and `groups` the same with a hundred groups. `node` is one element
of the plan for a minute. The peak is at least that of this script, by which a run is started. It needs Python 3.11
alone.
"""

import os
import re
import subprocess
import sys
import tempfile
from collections.abc import Callable
from typing import NamedTuple

from bench import networks
from bench.measure.times import growth, run
from bench.program import octets, program_words, put_files
from bench.reference.plan import Plan, plan_text, read_plan

SETTLED, LEVEL = 400_000, 20  # milliseconds after which a small network has settled, and that each element adds at most
FORMS = (
    "check",
    "rank",
    "chains",
    "agree",
    "hops",
    "nominate",
    "protected",
    "protect",
    "protecting",
    "groups",
    "sim",
    "sim-1000",
    "inspect",
    "node",
    "study",
    "sweep",
    "prio-check",
    "prio-rank",
    "prio-sim",
    "gen",
    "trial",
)


class Cost(NamedTuple):
    """Processor time in seconds or instructions in millions, peak memory in MB, and the status."""

    used: float
    memory: float
    status: int


def settled(count: int) -> int:
    """The millisecond from which a network of so many elements has settled: levels have gone from end to end."""
    return SETTLED + LEVEL * count


def apart(plan: Plan, count: int) -> list[str]:
    """So many links or more, as far from one another in the plan as they can be."""
    return [link.name for link in plan.links[:: max(1, len(plan.links) // count)]]


def events(plan: Plan, count: int) -> str:
    """So many links that go down one after the other, a second apart."""
    start, names = settled(len(plan.elements)), apart(plan, count)[:count]
    return "at,what,target,value\n" + "".join(f"{start + n * 1000},down,{name},\n" for n, name in enumerate(names))


def cases(plan: Plan, count: int) -> str:
    """So many cases, in each of which a link goes down."""
    start, names = settled(len(plan.elements)), apart(plan, count)[:count]
    return "case,at,what,target,value\n" + "".join(f"C{n},{start},down,{name},\n" for n, name in enumerate(names))


def groups(plan: Plan, count: int) -> str:
    """So many groups of two links and an element each, all of whose parts fail together."""
    names = apart(plan, 2 * count)
    rows = (
        f"G{n},link,{one}\nG{n},link,{other}\nG{n},element,{plan.elements[n % len(plan.elements)].name}\n"
        for n, (one, other) in enumerate(zip(names[: 2 * count : 2], names[1 : 2 * count : 2]))
    )
    return "group,kind,part\n" + "".join(rows)


def words_of(form: str, count: int, receiver: str) -> list[str]:
    """The words of a form, over the files of a folder with so many elements, one of which receives a line."""
    start = settled(count)
    until = str(start + 1_200_000)
    return {
        "check": ["check", "plan", "certificate"],
        "prio-check": ["prio-check", "plan", "certificate"],
        "sim": ["sim", "plan", "one", until],
        "sim-1000": ["sim", "plan", "thousand", str(start + 2_400_000)],
        "inspect": ["inspect", "plan", "one", str(start + 1_000)],
        "study": ["study", "plan", "cases", str(start + 60_000)],
        "sweep": ["sweep", "plan", str(start), str(start + 60_000)],
        "prio-sim": ["prio-sim", "plan", "one", until],
        "protecting": ["protected", "protecting"],
        "groups": ["protected", "protecting", "groups"],
        "node": ["node", "plan", receiver, "received", "60000"],
        "gen": ["gen", str(count)],
        "trial": ["trial", str(count)],
    }.get(form, [form, "plan"])


def make_files(program: str, folder: str, kind: str, count: int) -> str:
    """The plan with its priorities, its certificate, events, cases and groups, and what an element receives, which is
    told.
    """
    if kind == "ladder":
        _, text = octets(program, ["large", "gen", str(count)])
    else:
        put_files(folder, {"topology": plan_text(networks.network(kind, count))})
        _, text = octets(program, ["large", "nominate", "topology"], folder)
    put_files(folder, {"plan": text})
    _, protecting = octets(program, ["large", "protect", "plan"], folder)
    put_files(folder, {"protecting": protecting})
    named = read_plan(text.decode("ascii"))
    _, certificate = octets(program, ["large", "rank", "plan"], folder)
    put_files(folder, {"certificate": certificate, "one": events(named, 1), "thousand": events(named, 1000)})
    line = named.nominated_lines[0]
    received = f"30000,down,{named.input_name(line)},\n"
    put_files(folder, {"cases": cases(named, 100), "groups": groups(named, 100), "received": received})
    return named.elements[named.receiver_of[line]].name


def timed(program: str, folder: str, words: list[str]) -> Cost:
    """What a run takes, by the clock of the processor."""
    before = os.getcwd()
    os.chdir(folder)
    try:
        made = run(program, words)
    finally:
        os.chdir(before)
    return Cost(made.processor / 1000, made.memory, made.status)


def counted(program: str, folder: str, words: list[str]) -> Cost:
    """What a run takes, in millions of instructions by callgrind."""
    tool = ["valgrind", "--tool=callgrind", "--callgrind-out-file=/dev/null", program, *words]
    made = subprocess.run(tool, cwd=folder, stdout=subprocess.DEVNULL, stderr=subprocess.PIPE, check=False)
    found = re.search(rb"Collected : (\d+)", made.stderr)
    return Cost(int(found[1]) / 1e6 if found else 0.0, 0.0, made.returncode)


def measured(
    program: str, kind: str, counts: list[int], forms: list[str], cost: Callable[[str, str, list[str]], Cost]
) -> None:
    """A line for each form on a kind of network."""
    costs: dict[str, dict[int, Cost]] = {form: {} for form in forms}
    for count in counts:
        with tempfile.TemporaryDirectory() as folder:
            receiver = make_files(program, folder, kind, count)
            for form in forms:
                costs[form][count] = cost(program, folder, ["large", *words_of(form, count, receiver)])
    for form, by_count in costs.items():
        if by_count:
            told = "  ".join(
                f"{count}: {one.used:.2f}, {one.memory:.0f} MB ({one.status})" for count, one in by_count.items()
            )
            power = growth(list(by_count), [one.used for one in by_count.values()]) if len(by_count) > 1 else 0.0
            print(f"{kind:9} {form:10} {told}  ^{power:.2f}", flush=True)


def main() -> int:
    words = program_words(__doc__, elements="2000,10000,50000", kind="ladder,operator,random", instructions=False)
    words.add_argument("--form", default=",".join(FORMS))
    given = words.parse_args()
    counts = [int(count) for count in given.elements.split(",")]
    for kind in given.kind.split(","):
        cost = counted if given.instructions else timed
        measured(given.program, kind, counts, given.form.split(","), cost)
    return 0


if __name__ == "__main__":
    sys.exit(main())
