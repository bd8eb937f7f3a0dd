"""Files at each limit and one past it: what the program answers, and the time and memory that it takes.

usage: python3 -m bench.measure.limits PROGRAM [--large] [--only WORD]

Each case has its answer, or how that begins and ends, worked out by hand. A line of a Markdown table is printed for
each: processor time and peak memory, by GNU time (Debian: time). --large takes the limits of large plans in place of
those of standard ones: files of 1 GiB, two minutes and 3 GB of memory. --only takes the cases in whose names the word
stands. It needs Python 3.11.
"""

import os
import struct
import subprocess
import sys
import tempfile
from collections.abc import Callable, Iterator, Mapping
from typing import NamedTuple

from bench.program import program_words

LONGEST = 8_388_608
LARGE_LONGEST = 2**30
DAY = 86_400_000


class Case(NamedTuple):
    """The words, with names of files among them; the files; the status; and how the text begins and ends."""

    name: str
    words: list[str]
    files: Mapping[str, str | bytes]
    status: int
    begins: str
    ends: str = ""


def rows(section: str, count: int, keys: str) -> str:
    """So many rows of a plan; {} in the keys is the row's number from 0 on."""
    return "".join(f"[[{section}]]\n" + keys.replace("{}", str(n)) for n in range(count))


def elements(count: int) -> str:
    """So many elements."""
    return rows("element", count, 'name = "E{}"\n')


def links(count: int) -> str:
    """Links between E0 and E1, none of them nominated."""
    return rows("link", count, 'name = "L{}"\na = "E0"\nb = "E1"\n')


def nominated(count: int) -> str:
    """Links between E0 and E1, nominated at E1."""
    return links(count).replace('b = "E1"\n', 'b = "E1"\npriority_b = 1\n')


def sources(count: int, keys: str = "") -> str:
    """So many sources at E0."""
    return rows("source", count, 'name = "S{}"\nat = "E0"\nlevel = "QL-PRC"\n' + keys)


def padded(text: str, size: int, piece: str = "\n") -> str:
    """The text with pieces after it, of just this size."""
    return text + piece * (size - len(text))


EVENTS = "at,what,target,value\n"
ONE = '[[element]]\nname = "A"\n'
CHAIN = elements(3) + '[[link]]\nname = "L"\na = "E0"\nb = "E1"\npriority_b = 1\n' + sources(1)


def rank_case(name: str, plan: str, status: int = 0, begins: str = "line,rank\n", ends: str = "") -> Case:
    """A plan that `rank` reads."""
    return Case(name, ["rank", "plan"], {"plan": plan}, status, begins, ends)


def sim_case(name: str, plan: str, events: str, until: int, begins: str, ends: str = "", status: int = 0) -> Case:
    """A plan and events that `sim` runs."""
    return Case(name, ["sim", "plan", "events", str(until)], {"plan": plan, "events": events}, status, begins, ends)


def section_cases(
    counts: tuple[int, ...] = (2000, 4000, 2000), case: Callable[..., Case] = rank_case, size: str = ""
) -> Iterator[Case]:
    """As many rows of each section as there may be, and one more."""
    makes: dict[str, Callable[[int], str]] = {"element": elements, "link": lambda n: elements(2) + links(n)}
    makes["source"] = lambda n: elements(1) + sources(n, "priority = 0\n")
    for most, (section, make) in zip(counts, makes.items()):
        yield case(f"{size}{most} {section}s", make(most))
        yield case(f"{size}{most + 1} {section}s", make(most + 1), 3, f"bad plan 25 15 {section} {most + 1}\n")


def input_cases() -> Iterator[Case]:
    """As many inputs of an element as there may be, and one more; and names of the greatest length."""
    yield rank_case("64 lines into an element", elements(2) + nominated(64), ends="L63>E1,0\n")
    yield rank_case("65 lines into an element", elements(2) + nominated(65), 3, "bad plan 25 15 link 65\n")
    yield rank_case("65 sources at an element", elements(1) + sources(65), 3, "bad plan 25 15 source 65\n")
    for length, status, text in ((32, 0, "line,rank\n"), (33, 3, "bad plan 25 16 element 1\n")):
        yield rank_case(f"a name of {length}", f'[[element]]\nname = "{"x" * length}"\n', status, text)


def full_plan() -> str:
    """A plan at all limits: elements in a chain."""
    chain = "".join(
        f'[[link]]\nname = "{kind}{n}"\na = "E{n - 1}"\nb = "E{n}"\npriority_b = {priority}\n'
        for n in range(1, 2000)
        for kind, priority in (("L", 1), ("M", 2))
    )
    others = links(2).replace('"L', '"N')
    keys = 'name = "S{}"\nat = "E{}"\nlevel = "QL-PRC"\npriority = 3\n'
    return elements(2000) + chain + others + rows("source", 2000, keys)


def plan_cases() -> Iterator[Case]:
    """Plans at their limits."""
    yield from section_cases()
    yield from input_cases()
    full = full_plan()
    yield rank_case("2000 elements in a chain, 4000 links, 2000 sources", full, ends="M1999>E1999,1998\n")
    yield sim_case("the same, run for a day", full, EVENTS, DAY, "changes\n0,E0,auto,S0,", "settled yes\n")


def event_cases() -> Iterator[Case]:
    """As many events and changes as there may be, and the last millisecond."""
    most = EVENTS + "0,clear,E0,\n" * 100_000
    yield sim_case("100,000 events", CHAIN, most, 0, "changes\n", "settled no\n")
    yield sim_case("100,001 events", CHAIN, most + "0,clear,E0,\n", 0, "bad events 33\n", status=5)
    # The last event of them is up, at 79,999,200; 300,000 after it the line is good again.
    busy = EVENTS + "".join(f"{n * 800},{'down' if n % 2 == 0 else 'up'},L>E1,\n" for n in range(100_000))
    changes = "changes\n0,E0,auto,S0,QL-PRC,locked\n80299200,E1,auto,L>E1,"
    yield sim_case("100,000 faults in a day", CHAIN, busy, DAY, changes, "settled yes\n")
    pair = elements(2) + '[[link]]\nname = "L"\na = "E0"\nb = "E1"\npriority_a = 1\npriority_b = 1\n'
    changes, name = "changes\n1,E0,auto,L>E0,", "200,000 changes of two elements that swing"
    yield sim_case(name, pair, EVENTS, DAY, changes, "stopped,100000\n", status=11)
    for at, status, text in ((DAY, 0, "changes\n"), (DAY + 1, 5, "bad events 28 1\n")):
        yield sim_case(f"an event at {at}", CHAIN, EVENTS + f"{at},down,L,\n", 0, text, status=status)
    yield sim_case(f"a run to {DAY + 1}", CHAIN, EVENTS, DAY + 1, "usage\n", status=2)


def certificate_cases() -> Iterator[Case]:
    """The greatest rank, and one more."""
    plan = elements(2) + nominated(1)
    for rank, status, text in ((2**64 - 1, 0, "accepted\n"), (2**64, 4, "bad certificate 35 1\n")):
        yield Case(
            f"the rank {rank}",
            ["check", "plan", "cert"],
            {"plan": plan, "cert": f"line,rank\nL0>E1,{rank}\n"},
            status,
            text,
        )


def capture_of(size: int) -> bytes:
    """A capture of one Ethernet packet that is no frame of ESMC, of just this size."""
    length = size - 40
    return (
        struct.pack("<IHHIIII", 0xA1B2C3D4, 2, 4, 0, 0, 65535, 1)
        + struct.pack("<4I", 0, 0, length, length)
        + bytes(length)
    )


# What a file is called, the words with its name, how one of a size is made, other files, and the answer.
Kind = tuple[str, list[str], Callable[[int], str | bytes], dict[str, str | bytes], str]


def length_cases() -> Iterator[Case]:
    """Files of the greatest length, and one octet more."""
    frame = "0180c200000202000000000188090a0019a700011000000001000402" + "0" * 64 + "\n"
    row, plan = "020000000001,info,QL-PRC\n", elements(2) + nominated(1)
    forms: list[Kind] = [
        ("plan", ["rank", "file"], lambda n: padded(plan, n, "#"), {}, "line,rank\nL0>E1,0\n"),
        (
            "certificate",
            ["check", "plan", "file"],
            lambda n: padded("line,rank\nL0>E1,0\n", n),
            {"plan": plan},
            "accepted\n",
        ),
        ("event list", ["sim", "plan", "file", "0"], lambda n: padded(EVENTS, n), {"plan": ONE}, "changes\n"),
        ("list of frames", ["decode", "I", "file"], lambda n: padded(frame * (n // len(frame)), n), {}, row),
        ("list of rows", ["encode", "I", "file"], lambda n: padded(row * (n // len(row)), n), {}, frame),
        ("capture", ["pcap-decode", "I", "file"], capture_of, {}, "passed,1\n"),
        (
            "list of rows with times",
            ["pcap-encode", "I", "file"],
            lambda n: padded(("0,0," + row) * (n // (len(row) + 4)), n),
            {},
            "",
        ),
    ]
    for name, words, make, others, text in forms:
        yield Case(f"a {name} of {LONGEST} octets", words, others | {"file": make(LONGEST)}, 0, text)
        yield Case(f"a {name} of {LONGEST + 1} octets", words, others | {"file": make(LONGEST + 1)}, 9, "too long\n")


def other_cases() -> Iterator[Case]:
    """The least and the greatest ladder, and those past them."""
    for n, status, text in (
        (1, 2, "usage\n"),
        (2, 0, 'option = "I"\n'),
        (2000, 0, 'option = "I"\n'),
        (2001, 2, "usage\n"),
    ):
        yield Case(f"gen {n}", ["gen", str(n)], {}, status, text)


# A pair that swings each millisecond, whose every change is a row.
PAIR = '[[link]]\nname = "L"\na = "E0"\nb = "E1"\npriority_a = 1\npriority_b = 1\n'


def large_rank_case(name: str, plan: str, status: int = 0, begins: str = "line,rank\n", ends: str = "") -> Case:
    """A large plan that `rank` reads."""
    return Case(name, ["large", "rank", "plan"], {"plan": plan}, status, begins, ends)


def large_plan_cases() -> Iterator[Case]:
    """Large plans at each limit of their rows, and with one more."""
    yield from section_cases((100_000, 200_000, 100_000), large_rank_case, "large: ")
    yield large_rank_case("large: 64 lines into an element", elements(2) + nominated(64), ends="L63>E1,0\n")
    yield large_rank_case("large: 65 lines", elements(2) + nominated(65), 3, "bad plan 25 15 link 65\n")
    plan = elements(2) + nominated(1)
    yield large_rank_case("large: a plan of 1 GiB", padded(plan, LARGE_LONGEST, "#"), ends="L0>E1,0\n")
    yield large_rank_case("large: a plan of 1 GiB and one octet", padded(plan, LARGE_LONGEST + 1, "#"), 9, "too long\n")
    for n, status, text in ((100_000, 0, 'option = "I"\n'), (100_001, 2, "usage\n")):
        yield Case(f"large gen {n}", ["large", "gen", str(n)], {}, status, text)
    yield Case("large trial 100000", ["large", "trial", "100000"], {}, 0, "")
    yield Case("large trial 100001", ["large", "trial", "100001"], {}, 2, "usage\n")


def large_row_cases() -> Iterator[Case]:
    """As many events and changes as there may be beside a plan of 2,001 elements, and one more."""
    plan = elements(2001) + PAIR

    def case(name: str, rows: str, until: int, status: int, begins: str, ends: str = "") -> Case:
        files = {"plan": plan, "events": rows}
        return Case(f"large: {name}", ["large", "sim", "plan", "events", str(until)], files, status, begins, ends)

    row = "0,clear,E0,\n"
    yield case("5,000,000 events", EVENTS + row * 5_000_000, 0, 0, "changes\n", "settled no\n")
    yield case("5,000,001 events", EVENTS + row * 5_000_001, 0, 5, "bad events 33\n")
    yield case("events of 1 GiB", padded(EVENTS, LARGE_LONGEST), 0, 0, "changes\n")
    yield case("events of 1 GiB and one octet", padded(EVENTS, LARGE_LONGEST + 1), 0, 9, "too long\n")
    yield case("10,000,000 changes of a pair", EVENTS, DAY, 11, "changes\n1,E0,auto,L>E0,", "stopped,5000000\n")


def large_group_cases() -> Iterator[Case]:
    """Fifty groups of a hundred thousand elements each, which are as many rows as there may be, and one row more."""
    rows = "".join(f"G{group},element,E{n}\n" for group in range(50) for n in range(100_000))
    files = {"plan": elements(100_000), "groups": "group,kind,part\n" + rows}
    words = ["large", "protected", "plan", "groups"]
    yield Case("large: 5,000,000 rows of groups", words, files, 0, "protected\n")
    more = files | {"groups": files["groups"] + "G50,element,E0\n"}
    yield Case("large: 5,000,001 rows of groups", words, more, 5, "bad groups 33\n")


def standard_cases() -> Iterator[Case]:
    """All cases for the words as they are."""
    yield from plan_cases()
    yield from event_cases()
    yield from certificate_cases()
    yield from length_cases()
    yield from other_cases()


def large_cases() -> Iterator[Case]:
    """All cases for the words with `large` before them."""
    yield from large_plan_cases()
    yield from large_row_cases()
    yield from large_group_cases()


def run(program: str, case: Case, folder: str) -> tuple[int, bytes, float, int]:
    """The status, the text, the processor time in milliseconds and the peak of memory in kilobytes."""
    for name, data in case.files.items():
        with open(os.path.join(folder, name), "wb") as file:
            file.write(data if isinstance(data, bytes) else data.encode("ascii"))
    told = os.path.join(folder, "told")
    done = subprocess.run(
        ["time", "-q", "-o", told, "-f", "%U %S %M", program, *case.words], cwd=folder, capture_output=True, check=False
    )
    with open(told, encoding="ascii") as file:
        user, system, memory = file.read().split()[-3:]
    return done.returncode, done.stdout, 1000 * (float(user) + float(system)), int(memory)


def main() -> int:
    given = program_words(__doc__, large=False, only="").parse_args()
    program, wrong = given.program, 0
    print("| what | answer | time | peak memory |\n|---|---|---|---|")
    for case in (case for case in (large_cases() if given.large else standard_cases()) if given.only in case.name):
        with tempfile.TemporaryDirectory() as folder:
            status, text, milliseconds, memory = run(program, case, folder)
        right = (
            status == case.status
            and text.startswith(case.begins.encode("ascii"))
            and text.endswith(case.ends.encode("ascii"))
        )
        right = right and (status in (0, 11) or text == case.begins.encode("ascii"))
        wrong += not right
        answer = (
            f"status {status}, {len(text)} octets"
            if status in (0, 11)
            else f"`{text[:60].decode('ascii', 'replace').strip()}`"
        )
        print(
            f"| {case.name} | {answer}{'' if right else ' WRONG'} | {milliseconds:.0f} ms | {memory / 1000:.1f} MB |",
            flush=True,
        )
    print(f"{wrong} wrong", file=sys.stderr)
    return 1 if wrong else 0


if __name__ == "__main__":
    sys.exit(main())
