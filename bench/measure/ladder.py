"""Times `check` on the ladder plan and its certificate, and compares it with another program.

usage: python3 -m bench.measure.ladder PROGRAM [OTHER] [--repeats N] [--elements N[,N..]] [--all-keys]
           [--form check|rank|gen]

The ladder of N elements has a link from each element to the next and to the one after that, 2N - 3 links
in all; the certificate ranks each nominated line by the longest chain of hops that ends in it. With --all-keys
every key is written and each element has a source of its own. Each program is run in turn, `check PLAN CERT`,
`rank PLAN` (there the last plan is a dense one of 4,000 links, with up to 60 inputs at
an element) or `gen N`, and its least and median wall time, its least processor time and its peak
memory are printed. OTHER may be any program that takes the same words, as plain.rs. The last line fits a
power of the number of elements to the least times, less that of a bare start.
"""

import argparse
import contextlib
import os
import tempfile

from bench.measure.times import HEAD, growth, least, measure, row, run
from bench.program import path, program_words, put_files


def links_of(count: int) -> list[tuple[str, int, int, int]]:
    """The links of the ladder: name, end a, end b, priority of the line into b."""
    links = []
    for j in range(1, count):
        links.append((f"S{j}", j - 1, j, 2))
        if j >= 2:
            links.append((f"R{j}", j - 2, j, 1))
    return links


def full_plan_text(count: int) -> str:
    """The ladder with every key, and a source at each element."""
    rows = ['version = 1\noption = "I"\n']
    rows += [
        f'[[element]]\nname = "E{j}"\nown = "QL-SEC"\nfloor = "QL-SEC"\nholdoff = 300\nwtr = 5\n' for j in range(count)
    ]
    rows += [
        f'[[link]]\nname = "{name}"\na = "E{a}"\nb = "E{b}"\npriority_a = 0\npriority_b = {priority}\n'
        f"delay_a = 10\ndelay_b = 10\n"
        for name, a, b, priority in links_of(count)
    ]
    rows += [f'[[source]]\nname = "P{j}"\nat = "E{j}"\nlevel = "QL-PRC"\npriority = 1\n' for j in range(count)]
    return "".join(rows)


def dense_plan_text(count: int, inputs: int) -> str:
    """Each element has up to `inputs` nominated lines, from the elements just before it, until all 4,000 links that a
    plan may have are there; lines go up alone, so ranks rise."""
    rows = [f'[[element]]\nname = "E{j}"\n' for j in range(count)]
    number = 0
    for j in range(count):
        for k in range(min(inputs, j)):
            if number == 4000:
                break
            rows.append(f'[[link]]\nname = "L{number}"\na = "E{j - 1 - k}"\nb = "E{j}"\npriority_b = 1\n')
            number += 1
    return "".join(rows)


def plan_text(count: int) -> str:
    """The ladder as `check` and `rank` are timed on it."""
    rows = [f'[[element]]\nname = "E{j}"\n' for j in range(count)]
    rows += [
        f'[[link]]\nname = "{name}"\na = "E{a}"\nb = "E{b}"\npriority_a = 0\npriority_b = {priority}\n'
        for name, a, b, priority in links_of(count)
    ]
    return "".join(rows)


def certificate_text(count: int) -> str:
    """A line into element j follows the longest chain to its sender, which has one hop an element."""
    rows = ["line,rank\n"]
    rows += [f"{name}>E{b},{a}\n" for name, a, b, _ in links_of(count)]
    return "".join(rows)


def time_form(given: argparse.Namespace, programs: list[str], count: int) -> dict[str, float]:
    """Times a form on the ladder of so many elements, and gives the least time of each program."""
    plan = full_plan_text(count) if given.all_keys else plan_text(count)
    put_files(".", {f"plan{count}": plan, f"certificate{count}": certificate_text(count)})
    words = {"check": [f"plan{count}", f"certificate{count}"], "rank": [f"plan{count}"], "gen": [str(count)]}
    runs = measure(programs, [given.form, *words[given.form]], given.repeats)
    for program in programs:
        print(f"{count:8}  {row(program, runs[program])}")
    least_times = {program: least(runs[program]) for program in programs}
    if len(programs) == 2:
        print(f"{count:8}  ratio of least times {least_times[programs[0]] / least_times[programs[1]]:.2f}")
    return least_times


def time_dense(programs: list[str], repeats: int) -> None:
    """Times `rank` on a dense plan."""
    put_files(".", {"dense": dense_plan_text(98, 60)})
    for program, runs in measure(programs, ["rank", "dense"], repeats).items():
        print(f"   dense  {row(program, runs)}")


def main() -> None:
    words = program_words(__doc__, repeats=30, elements="500,1000,2000", all_keys=False)
    words.add_argument("other", nargs="?", type=path)
    words.add_argument("--form", choices=["check", "rank", "gen"], default="check")
    given = words.parse_args()
    programs = [program for program in (given.program, given.other) if program]
    sizes = [int(count) for count in given.elements.split(",")]
    with tempfile.TemporaryDirectory() as folder, contextlib.chdir(folder):
        bare = {program: least([run(program, []) for _ in range(2 * given.repeats)]) for program in programs}
        print(f"elements  {HEAD}")
        times = [time_form(given, programs, count) for count in sizes]
        if given.form == "rank":
            time_dense(programs, given.repeats)
    for program in programs if len(sizes) > 1 else []:
        power = growth(sizes, [of_size[program] - bare[program] for of_size in times])
        print(f"{os.path.basename(program):18} start {bare[program]:.2f} ms, grows as elements ^ {power:.2f}")


if __name__ == "__main__":
    main()
