"""Compares `node` on random plans and files with the rules for one element alone in bench/reference/node.py.

usage: python3 -m bench.compare.node PROGRAM [--network] [--count N] [--seed N] [--keep FOLDER]
       python3 -m bench.compare.node --network [--count N] [--seed N]

It compares a program that has the form `node`. Each of N cases (300 where it isn't given) is a plan of
random_plans.py, an element of it, and a file of up to some sixty lines of every word: frames of every level and of
none, every fault and command, some of them after UNTIL, and in every second file one line or two with something
else in them, mostly wrong. A few name no element, some have a line of about the greatest length, and in one of
fifty some 200,000 frames are sent. Status and text have to be the same. UNTIL goes up to 20000, and in one case of
twenty up to 90000.

With --network each of N cases (20 where it isn't given) is a network's run: of a random plan and events the
reference runs the network, and what reached one of its elements is made a file, frames for messages, in any order
within a millisecond. The program has to write just the frames that the element's lines send in the network,
nominated or not. Without PROGRAM the rules are compared with themselves: alone with the file the element has to
send these frames too, and to take the same inputs in every millisecond, with the same levels, modes and states.

It needs Python 3.11.
"""

import argparse
import bisect
import collections
import os
import random
import sys
import tempfile
from collections.abc import Iterator, Sequence

from bench.compare.node_files import Case, element_of, file_of, random_case
from bench.program import octets, parser, path, put_files
from bench.reference.network import REPEAT, Network, last_said
from bench.reference.node import Node, frame_text, node_text, read_file
from bench.reference.plan import Event, Plan, plan_text
from bench.reference.random_plans import INPUT_WORDS, LINE_WORDS, random_events, random_plan

# ---- the comparison with a program


class Compared:
    """The program in a folder with the files of one case after another, and what was counted."""

    def __init__(self, program: str, folder: str) -> None:
        self.program, self.folder, self.counted = program, folder, collections.Counter[int | str]()

    def case(self, number: int, case: Case, status: int, text: str) -> bool:
        """Whether the program answers to a case as it has to: with this status and this text."""
        put_files(self.folder, {"plan": plan_text(case.plan), "file": case.data})
        if not case.is_there:
            os.remove(os.path.join(self.folder, "file"))
        words = ["node", "plan", case.element, "file", str(case.until)]
        answered = octets(self.program, words, self.folder)
        self.counted.update({status: 1, "rows": text.count("\n") if status != 6 else 0})
        if answered == (status, text.encode("ascii")):
            return True
        put_files(self.folder, {"expected": text, "answered": answered[1]})
        difference = first_difference(text, answered[1])
        print(f"case {number}, {words}: status {answered[0]}, and {status} is expected; {difference}")
        return False


def first_difference(text: str, answered: bytes) -> str:
    """The first line that isn't what is expected."""
    for number, (line, other) in enumerate(zip(text.split("\n"), answered.decode("latin-1").split("\n")), 1):
        if line != other:
            return f"line {number} is {other[:200]!r}, and {line[:200]!r} is expected"
    return f"{len(answered)} octets, and {len(text)} are expected"


def cases_and_answers(chance: random.Random, count: int) -> Iterator[tuple[Case, int, str]]:
    """Random cases, and what the rules say of them."""
    for _ in range(count):
        case = random_case(chance)
        yield case, *node_text(case.plan, case.element, case.data, case.until)


def compare(program: str, given: argparse.Namespace, cases: Iterator[tuple[Case, int, str]]) -> int:
    """Compares the program on cases with their answers, and gives how many differ."""
    differ = number = 0
    with tempfile.TemporaryDirectory() as folder:
        os.makedirs(given.keep or folder, exist_ok=True)
        compared = Compared(program, given.keep or folder)
        for case, status, text in cases:
            differ += not compared.case(number, case, status, text)
            number += 1
            if given.keep and differ:
                break
    counted = compared.counted
    print(
        f"{number} compared, {counted[0]} with all frames, {counted[11]} stopped, {counted[6]} refused;"
        f" {counted['rows']} rows: {differ} differ"
    )
    return differ


# ---- the comparison with a network


def names_told(plan: Plan, e: int, event: Event) -> list[str]:
    """The targets of the lines that tell an element of an event: itself, its lines and sources; none where it isn't
    told.
    """
    named = plan.named(event.target)
    out_of = [i for i in named if plan.is_line(i) and plan.sender_of[i] == e]
    if not plan.touches(event, e) and not (event.what in LINE_WORDS and out_of):
        return []
    if event.what == "clear":
        return [plan.elements[e].name]
    if event.what in ("esmc-off", "esmc-on"):
        named = out_of
    return [plan.input_name(i) for i in named if event.what not in INPUT_WORDS or plan.priority_of[i] > 0]


def file_of_run(chance: random.Random, network: Network, e: int) -> bytes:
    """The file that tells an element what reached it: the events in their order, and a frame for each message."""
    plan = network.plan
    lines = [
        (event.at, event.what, name, event.level or "")
        for event in network.events
        for name in names_told(plan, e, event)
    ]
    for line in filter(plan.is_line, plan.inputs_of[e]):
        for t in range(network.length):
            if network.arrives(line, t):
                level = network.out[line][t - plan.delay_of[line]]
                digits = frame_text(plan.option, chance.randbytes(6).hex(), level, chance.random() < 0.5)
                # Anywhere among the lines of this millisecond.
                first, last = (
                    side(lines, t, key=lambda each: each[0]) for side in (bisect.bisect_left, bisect.bisect_right)
                )
                lines.insert(chance.randint(first, last), (t, "frame", plan.input_name(line), digits))
    return file_of(chance, [[str(at), *rest] for at, *rest in lines])


def said_by(network: Network, line: int) -> list[str | None]:
    """What a line says in each millisecond of a network's run, nominated or not; none where it is silent."""
    words, sender = (("up", "down"), ("esmc-on", "esmc-off")), network.plan.sender_of[line]
    up, on = (last_said(network.said_of(line, *each), True, 0, network.length) for each in words)
    said: list[str | None] = []
    for t, (taken, level) in enumerate(zip(network.taken[sender], network.level[sender])):
        level = network.worst if network.is_way_back(line, taken) else level
        said.append(level if up[t] and on[t] else None)
    return said


def frames_of_run(network: Network, e: int) -> str:
    """The rows of the frames that the lines out of an element send in a network's run."""
    plan, rows = network.plan, list[tuple[int, int, str]]()
    for line in (line for line in range(plan.lines) if plan.sender_of[line] == e):
        said, times = said_by(network, line), list[int]()
        for t, level in enumerate(said):
            is_news = t > 0 and level != said[t - 1]
            if level is not None and (t % REPEAT == 0 or is_news):
                frame = frame_text(plan.option, f"0200{e:08x}", level, is_news)
                rows.append((t, line, f"{t},{plan.input_name(line)},{frame}\n"))
                times.append(t)
        assert times == network.sent_times.get(line, times), "a nominated line sends otherwise"
    return "".join(row for _, _, row in sorted(rows))


def random_run(chance: random.Random, waits: Sequence[int]) -> tuple[Network, int, Case]:
    """A random network after its run, an element of it, and the file that tells what reached the element."""
    plan = random_plan(chance, waits)
    events = random_events(chance, plan, chance.choice([300, 3000, 7000]))
    until, e = chance.randint(0, 9000), element_of(chance, plan)
    network = Network(plan, events).go_to(until)
    return network, e, Case(plan, plan.elements[e].name, file_of_run(chance, network, e), until)


def runs_and_frames(chance: random.Random, count: int) -> Iterator[tuple[Case, int, str]]:
    """The files of random runs, and the frames that the elements' lines sent in them."""
    for _ in range(count):
        # A plan's file has wait-to-restore times in minutes.
        network, e, case = random_run(chance, [0] * 9 + [60_000])
        yield case, 0, frames_of_run(network, e)


def compare_rules(given: argparse.Namespace) -> int:
    """Compares the rules for elements alone with random networks, and gives how many differ."""
    chance, differ, rows = random.Random(given.seed), 0, 0
    for number in range(given.count):
        network, e, case = random_run(chance, [0, 0, 500, 2000, 6000])
        expected, answered = (0, frames_of_run(network, e)), node_text(case.plan, case.element, case.data, case.until)
        rows += expected[1].count("\n")
        if answered != expected:
            print(f"plan {number}, {case.element}: {first_difference(expected[1], answered[1].encode('ascii'))}")
        alone = Node(case.plan, e, *read_file(case.plan, e, case.data)).go_to(case.until)
        others = [t for t in range(case.until + 1) if alone.gives(e, t) != network.gives(e, t)]
        if others:
            print(f"plan {number}, {case.element}: alone it gives something else at {others[0]}")
        differ += answered != expected or others != []
    print(f"{given.count} elements alone and in their networks, {rows} frames: {differ} differ")
    return differ


def differences(given: argparse.Namespace) -> int:
    """What was asked for: how many differ."""
    if given.program is None:
        return compare_rules(given)
    chance = random.Random(given.seed)
    made = runs_and_frames if given.network else cases_and_answers
    return compare(given.program, given, made(chance, given.count))


def main() -> int:
    words = parser(__doc__, network=False, seed=1)
    words.add_argument("program", nargs="?", type=path)
    words.add_argument("--count", type=int)
    words.add_argument("--keep", help="work in this folder, and stop at the first difference with its files in it")
    given = words.parse_args()
    if given.program is None and not given.network:
        words.error("PROGRAM or --network has to be given")
    if given.count is None:
        given.count = 20 if given.network else 300
    try:
        return 1 if differences(given) else 0
    except OSError as problem:
        sys.exit(str(problem))


if __name__ == "__main__":
    sys.exit(main())
