"""Damages files of every kind and compares what the program answers with readings of their own.

usage: python3 -m bench.compare.fuzz PROGRAM [--cases N] [--seed N] [--reader NAME ..] [--processes N] [--keep FOLDER]

For each reader (plan, certificate, events, cases, groups, frames, rows, capture, timed-rows) N files, 5000 where it
isn't given, are made of whole ones: bits are flipped, octets put in, left out and doubled, the file is cut, lines are
swapped, doubled and left out, words of a file stand in place of others, and numbers at and past the limits in place of
numbers. The program has to end by itself, with at most a second of processor time, write nothing to standard error, and
answer what bench/readings gives for the file: a damaged plan is asked for its ranks, and one in twenty accepted event
lists is run by the reference's rules too. Where Python's TOML reader refuses a document that a newer version of TOML
may accept, only the form of the answer is looked at, as with event lists that aren't run. The same seed makes the same
files, with any number of processes. Files that are answered otherwise are written to a folder with --keep. It needs
Python 3.11 alone.
"""

import collections
import concurrent.futures
import os
import pathlib
import random
import re
import shutil
import signal
import sys
import tempfile
from collections import Counter
from collections.abc import Iterator

from bench.compare.damage import READERS, Whole, damaged
from bench.program import program_words, put_files
from bench.readings.captures import pcap_answer, pcap_bytes, rows_answer
from bench.readings.groups import protected_answer
from bench.readings.plans import rank_answer
from bench.readings.records import check_answer, events_refusal
from bench.readings.refused import Refused, Unsure
from bench.reference.plan import Plan, read_events
from bench.reference.report import sim_text
from bench.reference.study import COLUMNS, read_cases, study_answer

# The exit status, what was written, what was complained of, and the processor time.
Answer = tuple[int, bytes, bytes, float]
BLOCK = 500  # files that one process makes in a row
POOL = 40  # whole files that a block is made of
SECONDS = 1  # processor time that a run may take
PATIENCE = 60  # seconds after which a run is stopped

NAME, LEVEL = rb"[\w-]{1,32}", rb"QL-[\w-]+"
LINE = NAME + rb">" + NAME
ROW = rb"[0-9a-f]{12},(info|event),(" + LEVEL + rb"|code-\d+)(,[0-9a-f]{16},[0-9a-f]{2},\d+,\d+)?\n"
BAD_PLAN = rb"bad plan (22|2[34] PLACE|25 (1[5-9]|2[01]|39) PLACE)\n".replace(
    b"PLACE", rb"(head|element|link|source) \d+"
)
REPORT = rb"changes\n(\d+,%b,(auto|forced|manual),(none|%b(>%b)?),%b,(locked|holdover|freerun)\n)*" % (
    NAME,
    NAME,
    NAME,
    LEVEL,
)
REPORT += rb"(stopped,\d+\n|inputs\n(.+\n)*traces\n(.+\n)*loops\n(.+\n)*settled (yes|no)\n)"
BAD_FRAMES = rb"bad frames (1[24] \d+|13 \d+ ([4-9]|1[01]))\n"
# What each status may write, by form, after docs/use/formats.md.
GAPS = rb"kind,failure,elements,first\n((none,|(link|bundle|source|element|group),%b),\d+,%b\n)+" % (NAME, NAME)
STUDY = COLUMNS.encode("ascii") + rb"\n(%b,(yes|no)(,\d+){4},%b,(\d+|none),\d+,(%b)?,\d+,\d+,\d+,(%b)?,\d+\n)*" % (
    NAME,
    LEVEL,
    NAME,
    NAME,
)
FORMS = {
    "rank": {0: rb"line,rank\n(%b,\d+\n)*" % LINE, 1: rb"cycle( %b)+\n" % LINE, 3: BAD_PLAN},
    "check": {
        0: rb"accepted\n",
        1: rb"falls %b %b\n" % (LINE, LINE),
        3: BAD_PLAN,
        4: rb"bad certificate (34|3[5-7] \d+|38 %b)\n" % LINE,
    },
    "sim": {0: REPORT, 11: REPORT, 3: BAD_PLAN, 5: rb"bad events (26|33|2[7-9] \d+|3[0-2] \d+)\n"},
    "study": {0: STUDY, 3: BAD_PLAN, 5: rb"bad events (26|33|2[7-9] \d+|3[0-2] \d+|5[12] \d+)\n"},
    "protected": {0: rb"protected\n", 1: GAPS, 3: BAD_PLAN, 5: rb"bad groups (26|33|(27|31|5[123]) \d+)\n"},
    "decode": {0: rb"(%b)*" % ROW, 6: BAD_FRAMES},
    "encode": {0: rb"([0-9a-f]{120}\n)*", 6: BAD_FRAMES},
    "pcap-decode": {0: rb"(\d+,\d+,%b)*passed,\d+\n" % ROW, 6: rb"bad capture (4[01]|42 \d+)\n"},
    "pcap-encode": {0: rb"(?s:\xd4\xc3\xb2\xa1.*)", 6: BAD_FRAMES},
}


# ---- what is expected


def expected(chance: random.Random, whole: Whole, data: bytes) -> tuple[int, bytes] | None:
    """The status and the octets of the answer, none where only its form is looked at."""
    form, *words = whole.words
    if form == "rank":
        try:
            status, text = rank_answer(data)
        except Unsure:
            return None
        return status, text.encode("ascii")
    if form == "check" and whole.plan:
        status, text = check_answer(whole.plan, data)
        return status, text.encode("latin-1")
    if form == "sim" and whole.plan:
        return expected_run(chance, whole.plan, int(words[2]), data)
    if form == "study" and whole.plan:
        return expected_study(chance, whole.plan, int(words[2]), data)
    if form == "protected" and whole.plan:
        status, text = protected_answer(whole.plan, data)
        return status, text.encode("latin-1")
    if form == "pcap-decode":
        return pcap_answer(words[0], data)
    return pcap_bytes(words[0], data) if form == "pcap-encode" else rows_answer(form, words[0], data)


def expected_run(chance: random.Random, plan: Plan, until: int, data: bytes) -> tuple[int, bytes] | None:
    """The answer of `sim` to an event list, none where it isn't run."""
    refusal = events_refusal(plan, data)
    if refusal:
        return 5, refusal.encode("ascii")
    if chance.random() < 0.95:
        return None
    text = data.removeprefix(b"\xef\xbb\xbf").decode("latin-1")
    return 0, sim_text(plan, read_events(plan, text), until).encode("ascii")


def expected_study(chance: random.Random, plan: Plan, until: int, data: bytes) -> tuple[int, bytes] | None:
    """The answer of `study` to a table of cases, none where these aren't run."""
    try:
        read_cases(plan, data)
    except Refused as refused:
        return 5, str(refused.args[0]).encode("ascii")
    if chance.random() < 0.95:
        return None
    status, text = study_answer(plan, data, until)
    return status, text.encode("ascii")


# ---- runs


class Runner:
    """Runs the program on files in a folder of its own, one process for each."""

    def __init__(self, program: str, folder: str) -> None:
        self.program, self.folder, self.child = program, folder, 0
        self.paths = {name: os.path.join(folder, name) for name in ("plan", "file", "out", "err")}
        signal.signal(signal.SIGALRM, self.end)

    def end(self, *_: object) -> None:
        """Ends a run that takes too long."""
        if self.child:
            os.kill(self.child, signal.SIGKILL)

    def run(self, words: list[str]) -> Answer:
        """The exit status, what was written, what was complained of, and the processor time."""
        argv = [self.program, *(self.paths["file"] if word == "{}" else self.paths.get(word, word) for word in words)]
        made = os.O_WRONLY | os.O_CREAT | os.O_TRUNC
        actions = [(os.POSIX_SPAWN_OPEN, fd, self.paths[name], made, 0o600) for fd, name in ((1, "out"), (2, "err"))]
        self.child = os.posix_spawn(self.program, argv, dict[str, str](), file_actions=actions)
        signal.setitimer(signal.ITIMER_REAL, PATIENCE)
        _, status, used = os.wait4(self.child, 0)
        self.child = 0
        signal.setitimer(signal.ITIMER_REAL, 0)
        written, complaint = (pathlib.Path(self.paths[name]).read_bytes() for name in ("out", "err"))
        return os.waitstatus_to_exitcode(status), written, complaint, used.ru_utime + used.ru_stime


def faults_of(words: list[str], wanted: tuple[int, bytes] | None, answer: Answer) -> Iterator[str]:
    """What is wrong with an answer, one word for each."""
    status, text, complaint, seconds = answer
    form = FORMS[words[0]].get(status)
    if status < 0:
        yield "crash" if status != -signal.SIGKILL else "hang"
    elif complaint:
        yield "complaint"
    elif form is None or not re.fullmatch(form, text):
        yield "form"
    elif wanted is not None and (status, text) != wanted:
        yield "differ"
    if seconds > SECONDS:
        yield "slow"


def keep(top: str, name: str, whole: Whole, data: bytes, wanted: tuple[int, bytes] | None, answer: Answer) -> None:
    """Leaves the files of a case in a folder of its own."""
    kept = os.path.join(top, name)
    os.makedirs(kept, exist_ok=True)
    texts = {
        "file": data,
        "answered": answer[1],
        "expected": b"" if wanted is None else wanted[1],
        "words": " ".join(whole.words).encode(),
    }
    put_files(kept, texts | ({"plan": whole.text} if whole.text else {}))


def shown(answer: Answer) -> str:
    """An answer, in short."""
    status, text, complaint, seconds = answer
    return f"{(status, text[:200], complaint[:200], seconds)}"


def work(
    program: str, seed: int, reader: str, block: int, count: int, top: str | None
) -> tuple[Counter[str], list[str]]:
    """What came of one block of files: counts, and a line on each fault."""
    chance = random.Random(f"{seed} {reader} {block}")
    wholes = [READERS[reader](chance) for _ in range(POOL)]
    counted, faults = collections.Counter[str](), list[str]()
    place = "/dev/shm" if os.path.isdir("/dev/shm") else None
    with tempfile.TemporaryDirectory(dir=place) as folder:
        runner = Runner(program, folder)
        for number in range(count):
            whole = wholes[number * POOL // count]
            data = damaged(chance, reader, whole.data)
            wanted = expected(chance, whole, data)
            put_files(folder, {"file": data} | ({"plan": whole.text} if whole.text else {}))
            answer = runner.run(whole.words)
            told = re.match(rb"bad \w+ (25 )?\d+", answer[1])
            counted[told[0].decode("ascii") if told else f"status {answer[0]}"] += 1
            counted["form alone"] += wanted is None
            for fault in faults_of(whole.words, wanted, answer):
                name = f"{reader}-{block * BLOCK + number}-{fault}"
                faults.append(f"{name}: {' '.join(whole.words)}: {wanted} is expected, {shown(answer)}")
                if top:
                    keep(top, name, whole, data, wanted, answer)
    return counted, faults


def main() -> int:
    words = program_words(__doc__, cases=5000, seed=1, processes=1)
    words.add_argument("--reader", action="append", choices=READERS)
    words.add_argument("--keep")
    given = words.parse_args()
    program, wrong = shutil.which(given.program), 0
    if program is None:
        sys.exit(f"{given.program} is no program")
    with concurrent.futures.ProcessPoolExecutor(given.processes) as pool:
        for reader in given.reader or READERS:
            counts = [min(BLOCK, given.cases - start) for start in range(0, given.cases, BLOCK)]
            done = [
                pool.submit(work, program, given.seed, reader, block, count, given.keep)
                for block, count in enumerate(counts)
            ]
            counted = collections.Counter[str]()
            for block in done:
                of_block, faults = block.result()
                counted += of_block
                wrong += len(faults)
                for fault in faults:
                    print(fault, flush=True)
            alone = counted.pop("form alone", 0)
            told = ", ".join(f"{count} {what}" for what, count in sorted(counted.items()))
            print(f"{reader}: {given.cases} files, {alone} of them by form alone: {told}", flush=True)
    print(f"{wrong} wrong")
    return 1 if wrong else 0


if __name__ == "__main__":
    sys.exit(main())
