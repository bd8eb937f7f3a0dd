"""The proved program, and the one place that starts it: words in, status and bytes out.

It is called murdjohe-core, and is looked for where the variable MURDJOHE_CORE says, beside the package, on the PATH, and
where a checkout builds it. Every start of a command reads this module, so it imports nothing heavy.
"""

from __future__ import annotations

import errno
import os
import select
import time

TYPE_CHECKING = False
if TYPE_CHECKING:
    from collections.abc import Callable, Sequence

    # Shows that the program works, and gives what ends that.
    Working = Callable[[], Callable[[], None]]

NAME = "murdjohe-core"
VARIABLE = "MURDJOHE_CORE"
PACKAGE = os.path.dirname(os.path.dirname(os.path.abspath(__file__)))
# The top of the repository where the package is imported from a checkout.
CHECKOUT = os.path.normpath(os.path.join(PACKAGE, "..", "..", ".."))
BUILT = os.path.join("crates", "sync_main", "out", "sync_main")

# Statuses of the program.
DONE, REFUTED, USAGE, BAD_PLAN, BAD_CERTIFICATE, BAD_EVENTS, BAD_FRAMES = range(7)
READ_FAULT, WRITE_FAULT, TOO_LONG, NO_MEMORY, STOPPED = range(7, 12)
# Statuses of the workbench alone: works leave somebody worse, `--fail-on` found something, a file is there already, the disk is
# full, a file of the workbench's own commands has mistakes; the program isn't there; a mistake of the workbench, or an answer
# that isn't one; and that Ctrl-C ended the command, as a shell says it.
LOSS, FOUND, THERE, NO_SPACE, BAD_INPUT = range(20, 25)
UNAVAILABLE, MISTAKE = 69, 70
INTERRUPTED = 130

LONGEST_FILE = 1_073_741_824  # octets that the program reads of a file, and of one beside a plan of standard size
LONGEST_BESIDE = 8_388_608
PIECE = 1 << 16  # octets that are read at once
# The forms that take a plan, or make one.
SIZED = frozenset(
    "check rank chains protected agree hops nominate protect sim inspect sweep study prio-check prio-rank prio-sim node gen trial".split()
)
PATIENCE_MS = 2_000  # after so long a wait it is said that the program works


class Absent(Exception):
    """There is no program to run; the text says how it is built."""


class Ended(Exception):
    """The program was ended from outside, by the signal that the text names."""


class Late(Exception):
    """The program took longer than it was given."""


# The seconds that a start of the program may take, for whoever calls the workbench as a library; None without a limit.
patience: float | None = None


class NoAnswer(Exception):
    """What came isn't an answer of the program: nothing, a text that was cut off, or another program's; the text says why."""


class Answer:
    """What the program answered: its status and the bytes that it wrote."""

    __slots__ = ("status", "text")

    def __init__(self, status: int, text: bytes) -> None:
        self.status = status
        self.text = text

    @property
    def said(self) -> str:
        """What was written, as text; all but a capture is ASCII."""
        return self.text.decode("utf-8", "replace")


def is_program(path: str) -> bool:
    return os.path.isfile(path) and os.access(path, os.X_OK)


def candidates() -> list[str]:
    """Where the program may be, in the order in which it is looked for, but for the variable."""
    folders = [folder for folder in os.environ.get("PATH", os.defpath).split(os.pathsep) if folder]
    beside = [os.path.join(folder, NAME) for folder in (PACKAGE, os.path.dirname(PACKAGE))]
    return beside + [os.path.join(folder, NAME) for folder in folders] + [os.path.join(CHECKOUT, BUILT)]


def find() -> str:
    """The path of the program. Raises Absent where none is there."""
    said = os.environ.get(VARIABLE)
    if said:
        if is_program(said):
            return os.path.abspath(said)
        raise Absent(f"{VARIABLE} is {said}, which is no program that can be run")
    for path in candidates():
        if is_program(path):
            return path
    raise Absent(
        f"the proved program is not here: there is no {NAME} beside the package or on the PATH, and {VARIABLE} names none; "
        "in a checkout `make core` builds it, or `cd crates/sync_main && rt run -- check data/chain0 data/cert`"
    )


def received(source: int, working: Working | None) -> bytes:
    """All bytes that come from a pipe up to its end; where that takes longer than the patience, `working` shows it."""
    pieces, stop = [], None
    if patience is not None:
        return received_by(source, time.monotonic() + patience)
    if working is not None:
        poll = select.poll()
        poll.register(source, select.POLLIN | select.POLLHUP)
        if not poll.poll(PATIENCE_MS):
            stop = working()
    try:
        while piece := os.read(source, PIECE):
            pieces.append(piece)
    finally:
        if stop is not None:
            stop()
    return b"".join(pieces)


def received_by(source: int, end: float) -> bytes:
    """All bytes that come from a pipe up to its end. Raises Late where it doesn't end by then."""
    pieces: list[bytes] = []
    poll = select.poll()
    poll.register(source, select.POLLIN | select.POLLHUP)
    while poll.poll(max(0, int(1000 * (end - time.monotonic())))):
        piece = os.read(source, PIECE)
        if not piece:
            return b"".join(pieces)
        pieces.append(piece)
    raise Late(f"{NAME} took longer than {patience:g} seconds")


def ended(code: int) -> int:
    """The exit status of a wait status. Raises Ended where a signal ended the program."""
    status = os.waitstatus_to_exitcode(code)
    if status < 0:
        raise Ended(f"{NAME} was ended by signal {-status}")
    return status


def stop(child: int) -> None:
    """Tells a process that is waited for no more to end."""
    try:
        os.kill(child, 15)
    except ProcessLookupError:
        pass


def sized(words: Sequence[str | bytes]) -> list[str | bytes]:
    """The words with `large` before them where they take or make a plan: then the program takes one of every size, and answers the
    same on those that it takes without."""
    return ["large", *words] if words and words[0] in SIZED else list(words)


def spawned(words: Sequence[str | bytes], sink: int) -> int:
    """Starts the program on these words, with standard output going to a file, and gives its process. Raises Absent."""
    program = find()
    argv = [os.fsencode(program), *(os.fsencode(word) for word in sized(words))]
    try:
        return os.posix_spawn(program, argv, os.environ, file_actions=[(os.POSIX_SPAWN_DUP2, sink, 1)])
    except OSError as fault:
        raise Absent(f"{program} can't be run: {os.strerror(fault.errno or errno.ENOEXEC)}") from fault
    except ValueError as fault:  # a word with a zero octet, which no program can be given
        raise Absent(f"the words can't be given to a program: {fault}") from fault


def looked_at(words: Sequence[str | bytes], answer: Answer) -> Answer:
    """The answer, where it is one of the program's. Raises NoAnswer."""
    from murdjohe.core import shapes

    return shapes.checked(words, answer, find())


def run(words: Sequence[str | bytes], working: Working | None = None) -> Answer:
    """Runs the program on these words, with the standard input and error of this process, and gives all that it wrote.

    Raises Absent where there is no program, Ended where a signal ended it, and NoAnswer where what it wrote is no answer.
    """
    source, sink = os.pipe()
    try:
        child = spawned(words, sink)
    except Absent:
        os.close(source)
        raise
    finally:
        os.close(sink)
    try:
        text = received(source, working)
    except BaseException:
        stop(child)
        raise
    finally:
        os.close(source)
        _, code = os.waitpid(child, 0)
    return looked_at(words, Answer(ended(code), text))


def run_kept(words: Sequence[str | bytes], running: set[int]) -> Answer:
    """The same, but what the program writes is kept in memory until it has ended: many may run at once, and none waits to be read.

    While it runs its process is among those that are `running`, for whoever may want to end it.
    """
    memory = os.memfd_create("answer")
    try:
        child = spawned(words, memory)
        running.add(child)
        try:
            os.waitid(os.P_PID, child, os.WEXITED | os.WNOWAIT)
        except BaseException:
            stop(child)
            raise
        finally:
            running.discard(child)
            _, code = os.waitpid(child, 0)
        return looked_at(words, Answer(ended(code), os.pread(memory, os.fstat(memory).st_size, 0)))
    finally:
        os.close(memory)
