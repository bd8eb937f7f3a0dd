"""The words of a form as they are given to the program: `-` is standard input, and times may have units.

What comes from a pipe is kept in memory, so that it can be read once more where the program refuses it.
"""

from __future__ import annotations

import os
import stat

from murdjohe.core import forms, times
from murdjohe.core.program import LONGEST_FILE, PIECE

STDIN = "-"
UNITS = (b"h", b"m", b"s", b":")  # what a time that isn't in milliseconds has


class File:
    """A file that a word names: how it is called in sentences, and the path under which it is read.

    `memory` is the open file that keeps what came from a pipe, or what was made of the file, where that is so; `original` has
    the octets that the user's file has, where others were made of them.
    """

    __slots__ = ("kind", "name", "path", "memory", "original")

    def __init__(
        self, kind: str, name: str, path: str, memory: int | None = None, original: bytes | None = None
    ) -> None:
        self.kind = kind
        self.name = name
        self.path = path
        self.memory = memory
        self.original = original


class Words:
    """The words that the program is given, and the files among them in order; the time of day at which the run begins, where that
    is said; and what is said of times that were chosen."""

    __slots__ = ("form", "given", "passed", "files", "start", "chosen")

    def __init__(
        self, form: forms.Form, given: list[str], passed: list[str], files: list[File], start: int | None = None
    ) -> None:
        self.form = form
        self.start = start
        self.chosen: list[str] = []
        self.given = given
        self.passed = passed
        self.files = files

    def close(self) -> None:
        """Gives back what is kept in memory; the files can't be read any more then."""
        for file in self.files:
            if file.memory is not None:
                os.close(file.memory)
                file.memory = None

    def file(self, *kinds: str) -> File | None:
        """The first file of one of these kinds."""
        return next((file for file in self.files if file.kind in kinds), None)


def kept(source: int) -> int:
    """What an open file has left to give, kept in memory: up to one octet more than the program reads."""
    memory = os.memfd_create("murdjohe", 0)
    left = LONGEST_FILE + 1
    try:
        while left and (piece := os.read(source, min(left, PIECE))):
            left -= len(piece)
            view = memoryview(piece)
            while view:
                view = view[os.write(memory, view) :]
    except OSError:
        os.close(memory)
        raise
    return memory


def in_memory(kind: str, name: str, memory: int) -> File:
    return File(kind, name, f"/dev/fd/{memory}", memory)


def is_pipe(path: str) -> bool:
    """Whether a path is one that can be read only once."""
    try:
        return stat.S_ISFIFO(os.stat(path).st_mode)
    except (OSError, ValueError):
        return False


def file_of(kind: str, word: str) -> File:
    """The file that a word names; standard input and pipes are read and kept."""
    name = "standard input" if word == STDIN else word
    path = "/dev/stdin" if word == STDIN else word
    if word != STDIN and not is_pipe(word):
        return File(kind, name, path)
    try:
        source = os.dup(0) if word == STDIN else os.open(word, os.O_RDONLY)
        try:
            return in_memory(kind, name, kept(source))
        finally:
            os.close(source)
    except OSError:  # (the program says that it can't be read)
        return File(kind, name, path)


def with_milliseconds(file: File, start: int | None) -> File:
    """The file, or one in memory that has its times in milliseconds where it has others. Raises Wrong."""
    try:
        with open(file.path, "rb") as source:
            if not stat.S_ISREG(os.fstat(source.fileno()).st_mode):
                return file  # (what can be read once alone is the program's)
            data = source.read(LONGEST_FILE + 1)
    except (OSError, ValueError):  # (the program says that it can't be read)
        return file
    if len(data) > LONGEST_FILE or not any(sign in data for sign in UNITS):
        return file
    from murdjohe.core import event_times

    made = event_times.turned(file.name, data, file.kind == forms.CASES, start)
    if made == data:
        return file
    if file.memory is not None:
        os.close(file.memory)
    memory = os.memfd_create("murdjohe", 0)
    view = memoryview(made)
    while view:
        view = view[os.write(memory, view) :]
    return File(file.kind, file.name, f"/dev/fd/{memory}", memory, data)


def time_of(name: str, text: str, start: int | None) -> int | None:
    """The milliseconds of a word that is a time with units or colons; None for any other. Raises Wrong."""
    try:
        return times.of_word(text, start)
    except times.Early as early:
        from murdjohe.core.faults import Wrong

        raise Wrong(f"{name}: {early}") from None


def are_left_out(form: forms.Form, given: list[str]) -> bool:
    """Whether times at the end of the words are left out that may be, beside files that can be read twice."""
    missing = len(form.words) - len(given)
    if not 0 < missing <= form.optional:
        return False
    return not any(word.is_file and (text == STDIN or is_pipe(text)) for word, text in zip(form.words, given))


def taken(form: forms.Form, given: list[str], start: int | None = None) -> Words | None:
    """The words for the program, in a run that begins at a time of day, where that is said; None where there are too few or too
    many, or standard input is named twice. Raises Wrong where a time is before the start."""
    pairs = list(zip(form.words, given))
    are_stdin = [word.is_file and text == STDIN for word, text in pairs]
    if not form.fewest <= len(given) <= len(form.words) or sum(are_stdin) > 1:
        return None
    passed, files = [form.name], []
    for word, text in pairs:
        if word.is_file and text:
            file = file_of(word.kind, text)
            if word.kind in (forms.EVENTS, forms.CASES):
                file = with_milliseconds(file, start)
            files.append(file)
            passed.append(file.path)
        elif word.kind == forms.TIME and (time := time_of(word.name, text, start)) is not None:
            passed.append(str(time))
        else:
            passed.append(text)
    return Words(form, given, passed, files, start)
