"""What the scripts share that compare the program with cases of one file: their words, cases in a folder, the
comparison."""

import argparse
import os
import tempfile
from collections.abc import Iterable, Iterator
from typing import NamedTuple

from bench.program import octets, parser, path, put_files


class Case(NamedTuple):
    """The words, with {} for the name of the file; the file; and the status and the octets that are expected."""

    words: tuple[str, ...]
    file: bytes
    status: int
    text: bytes


def case_words(doc: str | None, **options: int) -> argparse.ArgumentParser:
    """Either PROGRAM or --write FOLDER, and numbers with these defaults."""
    words = parser(doc, **options)
    words.add_argument("program", nargs="?", type=path)
    words.add_argument("--write", metavar="FOLDER")
    return words


def read(words: argparse.ArgumentParser) -> argparse.Namespace:
    """The words that a script was given, one of PROGRAM and --write among them."""
    given = words.parse_args()
    if (given.program is None) == (given.write is None):
        words.error("either PROGRAM or --write FOLDER has to be given")
    return given


def write(folder: str, cases: Iterable[Case]) -> None:
    """Writes cases for `rt try --cases FOLDER`."""
    os.makedirs(folder, exist_ok=True)
    for number, case in enumerate(cases):
        name, words = f"case{number:05}", "".join(f"{word}\n" for word in case.words)
        put_files(folder, {name: case.file, name + ".stdout": case.text, name + ".args": words})


def differences(program: str, cases: Iterable[Case]) -> Iterator[str]:
    """A text on each case that the program answers in another way."""
    with tempfile.TemporaryDirectory() as folder:
        for number, case in enumerate(cases):
            put_files(folder, {"file": case.file})
            answered = octets(program, [word.format("file") for word in case.words], folder)
            if answered != (case.status, case.text):
                wanted = (
                    f"{(case.status, case.text[:300])} is expected, {(answered[0], answered[1][:300])} was answered"
                )
                yield f"case {number}, {case.words} of {case.file[:300]!r}:\n  {wanted}"


def compare(program: str, cases: Iterable[Case]) -> int:
    """How many cases the program answers in another way; each is printed."""
    wrong = 0
    for difference in differences(program, cases):
        wrong += 1
        print(difference)
    return wrong


def finish(given: argparse.Namespace, cases: list[Case]) -> int:
    """Writes the cases, or compares them and tells how many are wrong. Gives the exit status."""
    if given.write:
        write(given.write, cases)
        return 0
    wrong = compare(given.program, cases)
    print(f"{wrong} wrong")
    return 1 if wrong else 0
