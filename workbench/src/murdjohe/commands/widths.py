"""Help as wide as the terminal: lines break between words, and rows of two columns stay rows."""

from __future__ import annotations

import re
import shutil
import textwrap
from collections.abc import Iterator

WIDEST = 110
ROW = re.compile(r"( *\S+(?: \S+)* {2,})\S")  # what stands before the second column of a row
COMMAND = "$ "


def width() -> int:
    """How many signs a line of help may have."""
    return min(shutil.get_terminal_size().columns, WIDEST)


def is_prose(line: str) -> bool:
    """Whether a line is part of a paragraph, and no row, command or empty line."""
    return bool(line.strip()) and not line.lstrip().startswith(COMMAND) and not ROW.match(line)


def indent_of(line: str) -> str:
    return line[: len(line) - len(line.lstrip())]


def broken(line: str, most: int, first: str, rest: str) -> list[str]:
    """A line broken between words, behind what stands before its first line and before all others."""
    return textwrap.wrap(
        line,
        max(most, len(rest) + 20),
        initial_indent=first,
        subsequent_indent=rest,
        break_long_words=False,
        break_on_hyphens=False,
    )


def fitted_lines(lines: list[str], most: int) -> Iterator[str]:
    """The lines, none of which is longer but for commands; a paragraph that has a longer one is broken as a whole."""
    place = 0
    while place < len(lines):
        line = lines[place]
        place += 1
        if len(line) <= most or line.lstrip().startswith(COMMAND):
            yield line
        elif row := ROW.match(line):
            yield from broken(line[row.end(1) :], most, row[1], " " * len(row[1]))
        else:
            indent, words = indent_of(line), [line.strip()]
            while place < len(lines) and is_prose(lines[place]) and indent_of(lines[place]) == indent:
                words.append(lines[place].strip())
                place += 1
            yield from broken(" ".join(words), most, indent, indent)


def fitted(text: str, most: int | None = None) -> str:
    """A text of help as wide as the terminal, or as is said."""
    return "\n".join(fitted_lines(text.split("\n"), most or width()))
