"""A TOML document by Python's reader, which knows version 1.0, also where it is spelled as version 1.1 allows.

The program reads 1.1: there inline tables may go over lines and end with a comma, and strings may have two more escapes.
What it prints is plain, and is read here, seven times as fast.
"""

from __future__ import annotations

import re
import tomllib

TYPE_CHECKING = False
if TYPE_CHECKING:
    from typing import Any

STRINGS = re.compile(r'"""(?:\\.|[^\\])*?"""|\'\'\'.*?\'\'\'|"(?:\\.|[^"\\\n])*"|\'[^\'\n]*\'|#[^\n]*', re.S)
LONGEST = 2_000_000  # signs of a document that is read a second time
NO_BREAK = re.compile(r"[^\n]")
NEW_ESCAPES = re.compile(r"\\(?:(\\)|e|x([0-9A-Fa-f]{2}))")
# A line as the program prints it: the head of a row, or a key with a string that has no escapes, or with a number.
PLAIN = re.compile(r'\[\[([\w-]+)\]\]|([\w-]+) = (?:"([^"\\\x00-\x1f\x7f]*)"|(0|[1-9][0-9]{0,17}))', re.ASCII)


def plain(text: str) -> dict[str, Any] | None:
    """The tables of a document that has no lines but such, blank ones, and no key twice; None for any other."""
    found: dict[str, Any] = {}
    table = found
    for line in filter(None, text.split("\n")):
        parted = PLAIN.fullmatch(line)
        if parted is None:
            return None
        head, key, string, number = parted.groups()
        if head is not None:
            table = {}
            rows = found.setdefault(head, [])
            if not isinstance(rows, list):
                return None
            rows.append(table)
        elif key in table:
            return None
        else:
            table[key] = int(number) if string is None else string
    return found


def masked(text: str) -> str:
    """The text with blanks in place of whatever stands in strings and comments; every place stays where it is."""
    return STRINGS.sub(lambda found: NO_BREAK.sub(" ", found[0]), text)


def with_old_escapes(text: str) -> str:
    """A string with the escapes of version 1.0 alone."""
    return NEW_ESCAPES.sub(lambda found: found[0] if found[1] else f"\\u00{found[2] or '1b'}", text)


def older(text: str) -> str:
    """The text as version 1.0 spells it: inline tables on one line, without a comma at their end, and old escapes."""
    places = masked(text)
    found = re.finditer(r"[{}]", places)
    inside = bytearray(len(text))
    depth, start = 0, 0
    for brace in found:
        if brace[0] == "{":
            start = brace.start() if depth == 0 else start
            depth += 1
        elif depth:
            depth -= 1
            if depth == 0:
                inside[start : brace.start()] = b"\1" * (brace.start() - start)
    signs = ["" if is_inside and sign == "\n" else sign for is_inside, sign in zip(inside, text)]
    for comment in STRINGS.finditer(text):
        if comment[0].startswith("#") and inside[comment.start()]:
            signs[comment.start() : comment.end()] = [""] * len(comment[0])
        elif comment[0].startswith('"'):
            signs[comment.start()] = with_old_escapes(comment[0])
            signs[comment.start() + 1 : comment.end()] = [""] * (len(comment[0]) - 1)
    for comma in re.finditer(r"[^\s{,]\s*,(?=\s*\})", places):
        signs[comma.end() - 1] = ""
    return "".join(signs)


def tables(text: str) -> dict[str, Any]:
    """The document as tables. Raises tomllib.TOMLDecodeError, with places of the text itself, and RecursionError."""
    if (found := plain(text)) is not None:
        return found
    try:
        return tomllib.loads(text)
    except tomllib.TOMLDecodeError:
        if len(text) > LONGEST:
            raise
        try:
            return tomllib.loads(older(text))
        except tomllib.TOMLDecodeError:
            pass
        raise
