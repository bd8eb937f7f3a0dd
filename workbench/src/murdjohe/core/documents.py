"""What a file that was refused looks like: its text and lines, what kind of file it is, and in which encoding."""

from __future__ import annotations

import difflib
import re

from murdjohe.core import row_tables
from murdjohe.core.inputs import File
from murdjohe.core.program import LONGEST_FILE

TYPE_CHECKING = False
if TYPE_CHECKING:
    from collections.abc import Iterable

LINE_SHOWN = 100  # signs of a line that a sentence shows
PLAN_ROW = re.compile(r"^\s*\[{1,2}\s*\"?(element|link|source)s?\"?\s*\]{1,2}", re.M)
FRAME = re.compile(r"^0180c2[0-9a-f]{20,}$", re.M | re.I)
# How files of a kind begin, and what they are: first those that are no text.
BINARIES = (
    (b"\xd4\xc3\xb2\xa1", "a capture"),
    (b"\xa1\xb2\xc3\xd4", "a capture"),
    (b"\x4d\x3c\xb2\xa1", "a capture with nanoseconds"),
    (b"\xa1\xb2\x3c\x4d", "a capture with nanoseconds"),
    (b"\x34\xcd\xb2\xa1", "a capture of the kind `modified pcap`"),
    (b"\x0a\x0d\x0d\x0a", "a capture in the format pcapng"),
    (b"\x1f\x8b", "a file packed by gzip"),
    (b"PK\x03\x04", "a spreadsheet or a zip file"),
)
TABLES = (row_tables.HOPS, row_tables.CHAINS, row_tables.GAPS, row_tables.CUTS, row_tables.CASES)
BEGINNINGS = (
    (b"line,rank", "a certificate"),
    (b"at,what,target,value", "an event list"),
    (b"case,at,what,target,value", "a list of cases"),
    (b"group,kind,part", "a list of groups"),
    *((",".join(table.header.split(",")[:2]).encode() + b",", f"a table of `{table.forms[0]}`") for table in TABLES),
    (b"changes\n", "a report of a run"),
    (b"commands\n", "an answer of `inspect`"),
    (b"cycle ", "the answer of a `rank` that found a possible loop"),
    (b"falls ", "an answer of `check`"),
    (b"accepted\n", "an answer of `check`"),
    (b"protected\n", "an answer of `protected`"),
    (b"agreed\n", "an answer of `agree`"),
    (b"clash ", "an answer of `agree`"),
)
WIDE_MARKS = (b"\xff\xfe", b"\xfe\xff")
REFUSALS = (b"bad ", b"usage\n", b"read fault\n", b"too long\n")
# Signs that look alike, and the one that stands for them.
LOOK = str.maketrans("01ilo5s8b2z-_ ", "olllossbbzz---")


class Document:
    """A file as far as the program reads it."""

    def __init__(self, name: str, data: bytes, original: bytes | None = None) -> None:
        self.name = name
        self.data = data
        self.original = original  # what the user's file has, where the data were made of it line by line

    @property
    def text(self) -> str:
        """The text without a byte order mark, in UTF-8 but for one that begins with another's mark; what is none is replaced."""
        if self.data[:2] in WIDE_MARKS:
            return self.data.decode("utf-16", "replace")
        return self.data.removeprefix(b"\xef\xbb\xbf").decode("utf-8", "replace")

    @property
    def lines(self) -> list[str]:
        return [line.removesuffix("\r") for line in self.text.split("\n")]

    def line(self, number: int | None) -> str:
        """The text of a line, counted from 1, cut to what a sentence shows; nothing where there is no such line."""
        lines = self.lines if self.original is None else Document(self.name, self.original).lines
        text = lines[number - 1].strip() if number and number <= len(lines) else ""
        return text if len(text) <= LINE_SHOWN else text[: LINE_SHOWN - 2] + ".."

    def place(self, number: int | None) -> str:
        """The file, the line and its text, as a sentence begins."""
        if number is None:
            return f"{self.name}: "
        text = self.line(number)
        return f"{self.name}:{number}: " + (f"`{text}`: " if text else "")


def read(file: File) -> Document:
    """The file, up to one octet more than the program reads of it. Raises OSError."""
    with open(file.path, "rb", buffering=0) as source:
        return Document(file.name, source.read(LONGEST_FILE + 1) or b"", file.original)


def by_look(word: str) -> str:
    """A word with one sign for those that look alike: 0 and O, 1 and l and I, 5 and S, and so on."""
    return word.lower().translate(LOOK)


def nearest(word: str, known: Iterable[str], likeness: float = 0.4) -> str | None:
    """The known word that is nearest, first of all one that differs in case alone, then one that looks the same; None where none is so
    like it (0 to 1)."""
    names = list(dict.fromkeys(known))
    same = [name for name in names if name.lower() == word.lower()]
    same = same or [name for name in names if by_look(name) == by_look(word)]
    found = same or difflib.get_close_matches(word, names, 1, likeness)
    return found[0] if found else None


def hint(word: str, known: Iterable[str], likeness: float = 0.4) -> str:
    """In brackets the known word that is nearest, where there is one."""
    found = nearest(word, known, likeness)
    return f' (nearest: "{found}")' if found else ""


def binary_kind_of(document: Document) -> str | None:
    """What kind of file that is no text it looks like, in words, or None."""
    return next((kind for beginning, kind in BINARIES if document.data.startswith(beginning)), None)


def kind_of(document: Document) -> str | None:
    """What kind of file it looks like, in words, or None."""
    data = document.data.removeprefix(b"\xef\xbb\xbf")
    for beginning, kind in (*BINARIES, *BEGINNINGS):
        if data.startswith(beginning):
            return kind
    if data.startswith(REFUSALS) and data.count(b"\n") <= 1:
        return f"the refusal `{document.line(1)}` of an earlier command, whose own file has to be corrected first"
    if PLAN_ROW.search(document.text):
        return "a plan"
    if FRAME.match(document.text):
        return "frames as hexadecimal digits"
    return None


def encoding_fault(document: Document) -> tuple[int, str] | None:
    """Where the bytes are no text in UTF-8: the line, and what they seem to be."""
    data = document.data
    if data[:2] in WIDE_MARKS or (b"\0" in data[:4] and len(data) > 3):
        return 1, 'it is text in UTF-16, as Excel\'s "Unicode text" is: save it as UTF-8'
    try:
        data.decode("utf-8")
    except UnicodeDecodeError as fault:
        line = data.count(b"\n", 0, fault.start) + 1
        sign = data[fault.start : fault.start + 1].decode("latin-1")
        meant = f", in Latin-1 a `{sign}`," if sign.isprintable() else ""
        return line, f"the byte {data[fault.start]:02x}{meant} is no UTF-8: save the file as UTF-8"
    return None


def separator_of(header: str, wanted: str) -> str | None:
    """What stands between the fields of a header in place of commas, in words."""
    for sign, words in ((";", "semicolons"), ("\t", "tabs"), ("|", "bars")):
        if [field.strip().lower() for field in header.split(sign)] == wanted.split(","):
            return words
    return None
