"""Sentences on refused frames, rows of frames, captures, and what one element received."""

from __future__ import annotations

from murdjohe.core import documents, levels, refusals, times
from murdjohe.core.documents import Document
from murdjohe.core.refusals import Refusal
from murdjohe.plan.plan_lines import PlanLines
from murdjohe.sentences import records

SHOWN = 60  # signs of a line that a sentence shows
NODE_WORDS = ("frame", *records.WORDS)
KINDS = ("info", "event")


def place(document: Document, number: int) -> str:
    """The file, the line and how it begins."""
    text = document.line(number)
    return f"{document.name}:{number}: `{text if len(text) <= SHOWN else text[: SHOWN - 2] + '..'}`: "


def raw(document: Document, number: int) -> str:
    """The line as it stands in the file."""
    lines = document.lines
    return lines[number - 1] if 0 < number <= len(lines) else ""


def part(number: int | None) -> str:
    """What is wrong in a frame by the number of its first wrong part, and what to do."""
    if number is None:
        return ""
    return f"{refusals.says('frame', number)}; {refusals.remedy('frame', number)}"


def wrong_file(document: Document, wanted: str) -> str | None:
    """The sentence on a file that is of another kind altogether."""
    if fault := documents.encoding_fault(document):
        is_text = documents.kind_of(document) is None
        return document.place(fault[0]) + fault[1] if is_text else None
    kind = documents.kind_of(document)
    if kind in (None, "frames as hexadecimal digits"):
        return None
    return f"{document.name}: it is {kind}, where {wanted} are wanted"


def on_hex(text: str) -> str:
    """What is wrong with a line that isn't hexadecimal digits."""
    wrong = next((sign for sign in text if sign not in "0123456789abcdefABCDEF"), None)
    if wrong is None:
        return f"it has {len(text)} hexadecimal digits, which is no even number"
    return f"it has a {wrong!r}, which is no hexadecimal digit"


def level_fault(level: str, count: int, option: str) -> str | None:
    """What is wrong with the level of a row of so many fields."""
    if level.startswith("code-"):
        return None
    known = levels.LEVELS[option]
    if level not in known:
        likely = levels.likely(level, option) or documents.nearest(level, known)
        meant = f' (nearest: "{likely}")' if likely else ""
        return f'"{level}" is no level of option {option}{meant}; the levels are {", ".join(known)}'
    if count == 3 and level in ("QL-ePRTC", "QL-PRTC", "QL-ePRC", "QL-eEEC"):
        return f"{level} has an enhanced code, which needs all seven fields"
    return None


def on_row(text: str, option: str) -> str:
    """What is wrong with a row of a frame."""
    fields = text.split(",")
    if len(fields) not in (3, 7):
        said = "semicolons between its fields" if text.count(";") in (2, 6) else f"{len(fields)} fields"
        return f"it has {said} in place of three or seven with commas"
    source, kind, level = fields[:3]
    if len(source) != 12 or any(sign not in "0123456789abcdefABCDEF" for sign in source):
        return f'the source "{source}" isn\'t twelve hexadecimal digits'
    if kind not in KINDS:
        return f'"{kind}" is neither `info` nor `event`{documents.hint(kind, KINDS)}'
    return level_fault(level, len(fields), option) or refusals.says("frames", 14)


def on_timed_row(text: str, option: str) -> str:
    """What is wrong with a row of a frame with its time."""
    if text.startswith("passed,"):
        return "it is the last line of `pcap-decode`, and no row"
    fields = text.split(",", 2)
    if len(fields) < 3 or not all(times.is_digits(field) for field in fields[:2]):
        return "it doesn't begin with two numbers, seconds and microseconds"
    return on_row(fields[2], option)


def of_frames(document: Document, refusal: Refusal, option: str, is_timed: bool) -> str:
    """The sentence on a refused line of frames or rows."""
    number, line = refusal.number, refusal.row
    wanted = "frames as hexadecimal digits" if number in (12, 13) else "rows of frames"
    if line == 1 and (other := wrong_file(document, wanted)):
        return other
    text = raw(document, line)
    if number == 13:
        return f"{place(document, line)}the frame {part(refusal.part)}"
    if number == 12:
        return f"{place(document, line)}{on_hex(text)}; {refusals.remedy('frames', 12)}"
    table = "capture" if is_timed else "frames"
    what = on_timed_row(text, option) if is_timed else on_row(text, option)
    return f"{place(document, line)}{what}; {refusals.remedy(table, 14)}"


def of_capture(document: Document, refusal: Refusal) -> str:
    """The sentence on a refused capture; it has no lines."""
    remedy = refusals.remedy("capture", refusal.number)
    if refusal.number == 42:
        return f"{document.name}: it ends within its record {refusal.place}; {remedy}"
    if refusal.number == 41:
        is_little = document.data[:1] == b"\xd4"
        link = int.from_bytes(document.data[20:24], "little" if is_little else "big")
        return f"{document.name}: its link type is {link} and not 1, Ethernet; {remedy}"
    kind = documents.kind_of(document)
    if not document.data:
        return f"{document.name}: it is empty; {remedy}"
    return f"{document.name}: it {refusals.says('capture', 40)}{f': it is {kind}' if kind else ''}; {remedy}"


def on_received(number: int, fields: list[str], plan: PlanLines | None) -> str:
    """What is wrong with a line of what an element received, in a word more than its number says."""
    field = fields[min(len(fields), {44: 1, 46: 2, 47: 3}.get(number, 4)) - 1]
    if number == 44 and (time := times.milliseconds(field)) is not None:
        return f'the time "{field}" has units: write {time}'
    if number == 46:
        return f'"{field}" is no word of the format{documents.hint(field, NODE_WORDS)}: {", ".join(NODE_WORDS)}'
    if number == 47 and plan:
        lines = plan.lines_of()
        if field in plan.names("link"):
            return f'"{field}" is a link: name its line, {" or ".join(line for line in lines if line.startswith(field + ">"))}'
        return f'"{field}" {refusals.says("node", 47)}{documents.hint(field, [*lines, *plan.names("source")])}'
    return f"it {refusals.says('node', number)}"


def of_node(document: Document, refusal: Refusal, element: str, plan: PlanLines | None) -> str:
    """The sentence on a refused line of what an element received, or on an element that isn't there."""
    number = refusal.number
    if number == 50:
        name = plan.document.name if plan else "the plan"
        return f'{name}: it has no element "{element}"{documents.hint(element, plan.names("element") if plan else ())}'
    if refusal.row == 1 and (other := wrong_file(document, "lines AT,WORD,TARGET,VALUE")):
        return other
    if number == 49:
        return f"{place(document, refusal.row)}its frame {part(refusal.part)}"
    fields = raw(document, refusal.row).split(",")
    what, remedy = on_received(number, fields, plan), refusals.remedy("node", number)
    return f"{place(document, refusal.row)}{what}; {remedy}"
