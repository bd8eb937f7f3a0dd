"""Whether an answer is one: what another program prints, nothing, and a text that was cut off are none, whatever the status.

Each form's answer begins and ends as the program writes it, has rows of so many fields, and where their number follows from the
plan, as many. Every start of the program is looked at, so nothing heavy is imported here.
"""

from __future__ import annotations

from murdjohe.core import program, row_tables
from murdjohe.core.program import Answer, NoAnswer

TYPE_CHECKING = False
if TYPE_CHECKING:
    from collections.abc import Sequence

    from murdjohe.core.row_columns import Table

# Tables by the forms that write them and nothing else where all is well, and of what in the plan there is a row each.
TABLES = {
    "chains": (row_tables.CHAINS, b"element"),
    "hops": (row_tables.HOPS, b"element"),
    "sweep": (row_tables.CUTS, b"link"),
    "study": (row_tables.CASES, b""),
    "rank": (row_tables.RANKS, b""),
    "prio-rank": (row_tables.RANKS, b""),
}
# The tables of the parts of a report and of an inspection, in their order; the part of closed walks has none.
CHANGES, LOOPS = (b"changes", row_tables.CHANGES), (b"loops", None)
COMMANDS, ELEMENTS = (b"commands", row_tables.COMMANDS), (b"elements", row_tables.ELEMENTS)
PARTS: dict[str, tuple[tuple[bytes, Table | None], ...]] = {
    "sim": (CHANGES, (b"inputs", row_tables.INPUTS), (b"traces", row_tables.TRACES), LOOPS),
    "prio-sim": (CHANGES, LOOPS),
    "inspect": (COMMANDS, ELEMENTS, (b"inputs", row_tables.REASONS)),
}
RINGS = ("rank", "prio-rank", "chains")
PLANS = ("gen", "nominate", "protect")
CHECKS = ("check", "prio-check")
# The forms that write rows without a header, with their table; `encode` writes a frame a line.
ROWS = {"decode": row_tables.FRAMES, "pcap-decode": row_tables.FRAMES, "node": row_tables.SENT, "encode": None}
SINGLE = ("decode", "encode")  # that write a row for each row of their file
DIGITS = b"0123456789abcdef"
LASTS = {"pcap-decode": b"passed,", "node": b"stopped,"}  # how the line begins that ends some rows
PCAP = (b"\xd4\xc3\xb2\xa1", b"\xa1\xb2\xc3\xd4")
REFUSED = {
    program.USAGE: (b"usage\n",),
    program.BAD_PLAN: (b"bad plan ",),
    program.BAD_CERTIFICATE: (b"bad certificate ",),
    program.BAD_EVENTS: (b"bad events ", b"bad groups "),
    program.BAD_FRAMES: (b"bad frames ", b"bad capture ", b"bad node "),
    program.READ_FAULT: (b"read fault\n",),
    program.TOO_LONG: (b"too long\n",),
}


def rows_fault(lines: list[bytes], table: Table, form: str) -> str | None:
    """What is wrong with the rows of a table, if one has more or fewer fields than there are columns."""
    widths = table.widths_in(form)
    least, most = widths[0] - 1, widths[-1] - 1
    bad = next((line for line in lines if line.count(b",") != least and line.count(b",") != most), None)
    if bad is None:
        return None
    wanted = " or ".join(map(str, widths))
    return f"`{bad[:60].decode('utf-8', 'replace')}` has not {wanted} fields"


def headed_fault(lines: list[bytes], table: Table, form: str) -> str | None:
    """What is wrong with a table that begins with the names of its columns."""
    if not lines or lines[0] != table.header.encode():
        return f"it doesn't begin with `{table.header}`"
    return rows_fault(lines[1:], table, form)


def table_fault(form: str, lines: list[bytes], path: str | bytes) -> str | None:
    """What is wrong with a table."""
    table, section = TABLES[form]
    if fault := headed_fault(lines, table, form):
        return fault
    wanted = is_short(path, section, len(lines) - 1) if section else None
    if wanted is not None:
        return f"it has {len(lines) - 1:,} rows where the plan has {wanted:,}"
    return None


def counted(data: bytes, section: bytes) -> int:
    """How many headers of a section a plan has, as they are mostly spelled."""
    head = b"[[" + section + b"]]"
    return data.count(b"\n" + head) + data.startswith(head)


def is_short(path: str | bytes, section: bytes, found: int) -> int | None:
    """How many rows of a section a plan has, where these are others than were found; None where they are as many, or the plan
    can't be read. The headers are counted first, and the plan is read only where that says something else."""
    try:
        with open(path, "rb") as file:
            data = file.read(program.LONGEST_FILE)
        if counted(data, section) == found:
            return None
        from murdjohe.core import toml_reader

        wanted = len(toml_reader.tables(data.decode("utf-8-sig")).get(section.decode(), []))
    except (OSError, ValueError, RecursionError):
        return None
    return wanted if wanted != found else None


def single_fault(path: str | bytes, found: int) -> str | None:
    """What is wrong with so many rows, where each row of a file gives one; blank lines are none."""
    try:
        with open(path, "rb") as file:
            wanted = sum(not line.isspace() for line in file)
    except (OSError, ValueError):
        return None
    return None if wanted == found else f"it has {found:,} rows where the file has {wanted:,}"


def words_fault(lines: list[bytes], first: bytes, least: int) -> str | None:
    """What is wrong with a line that begins with a word and has so many behind it at least."""
    words = lines[0].split(b" ") if lines else []
    is_one = len(lines) == 1 and words[:1] == [first] and len(words) > least
    return None if is_one else f"it is no line `{first.decode()} ..`"


def exactly(data: bytes, wanted: bytes) -> str | None:
    return None if data == wanted else f"it is not `{wanted.decode().strip()}`"


def report_fault(form: str, lines: list[bytes], status: int) -> str | None:
    """What is wrong with a report of a run."""
    if not lines or lines[0] != b"changes":
        return "it doesn't begin with `changes`"
    if status == program.STOPPED:
        its_end = lines[-1].startswith(b"stopped,")
        return rows_fault(lines[1:-1], row_tables.CHANGES, form) if its_end else "it doesn't end with `stopped,T`"
    if form == "sim" and lines[-1] not in (b"settled yes", b"settled no"):
        return "it doesn't end with `settled yes` or `settled no`"
    return parts_fault(form, lines)


def parts_fault(form: str, lines: list[bytes]) -> str | None:
    """What is wrong with the parts of an answer that has some."""
    places = [lines.index(part) if part in lines else -1 for part, _ in PARTS[form]]
    if places[0] != 0 or -1 in places or places != sorted(places):
        return "a part of it is missing"
    for (_, table), begin, end in zip(PARTS[form], places, [*places[1:], len(lines)]):
        if table is not None and (fault := rows_fault(lines[begin + 1 : end], table, form)):
            return fault
    return None


def done_fault(form: str, data: bytes, status: int, words: Sequence[str | bytes]) -> str | None:
    """What is wrong with an answer that is no refusal."""
    lines = data.split(b"\n")[:-1]
    path = words[1] if len(words) > 1 else ""
    if form in CHECKS:
        return exactly(data, b"accepted\n") if status == program.DONE else words_fault(lines, b"falls", 2)
    if status == program.REFUTED and form in RINGS:
        if form == "prio-rank":
            return headed_fault(lines, row_tables.SWITCHES, form)
        return words_fault(lines, b"cycle", 1)
    if form in TABLES:
        return table_fault(form, lines, path)
    if form == "agree":
        if status == program.REFUTED:
            return words_fault(lines, b"clash", 1)
        firsts = [line.partition(b" ")[0] for line in lines]
        return (
            None
            if firsts[:3] == [b"agreed", b"bound", b"failures"]
            else "it is not `agreed`, `bound B` and `failures F`"
        )
    if form in ("protected", "protect") and status == program.REFUTED:
        return headed_fault(lines, row_tables.GAPS, form) or (None if len(lines) > 1 else "it has no row")
    if form == "protected":
        return exactly(data, b"protected\n")
    if form in PLANS:
        return plan_fault(form, data, path)
    if form in ("sim", "prio-sim"):
        return report_fault(form, lines, status)
    return other_fault(form, data, lines, words[-1])


def plan_fault(form: str, data: bytes, path: str | bytes) -> str | None:
    """What is wrong with a plan that was written."""
    if b"option" not in data[:200]:
        return "it is no plan"
    for section in (b"element", b"link", b"source"):
        found = counted(data, section)
        wanted = is_short(path, section, found) if form != "gen" else None
        if wanted is not None:
            return f"it has {found:,} rows of {section.decode()} where the plan has {wanted:,}"
    return None


def other_fault(form: str, data: bytes, lines: list[bytes], path: str | bytes = "") -> str | None:
    """What is wrong with an inspection, a trial, rows or a capture."""
    if form == "inspect":
        return parts_fault(form, lines)
    if form == "trial":
        is_one = len(lines) == 6 and lines[0].startswith(b"trial ") and lines[-1].startswith(b"settled ")
        return None if is_one else "it has not the six lines of a trial"
    if form == "pcap-encode":
        return None if data.startswith(PCAP) else "it is no capture"
    if form in ROWS:
        single = single_fault(path, len(lines)) if form in SINGLE else None
        return plain_rows_fault(form, lines) or single
    return None if data else "it is empty"


def plain_rows_fault(form: str, lines: list[bytes]) -> str | None:
    """What is wrong with rows without a header."""
    table, last = ROWS[form], LASTS.get(form)
    has_last = last is not None and bool(lines) and lines[-1].startswith(last)
    if form == "pcap-decode" and not has_last:
        return "it doesn't end with `passed,N`"
    rows = lines[:-1] if has_last else lines
    if table is not None:
        return rows_fault(rows, table, form)
    bad = next((line for line in rows if line.strip(DIGITS)), None)
    return None if bad is None else f"`{bad[:60].decode('utf-8', 'replace')}` is no row"


def fault_of(words: Sequence[str | bytes], answer: Answer) -> str | None:
    """Why what came isn't an answer to these words; None where it may be one."""
    form = words[0] if words and isinstance(words[0], str) else ""
    status, data = answer.status, answer.text
    if status in REFUSED:
        is_whole = data.endswith(b"\n") and data.startswith(REFUSED[status])
        return None if is_whole else f"with the status {status} it begins as no refusal"
    if status in (program.NO_MEMORY, program.WRITE_FAULT):
        return None
    if status not in (program.DONE, program.REFUTED, program.STOPPED):
        return f"its status, {status}, is none of the program's"
    if form == "pcap-encode":
        return other_fault(form, data, [])
    if not data and form in SINGLE:
        return single_fault(words[-1], 0)
    if not data and form == "node":
        return None
    if not data:
        return "it is empty"
    if not data.endswith(b"\n"):
        return "it ends within a line"
    return done_fault(form, data, status, words)


def checked(words: Sequence[str | bytes], answer: Answer, path: str) -> Answer:
    """The answer. Raises NoAnswer where it isn't one."""
    if fault := fault_of(words, answer):
        form = words[0] if words else "no words"
        name = form if isinstance(form, str) else form.decode("utf-8", "replace")
        raise NoAnswer(
            f"{path} gave no answer to `{name}`: {fault}; it is another program, or was cut off: see `murdjohe help core`"
        )
    return answer
