"""Sentences on files that are of another kind, in another encoding, or wrong in a way that has a remedy of its own."""

from __future__ import annotations

from pathlib import Path

import pytest
from conftest import EXAMPLES, murdjohe

RING = (EXAMPLES / "ring" / "plan.toml").read_text()
PLAN = '[[element]]\nname = "CORE-A"\n[[element]]\nname = "M1"\n[[link]]\nname = "L1"\na = "CORE-A"\nb = "M1"\n'


def sentence(folder: Path, form: str, *files: str | bytes, more: tuple[str, ...] = ()) -> str:
    """The sentence on these files, which are called one, two and so on."""
    names = ["one", "two"][: len(files)]
    for name, data in zip(names, files):
        (folder / name).write_bytes(data.encode() if isinstance(data, str) else data)
    ran = murdjohe(form, *names, *more, folder=folder)
    assert 2 < ran.status < 10 and ran.err.count("\n") == 1, ran.err
    return ran.err.removeprefix("murdjohe: ").rstrip("\n")


@pytest.mark.parametrize(
    ("plan", "said"),
    [
        ("line,rank\nL1>B,0\n", "one:1: `line,rank`: it is a certificate, and no plan"),
        ("at,what,target,value\n", "one:1: `at,what,target,value`: it is an event list, and no plan"),
        ("case,at,what,target,value\n", "one:1: `case,at,what,target,value`: it is a list of cases, and no plan"),
        ("case,settled,locked\n", "one:1: `case,settled,locked`: it is a table of `study`, and no plan"),
        ("bad plan 25 18 link 7\n", "it is the refusal `bad plan 25 18 link 7` of an earlier command, whose own file"),
        ("cycle L1>B L2>C L3>A\n", "it is the answer of a `rank` that found a possible loop"),
        ("name;a;b\nL1;A;B\n", "it is a table, and no plan; `murdjohe import` makes a plan of tables"),
        (b"\xd4\xc3\xb2\xa1", "one: it is a capture, and no plan"),
        (RING.encode("utf-16"),
         "one:1: `# Three sites, each of which takes its timing from the one before: a ring of hops.`: it is text in UTF-16"),
        (b'[[element]]\nname = "Z\xfcrich"\n', 'one:2: `name = "Z�rich"`: the byte fc, in Latin-1 a `ü`, is no UTF-8'),
        ('[[element]]\nname = "A\n', 'one:2: `name = "A`: it is no TOML document: Illegal character'),
        ('[[element]]\nname = "A"\nwtr = 99999999999999999999\n',
         "one:3: `wtr = 99999999999999999999`: it has an integer beyond 64 bits"),
        ('[[sources]]\nname = "S"\n',
         'one:1: `[[sources]]`: the head has the unknown key "sources" (nearest: "source")'),
        ('[element]\nname = "A"\n',
         'one:1: `[element]`: "element" is one table; write `[[element]]`, with two brackets'),
        ("version = 3\n", "one:1: `version = 3`: the version is 3; the versions are 1 and 2"),
        ('option = "2"\n', 'one:1: `option = "2"`: the option is "2"; the options are "I" and "II"'),
        (PLAN + 'bundle = "B"\n',
         'one:9: `bundle = "B"`: link "L1" has the key "bundle"; write `version = 2` at the head'),
        (PLAN + 'site = "Bern"\n', 'one:9: `site = "Bern"`: link "L1" has the unknown key "site"'),
        (PLAN + "priority_b = 256\n",
         'one:9: `priority_b = 256`: link "L1" has priority_b = 256; it has to be 0 to 255, where 0 is not nominated'),
        ('[[element]]\nname = "A"\nwtr = 300\n',
         'one:3: `wtr = 300`: element "A" has wtr = 300; it has to be 0 to 12 minutes'),
        ('[[element]]\nname = "A"\nholdoff = 500.0\n',
         'element "A" has for "holdoff" a number with a point; it has to be a whole number'),
        ('[[element]]\nname = "M.1"\n',
         'one:2: `name = "M.1"`: element number 1: its name "M.1" has a dot; a name is 1 to 32 of A-Z a-z 0-9 _ -, as "M-1"'),
        (PLAN.replace('b = "M1"', 'b = "m1"'),
         'one:8: `b = "m1"`: link "L1" has end b "m1", which names no element (nearest: "M1")'),
        (PLAN + '[[source]]\nname = "S"\nat = "M1"\nlevel = "PRTC"\n',
         'source "S" has level = "PRTC", which is no level of option I (nearest: "QL-PRTC")'),
        ('[[element]]\nname = "A"\nown = "QL-EEC1"\n', '(nearest: "QL-SEC"); the levels are QL-ePRTC, '),
        ('[[element]]\nname = "A"\nfloor = "QL-DNU"\n',
         'element "A" has floor = "QL-DNU", which is do-not-use; the levels are'),
        ('element = [{name = "A"}, {name = "B", wtr = 99}]\n', "one:1: `element = [{name"),
        ('element = [\n  {name = "A"},\n  # {name = "X"}\n  {name = "B",\n   wtr = 99},\n]\n',
         'one:5: `wtr = 99},`: element "B" has wtr = 99'),
    ],
)  # fmt: skip
def test_plans(folder: Path, plan: str | bytes, said: str) -> None:
    assert said in sentence(folder, "rank", plan)


@pytest.mark.parametrize(
    ("certificate", "said"),
    [
        ("", "two: it is empty; begin with `line,rank`"),
        ("line;rank\nL1>B;0\n", "two:1: `line;rank`: its fields have semicolons between them; write commas"),
        ("L1>B,0\n", "two:1: `L1>B,0`: its first line is no header; begin with `line,rank`"),
        ("Line,Rank\n", "two:1: `Line,Rank`: its header has other letters or blanks"),
        (
            "cycle L1>B L2>C L3>A\n",
            "two:1: `cycle L1>B L2>C L3>A`: it is the answer of a `rank` that found a possible loop, and no certificate",
        ),
        (b"\xff\xfel\0i\0", 'two:1: `li`: it is text in UTF-16, as Excel\'s "Unicode text" is'),
        ("line,rank\nL1>B;0\n", "two:2: `L1>B;0`: the row has a semicolon between its fields; write a comma"),
        (
            "line,rank\nL1>A,0\n",
            'two:2: `L1>A,0`: "L1>A" is a line that isn\'t nominated: link "L1" has no priority_a above 0, one:11',
        ),
        ("line,rank\nL1,0\n", 'two:2: `L1,0`: "L1" names a link; its lines are L1>B and L1>A'),
        ("line,rank\nl1>b,0\n", '"l1>b" names no line of the plan (nearest: "L1>B")'),
    ],
)
def test_certificates(folder: Path, certificate: str | bytes, said: str) -> None:
    assert sentence(folder, "check", RING, certificate).startswith(said) or said in sentence(
        folder, "check", RING, certificate
    )


@pytest.mark.parametrize(
    ("row", "said"),
    [
        (
            "5,down,LAG,",
            'two:2: `5,down,LAG,`: "LAG" is a bundle; its links are L1, L2; `down` takes a link, a line, as L1>B, or a',
        ),
        ("5,down,B,", '"B" is an element; its inputs are L1>B, L2>B; `down` takes a link'),
        ("5,lockout,L2,", '"L2" is a link; its lines are L2>B and L2>A; `lockout` takes a line, as L1>B, or a source'),
        ("5,clear,L1>B,", '"L1>B" is a line, into element B; `clear` takes an element'),
        ("5,level,L1>B,QL-PRC", '"L1>B" is a line, into element B; `level` takes a source'),
        ("5,down,l1,", '"l1" names nothing in the plan (nearest: "L1")'),
        (
            "20x,down,L1,",
            'two:2: `20x,down,L1,`: "20x" is no number from 0 to 86400000; write whole milliseconds, digits alone, or 90s, 5m, 02:10',
        ),
    ],
)
def test_events(folder: Path, row: str, said: str) -> None:
    ends = 'a = "A"\nb = "B"\nbundle = "LAG"\n'
    plan = f'version = 2\nelement = [{{name = "A"}}, {{name = "B"}}]\n[[link]]\nname = "L1"\n{ends}[[link]]\nname = "L2"\n{ends}'
    assert said in sentence(folder, "sim", plan, f"at,what,target,value\n{row}\n", more=("9",))


def test_a_link_without_a_priority_has_the_line_of_its_row(folder: Path) -> None:
    lines = RING.splitlines()
    at = next(number for number, line in enumerate(lines, 1) if line == "[[link]]")
    assert f", one:{at};" in sentence(folder, "check", RING, "line,rank\nL1>A,0\n")


CERTIFICATE, EVENTS = ("line,rank\n", "a certificate"), ("at,what,target,value\n", "an event list")
BESIDE = {"check": CERTIFICATE, "prio-check": CERTIFICATE, "sim": EVENTS, "prio-sim": EVENTS}
BESIDE["study"] = ("case,at,what,target,value\n", "a list of cases")


@pytest.mark.parametrize("form", list(BESIDE))
def test_swapped_files_are_told(folder: Path, form: str) -> None:
    other, kind = BESIDE[form]
    more = () if form.endswith("check") else ("9",)
    end = "`" if form.endswith("check") else " ..`"
    told = sentence(folder, form, other, RING, more=more)
    assert told == f"one is {kind}, and two is a plan: the two words are swapped; write `murdjohe {form} two one{end}"


def test_a_refused_plan_is_told_where_the_other_file_is_not_there(folder: Path) -> None:
    (folder / "one").write_text("line,rank\n")
    for other in ("nosuch", "."):
        ran = murdjohe("check", "one", other, folder=folder)
        assert (ran.status, ran.out) == (3, b"bad plan 22\n")
        assert ran.err.startswith("murdjohe: one:1: `line,rank`: it is a certificate, and no plan")


def test_which_file_can_not_be_read_and_why(folder: Path) -> None:
    (folder / "plan").write_text(RING)
    (folder / "folder").mkdir()
    for words, said in (
        (["check", "plan", "nosuch"], "nosuch: No such file or directory"),
        (["check", "nosuch", "neither"], "nosuch: No such file or directory"),
        (["check", "plan", "folder"], "folder: it is a folder"),
        (["rank", "plan/x"], "plan/x: Not a directory"),
    ):
        ran = murdjohe(*words, folder=folder)
        assert (ran.status, ran.out) == (7, b"read fault\n") and ran.err.startswith(f"murdjohe: {said}; ")


def test_which_file_is_too_long(folder: Path) -> None:
    """A plan may have a gibibyte; what isn't a plan, and stands beside none or beside one of standard size, has less."""
    (folder / "long").write_bytes(b"#" * 8_388_609)
    with open(folder / "longer", "wb") as longer:
        longer.truncate(1_073_741_825)
    (folder / "plan").write_text(RING)
    for words, said in (
        (["rank", "longer"], "longer: it has more than 1,073,741,824 bytes"),
        (["check", "plan", "long"], "long: it has more than 8,388,608 bytes"),
        (["decode", "I", "long"], "long: it has more than 8,388,608 bytes"),
    ):
        ran = murdjohe(*words, folder=folder)
        assert (ran.status, ran.out) == (9, b"too long\n") and ran.err.startswith(f"murdjohe: {said}"), ran.err


@pytest.mark.parametrize(
    "data", [b"", b"\0" * 30, b"\xff" * 300, b'"' * 99, b"[[" * 5000, b"=" * 80, bytes(range(256)) * 40]
)
@pytest.mark.parametrize(
    "form", ["rank", "check", "sim", "study", "decode", "encode", "pcap-decode", "pcap-encode", "node"]
)
def test_no_bytes_end_in_a_trace(folder: Path, form: str, data: bytes) -> None:
    (folder / "plan").write_text(RING)
    (folder / "file").write_bytes(data)
    words = {
        "rank": ["file"],
        "check": ["plan", "file"],
        "sim": ["plan", "file", "9"],
        "study": ["plan", "file", "9"],
        "node": ["plan", "A", "file", "9"],
    }
    ran = murdjohe(form, *words.get(form, ["I", "file"]), folder=folder)
    assert ran.status < 12 and "Traceback" not in ran.err
    assert ran.status == 0 or ran.err.count("\n") == 1
