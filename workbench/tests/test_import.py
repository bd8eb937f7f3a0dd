"""Tables become plans: the stored ones byte for byte, tables as spreadsheets write them, and all mistakes at once."""

from __future__ import annotations

import csv
import io
import tomllib
from pathlib import Path

import pytest
from conftest import EXAMPLES, Ran, murdjohe
from hypothesis import HealthCheck, given, settings
from hypothesis import strategies as st

from murdjohe.plan import tables
from murdjohe.plan.mistakes import SHOWN
from murdjohe.plan.tables import NAME, Settings

INVENTORY = EXAMPLES / "inventory"
ELEMENTS, LINKS, SOURCES = "name\nA\nB\n", "name,a,b\nL1,A,B\n", "name,at,level\nS,A,QL-PRC\n"
PLAN = b"""option = "I"

[[element]]
name = "A"

[[element]]
name = "B"

[[link]]
name = "L1"
a = "A"
b = "B"

[[source]]
name = "S"
at = "A"
level = "QL-PRC"
"""


def imported(
    folder: Path, *more: str, elements: str | bytes = ELEMENTS, links: str = LINKS, sources: str = SOURCES
) -> Ran:
    """Imports these tables."""
    (folder / "e.csv").write_bytes(elements if isinstance(elements, bytes) else elements.encode())
    (folder / "l.csv").write_text(links)
    (folder / "s.csv").write_text(sources)
    return murdjohe("import", "e.csv", "l.csv", "s.csv", *more, folder=folder)


@pytest.mark.parametrize(("links", "plan"), [("links.csv", "plan.toml"), ("links-first.csv", "first.toml")])
def test_the_stored_plans_are_written(links: str, plan: str) -> None:
    ran = murdjohe("import", "elements.csv", links, "sources.csv", folder=INVENTORY)
    assert (ran.status, ran.out) == (0, (INVENTORY / plan).read_bytes())
    # (the first try has a ring of links that are nominated one way round)
    assert ran.err.startswith("murdjohe: timing may go round over R1>agg-1 -> " if plan == "first.toml" else "")
    assert bool(ran.err) == (plan == "first.toml")


def test_two_tables_to_an_accepted_plan(folder: Path) -> None:
    (folder / "elements.csv").write_text("name\nA\nB\nC\n")
    (folder / "links.csv").write_text("name,a,b\nL1,A,B\nL2,B,C\n")
    ran = murdjohe("import", "elements.csv", "links.csv", "-o", "topology.toml", folder=folder)
    assert (ran.status, ran.out) == (0, b"") and "nothing in the plan is a clock yet" in ran.err
    (folder / "sources.csv").write_text("name,at,level\nS,A,QL-PRC\n")
    words = ["import", "elements.csv", "links.csv", "sources.csv", "-o", "topology.toml"]
    before = (folder / "topology.toml").read_bytes()
    ran = murdjohe(*words, folder=folder)
    assert (ran.status, ran.err) == (22, "murdjohe: topology.toml is there already; --force writes over it\n")
    assert (folder / "topology.toml").read_bytes() == before
    assert murdjohe(*words, "--force", folder=folder).err == ""
    for forms, file in ((["nominate", "topology.toml"], "plan.toml"), (["rank", "plan.toml"], "certificate.csv")):
        (folder / file).write_bytes(murdjohe(*forms, folder=folder).out)
    ran = murdjohe("check", "plan.toml", "certificate.csv", folder=folder)
    assert (ran.status, ran.out) == (0, b"accepted\n")
    assert ran.err == "murdjohe: accepted: 3 elements, 2 nominated lines, greatest rank 1\n"


@pytest.mark.parametrize(
    "elements",
    [
        "name;own\nA;\nB;\n",
        "name\town\nA\t\nB\t\n",
        "sep=;\nname;own\nA;\nB;\n",
        "sep=|\r\nName|Own\r\nA|\r\nB|\r\n",
        "\ufeffNAME,own\r\nA,\r\n\r\nB,\r\n",
        '"Name"\n"A"\nB,,\n',
        "sep=,\nname\nA\nB",
    ],
)
def test_tables_as_spreadsheets_write_them(folder: Path, elements: str) -> None:
    ran = imported(folder, elements=elements)
    assert (ran.status, ran.out, ran.err) == (0, PLAN, "")


def test_other_headers_are_mapped(folder: Path) -> None:
    elements = "Hostname,name,WTR\nA,first,\nB,second,\n"
    ran = imported(folder, "--map", "name=Hostname", "--ignore-extra", elements=elements)
    assert (ran.status, ran.out) == (0, PLAN) and "e.csv: name: no columns of a plan" in ran.err
    links = "Label,Side A,Side B\nL1,A,B\n"
    ran = imported(folder, "--map", "link.name=label", "--map", "a=Side A", "--map", "b=side-b", links=links)
    assert (ran.status, ran.out) == (0, PLAN)
    for pair, status, said in (
        ("nam=X", 2, "it has to be COLUMN=HEADER"),
        ("name", 2, "it has to be"),
        ("name=X", 24, "no table has"),
    ):
        ran = imported(folder, "--map", pair)
        assert (ran.status, ran.out) == (status, b"") and said in ran.err


def test_names_are_changed_and_listed(folder: Path) -> None:
    long = "x" * 40
    links = f"name,a,b\nge-0/0/1,core 1.bern,core-1-bern\n{long},core-1-bern,Zürich\n"
    ran = imported(
        folder,
        *("--rename", "names.csv", "-o", "plan.toml"),
        elements="name\ncore 1.bern\ncore-1-bern\nZürich\n",
        links=links,
        sources="name,at,level\nS,Zürich,QL-PRC\n",
    )
    assert (ran.status, ran.out) == (0, b"") and "4 names changed, as names.csv lists them" in ran.err
    written = (folder / "names.csv").read_text().splitlines()
    assert written == [
        "what,old,new",
        "element,core 1.bern,core-1-bern-2",
        "element,Zürich,Zurich",
        "link or source,ge-0/0/1,ge-0-0-1",
        f"link or source,{long},{'x' * 32}",
    ]
    plan = tomllib.loads((folder / "plan.toml").read_text())
    assert [row["name"] for row in plan["element"]] == ["core-1-bern-2", "core-1-bern", "Zurich"]
    assert [(row["a"], row["b"]) for row in plan["link"]] == [
        ("core-1-bern-2", "core-1-bern"),
        ("core-1-bern", "Zurich"),
    ]
    assert plan["source"][0]["at"] == "Zurich"


def test_all_mistakes_are_told_at_once(folder: Path) -> None:
    ran = imported(
        folder,
        elements="name,own,Hold-off,wtr\nA,QL-EEC1,300,13\nB.1,QL-DNU,500.0,\nA,,,\n,,,\n,QL-SEC,,\n",
        links="name,a,b,priority_b,bundle\nL1,A,a,256,X\nL2,A,A,,X\nL1,A,C,,\n",
        sources="name,at,level\nL1,A,PRC\n",
    )
    assert (ran.status, ran.out) == (24, b"")
    said = [line.removeprefix("murdjohe: ") for line in ran.err.splitlines()]
    for begin in (
        "e.csv:1: there is no column 'Hold-off' in a table of elements (nearest: \"holdoff\"); the columns are",
        "e.csv:2: own is 'QL-EEC1', which is no level of option I (nearest: \"QL-SEC\"); the levels are",
        "e.csv:2: wtr is '13', which is outside its limits; it has to be 0 to 12 minutes",
        "e.csv:3: name is 'B.1', which no plan can have",
        "e.csv:3: own is 'QL-DNU', which is do-not-use",
        "e.csv:4: name is 'A', as it is in e.csv:2; choose another name",
        "e.csv:6: name is empty, and each element has to have one",
        "l.csv:2: priority_b is '256', which is outside its limits; it has to be 0 to 255, where 0 is not nominated",
        "l.csv:2: b is 'a', which names no element (nearest: \"A\")",
        "l.csv:3: b is 'A', as a is; a link joins two elements",
        "l.csv:4: name is 'L1', as it is in l.csv:2",
        "s.csv:2: name is 'L1', as it is in l.csv:2",
        "s.csv:2: level is 'PRC', which is no level of option I (nearest: \"QL-PRC\")",
    ):
        assert [line for line in said if line.startswith(begin)], begin
    assert said == sorted(said, key=lambda line: ("els".index(line[0]), int(line.split(":")[1])))


def test_of_many_mistakes_twenty_are_told(folder: Path) -> None:
    ran = imported(folder, elements="name\nA\nB\n" + "".join(f"x.{number}\n" for number in range(27)))
    lines = ran.err.splitlines()
    assert ran.status == 24 and len(lines) == SHOWN + 1 == 21 and lines[-1] == "murdjohe: and 7 more mistakes"


@pytest.mark.parametrize(
    ("elements", "said"),
    [
        (
            "name,vendor\nA,X\n",
            "e.csv:1: there is no column 'vendor' in a table of elements; the columns are name, own, ",
        ),
        ("own\nQL-SEC\n", "e.csv:1: the column 'name' is missing"),
        ("name,Name\nA,B\n", "e.csv:1: the column 'name' stands there twice"),
        ("name,wtr\nA,5\nB\n", "e.csv:3: 1 field under 2 columns"),
        ('name\n"A\n', "e.csv:2: it is no CSV"),
        ("", "e.csv:1: the column 'name' is missing"),
        ("name\n", "e.csv:1: there is no element below the header"),
        (
            "name,holdoff\n\nA,500.0\n",
            "e.csv:3: holdoff is '500.0', which is no whole number; it has to be 300 to 1800",
        ),
        ("name\nA\x7f\n", "e.csv:2: name is 'A\\x7f'"),
    ],
)
def test_what_can_not_be_a_plan_is_refused_and_nothing_written(folder: Path, elements: str, said: str) -> None:
    (folder / "plan.toml").write_text("# what stood there before\n")
    ran = imported(folder, "-o", "plan.toml", "--force", elements=elements)
    assert (ran.status, ran.out) == (24, b"") and said in ran.err
    assert (folder / "plan.toml").read_text() == "# what stood there before\n"
    assert sorted(path.name for path in folder.iterdir()) == ["e.csv", "l.csv", "plan.toml", "s.csv"]


def test_of_two_files_none_is_written_where_one_can_not_be(folder: Path) -> None:
    ran = imported(folder, "-o", "plan.toml", "--rename", "no/where.csv")
    assert ran.status == 8 and "no/where.csv" in ran.err
    assert sorted(path.name for path in folder.iterdir()) == ["e.csv", "l.csv", "s.csv"]


def test_the_program_has_the_last_word(folder: Path) -> None:
    many = "".join(f"L{number},A,B,1\n" for number in range(65))
    ran = imported(folder, links="name,a,b,priority_b\n" + many)
    assert (ran.status, ran.out) == (3, b"") and 'nominated input 65 of element "B"' in ran.err


@pytest.mark.parametrize("data", ["name\nA\n".encode("utf-16"), b"name\n\xfc\n"])
def test_other_encodings_are_told(folder: Path, data: bytes) -> None:
    ran = imported(folder, elements=data)
    assert ran.status == 24 and "e.csv:" in ran.err and "UTF-8" in ran.err


def test_a_full_disk_is_told() -> None:
    ran = murdjohe("import", "elements.csv", "links.csv", "sources.csv", "-o", "/dev/full", folder=INVENTORY)
    assert (ran.status, ran.err) == (23, "murdjohe: /dev/full: No space left on device\n")


def test_netbox_devices_and_cables(folder: Path) -> None:
    devices = "Name,Status,Site\nA,Active,Bern\nB,Active,Bern\n"
    cables = (
        "ID,Label,Device A,Termination A,Device B,Termination B\n7,,A,ge-0,B,ge-1\n8,L1,A,ge-2,B,ge-3\n9,L1,B,x,A,y\n"
    )
    ran = imported(folder, "--netbox", elements=devices, links=cables)
    plan = tomllib.loads(ran.out.decode())
    assert ran.status == 0 and [row["name"] for row in plan["element"]] == ["A", "B"]
    assert [(row["name"], row["a"], row["b"]) for row in plan["link"]] == [
        ("cable-7", "A", "B"),
        ("L1", "A", "B"),
        ("cable-9", "B", "A"),
    ]
    bulk = "side_a_device,side_a_type,side_a_name,side_b_device,side_b_type,side_b_name\nA,dcim.interface,x,B,t,y\n"
    ran = imported(folder, "--netbox", elements=devices, links=bulk)
    assert [row["name"] for row in tomllib.loads(ran.out.decode())["link"]] == ["cable-1"]


NAMES = st.text(st.characters(blacklist_categories=("Cs",), blacklist_characters="\0\r\n"), min_size=1, max_size=40)


@given(st.lists(NAMES, max_size=12))
def test_new_names_are_legal_and_differ(names: list[str]) -> None:
    new = tables.new_names(names)
    after = [new.get(name, name) for name in dict.fromkeys(names)]
    assert all(NAME.fullmatch(name) for name in after) and len(set(after)) == len(after)
    assert not any(NAME.fullmatch(name) for name in new)


FIELDS = {
    "name": st.from_regex(r"[A-Za-z0-9_-]{1,6}", fullmatch=True),
    "own": st.sampled_from(["", "QL-SEC", "QL-eEEC"]),
    "wtr": st.sampled_from(["", "0", "12"]),
    "floor": st.sampled_from(["", "QL-SSU-B"]),
}


@settings(suppress_health_check=[HealthCheck.function_scoped_fixture])
@given(
    st.lists(st.fixed_dictionaries(FIELDS), min_size=1, max_size=5, unique_by=lambda row: str(row["name"])),
    st.permutations(list(FIELDS)),
    st.sampled_from(",;\t"),
    st.sampled_from([str.upper, str.lower, str.title]),
)
def test_what_a_table_holds_the_plan_holds(
    tmp_path: Path, rows: list[dict[str, str]], order: list[str], sign: str, spelled: object
) -> None:
    out = io.StringIO(newline="")
    writer = csv.writer(out, delimiter=sign)
    writer.writerow([spelled(name) for name in order] if callable(spelled) else order)
    writer.writerows([row[name] for name in order] for row in rows)
    paths = {"element": str(tmp_path / "e.csv"), "link": str(tmp_path / "l.csv")}
    (tmp_path / "e.csv").write_bytes(b"\xef\xbb\xbf" + out.getvalue().encode())
    (tmp_path / "l.csv").write_text("name,a,b\n")
    read = tomllib.loads(tables.made_of(paths, Settings()).plan)["element"]
    kept = [{key: value for key, value in row.items() if value} for row in rows]
    assert [{key: str(value) for key, value in row.items()} for row in read] == kept


DUCTS = "name,a,b,duct\nL1,A,B,north\nL2,A,B,south; north\nL3,A,B,\n"


def test_ducts_become_a_list_of_groups_beside_the_plan(folder: Path) -> None:
    ran = imported(folder, "-o", "plan.toml", links=DUCTS)
    assert (ran.status, ran.out) == (0, b"")
    assert ran.err.endswith("plan.groups.csv has 2 ducts as groups, for `protected`, `protect --groups` and others\n")
    table = "group,kind,part\nnorth,link,L1\nnorth,link,L2\nsouth,link,L2\n"
    assert (folder / "plan.groups.csv").read_text() == table
    plain = imported(
        folder, links=DUCTS.replace(",duct", "").replace(",north", "").replace(",south; north", "")[:-2] + "\n"
    )
    assert plain.status == 0 and (folder / "plan.toml").read_bytes() == plain.out
    assert murdjohe("protected", "plan.toml", "plan.groups.csv", folder=folder).status == 1


def test_ducts_go_where_it_is_said_and_nothing_is_written_over(folder: Path) -> None:
    ran = imported(folder, "--groups", "ducts.csv", "--map", "link.duct=Trench", links=DUCTS.replace("duct", "Trench"))
    assert ran.status == 0 and (folder / "ducts.csv").read_text().startswith("group,kind,part\nnorth,link,L1\n")
    again = imported(folder, "--groups", "ducts.csv", "-o", "plan.toml", links=DUCTS)
    assert again.status == 22 and "ducts.csv is there already" in again.err and not (folder / "plan.toml").exists()
    same = imported(folder, "--groups", "plan.toml", "-o", "plan.toml", links=DUCTS)
    assert same.status == 2 and "two outputs are one file" in same.err
    kept = imported(folder, links=DUCTS)
    assert kept.status == 0 and "2 ducts: a plan has no place for these; -o or --groups writes them" in kept.err
    assert sorted(path.name for path in folder.iterdir()) == ["ducts.csv", "e.csv", "l.csv", "s.csv"]


@pytest.mark.parametrize(
    ("words", "links", "status", "said"),
    [
        ([], DUCTS.replace("north", "north 7"), 24, "l.csv:2: duct is 'north 7', which no plan can have: a name is"),
        (
            [],
            DUCTS.replace("south; north", "north;north"),
            24,
            "l.csv:3: duct is 'north;north', which has 'north' twice",
        ),
        (["--groups", "g.csv"], LINKS, 2, "--groups: the table of links has no column `duct`"),
        (["--groups", "-"], DUCTS, 2, "--groups: standard output is for the plan; name a file"),
    ],
)
def test_ducts_that_can_not_be_groups(folder: Path, words: list[str], links: str, status: int, said: str) -> None:
    ran = imported(folder, *words, "-o", "plan.toml", links=links)
    assert (ran.status, ran.out) == (status, b"") and said in ran.err
    assert not (folder / "plan.toml").exists() and not (folder / "plan.groups.csv").exists()


def test_ducts_get_names_that_groups_can_have(folder: Path) -> None:
    ran = imported(folder, "--rename", "names.csv", "-o", "p.toml", links=DUCTS.replace("north", "Nord straße"))
    assert ran.status == 0
    assert "duct,Nord straße,Nord-stra-e\n" in (folder / "names.csv").read_text()
    assert (folder / "p.groups.csv").read_text().startswith("group,kind,part\nNord-stra-e,link,L1\n")


def three_tables(folder: Path) -> list[str]:
    (folder / "e.csv").write_text("name\nA\nB\n")
    (folder / "l.csv").write_text("name,a,b\nL1,A,B\n")
    (folder / "s.csv").write_text("name,at,level\nS,A,QL-PRC\n")
    return [str(folder / name) for name in ("e.csv", "l.csv", "s.csv")]


def test_tables_that_are_swapped_are_told_in_a_line_each(tmp_path: Path) -> None:
    elements, links, sources = three_tables(tmp_path)
    ran = murdjohe("import", elements, sources, links)
    assert ran.status == 24 and ran.err.splitlines() == [
        f"murdjohe: {sources}: it has the columns of a table of sources, and is named where one of links is read",
        f"murdjohe: {links}: it has the columns of a table of links, and is named where one of sources is read",
        "murdjohe: are the tables swapped? Their order is ELEMENTS LINKS SOURCES",
    ]
    assert "are the tables swapped?" in murdjohe("import", links, elements, sources).err


def test_a_table_with_another_ones_columns_alone_is_no_swap(tmp_path: Path) -> None:
    elements, links, sources = three_tables(tmp_path)
    (tmp_path / "s.csv").write_text("name,at\nS,A\n")
    ran = murdjohe("import", elements, links, sources)
    assert ran.status == 24 and all(line.startswith(f"murdjohe: {sources}:") for line in ran.err.splitlines()), ran.err


def test_a_mapping_may_stand_in_a_file(tmp_path: Path) -> None:
    elements, links, sources = three_tables(tmp_path)
    (tmp_path / "l.csv").write_text("name,Von,Nach\nL1,A,B\n")
    (tmp_path / "map").write_text("# ours\nlink.a=Von\n\nlink.b=Nach\n")
    ran = murdjohe("import", elements, links, sources, "--map-file", str(tmp_path / "map"))
    assert ran.status == 0 and b'a = "A"' in ran.out


def test_an_encoding_is_taken_where_it_is_named(tmp_path: Path) -> None:
    _, links, sources = three_tables(tmp_path)
    (tmp_path / "e.csv").write_bytes("name,own\nA,\nB,\nM\xfc,\n".encode("windows-1252"))
    words = [str(tmp_path / "e.csv"), links, sources]
    refused = murdjohe("import", *words)
    assert refused.status == 24 and "or name its encoding: --encoding windows-1252" in refused.err
    taken = murdjohe("import", *words, "--encoding", "windows-1252", "--rename", str(tmp_path / "names"))
    assert taken.status == 0 and (tmp_path / "names").read_text() == "what,old,new\nelement,M\u00fc,Mu\n"


def test_a_name_that_looks_the_same_is_the_nearest(tmp_path: Path) -> None:
    (tmp_path / "p.toml").write_text(
        'element = [{name = "C074"}, {name = "C0I4"}, {name = "A"}]\nlink = [{name = "L", a = "A", b = "C0l4"}]\n'
    )
    assert '(nearest: "C0I4")' in murdjohe("rank", str(tmp_path / "p.toml")).err
