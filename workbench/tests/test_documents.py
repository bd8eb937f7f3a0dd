"""What stands once: refusals and their tables, numbers of the program, the packages that are needed, the shape of the code."""

from __future__ import annotations

import ast
import re
import sys
from pathlib import Path

from conftest import EXAMPLES, TOP, WORKBENCH, started

from murdjohe.commands import cli
from murdjohe.core import forms, refusals

SOURCES = sorted((WORKBENCH / "src" / "murdjohe").rglob("*.py"))
LONGEST_FUNCTION, LONGEST_MODULE = 40, 400
PLAN = {22, 23, 24, 15, 16, 17, 18, 19, 20, 21, 39}


def test_the_tables_of_the_formats_are_made_of_the_refusals() -> None:
    ran = started([str(TOP / "docs" / "refusal_tables")])
    assert (ran.status, ran.err) == (0, "")


def test_each_number_of_the_program_has_a_meaning_once() -> None:
    wanted = {
        "plan": PLAN,
        "certificate": set(range(34, 39)),
        "events": set(range(26, 34)),
        "cases": {26, 27, 51, 52},
        "groups": {26, 27, 31, 33, 51, 52, 53},
        "frames": {12, 13, 14},
        "capture": {40, 41, 42, 14},
        "node": set(range(43, 51)),
        "frame": set(range(4, 12)),
        "status": {*range(12), *range(20, 25), 69, 70},
    }
    tables = refusals.meanings()
    assert set(tables) == set(wanted)
    for table, numbers in wanted.items():
        found = [entry["number"] for entry in tables[table]]
        assert sorted(found) == sorted(numbers)
        keys = ("name", "when") if table == "status" else ("when", "remedy", "says")
        assert all(entry[key] for entry in tables[table] for key in keys)


def test_a_list_of_cases_has_the_numbers_of_an_event_list_and_more() -> None:
    for number in range(28, 34):
        assert refusals.meaning("cases", number) == refusals.meaning("events", number) != {}
    for number in (26, 27):
        assert refusals.says("cases", number) != refusals.says("events", number)
    for number in (51, 52):
        assert refusals.meaning("cases", number) and not refusals.meaning("events", number)


def test_the_forms_are_those_of_the_formats() -> None:
    text = (TOP / "docs" / "use" / "formats.md").read_text(encoding="utf-8")
    table = text[text.index("| words | what it does |") : text.index("PLAN, CERT, EVENTS, CASES, GROUPS and FILE")]
    written = re.findall(r"^\| `([^`]+)` \|", table, re.M)
    assert sorted(text for form in forms.FORMS.values() for text in form.synopses) == sorted(written)


# The page of the manual of each group of commands.
PAGES = {
    forms.PLANNING: "murdjohe-planning",
    forms.RUNNING: "murdjohe-running",
    forms.PRIORITY: "murdjohe-priority",
    forms.LAB: "murdjohe-lab",
    forms.TRYING: "murdjohe-trying",
    cli.FILES: "murdjohe-files",
    cli.ABOUT: "murdjohe",
}


def page_of(name: str) -> str:
    return (TOP / "man" / f"{name}.1").read_text(encoding="utf-8")


def described(page: str) -> set[str]:
    """The commands that a page describes."""
    heads = re.findall(r"^\.It Cm (.*)", page, re.M)
    return {head.split()[0] for line in heads for head in line.split(" , ")}


def test_the_page_of_each_group_has_its_commands_and_no_others() -> None:
    groups = {name: form.group for name, form in forms.FORMS.items()} | {name: own[1] for name, own in cli.OWN.items()}
    assert set(PAGES) == set(cli.GROUPS.values()) == set(groups.values())
    for group, title in PAGES.items():
        its = {name for name, own in groups.items() if own == group}
        page = page_of(title)
        if group == cli.ABOUT:
            assert described(page) == set(groups)
        else:
            assert described(page) == its
            assert {found.split()[0] for found in re.findall(r"^\.Nm murdjohe\n\.Cm (.*)", page, re.M)} == its
        for other in set(PAGES.values()) - {title}:
            assert f".Xr {other} 1" in page


NAMED_OTHERWISE = {"elftools": "pyelftools"}  # modules whose Debian package has another name


def imported(path: Path) -> set[str]:
    """The packages that a module imports, anywhere in it."""
    found = set()
    for node in ast.walk(ast.parse(path.read_text(encoding="utf-8"))):
        if isinstance(node, ast.Import):
            found |= {name.name.partition(".")[0] for name in node.names}
        elif isinstance(node, ast.ImportFrom):
            found.add((node.module or "").partition(".")[0])
    return {NAMED_OTHERWISE.get(name, name) for name in found - set(sys.stdlib_module_names) - {"murdjohe"}}


def test_only_declared_packages_are_imported() -> None:
    declared = {
        line.split()[0] for line in (WORKBENCH / "packages").read_text().splitlines() if line and line[0] != "#"
    }
    needed = {f"python3-{package}" for path in SOURCES for package in imported(path)}
    assert needed <= declared
    tests = {f"python3-{package}" for path in (WORKBENCH / "tests").glob("*.py") for package in imported(path)}
    ours = {f"python3-{path.stem}" for path in (WORKBENCH / "tests").glob("*.py")} | {"python3-bench"}
    assert tests - ours <= declared


def test_click_is_in_the_command_line_alone() -> None:
    users = {path.relative_to(WORKBENCH / "src" / "murdjohe").parts[0] for path in SOURCES if "click" in imported(path)}
    assert users <= {"cli.py", "commands"}


def test_one_place_starts_the_program() -> None:
    starters = [
        path.name for path in SOURCES if re.search(r"posix_spawn|os\.exec|Popen", path.read_text(encoding="utf-8"))
    ]
    assert starters == ["program.py"]


def test_functions_and_modules_are_short() -> None:
    for path in [*SOURCES, *(WORKBENCH / "tests").glob("*.py")]:
        text = path.read_text(encoding="utf-8")
        assert text.count("\n") <= LONGEST_MODULE, path.name
        for node in ast.walk(ast.parse(text)):
            if isinstance(node, ast.FunctionDef):
                assert (node.end_lineno or 0) - node.lineno < LONGEST_FUNCTION, f"{path.name}: {node.name}"


def test_the_readme_of_the_workbench_runs(folder: Path) -> None:
    text = (WORKBENCH / "README.md").read_text(encoding="utf-8")
    scripts = re.findall(r"^```python\n(.*?)^```", text, re.M | re.S)
    (folder / "plan.toml").write_bytes((EXAMPLES / "ladder" / "plan.toml").read_bytes().replace(b'"S1"', b'"L1"'))
    (folder / "other.toml").write_text('[[element]]\nname = "M.1"\n')
    (folder / "works.csv").write_text("at,what,target,value\n02:00,down,R3,\n")
    said = []
    for script in scripts:
        (folder / "script.py").write_text(script)
        ran = started(["/usr/bin/python3", "script.py"], folder, b"", PYTHONPATH=str(WORKBENCH / "src"))
        assert ran.status == 0, ran.err
        said += ran.out.decode().splitlines()
    elements, refused, night, survey = said
    assert elements == "[]" and refused.startswith('16 element 1 other.toml:2: `name = "M.1"`: ')
    assert night.startswith("True [")
    # (5 links and 4 elements, and 36 pairs of these but for the 10 of an element and a link of its own)
    assert survey.startswith("35 [(")


def test_what_documents_name_is_there() -> None:
    ran = started([str(TOP / "docs" / "check_names")])
    assert (ran.status, ran.out.count(b"\n")) == (0, 1), ran.out


def test_what_documents_name_and_is_nowhere_is_told(tmp_path: Path) -> None:
    document = tmp_path / "notes.md"
    files = ["src/no_file.rt", "docs/no_file.md", "crates/*/no_folder"]
    wrong = ["nowhere.md", "#nowhere", *files, "no_" + "such_name", "Plan::no_" + "such_line"]
    links = f"[a file]({wrong[0]}), [a heading]({wrong[1]}), [this one](#of-sync_topo)"
    names = ", ".join(f"`{name}`" for name in (*wrong[2:], "src/wiring.rt", "docs/use/guide.md", "lines_out", "code-N"))
    document.write_text(f"# Of sync_topo\n{links}, {names}\n```sh\n`{wrong[-1]}`\n```\n", encoding="utf-8")
    ran = started([str(TOP / "docs" / "check_names"), str(document)])
    told = [line.rpartition(":2: ")[2].removesuffix(" isn't there") for line in ran.out.decode().splitlines()]
    assert ran.status == 1
    assert told == [*wrong, "12 names, 7 not there"]


def test_commands_that_documents_name_and_that_are_nowhere_are_told(tmp_path: Path) -> None:
    document = tmp_path / "notes.md"
    right = ["murdjohe repair PLAN", "murdjohe check PLAN CERT", "murdjohe help plan", "murdjohe capture read FILE"]
    right += [
        "python3 -m bench.compare.sim PROGRAM",
        "python3 -m bench.reference --rows",
        "python3 -m json.tool",
        "bench/check PROGRAM",
    ]
    wrong = {"murdjohe correct PLAN": "murdjohe correct", "bench/nothing PROGRAM": "bench/nothing"}
    wrong["python3 -m bench.compare.nothing PROGRAM"] = "bench.compare.nothing"
    document.write_text(", ".join(f"`{code}`" for code in (*right, *wrong)) + "\n", encoding="utf-8")
    ran = started([str(TOP / "docs" / "check_names"), str(document)])
    told = [line.rpartition(":1: ")[2].removesuffix(" isn't there") for line in ran.out.decode().splitlines()]
    assert (ran.status, told) == (1, [*wrong.values(), "11 names, 3 not there"])


def counted_documents(folder: Path, guide: str, readme: str) -> tuple[int, list[str]]:
    """What docs/check_words says of a folder with these two documents."""
    (folder / "docs" / "use").mkdir(parents=True)
    (folder / "docs" / "use" / "guide.md").write_text(guide, encoding="utf-8")
    (folder / "README.md").write_text(readme, encoding="utf-8")
    ran = started([str(TOP / "docs" / "check_words"), str(folder)])
    return ran.status, ran.out.decode().splitlines()


def test_words_of_documents_are_counted_apart(tmp_path: Path) -> None:
    # by hand: # A guide / $ run / one two / the end, with the marks of the block: 3 + 6 + 2; generated: marks 4 and 3, and | x |
    block = "```console\n$ run\none two\n```\n"
    guide = f"# A guide\n{block}<!-- rows: cuts -->\n| x |\n<!-- end -->\nthe end\n"
    status, said = counted_documents(tmp_path, guide, "three words here\n")
    assert status == 0
    assert said == [
        "docs/use/guide.md: 21 words: 11 by hand (6 in blocks), 10 generated",
        "docs/: 21 words: 11 by hand (6 in blocks), 10 generated; at most 40,000",
        "README.md: 3 words: 3 by hand (0 in blocks), 0 generated; at most 900",
    ]


def test_too_many_words_are_told(tmp_path: Path) -> None:
    for name, of_docs, of_readme, wanted in (
        ("most", 40_000, 900, (0, "at most", "at most")),
        ("docs", 40_001, 900, (1, "too many: at most", "at most")),
        ("readme", 40_000, 901, (1, "at most", "too many: at most")),
    ):
        status, said = counted_documents(tmp_path / name, "word " * of_docs, "word " * of_readme)
        ends = [line.rpartition("; ")[2].rpartition(" ")[0] for line in said[1:]]
        assert (status, *ends) == wanted
