"""`orders --template`: whole texts for three elements, the ports beside a plan, and what is told of a template with a mistake."""

from __future__ import annotations

from pathlib import Path

import pytest
from conftest import EXAMPLES, murdjohe

from murdjohe.core.faults import Wrong
from murdjohe.plan import side_table
from murdjohe.plan.model import Link, Plan
from murdjohe.works import templates

TEMPLATES = EXAMPLES / "templates"
PLAN = str(TEMPLATES / "plan.toml")
XR_HEAD = """! {0}: 1 input, by {1}
frequency synchronization
 quality itu-t option 1
!
"""
XR_LINE = """interface {0}
 ! 1. from {1} over {2}; QL-PRTC at rest
 frequency synchronization
  selection input
  priority 1
  wait-to-restore 5
 !
!
"""
XR_SOURCE = """clock-interface sync 0 location 0/RP0/CPU0
 ! 1. source GNSS; QL-PRTC at rest
 frequency synchronization
  selection input
  priority 1
  wait-to-restore 5
 !
!
"""
JUNOS_HEAD = """# {0}, by {1}
set chassis synchronization network-option option-1
set chassis synchronization quality-mode-enable
set chassis synchronization selection-mode received-quality
set chassis synchronization hold-interval restart 60
"""
JUNOS_LINE = """set chassis synchronization source interfaces {0} priority 1
set chassis synchronization source interfaces {0} wait-to-restore 5
set chassis synchronization esmc-transmit interfaces {0}
"""
JUNOS_SOURCE = "set chassis synchronization source bits priority 1\n"


def made(folder: Path, template: str, *words: str) -> dict[str, str]:
    ran = murdjohe("orders", PLAN, "--template", str(TEMPLATES / template), "-o", str(folder / "o"), *words)
    assert ran.status == 0, ran.err
    return {path.name: path.read_text() for path in (folder / "o").iterdir()}


def test_the_template_of_xr_gives_a_file_for_each_element(tmp_path: Path) -> None:
    assert made(tmp_path, "iosxr.cfg.j2") == {
        "A.cfg": XR_HEAD.format("A", PLAN) + XR_SOURCE,
        "B.cfg": XR_HEAD.format("B", PLAN) + XR_LINE.format("Te0/0/0/7", "A", "L1"),
        "C.cfg": XR_HEAD.format("C", PLAN) + XR_LINE.format("Te0/0/0/8", "B", "L2"),
    }


def test_the_template_of_junos_gives_a_file_for_each_element(tmp_path: Path) -> None:
    assert made(tmp_path, "junos.set.j2") == {
        "A.set": JUNOS_HEAD.format("A", PLAN) + JUNOS_SOURCE,
        "B.set": JUNOS_HEAD.format("B", PLAN) + JUNOS_LINE.format("Te0/0/0/7"),
        "C.set": JUNOS_HEAD.format("C", PLAN) + JUNOS_LINE.format("Te0/0/0/8"),
    }


def test_what_is_taken_back_comes_where_something_differs(tmp_path: Path) -> None:
    old = tmp_path / "old.toml"
    old.write_text((TEMPLATES / "plan.toml").read_text().replace('b = "C"', 'b = "C"\npriority_a = 2'))
    made_files = made(tmp_path, "junos.set.j2", "--from", str(old))
    gone = """delete chassis synchronization source interfaces Te0/0/0/2
delete chassis synchronization esmc-transmit interfaces Te0/0/0/2
"""
    assert made_files == {"B.set": JUNOS_HEAD.format("B", PLAN) + gone + JUNOS_LINE.format("Te0/0/0/7")}


@pytest.mark.parametrize(
    "text, told",
    [
        ("{{ element.name }}\n{{ element.rack }}\n", "{path}:2: for element A: 'rack' isn't known"),
        ("{% for input in inputs %}\n{{ nothing }}\n{% endfor %}\n", "{path}:2: for element A: 'nothing' isn't known"),
        ("{% for input in inputs %}\n", "{path}:1: "),
        ("{{ 1 // 0 }}\n", "{path}:1: for element A: "),
        ("{{ ''.__class__.__mro__ }}\n", "{path}:1: for element A: "),
    ],
)
def test_a_mistake_is_told_with_file_line_and_element(tmp_path: Path, text: str, told: str) -> None:
    template = tmp_path / "t.cfg.j2"
    template.write_text(text)
    ran = murdjohe("orders", PLAN, "--template", str(template), "-o", str(tmp_path / "o"))
    assert ran.status == 24 and ran.out == b"" and f"murdjohe: {told.format(path=template)}" in ran.err
    assert "Traceback" not in ran.err and not (tmp_path / "o").exists()


def test_a_port_that_is_not_known_is_an_error(tmp_path: Path) -> None:
    (tmp_path / "plan.toml").write_text((TEMPLATES / "plan.toml").read_text())
    words = ["--template", str(TEMPLATES / "junos.set.j2"), "-o", str(tmp_path / "o")]
    ran = murdjohe("orders", str(tmp_path / "plan.toml"), *words)
    assert ran.status == 24 and "for element B: 'port' isn't known; ports stand in the table PLAN.ports.csv" in ran.err


def test_files_that_are_there_stay(tmp_path: Path) -> None:
    made(tmp_path, "junos.set.j2")
    again = murdjohe("orders", PLAN, "--template", str(TEMPLATES / "iosxr.cfg.j2"), "-o", str(tmp_path / "o"))
    assert again.status == 0 and len(list((tmp_path / "o").iterdir())) == 6
    once_more = murdjohe("orders", PLAN, "--template", str(TEMPLATES / "iosxr.cfg.j2"), "-o", str(tmp_path / "o"))
    assert once_more.status == 22 and "are there already" in once_more.err


@pytest.mark.parametrize(
    "words, told",
    [
        (["--template", "t.j2"], "name a folder by -o"),
        (["--template", "t.j2", "--csv", "-o", "o"], "it has a form of its own"),
        (["--template", "t.j2", "--steps", "--from", PLAN, "-o", "o"], "ask for one of them"),
        (["--steps"], "name the old one by --from"),
    ],
)
def test_options_that_do_not_go_together(words: list[str], told: str) -> None:
    ran = murdjohe("orders", PLAN, *words)
    assert ran.status == 2 and told in ran.err


def test_the_ending_of_a_file_is_that_of_the_template() -> None:
    assert [templates.ending_of(name) for name in ("x/a.cfg.j2", "a.jinja", "a.set.jinja2", "b.txt")] == [
        ".cfg",
        ".txt",
        ".set",
        ".txt",
    ]


@pytest.mark.parametrize(
    "text, told",
    [
        ("kind,name,value\n", ":1: the header has to be kind,name,column,value"),
        ("kind,name,column,value\nlink,L9,port_a,1\n", ":2: the plan has no link 'L9'"),
        ("kind,name,column,value\ncable,L1,port_a,1\n", ":2: 'cable' is no kind"),
        ("kind,name,column,value\nlink,L1,port_a\n", ":2: the row has 3 fields"),
        (
            "kind,name,column,value\nlink,L1,port_a,1\nlink,L1,port_a,2\n",
            ":3: port_a of link 'L1' stands above already",
        ),
    ],
)
def test_mistakes_of_a_table_of_ports(text: str, told: str) -> None:
    network = Plan("I", (), (Link("L1", "A", "B"),), ())
    with pytest.raises(Wrong) as wrong:
        side_table.side_of("p.ports.csv", text, network)
    assert wrong.value.status == 24 and told in str(wrong.value)
