"""Documents as version 1.1 of TOML spells them are read as the program reads them."""

from __future__ import annotations

import tomllib

import pytest
from conftest import murdjohe
from hypothesis import given
from hypothesis import strategies as st

from murdjohe.core import toml_reader

NEWER = [
    ("a = {b = 1,}", {"a": {"b": 1}}),
    ('a = {\n  b = 1, # one }\n  c = "}\\n",\n}\n', {"a": {"b": 1, "c": "}\n"}}),
    ('a = "\\e[2J\\x41\\\\e"', {"a": "\x1b[2JA\\e"}),
    ("a = [\n  {b = 1},\n  {\n   b = 2\n  },\n]", {"a": [{"b": 1}, {"b": 2}]}),
]


@pytest.mark.parametrize(("text", "tables"), NEWER)
def test_newer_spellings(text: str, tables: object) -> None:
    assert toml_reader.tables(text) == tables


def test_the_program_takes_such_a_plan() -> None:
    plan = 'element = [\n  {name = "\\x41",}, # A\n  {\n    name = "B"\n  }]\n[[link]]\nname = "L"\na = "A"\nb = "B"\npriority_b = 1\n'
    ran = murdjohe("rank", "-", stdin=plan.encode())
    assert (ran.status, ran.out) == (0, b"line,rank\nL>B,0\n")
    assert "2 elements, 1 nominated line, greatest rank 0" in ran.err


@pytest.mark.parametrize("text", ["a = {b = 1", "a = }", "a = {,}", "a = 'x\ny'", 'a = "\\q"', "[a"])
def test_what_is_no_document_is_none(text: str) -> None:
    with pytest.raises(tomllib.TOMLDecodeError):
        toml_reader.tables(text)


LINES = st.sampled_from(
    [*"[[a]] [[b-1]] [a] y=7".split(), "[[ a ]]", 'x = "s"', "y = 7", "a = 1", "", " ", "x = 0", "x = 01", "x = -1"]
    + ["# c", 'x = "\u00e9 "', 'x = "\\n"', 'x = "\t"', "x = 's'", "x.y = 1", "x = 1 # c", "y = 7\r", 'x = "a"b"']
    + ["x = 1_0"]
)
PLAIN = st.sampled_from(["[[a]]", "[[b-1]]", 'x = "s"', "y = 7", "x = 0", "z = 123456789012345678", "", 'w = "é "'])


@given((st.lists(LINES, max_size=6) | st.lists(PLAIN, max_size=9)).map("\n".join))
def test_a_plain_document_is_read_as_any_other(text: str) -> None:
    found = toml_reader.plain(text)
    assert found is None or found == tomllib.loads(text)


def test_what_the_program_prints_is_plain() -> None:
    ran = murdjohe("gen", "5")
    assert toml_reader.plain(ran.out.decode()) == tomllib.loads(ran.out.decode())
    assert toml_reader.plain('x = "a"\n[[b]]\nx = 1\n\n[[b]]\nx = 2') == {"x": "a", "b": [{"x": 1}, {"x": 2}]}
    for other in ("x = 1\nx = 1", "a = 1\n[[a]]", "[a]\n[[a]]"):
        assert toml_reader.plain(other) is None


@given(st.text(alphabet="ab={}[],\"'#\n\\ex1 .", max_size=40))
def test_no_text_breaks_it(text: str) -> None:
    assert len(toml_reader.masked(text)) == len(text)
    try:
        toml_reader.tables(text)
    except tomllib.TOMLDecodeError:
        pass
