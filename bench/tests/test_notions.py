"""Which files of specs/ definitions.md names, over a repository of three crates, and how docs/check_words counts them."""

from __future__ import annotations

from pathlib import Path

import pytest

from bench.definitions.publicness import read_crates, rested_on
from bench.definitions.spec_files import read_specs
from bench.notions import faults, files_of, filled, line, orders_of, rest_of_call
from bench.program import put_files
from bench.repository import script

RUN = """\
ghost use Rattle.std.specs.Prelude.{◌≡◌};
ghost use Rattle.sync_top.specs.Forms.Check.{said};
ghost use Rattle.sync_top.specs.Other.{other};

/// Answers.
pub fn run(x: u8) -> u64
    ensures answered { result ≡ said x }
{
    0
}

/// Another.
pub fn more(x: u8) -> u64
    ensures { result ≡ other x }
{
    0
}
"""
SAID = "-- What is said.\nuse Rattle.low.specs.First.{first}\nuse Rattle.low.specs.Last.{last}\n\nabbrev pub said : ℕ → ℕ\nsaid n = first (last n)\n"


def one(name: str) -> str:
    """A file of one definition."""
    return f"abbrev pub {name} : ℕ → ℕ\n{name} n = n\n"


@pytest.fixture
def crates(tmp_path: Path) -> Path:
    """low with two files of specs/ on which the top call rests and one on which it doesn't, and sync_top above it."""
    files = {
        "low/specs/Lib.antt": "pub mod Last\npub mod First\npub mod Unused\n",
        "low/specs/First.antt": one("first"),
        "low/specs/Last.antt": one("last"),
        "low/specs/Unused.antt": one("unused"),
        "low/src/lib.rt": "//! Low.\n",
        "sync_top/specs/Lib.antt": "pub mod Forms\npub mod Other\n",
        "sync_top/specs/Forms/Check.antt": SAID,
        "sync_top/specs/Other.antt": one("other"),
        "sync_top/src/lib.rt": "//! Top.\n\nmod program;\npub use program::{run, more};\n",
        "sync_top/src/program.rt": RUN,
    }
    put_files(tmp_path, files)
    return tmp_path


def test_the_files_are_those_that_the_top_call_rests_on(crates: Path) -> None:
    specs, read = read_specs(crates), read_crates(crates)
    assert rest_of_call(specs, read) == {("sync_top", "Forms.Check"), ("low", "First"), ("low", "Last")}
    assert files_of(rested_on(specs, read, lambda crate, item: item.name == "more")) == {("sync_top", "Other")}


def test_a_crate_has_the_order_of_its_lib_without_what_has_a_place_of_its_own(crates: Path) -> None:
    files = {("low", "First"), ("low", "Last")}
    last, first = "[`Last`](../../crates/low/specs/Last.antt)", "[`First`](../../crates/low/specs/First.antt)"
    text, shown = filled("a\n<!-- specs: low -->\nold\nb\n", files, orders_of(crates))
    assert text == f"a\n<!-- specs: low -->\nlow {last}, {first}\nb\n"
    assert shown == [("low", "Last"), ("low", "First")]
    two = "<!-- specs: low.First -->\n\n<!-- specs: low -->\n\n"
    text, _ = filled(two, files, orders_of(crates))
    assert text == f"<!-- specs: low.First -->\nlow {first}\n<!-- specs: low -->\nlow {last}\n"
    assert filled(text, files, orders_of(crates))[0] == text


def test_files_of_a_folder_are_named_by_the_folder() -> None:
    files = [("top", "Forms.Check"), ("top", "Forms.Rank"), ("low", "First")]
    forms, first = "[`Forms/`](../../crates/top/specs/Forms)", "[`First`](../../crates/low/specs/First.antt)"
    assert line(files) == f"top {forms}; low {first}"


def test_a_file_has_one_place_and_a_public_clause() -> None:
    rests, public = {("low", "First"), ("low", "Last")}, {("low", "First"), ("low", "Last"), ("low", "Other")}
    assert faults([("low", "Last"), ("low", "Other"), ("low", "First")], rests, public) == []
    assert faults([("low", "First"), ("low", "First"), ("low", "Gone")], rests, public) == [
        "low Gone: no public clause rests on it",
        "low First: it stands in two sections",
        "low Last: no section has it",
    ]


def test_the_line_of_names_is_counted_as_generated() -> None:
    count = script("docs/check_words").counted(
        "one two\n\n<!-- specs: low.First low -->\nlow `First`, `Last`\n\nthree\n"
    )
    assert (count.whole, count.generated) == (11, 8)
