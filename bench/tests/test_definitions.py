"""Definitions as texts, and which of them a public clause rests on, in repositories of a few lines."""

from __future__ import annotations

from pathlib import Path

import pytest

from bench.definitions import __main__ as sides
from bench.definitions.publicness import public_definitions, read_crates
from bench.definitions.rust_items import parse_rust
from bench.definitions.spec_files import Key, parse, read_specs
from bench.measure import headline
from bench.program import put_files

KEPT = """\
-- What is kept.
use Rattle.std.specs.Prelude.{ℕ, ◌+◌, ◌*◌}

-- twice
abbrev pub twice : ℕ → ℕ
twice n = n + n

-- three times, for which twice is enough
abbrev pub thrice : ℕ → ℕ
thrice n = twice n + n
"""
SQUARE = "abbrev pub square : ℕ → ℕ\nsquare n = n * n\n"
SOURCE = "//! Low.\n\nmod inner;\npub use inner::double;\n"
INNER = """\
ghost use Rattle.std.specs.Prelude.{◌≡◌};
ghost use Rattle.low.specs.Kept.{twice};
ghost use Rattle.low.specs.private.Square.{square};

/// Twice a number.
pub fn double(x: u8) -> u64
    ensures { result ≡ twice x }
{
    hidden(x)
}

fn hidden(x: u8) -> u64
    ensures squared { result ≡ square x }
{
    0
}
"""
HIGH = """\
ghost use Rattle.low.specs.Kept as kept;

pub struct Held {
    pub count: u8,
}

impl Model for Held {
    ghost invariant = { kept.thrice count ≡ 3 };
}

pub fn held() -> Held {
    Held { count: 1 }
}
"""


@pytest.fixture
def crates(tmp_path: Path) -> Path:
    """Two crates: low with three definitions, and high above it."""
    files = {
        "low/specs/Kept.antt": KEPT,
        "low/specs/private/Square.antt": SQUARE,
        "low/src/lib.rt": SOURCE,
        "low/src/inner.rt": INNER,
        "high/src/lib.rt": HIGH,
    }
    put_files(tmp_path, files)
    return tmp_path


def test_what_a_public_clause_names_is_public_and_invariants_make_nothing_so(crates: Path) -> None:
    assert public_definitions(read_specs(crates), read_crates(crates)) == {Key("low", "Kept", "twice")}


def test_what_stands_on_the_wrong_side_is_told(crates: Path, capsys: pytest.CaptureFixture[str]) -> None:
    assert sides.main(["--crates", str(crates)]) == 1
    line = "low/specs/Kept.antt: no public clause rests on thrice\n"
    assert capsys.readouterr().out == f"{line}3 definitions, 1 on the wrong side\n"
    (crates / "low/src/lib.rt").write_text("//! Low.\n\npub mod inner;\n", encoding="utf-8")
    (crates / "low/src/inner.rt").write_text(INNER.replace("fn hidden", "pub fn hidden"), encoding="utf-8")
    assert sides.main(["--crates", str(crates)]) == 1
    assert "low/specs/private/Square.antt: a public clause rests on square\n" in capsys.readouterr().out


def test_nothing_is_told_where_each_stands_on_its_side(crates: Path) -> None:
    (crates / "high/src/lib.rt").write_text(HIGH.replace("ghost invariant =", "ghost view ="), encoding="utf-8")
    assert sides.main(["--crates", str(crates)]) == 0


def test_definitions_are_told_apart() -> None:
    text = "-- Head.\nuse Rattle.std.specs.Prelude.{ℕ}\n\n-- goes on\ninfixl 10 ◌>>=◌\nabbrev pub ◌>>=◌ : ℕ\n(f x) >>= g = 1\n\n"
    text += "pub record R (n : ℕ) : Type 0 where\n  pub one : ℕ\n\npub data D : Type 0 where\n  a : D\n  b : ℕ → D\n\n"
    file = parse("low", "Kept", text + "plain : ℕ\nplain = 1\n")
    assert [item.name for item in file.items] == ["◌>>=◌", "R", "D", "plain"]
    assert file.items[0].lines[:2] == ["-- goes on", "infixl 10 ◌>>=◌"]
    assert file.names["b"] is file.items[2]
    assert file.head == ["-- Head."]


def test_clauses_are_told_apart_from_bodies() -> None:
    text = "pub fn f(x: [u8; 4]) -> u8\n    requires { a x }\n    ensures b { c { d } }\n{\n    g(|| requires { e } { 1 })\n}\n"
    text += 'impl Model for S {\n    ghost view = { seen };\n}\npub struct S {\n    pub ghost is_row: { held },\n    // "{"\n}\n'
    items = parse_rust((), text).items
    assert [clause.strip() for clause in items[0].clauses] == ["a x", "c { d }"]
    assert items[1].inner[0].clauses == [" seen "]
    assert items[2].clauses == [" held "]


def test_a_word_rests_on_what_it_names_each_with_its_lines(crates: Path) -> None:
    specs = read_specs(crates)
    keys = headline.closure(specs, [headline.key_of("low.Kept.thrice"), headline.key_of("low.private.Square.square")])
    assert [key.name for key in keys] == ["twice", "thrice", "square"]
    assert [headline.length(specs, key) for key in keys] == [2, 2, 2]
