"""What the wrong bodies' command works out for itself."""

import collections
import pathlib

from bench.mutants import __main__ as command
from bench.mutants.edits import applies, edited, edits_of, read_edit, twice
from bench.mutants.trying import function_of, module_of, refusal_of, standing_on, verdicts
from bench.program import TOP

EDIT = "# Says less; refused by `all`.\nfile: src/lib.rt\nold: a < b\nnew: a <= b\nold: end\nnew:\n"


def written(folder: pathlib.Path, text: str) -> pathlib.Path:
    """An edit of a crate `one` in a folder, with a crate that it may change."""
    (folder / "crates" / "one" / "src").mkdir(parents=True)
    (folder / "crates" / "one" / "src" / "lib.rt").write_text("if a < b { 1 } end\n", encoding="utf-8")
    path = folder / "bench" / "mutants" / "one" / "says-less.edit"
    path.parent.mkdir(parents=True)
    path.write_text(text, encoding="utf-8")
    return path


def test_an_edit_has_a_file_and_pairs(tmp_path: pathlib.Path) -> None:
    edit = read_edit(written(tmp_path, EDIT), "one")
    assert (edit.label, edit.file, edit.pairs, edit.gap) == (
        "one/says-less",
        "src/lib.rt",
        (("a < b", "a <= b"), ("end", "")),
        "",
    )
    assert edited("if a < b { 1 } end\n", edit) == "if a <= b { 1 } \n"
    assert applies(edit, tmp_path) and edits_of(tmp_path) == [edit]


def test_a_text_that_stands_twice_or_not_at_all_is_no_place(tmp_path: pathlib.Path) -> None:
    edit = read_edit(written(tmp_path, EDIT), "one")
    assert edited("a < b, a < b, end", edit) is None and edited("a < b", edit) is None
    (tmp_path / "crates" / "one" / "src" / "lib.rt").write_text("another\n", encoding="utf-8")
    assert not applies(edit, tmp_path)
    assert twice([edit, edit]) == ["one/says-less"] and twice([edit]) == []


def test_what_stands_on_a_crate_that_changed_is_tried_too() -> None:
    crates: dict[str, list[str]] = {"low": [], "middle": ["low"], "high": ["middle"], "beside": []}
    assert standing_on(crates, {"middle"}) == {"middle", "high"}
    assert standing_on(crates, set()) == set()


SAID = """rt: one proved
rt: must-fail one/a.edit: refused, as it must be: src/lib.rt:3:5: error[contract]: clause `all`
rt: must-fail one/b.edit: NOT REFUSED: the crate is still proved with this edit (..)
rt: must-fail one/c.edit: BAD EDIT: its text stands twice
"""


def test_what_is_said_of_edits_is_read() -> None:
    found = verdicts(SAID)
    assert found["one/a"] == ("refused", "src/lib.rt:3:5: error[contract]: clause `all`")
    assert found["one/b"][0] == "passed" and found["one/c"][0] == "doesn't apply"


def test_a_gap_that_is_named_is_no_error(tmp_path: pathlib.Path) -> None:
    gap = read_edit(written(tmp_path, EDIT + "# gap: it means the same.\n"), "one")
    passed = {"one/says-less": ("passed", "")}
    assert gap.gap == "it means the same."
    assert command.is_well(command.counted([gap], passed))
    assert command.told(gap, *passed["one/says-less"]) == "one/says-less: a gap: it means the same."
    assert not command.is_well(collections.Counter({"refused": 3, "not tried": 1}))


def test_each_edit_of_this_repository_applies_and_has_a_name_of_its_own() -> None:
    edits = edits_of(TOP)
    assert len(edits) >= 160 and twice(edits) == []
    assert [edit.label for edit in edits if not applies(edit, TOP)] == []


PARTLY = """fn one::choice::stands: proved
./proofs/choice/f/Answers.antt:12:19: error: `returns-2`: record `Past` has no field `g-input`
./proofs/choice/f/Answers.antt:10:15: error: `returns-1`: `search`: no proof of `a`
fn one::choice::f: not proved
only=2 proved=1
"""


def test_what_a_check_of_one_module_says_is_read() -> None:
    assert refusal_of(PARTLY) == "one::choice::f, proofs/choice/f/Answers.antt: `returns-1`: `search`: no proof of `a`"
    names = "\n".join(line for line in PARTLY.splitlines() if "search" not in line)
    assert refusal_of(names) == "one::choice::f, only because a proof names what the edit took away"
    open_goal = "fn one::choice::f: no proof: expected answers in ./proofs/choice/f/Answers.antt; `search` did not prove `taken`"
    assert refusal_of(open_goal + "\nonly=2 proved=1\n") == "one::choice::f: `search` did not prove `taken`"
    assert refusal_of("fn one::choice::f: proved\nonly=1 proved=1\n") is None
    assert refusal_of("src/choice.rt:1:1: error: expected the end\n" + PARTLY) is None


def test_a_module_is_named_by_its_file() -> None:
    files = ["src/choice.rt", "src/running/ends.rt", "src/lib.rt", "specs/Choice.antt", "src/main.rt"]
    assert [module_of(file) for file in files] == ["choice", "running::ends", None, None, None]


FUNCTIONS = """const LEAST: u64 = 1;

pub(crate) fn first(a: u64) -> u64
    requires a > 0
{
    a - 1
}

impl<'a> Model for Lines<'a> {
    fn model(&self) -> u64 {
        2
    }
}

impl Tree {
    pub fn height(&self) -> u64 {
        3
    }
}
"""


def test_a_function_is_named_by_its_module_and_its_type() -> None:
    places = {"LEAST": "trees", "a - 1": "trees::first", " 2\n": "trees::Lines::model", " 3\n": "trees::Tree::height"}
    assert {text: function_of(FUNCTIONS, "trees", FUNCTIONS.index(text)) for text in places} == places
