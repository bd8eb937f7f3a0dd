"""What bench.clauses, bench.words and bench.measure.headline take out of the source, and what docs/check_style finds."""

from __future__ import annotations


from bench.clauses import Call, Clause, clauses_at, comment_above, filled, first_sentence, whole
from bench.definitions import rust_items
from bench.measure.headline import counted_row, files_of, lost_in_readme
from bench.repository import script

SOURCE = """\
/// Gives the sum of `a` and `b`. It is never less
/// than either.
#[tactic(auto)]
pub fn add(a: u32, b: u32) -> u64
    requires small { a ≤ 9 }
    // What comes out is the sum,
    // whatever the order.
    ensures sum { result ≡ a + b }
    ensures { result ≤ 2 ^ 33 }
{
    0
}
"""


def clauses() -> list[Clause]:
    plain = rust_items.without_hidden(SOURCE)
    return list(clauses_at(plain, SOURCE, plain.index("pub fn")))


def test_clauses_come_with_their_comments() -> None:
    assert clauses() == [
        Clause("requires", "small", "a ≤ 9", ""),
        Clause("ensures", "sum", "result ≡ a + b", "What comes out is the sum, whatever the order."),
        Clause("ensures", "", "result ≤ 2 ^ 33", ""),
    ]


def test_a_comment_ends_where_something_else_stands() -> None:
    assert comment_above(SOURCE.split("\n"), 3, "///") == "Gives the sum of `a` and `b`. It is never less\nthan either."
    assert (
        first_sentence("Gives the sum of `a` and `b`. It is never less\nthan either.")
        == "Gives the sum of `a` and `b`."
    )


def test_a_call_has_its_clauses_with_their_formulas() -> None:
    assert whole(Call("Adder", "add", "Gives the sum.", tuple(clauses()))).split("\n") == [
        "**`Adder::add`**: Gives the sum.",
        "",
        "- `small` (owed): `a ≤ 9`",
        "- `sum`: What comes out is the sum, whatever the order. `result ≡ a + b`",
        "- unnamed: `result ≤ 2 ^ 33`",
        "",
    ]


def test_a_document_has_the_parts_that_the_source_says() -> None:
    said = (
        Clause("ensures", "safe", "..", "Of `check`, and of `trial`. All is well. Not said: why."),
        Clause("ensures", "calm", "..", "No call failed."),
    )
    before = "a\n<!-- clauses: headlines -->\nold\n<!-- end -->\nb\n<!-- clauses: others -->\n<!-- end -->\n"
    assert filled(before, said) == (
        "a\n<!-- clauses: headlines -->\n\n**`safe`** (`check`, and of `trial`). All is well. *Not said*: why.\n"
        "\n<!-- end -->\nb\n<!-- clauses: others -->\n\n| clause | what it says |\n|---|---|\n"
        "| `calm` | No call failed. |\n\n<!-- end -->\n"
    )
    assert filled(filled(before, said), said) == filled(before, said)


def test_a_row_counts_the_files_that_it_names() -> None:
    cell = " sync_topo `Bundles`, `Hops`, sync_ql `Level` "
    assert files_of(cell) == [("sync_topo", "Bundles"), ("sync_topo", "Hops"), ("sync_ql", "Level")]
    counts = {("sync_topo", "Hops"): 5, ("sync_ql", "Level"): 7, ("sync_ql", "Table"): 1}
    assert counted_row(f"|{cell}| 0 | what |", counts) == f"|{cell}| 12 | what |"
    assert counts == {("sync_ql", "Table"): 1}


def test_the_readme_has_the_numbers_of_the_headline() -> None:
    headline = "## No loop (`IsLoopFree`): 12 lines\n\n## Which plan (`IsCheckedLoopFree`): 7 lines more\n"
    said = "To trust that, read 12 lines of definitions; that it is the plan in your file, 7 more."
    assert lost_in_readme(said, headline) == []
    wanted = "read 12 lines of definitions; that it is the plan in your file, 7 more"
    assert lost_in_readme(said.replace("7", "8"), headline) == [f"README.md should say: {wanted}"]


def test_style_finds_words_and_long_sentences() -> None:
    text = "He knows whence it comes, `whence` aside.\n\n```\nwhence\n```\n\n" + "word " * 46 + "end.\n"
    assert list(script("docs/check_style").finds("x.md", text)) == [
        "x.md:1: whence: better: where .. from",
        "x.md:7: a sentence of 47 words",
    ]
