"""Cases of a survey that are made, cut and counted many at once: beside the plain way, which does so one by one."""

from __future__ import annotations

from pathlib import Path

import pytest
from conftest import EXAMPLES
from hypothesis import given
from hypothesis import strategies as st

from murdjohe.answers import studies
from murdjohe.core import program
from murdjohe.core.documents import Document
from murdjohe.plan.model import Link, Plan
from murdjohe.plan.plan_lines import PlanLines
from murdjohe.runs import failures
from murdjohe.runs.failures import Failure
from murdjohe.runs.moments import Event
from murdjohe.survey import case_files, case_lists, portions, stretches, study_runs
from murdjohe.survey.case_lists import CaseList
from murdjohe.survey.portions import Part
from murdjohe.survey.tallies import Tally

AT = 7
PARTS = [f"L{number}" for number in range(6)]
# (names that are clear, and such as can be read in two ways or are those of pairs by their numbers)
CLEAR = st.text("abc", min_size=1, max_size=3) | st.sampled_from(["a-b", "q" * 14, "r" * 17, "s" * 32])
NAMES = CLEAR | st.text("ab-", min_size=1, max_size=6) | st.sampled_from(["pair-4", "link-2", "-", "a--b"])
SPANS = st.tuples(st.integers(1, 30), st.integers(1, 40) | st.none())


def found_by(names: st.SearchStrategy[str], is_unique: bool) -> st.SearchStrategy[list[Failure]]:
    """Failures of these names, most of which take one thing down, in the plan's order or not."""
    down = st.sampled_from(PARTS).map(lambda one: [one]) | st.lists(st.sampled_from(PARTS), min_size=1, max_size=4)
    one = st.builds(lambda name, its: Failure("link", name, tuple(its)), names, down)
    unique_by = (lambda failure: failure.name) if is_unique else None
    return st.lists(one, max_size=8, unique_by=unique_by)


def listed(found: list[Failure], has_pairs: bool, span: tuple[int, int | None]) -> CaseList:
    network = Plan("I", (), tuple(Link(name, "A", "B") for name in PARTS), ())
    return case_lists.of_failures(network, found, has_pairs, AT, (), span)


def plain_cases(found: list[Failure], has_pairs: bool, span: tuple[int, int | None]) -> list[tuple[str, str]]:
    """The names and rows of the cases, one by one."""
    order = {name: number for number, name in enumerate(PARTS)}
    cases = failures.chosen(failures.cases_of(found, has_pairs, order), *span)
    return [(case.name, failures.case_lines(case, AT)) for case in cases]


@given(found_by(NAMES, False) | found_by(CLEAR, True), st.booleans(), SPANS, st.integers(1, 9))
def test_cases_by_stretches_are_those_one_by_one(
    found: list[Failure], has_pairs: bool, span: tuple[int, int | None], size: int
) -> None:
    wanted = plain_cases(found, has_pairs, span)
    cases = listed(found, has_pairs, span)
    bunches = list(cases.each())
    assert [name for bunch in bunches for name in bunch.names] == [name for name, _ in wanted]
    assert "".join(bunch.table(0, len(bunch.names))[0].decode() for bunch in bunches) == "".join(
        rows for _, rows in wanted
    )
    assert cases.total == len(wanted) and all(bunch.names for bunch in bunches)
    head = f"{case_files.HEADER}\n"
    tables = [wanted[start : start + size] for start in range(0, len(wanted), size)]
    assert [part.data.decode() for part in portions.parts_of(cases, size)] == [
        head + "".join(rows for _, rows in table) for table in tables
    ]


@given(found_by(NAMES, False))
def test_those_that_make_no_pair_are_those_that_a_look_at_each_two_leaves_out(found: list[Failure]) -> None:
    nested = failures.nested_behind(found)
    pairs = [
        (found[one], found[other])
        for one, its in enumerate(nested)
        for other in range(one + 1, len(found))
        if other not in its
    ]
    assert pairs == [together for together in failures.sets_of(found, True) if len(together) == 2]
    assert failures.count_of(found, True) == len(found) + len(pairs)


@given(st.lists(NAMES, max_size=7))
def test_clear_names_are_those_of_no_other_case(names: list[str]) -> None:
    if stretches.are_clear(names):
        pairs = [f"{one}--{other}" for number, one in enumerate(names) for other in names[number + 1 :]]
        assert len({*names, *pairs}) == len(names) + len(pairs) and not any(name[:5] == "pair-" for name in names)


def test_which_names_are_clear() -> None:
    for names in (["a", "b"], ["a-b", "a"], ["core-1", "core-12", "core-1-2"], ["a--b", "b"]):
        assert stretches.are_clear(names), names
    for names in (["a", "a"], ["a", "a-"], ["a", "a--b"], ["pair-7"], ["x" * 33]):
        assert not stretches.are_clear(names), names


@given(found_by(CLEAR, True), st.integers(1, 6), st.integers(0, 90))
def test_parts_are_cut_where_the_program_takes_no_more(found: list[Failure], rows: int, octets: int) -> None:
    cases, head = listed(found, True, (1, None)), len(case_files.HEADER) + 1
    wanted, held = list[str](), ""
    with pytest.MonkeyPatch.context() as patched:
        patched.setattr(portions, "MOST_ROWS", 8 + rows)
        patched.setattr(program, "LONGEST_BESIDE", head + 300 + octets)
        for _, text in plain_cases(found, True, (1, None)):
            if held and ((held + text).count("\n") > 8 + rows or len(held + text) > 300 + octets):
                wanted.append(held)
                held = ""
            held += text
        parts = [part.data.decode()[head:] for part in portions.parts_of(cases, 99)]
    assert parts == [*wanted, *([held] if held else [])]


def test_a_part_of_a_table_knows_its_first_row(tmp_path: Path) -> None:
    path = tmp_path / "cases.csv"
    rows = "".join(f"c{number},5,down,L1,\nc{number},6,up,L1,\n" for number in range(1_300))
    path.write_text(f"{case_files.HEADER}\n,1,lockout,L1>B,\n\n{rows}")
    parts = list(portions.parts_of(case_files.CaseFile(str(path)).listed((4, None)), 900))
    assert [(len(part.names), part.first, part.row_of(1), part.row_of(2)) for part in parts] == [
        (900, 8, 1, 8),
        (397, 1_808, 1, 1_808),
    ]
    assert parts[1].data.decode().splitlines()[1:4] == [",1,lockout,L1>B,", "c903,5,down,L1,", "c903,6,up,L1,"]


def parts_of(plan: str, kinds: tuple[str, ...], common: tuple[Event, ...], size: int) -> list[Part]:
    network = PlanLines(Document("plan.toml", (EXAMPLES / plan).read_bytes())).network
    found = failures.failures_of(network, kinds)
    return list(portions.parts_of(case_lists.of_failures(network, found, True, 600_000, common, (1, None)), size))


def test_parts_have_the_names_that_they_always_had() -> None:
    """A survey that an earlier version began goes on: its parts are found by the checksums of their tables."""
    ring = parts_of("ring/plan.toml", ("links", "sources", "elements"), (), 8)
    assert [part.checksum[:32] for part in ring] == [
        "49e4acbb2ecfdaaa80daf218f2b27350",
        "f74fc99418187757c96cbbf6dc56db2f",
        "ae458541844d0aecfa11bb5c67d0b90b",
    ]
    mesh = parts_of("mesh/redundant.toml", failures.KINDS, (Event(5, "lockout", "L1>B", ""),), 40)
    assert [part.checksum[:32] for part in mesh] == [
        "a4f4d87fc3da25165647b13f6acce068",
        "4bed6516df18a31dca4d5af3f457619c",
        "0daa7ea174a61c7a129f8f986cb2f01e",
        "12603da802be454f6c66e653e0889364",
    ]


TAILS = st.sampled_from(
    [
        ",yes,9,0,0,0,QL-PRC,300,0,,3,0,0,,0",
        ",yes,9,0,0,0,QL-PRC,300,0,,4,1,20,E1,0",
        ",yes,7,2,0,0,QL-SEC,none,2,E4,3,3,500,E3,2",
        ",yes,6,2,1,0,QL-SEC,none,2,E2,0,3,500,E2,3",
        ",no,8,1,0,0,QL-DNU,none,1,E4,2,1,70,E4,1",
        ",no,8,1,0,2,QL-DNU,none,1,E2,9,2,900,E1,2",
        ",no,9,0,0,0,QL-PRC,none,0,,1,0,0,,0",
    ]
)


@given(st.lists(st.lists(TAILS, max_size=12), max_size=5), st.integers(0, 4))
def test_cases_counted_at_once_come_to_the_same(parts: list[list[str]], most: int) -> None:
    single, whole, number = Tally(most), Tally(most), 0
    for tails in parts:
        names = [f"c{number + place}" for place in range(len(tails))]
        whole.add_all(names, tails)
        for name, tail in zip(names, tails):
            single.add(studies.case(f"{name}{tail}"))
        number += len(tails)
    for one in ("lost", "chains", "restless", "dark"):
        assert getattr(whole, one).outcomes() == getattr(single, one).outcomes()
    counts = [
        (tally.cases, tally.losing, tally.unsettled, tally.looping, tally.hurting, tally.still)
        for tally in (single, whole)
    ]
    # (also the order of the elements, which decides among those with as many cases)
    assert counts[0] == counts[1] and list(whole.first.items()) == list(single.first.items())


def test_an_answer_is_taken_apart_as_a_whole() -> None:
    rows = "a,yes,1\nab,no,2\n"
    found = study_runs.rows_of(f"{study_runs.HEADER}\n{rows}".encode(), ("a", "ab"))
    assert (found.names, found.tails, found.data) == (("a", "ab"), [",yes,1", ",no,2"], rows.encode())
    for damaged in (
        "a,yes,1\nab,no,2",
        "a,yes,1\n",
        "ab,yes,1\na,no,2\n",
        "a,yes,1\nab,no,2\n\n",
        "a,1\naab,2\n",
        "a,1\nab\n",
        "a,1\n,2\n",
        "a,1\nab,2\nab,2\n",
        "a,\xe9\nab,\n",
    ):
        with pytest.raises(ValueError):
            study_runs.rows_of(f"{study_runs.HEADER}\n{damaged}".encode(), ("a", "ab"))
    with pytest.raises(ValueError):
        study_runs.rows_of(rows.encode(), ("a", "ab"))


@pytest.mark.parametrize(
    ("total", "size"),
    [(0, 2_000), (16_000, 2_000), (16_001, 2_001), (79_003, 9_876), (160_000, 20_000), (7_994_000, 19_985)],
)
def test_a_part_has_more_of_many_cases(total: int, size: int) -> None:
    assert portions.usual(total) == size


@pytest.mark.parametrize(("total", "parts"), [(160_001, 16), (200_000, 16), (320_000, 16), (320_001, 24)])
def test_processors_have_as_many_parts_as_others(total: int, parts: int) -> None:
    assert -(-total // portions.usual(total)) == parts


def test_parts_beside_a_large_plan_are_small() -> None:
    assert portions.usual(200_000, portions.LARGE) == portions.usual(200_000) > portions.LEAST
    assert portions.usual(200_000, portions.LARGE + 1) == portions.usual(10, 100_000) == portions.LEAST
