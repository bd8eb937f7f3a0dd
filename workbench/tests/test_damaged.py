"""Damaged files through every command that reads them: a status, a complaint for each mistake, and never a trace.

The damage, and the whole files, are those of bench/compare/damage.py. Commands run within this process, pictures are worked out but
not drawn.
"""

from __future__ import annotations

import random
import sys
from collections.abc import Sequence
from pathlib import Path
from typing import Any

import pytest
from conftest import CASES, EXAMPLES, TOP

from murdjohe.commands import cli, form_run
from murdjohe.core.faults import Wrong
from murdjohe.core.forms import FORMS
from murdjohe.core.streams import Output
from murdjohe.picture import bands, plan_graph
from murdjohe.plan import tables
from murdjohe.runs import report_file
from murdjohe.sentences import others

sys.path.append(str(TOP))
damage: Any = pytest.importorskip("bench.compare.damage")
INVENTORY = EXAMPLES / "inventory"


def chances(what: str) -> list[random.Random]:
    return [random.Random(f"damaged {what} {seed}") for seed in range(CASES)]


@pytest.mark.parametrize("reader", ["plan", "certificate", "events", "frames", "rows", "capture", "timed-rows"])
def test_each_refusal_has_a_sentence_with_the_files_name(folder: Path, reader: str) -> None:
    most = others.SHOWN if reader == "events" else 1  # (all mistakes of the rows of events are told)
    for chance in chances(reader):
        whole = damage.READERS[reader](chance)
        (folder / "file").write_bytes(damage.damaged(chance, reader, whole.data))
        if whole.text:
            (folder / "plan").write_bytes(whole.text)
        form, *given = [{"{}": "file"}.get(word, word) for word in whole.words]
        words, answer = form_run.answered(FORMS[form], given)
        said = form_run.said_of(words, answer)
        if answer.text.startswith(b"bad "):
            assert 1 <= len(said) <= most, (said, answer.text)
            assert all("file:" in line or line.startswith("plan") for line in said), (said, answer.text)
        assert all("\n" not in line for line in said)


def called(words: Sequence[str], output: Output) -> int:
    """The status of a command of the workbench's own."""
    try:
        return cli.run(list(words), output)
    except Wrong as wrong:
        assert str(wrong)
        return 2


def test_damaged_tables_are_written_or_refused(folder: Path) -> None:
    names = ("elements.csv", "links.csv", "sources.csv")
    for chance in chances("tables"):
        paths = {kind: str(INVENTORY / name) for kind, name in zip(tables.TABLES, names)}
        kind = chance.choice(list(paths))
        (folder / "table").write_bytes(damage.damaged(chance, "rows", Path(paths[kind]).read_bytes()))
        paths[kind] = "table"
        try:
            assert tables.made_of(paths, tables.Settings()).plan.startswith(('option = "I"\n', "version = 2\n"))
        except Wrong as wrong:
            starts = tuple(f"{path}:" for path in paths.values())
            assert all(line.startswith((*starts, "and ")) for line in wrong.lines)


@pytest.mark.parametrize(
    ("word", "file"), [("--report", "report"), ("--certificate", "certificate.csv"), ("--answer", "output")]
)
def test_what_is_drawn_beside_a_plan_is_taken_or_refused(folder: Path, word: str, file: str) -> None:
    for chance in chances(word):
        at = EXAMPLES / chance.choice(["ring", "option-two", "bundle"])
        (folder / "damaged").write_bytes(damage.damaged(chance, "rows", (at / file).read_bytes()))
        assert called(["draw", str(at / "plan.toml"), word, "damaged", "-o", "plan.dot", "--force"], Output(False)) in (
            0,
            2,
            24,
        )


def test_damaged_plans_are_drawn_or_refused(folder: Path) -> None:
    for chance in chances("draw"):
        (folder / "damaged").write_bytes(damage.damaged(chance, "plan", damage.whole_plan(chance)[1]))
        try:
            plan = plan_graph.read_plan("damaged")
            assert plan_graph.picture_of(plan, plan_graph.Shown()).startswith("digraph plan {")
        except Wrong as wrong:
            assert str(wrong).startswith("damaged:")


def test_damaged_reports_have_bands_or_are_refused(folder: Path) -> None:
    for chance in chances("timeline"):
        at = EXAMPLES / chance.choice(["ring", "option-two", "bundle"])
        (folder / "damaged").write_bytes(damage.damaged(chance, "rows", (at / "report").read_bytes()))
        try:
            report = report_file.read("damaged")
        except Wrong as wrong:
            assert str(wrong).startswith("damaged:")
            continue
        rows = list(report.changes)
        if not rows:
            continue
        moments = sorted({row.at for row in rows})
        assert set(bands.places_of(moments, 1000)[0]) == set(moments)
        assert sum(map(len, bands.bands_of(rows, bands.order_of(report), moments[-1] + 1).values())) == len(rows)


def test_damaged_answers_are_explained_or_passed_on(folder: Path) -> None:
    from murdjohe.commands import explain
    from murdjohe.core.inputs import Words
    from murdjohe.core.program import Answer

    for chance in chances("answers"):
        reader = chance.choice(list(damage.READERS))
        whole = damage.READERS[reader](chance)
        (folder / "file").write_bytes(damage.damaged(chance, reader, whole.data))
        (folder / "plan").write_bytes(whole.text or b"")
        form, *given = [{"{}": "file"}.get(word, word) for word in whole.words]
        words, answer = form_run.answered(FORMS[form], given)
        text = damage.damaged(chance, "rows", answer.text[:200])
        assert isinstance(words, Words)
        try:
            said = explain.said_of(words, Answer(explain.status_of(form, text), text))
        except Wrong as wrong:
            said = [str(wrong)]
        assert all("\n" not in line for line in said)
