"""What pictures show: colours that are told apart, layouts, reports of the plan at hand and no other, and what is red or hatched."""

from __future__ import annotations

import itertools
import re
from pathlib import Path

import pytest
from conftest import EXAMPLES, murdjohe

from murdjohe.core.faults import Wrong
from murdjohe.core.levels import LEVELS
from murdjohe.network import wiring
from murdjohe.picture import colours, places, plan_graph, views
from murdjohe.picture.views import View
from murdjohe.runs import report_file
from murdjohe.runs.moments import Event

WITH_REPORTS = sorted(
    path.parent.name for path in EXAMPLES.glob("*/events.csv") if (path.parent / "report").exists()
)  # (each with a plan)


def view(folder: str, report: str = "report", plan: str = "plan.toml") -> View:
    """An example at the end of one of its reports."""
    network = plan_graph.read_plan(str(EXAMPLES / folder / plan))
    path = str(EXAMPLES / folder / report)
    found = views.of_this_plan(path, report_file.read(path), wiring.wiring_of(network))
    return views.view_of(plan, network, found, (), None)


@pytest.mark.parametrize("option", ["I", "II"])
def test_levels_have_colours_that_grow_darker_and_are_read(option: str) -> None:
    its = [colours.of_level(level) for level in LEVELS[option]]
    shades = [colours.brightness(colour) for colour in its]
    assert shades == sorted(shades, reverse=True) and len(set(its)) == len(its)
    for lighter, darker in itertools.pairwise(shades):
        assert (lighter + 0.05) / (darker + 0.05) > 1.09
    for colour, shade in zip(its, shades):
        ink = colours.brightness(colours.ink(colour))
        assert (max(ink, shade) + 0.05) / (min(ink, shade) + 0.05) >= 4.5
    assert colours.in_order(reversed(LEVELS[option])) == LEVELS[option]


@pytest.mark.parametrize("folder", WITH_REPORTS)
def test_who_is_hatched_and_what_is_red_is_what_the_report_says(folder: str) -> None:
    report = report_file.read(str(EXAMPLES / folder / "report"))
    found = view(folder)
    assert found.unfed == {trace.element for trace in report.traces if trace.kind != "source"}
    assert set(found.red) == {line for walk in report.loops for line in walk}
    assert found.down == {row.input for row in report.inputs if row.condition in ("failed", "holdoff")}


def test_a_ring_that_loops_is_red_and_says_so(folder: Path) -> None:
    at = EXAMPLES / "ring"
    words = ["draw", str(at / "plan.toml"), "--report", str(at / "report"), "-o", "ring.svg"]
    assert murdjohe(*words, folder=folder).status == 0
    text = (folder / "ring.svg").read_text()
    assert len(re.findall(r">LOOP<", text)) == 3 and ">TIMING LOOP<" in text and ">follows no source<" in text
    assert text.count(colours.LOOP.lower()) >= 6 and "✕ down" in text


def test_a_cut_is_seen_at_its_millisecond_alone(folder: Path) -> None:
    network = plan_graph.read_plan(str(EXAMPLES / "mesh" / "plan.toml"))
    report = report_file.read(str(EXAMPLES / "mesh" / "report"))
    events = (Event(60_000, "down", "S2", ""), Event(600_000, "up", "S2", ""))
    for at, down in ((59_999, set()), (60_000, {"S2>hub-south", "S2>core-2"}), (600_000, set())):
        assert views.view_of("mesh", network, report, events, at).down == down


def test_a_plan_by_itself_hatches_who_has_no_way() -> None:
    network = plan_graph.read_plan(str(EXAMPLES / "mesh" / "topology.toml"))
    assert views.plain_view("mesh", network).unfed == {
        name for name in network.names() if name not in ("core-1", "core-2")
    }


def test_reports_of_other_plans_are_refused() -> None:
    for folder, report in (("ring", "../mesh/report"), ("mesh", "../ring/report"), ("bundle", "../ladder/report")):
        with pytest.raises(Wrong, match="it is a report of another plan"):
            view(folder, report)
    with pytest.raises(Wrong, match="it is a report of prio-sim"):
        view("reserve-clock", "priority-report")


def test_a_map_where_there_are_rings() -> None:
    for folder, has_rings in (("ring", True), ("mesh", True), ("backhaul", False), ("lab", False)):
        network = plan_graph.read_plan(str(EXAMPLES / folder / "plan.toml"))
        assert places.has_rings(network) == has_rings, folder


def test_places_by_a_table(folder: Path) -> None:
    network = plan_graph.read_plan(str(EXAMPLES / "ring" / "plan.toml"))
    table = folder / "places.csv"
    table.write_text("x;site;Y;name\n1,5;Bern;0;A\n3;;2;B\n1.5;;4;C\n")
    spots = places.layout_of(network, None, str(table)).spots
    (ax, ay), (bx, by), (cx, cy) = (spots[places.ELEMENT, name] for name in "ABC")
    assert ax == cx < bx and ay < by < cy and (cy - by) == pytest.approx(by - ay)
    for text, said in (
        ("name,x\nA,1\n", "places.csv:1: a table of places has the columns name, x and y"),
        ("name,x,y\nA,1,no\n", "places.csv:2: x and y are numbers"),
        ("name,x,y\nA,1,2\n", "it has no place for B, C"),
    ):
        table.write_text(text)
        with pytest.raises(Wrong, match=said):
            places.layout_of(network, None, str(table))


@pytest.mark.parametrize("layout", [places.MAP, places.LAYERED])
def test_no_element_covers_another(layout: str) -> None:
    network = plan_graph.read_plan(str(EXAMPLES / "ring-of-rings" / "plan.toml"))
    spots = list(places.layout_of(network, layout, None).spots.values())
    assert len(spots) == len(network.elements) + len(network.sources)
    for (x, y), (u, v) in itertools.combinations(spots, 2):
        assert abs(x - u) >= places.BOX[0] * 0.99 or abs(y - v) >= places.BOX[1] * 0.99
