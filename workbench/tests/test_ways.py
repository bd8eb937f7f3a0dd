"""Ways of links go beside boxes; a map that can't be read is drawn in layers; the summary of a page has the worst first."""

from __future__ import annotations

import itertools

import pytest
from conftest import EXAMPLES, murdjohe
from plans_spelled import spelled

from murdjohe.answers.reports import Change
from murdjohe.network import plan_file
from murdjohe.picture import bands, page_data, places, plan_graph, ways, worst
from murdjohe.picture.places import ELEMENT
from murdjohe.picture.ways import Point
from murdjohe.plan.model import Plan
from murdjohe.runs import rehearsals, simulation

BOX = (1.0, 0.5)


def is_clear(way: tuple[Point, ...], middle: Point, box: tuple[float, float]) -> bool:
    """Whether no point of a way, by hundredths of its length, lies in a box."""
    return not any(ways.is_within(ways.point_at(way, part / 100), middle, box) for part in range(101))


def test_a_link_behind_a_box_is_found() -> None:
    spots = [(0.0, 0.0), (4.0, 0.0), (2.0, 0.1), (2.0, 3.0)]
    assert ways.behind(spots, [(0, 1), (0, 3), (1, 3), (0, 2)], BOX) == [(0, 1)]
    # (a box that lies on the line, but not between the two, is behind none; nor are the two themselves)
    assert ways.behind([(0.0, 0.0), (4.0, 0.0), (6.0, 0.0)], [(0, 1)], BOX) == []
    assert ways.behind([(0.0, 0.0), (0.0, 4.0), (0.4, 2.0)], [(0, 1)], BOX) == [(0, 1)]
    assert ways.behind([(0.0, 0.0), (0.0, 4.0), (0.6, 2.0)], [(0, 1)], BOX) == []


def test_its_way_goes_beside_the_box() -> None:
    spots = [(1.0, 1.0), (5.0, 1.0), (3.0, 1.1), (9.0, 4.0)]
    found = ways.found_ways(spots, [(0, 1), (1, 3)], BOX)
    assert list(found) == [(0, 1)]
    way = found[0, 1]
    assert is_clear(way, spots[2], BOX)
    # (it begins and ends at the boxes that it joins, whatever place Graphviz gives to all of it)
    for end, middle in ((way[0], spots[0]), (way[-1], spots[1])):
        assert ways.is_within(end, middle, (BOX[0] + 0.4, BOX[1] + 0.4))


def test_ways_of_any_plan_are_clear() -> None:
    network = plan_graph.read_plan(str(EXAMPLES / "real" / "germany-plan.toml"))
    for wish in (places.MAP, places.LAYERED):
        layout = places.layout_of(network, wish, None)
        its = places.fit(layout, len(network.elements))
        scale = places.size_of_boxes(layout, len(network.elements))
        box = places.BOX[0] * scale / its.across, places.BOX[1] * scale / its.up
        for (first, second), way in layout.ways.items():
            assert layout.way(second, first) == way[::-1] and layout.way(first, second) == way
            for key, middle in layout.spots.items():
                assert key in (first, second) or is_clear(way, middle, box), (first, second, key)


def test_points_along_a_way() -> None:
    way = [(0.0, 0.0), (4.0, 0.0), (4.0, 4.0)]
    assert ways.length_of(way) == 8.0
    assert [ways.point_at(way, share) for share in (0, 0.25, 0.5, 0.75, 1)] == [(0, 0), (2, 0), (4, 0), (4, 2), (4, 4)]
    # (to the left of its direction; at the corner by half of each)
    assert ways.moved(way, 1.0) == [(0.0, 1.0), (3.5, 0.5), (3.0, 4.0)]
    assert ways.curve([(0.0, 0.0), (0.0, 0.0), (4.0, 4.0), (4.0, 4.0)])[2] == (2.0, 2.0)


def spread(count: int) -> Plan:
    """A chain of so many elements, closed to a ring at its end: on a map it is a large circle."""
    links = [f"link L{number} a=E{number} b=E{(number + 1) % count} priority_b=1" for number in range(count)]
    text = spelled(*(f"element E{number}" for number in range(count)), *links)
    return plan_file.taken("spread", text.encode()).network


@pytest.mark.parametrize("count", [4, 12])
def test_a_map_that_can_be_read_stays(count: int) -> None:
    network = spread(count)
    chosen, mapped = (places.layout_of(network, wish, None) for wish in (None, places.MAP))
    assert chosen.spots == mapped.spots and places.size_of_boxes(mapped, count) >= places.READABLE


def test_a_map_that_can_not_be_read_is_drawn_in_layers_where_that_is_larger() -> None:
    count = 90
    network = spread(count)
    chosen, mapped, layered = (places.layout_of(network, wish, None) for wish in (None, places.MAP, places.LAYERED))
    sizes = [places.size_of_boxes(one, count) for one in (chosen, mapped, layered)]
    assert sizes[1] < places.READABLE and sizes[0] == max(sizes[1:])


def test_the_summary_has_the_worst_moments_first() -> None:
    gaps = [(10, 20, "A"), (15, 40, "B"), (100, 400, "C"), (500, 510, "A"), (505, 510, "B"), (509, 510, "D")]
    found = worst.times_of(gaps, [])
    assert [(one.start, one.stop, one.peak, one.lost) for one in found] == [
        (100, 400, 100, {"C": 300}),
        (10, 40, 15, {"A": 10, "B": 25}),
        (500, 510, 509, {"A": 10, "B": 5, "D": 1}),
    ]
    # (what goes on at the end comes first, however short it is yet)
    assert [one.start for one in worst.times_of(gaps, ["D"])] == [500, 100, 10]
    assert [one.is_open for one in worst.times_of(gaps, ["D"])] == [True, False, False]
    assert worst.text_of(found[1]) == "2 elements without a source, for 0.025 s at most: B, A"
    assert worst.times_of([(5, 5, "A")], []) == []


def test_the_summary_of_works() -> None:
    at = EXAMPLES / "mesh"
    plan, file = plan_file.read(str(at / "plan.toml")), simulation.read_events(str(at / "works.csv"))
    found = rehearsals.rehearsed(plan, file, 2_160_000)
    rows = worst.summary_of(found, 0)
    layout = places.layout_of(plan.network, None, None)
    data = page_data.data_of(plan, found, layout, 0, "works")
    moments = {0, found.until, *data["changes"]["at"], *(event["at"] for event in data["events"])}
    assert data["summary"] == rows and {row["at"] for row in rows} <= moments
    assert rows[0]["text"] == rehearsals.dark_text(found, 0)


def test_a_timeline_leaves_out_who_does_not_change() -> None:
    names = itertools.product("AB", (0, 3))
    rows = [Change(at, name, "auto", "S", "QL-PRC", "locked") for name, at in names]
    later = Change(70, "B", "auto", None, "QL-SEC", "holdover")
    assert bands.moving([*rows, later], 60) == [*(row for row in rows if row.element == "B"), later]
    assert bands.moving(rows, 60) == rows
    ran = murdjohe(
        "timeline", "report", "--plan", "plan.toml", "--events", "events.csv", "-o", "-", folder=EXAMPLES / "mesh"
    )
    whole = murdjohe(
        *["timeline", "report", "--plan", "plan.toml", "--events", "events.csv", "--all", "-o", "-"],
        folder=EXAMPLES / "mesh",
    )
    assert ran.status == whole.status == 0 and b"left out" not in whole.out
    left = [row.name for row in plan_graph.read_plan(str(EXAMPLES / "mesh" / "plan.toml")).elements]
    drawn = [name for name in left if f">{name}<".encode() in ran.out]
    assert [name for name in left if f">{name}<".encode() in whole.out] == left
    if len(drawn) < len(left):
        assert b"not change left out" in ran.out


def test_ways_of_sources_and_elements_have_their_keys() -> None:
    network = plan_graph.read_plan(str(EXAMPLES / "mesh" / "plan.toml"))
    layout = places.layout_of(network, None, None)
    assert {kind for pair in layout.ways for kind, _ in pair} <= {ELEMENT, places.SOURCE}
