"""Where things of a desk stand, and large plans by regions."""

from __future__ import annotations

import math
from collections import Counter

from murdjohe.answers.reports import Change
from murdjohe.desk import regions, views
from murdjohe.picture import page_data
from murdjohe.network import wiring
from murdjohe.picture.places import BOX, ELEMENT, SOURCE
from murdjohe.plan.model import Element, Link, Plan, Source


def row_of(count: int, more: tuple[str, ...] = ()) -> Plan:
    """Elements in a row, and others by themselves; a source at the first."""
    names = [f"E{number}" for number in range(count)]
    links = tuple(Link(f"L{number}", names[number], names[number + 1]) for number in range(count - 1))
    elements = tuple(Element(name, "QL-SEC") for name in (*names, *more))
    return Plan("I", elements, links, (Source("S", "E0", "QL-PRC"),))


def test_regions_hang_together_and_small_parts_are_one() -> None:
    plan = row_of(1000, tuple(f"X{number}" for number in range(70)))
    found = regions.regions_of(plan)
    sizes = Counter(found.of.values())
    assert sorted(sizes.values()) == [70, 100, 300, 300, 300]
    assert len({found.of[f"X{number}"] for number in range(70)}) == 1
    for region in sizes:
        inside = [number for number in range(1000) if found.of[f"E{number}"] == region]
        assert inside == list(range(inside[0], inside[-1] + 1)) if inside else sizes[region] == 70


def test_a_region_has_the_elements_beside_it_and_what_comes_from_beyond() -> None:
    plan = row_of(1000)
    found = regions.regions_of(plan)
    part = found.part_of(plan, found.of["E300"])
    names = {element.name for element in part.elements}
    assert names == {f"E{number}" for number in range(299, 601)}
    assert [source.name for source in part.sources] == ["beyond E299", "beyond E600"]
    numbers = page_data.numbers_of(wiring.wiring_of(part), "I")
    outside = Change(5, "E299", "auto", "L298>E299", "QL-PRC", "locked")
    assert views.seen_from(outside, numbers).input == "beyond E299"
    inside = Change(5, "E300", "auto", "L299>E300", "QL-PRC", "locked")
    assert views.seen_from(inside, numbers) == inside


def test_elements_that_come_and_go_keep_their_region() -> None:
    plan = row_of(1000)
    found = regions.regions_of(plan)
    before = dict(found.of)
    more = plan._replace(
        elements=(*plan.elements, Element("N", "QL-SEC")), links=(*plan.links, Link("LN", "N", "E450"))
    )
    found.follow(more)
    assert found.of == {**before, "N": before["E450"]}
    found.follow(plan)
    assert found.of == before


def test_what_comes_stands_free_and_what_was_stays() -> None:
    sheet = views.Sheet(
        {(ELEMENT, "E0"): (3.0, 2.0), (ELEMENT, "E1"): (6.0, 2.0), (SOURCE, "S"): (3.0, 3.5)}, 8, 5, 1.0
    )
    kept = dict(sheet.spots)
    views.completed(sheet, row_of(3), {})
    assert {key: sheet.spots[key] for key in kept} == kept
    x, y = sheet.spots[ELEMENT, "E2"]
    assert all(abs(x - u) >= 1.6 * BOX[0] or abs(y - v) >= 1.6 * BOX[1] for u, v in kept.values())
    views.completed(sheet, row_of(4), {"E3": (-9.0, 1.0)})
    assert sheet.spots[ELEMENT, "E3"][0] == 0 and sheet.spots[ELEMENT, "E1"] == (15.0, 2.0) and sheet.width == 15.5


def test_a_plan_is_laid_out_without_graphviz() -> None:
    layout = views.on_circle(row_of(40))
    assert len(set(layout.spots.values())) == 41
    assert all(0 <= x <= layout.width and 0 <= y <= layout.height for x, y in layout.spots.values())


def test_the_map_has_a_box_for_each_region_and_a_link_between_neighbours() -> None:
    plan = row_of(1000)
    drawn = regions.regions_of(plan).network(plan, None)
    assert [element["name"] for element in drawn["elements"]] == ["E0 ..", "E300 ..", "E600 ..", "E900 .."]
    assert [level["name"] for level in drawn["levels"]] == ["300 elements"] * 3 + ["100 elements"]
    assert [(line["sender"], line["receiver"]) for line in drawn["lines"][::2]] == [(0, 1), (1, 2), (2, 3)]
    assert drawn["regions"] == [[0, 300], [1, 300], [2, 300], [3, 100]]


def test_regions_like_a_chain_are_drawn_in_rows() -> None:
    """Twelve of them: a place is 1.6 by 0.9408 inches, so four columns and three rows are nearest to twice as wide as high."""
    plan = row_of(12)._replace(sources=())
    wide, high = BOX[0] * views.STEP, BOX[1] * views.STEP * 1.4
    columns = math.ceil(math.sqrt(24 * high / wide))
    sheet = views.in_rows(plan)
    at = {name: (round(x / wide - 0.5), round(y / high - 0.5)) for (_, name), (x, y) in sheet.spots.items()}
    rows = -(-12 // columns)
    assert at["E0"] == (0, rows - 1) and at[f"E{columns - 1}"] == (columns - 1, rows - 1)
    assert at[f"E{columns}"] == (columns - 1, rows - 2) and at[f"E{columns + 1}"] == (columns - 2, rows - 2)
    assert (sheet.width, sheet.height) == (columns * wide, rows * high)
    # (neighbours in the chain are neighbours on the sheet, and no two stand in one place)
    steps = [abs(at[f"E{n}"][0] - at[f"E{n + 1}"][0]) + abs(at[f"E{n}"][1] - at[f"E{n + 1}"][1]) for n in range(11)]
    assert set(steps) == {1} and len(set(at.values())) == 12


def test_only_a_long_map_is_drawn_in_rows() -> None:
    chain, ring = row_of(67)._replace(sources=()), row_of(8)._replace(sources=())
    assert views.map_of(chain).spots == views.in_rows(chain).spots
    ring = ring._replace(links=(*ring.links, Link("X", "E7", "E0")))
    assert views.map_of(ring).spots == views.sheet_of(ring).spots
    assert views.map_of(Plan("I", (), (), ())).spots == {}
