"""Where elements and sources stand in a picture: by Graphviz, or by a table with the columns name, x and y; how a layout fits on its
page, and which ways links go."""

from __future__ import annotations

import csv
import subprocess
from dataclasses import dataclass, field, replace

from murdjohe.core import files
from murdjohe.core.faults import Wrong, unusable
from murdjohe.core.program import UNAVAILABLE
from murdjohe.picture import ways
from murdjohe.picture.ways import Way
from murdjohe.plan.model import Plan

LAYERED, MAP = "layered", "map"
BOX = (1.0, 0.42)  # inches, the room of an element before the picture is brought to its page
MOST, GAP = 1.5, 1.25  # the largest boxes, and how far apart their middles are at least, in boxes
MANY = 400  # elements from which on a map is made by `sfdp`, in seconds, and not by `neato`, in minutes
# Pages in inches, with the greatest number of elements for each; the last serves any number.
PAGES = ((30, (11.7, 8.3)), (320, (16.5, 11.7)), (100_000, (33.1, 23.4)))
MARGIN, HEAD, FOOT = 0.35, 0.5, 0.75  # inches round the picture, above it for the title, below it for the legend
READABLE = 0.55  # the size of boxes, of their whole one, from which on a map can be read: names of five points
LARGEST = 5_000  # elements that a picture or a page may have: with more it takes minutes, and nobody can read it
ELEMENT, SOURCE = "element", "source"
Key = tuple[str, str]  # the kind of a thing and its name
Spots = dict[Key, tuple[float, float]]


@dataclass(frozen=True)
class Layout:
    """Where each element and source stands, from the lower left corner on, and the size of it all, in inches; and the ways between
    those that a straight one would join behind a box."""

    spots: Spots
    width: float
    height: float
    ways: dict[tuple[Key, Key], Way] = field(default_factory=dict)

    def way(self, first: Key, second: Key) -> Way | None:
        """The way between two, from the first on; None where it is straight."""
        found = self.ways.get((second, first))
        return self.ways.get((first, second)) if found is None else found[::-1]


@dataclass(frozen=True)
class Fit:
    """How a layout comes to its page: the page's size, how much longer it is across and up, and where its corner stands."""

    size: tuple[float, float]
    across: float
    up: float
    left: float
    low: float

    def spot(self, point: tuple[float, float]) -> tuple[float, float]:
        """Where a point of the layout stands on the page."""
        return self.left + point[0] * self.across, self.low + point[1] * self.up


def fit(layout: Layout, count: int) -> Fit:
    """How a layout of so many elements comes to its page."""
    width, height = next(size for most, size in PAGES if count <= most)
    if layout.height > layout.width * 1.2:
        width, height = height, width
    room = width - 2 * MARGIN, height - HEAD - FOOT - 2 * MARGIN
    across = room[0] / max(layout.width, BOX[0] * 2)
    up = room[1] / max(layout.height, BOX[1] * 3)
    across, up = min(across, up * 1.6), min(up, across * 1.6)
    left = MARGIN + (room[0] - layout.width * across) / 2
    return Fit((width, height), across, up, left, MARGIN + FOOT + (room[1] - layout.height * up) / 2)


def size_of_boxes(layout: Layout, count: int) -> float:
    """How large boxes are on the page of a layout of so many elements, of their whole size."""
    its = fit(layout, count)
    return room_of([its.spot(point) for point in layout.spots.values()])


def pairs_of(network: Plan) -> list[tuple[str, str]]:
    """The pairs of elements that are joined, each once, in the direction of the first nominated line between them."""
    pairs: dict[frozenset[str], tuple[str, str]] = {}
    for link in network.links:
        is_back = link.priority_a and not link.priority_b
        pairs.setdefault(frozenset((link.a, link.b)), (link.b, link.a) if is_back else (link.a, link.b))
    return list(pairs.values())


def has_rings(network: Plan) -> bool:
    """Whether the links of a plan make a ring, whatever is nominated."""
    import networkx

    pairs = pairs_of(network)
    return bool(pairs) and not networkx.is_forest(networkx.Graph(pairs))


def graph_of(network: Plan, keys: list[Key]) -> str:
    """The plan as Graphviz reads it for a layout: boxes of one size, an edge for each pair, and one to each source. It finds no ways for
    the edges, which would take nearly all of its time: places don't depend on them."""
    number = {key: place for place, key in enumerate(keys)}
    width, height = BOX
    lines = [
        "graph plan {",
        f'overlap=prism; splines=false; sep="+10"; rankdir=TB; start=7; node [shape=box, fixedsize=true, width={width}, height={height}, label=""];',
        *(f"{place};" for place in range(len(keys))),
    ]
    lines += [f"{number[ELEMENT, a]} -- {number[ELEMENT, b]};" for a, b in pairs_of(network)]
    for source in network.sources:
        # (a source stands above its element, and near it)
        lines.append(f"{number[SOURCE, source.name]} -- {number[ELEMENT, source.at]} [len=0.8, weight=4];")
    return "\n".join([*lines, "}"]) + "\n"


def laid_out(network: Plan, layout: str) -> Layout:
    """The places by Graphviz. Raises Wrong where it isn't there."""
    keys = [(ELEMENT, row.name) for row in network.elements]
    keys += [(SOURCE, row.name) for row in network.sources]
    program = "dot" if layout == LAYERED else "neato" if len(keys) <= MANY else "sfdp"
    try:
        picture = graph_of(network, keys).encode()
        run = subprocess.run([program, "-Tplain"], input=picture, check=True, capture_output=True)
    except FileNotFoundError:
        raise Wrong(f"there is no `{program}`: install graphviz", status=UNAVAILABLE) from None
    except subprocess.CalledProcessError as fault:
        said = fault.stderr.decode(errors="replace").strip().splitlines() or ["it failed"]
        raise Wrong(f"{program}: {said[0]}", status=UNAVAILABLE) from None
    rows = [line.split() for line in run.stdout.decode().splitlines()]
    spots = {keys[int(row[1])]: (float(row[2]), float(row[3])) for row in rows if row[0] == "node"}
    return Layout(spots, float(rows[0][2]), float(rows[0][3]))


def number_of(text: str) -> float | None:
    """A number with a point or a comma; None for anything else."""
    try:
        value = float(text.strip().replace(",", "."))
    except ValueError:
        return None
    return value if abs(value) < 1e9 else None


def read_places(path: str) -> dict[str, tuple[float, float]]:
    """The coordinates of a table with the columns name, x and y, whatever other columns it has. Raises Wrong."""
    lines = files.text(path).splitlines()
    separator = next((sign for sign in ";\t" if lines and sign in lines[0]), ",")
    rows = list(csv.reader(lines, delimiter=separator))
    header = [name.strip().lower() for name in rows[0]] if rows else []
    if any(name not in header for name in ("name", "x", "y")):
        raise unusable(f"{path}:1: a table of places has the columns name, x and y")
    found = {}
    for number, row in enumerate(rows[1:], start=2):
        fields = dict(zip(header, row))
        x, y = number_of(fields.get("x", "")), number_of(fields.get("y", ""))
        if any(field.strip() for field in row) and (x is None or y is None):
            raise unusable(f"{path}:{number}: x and y are numbers, as 12.5")
        if x is not None and y is not None:
            found[fields.get("name", "").strip()] = (x, y)
    return found


def placed(network: Plan, path: str) -> Layout:
    """The places by a table; sources stand beside their elements. Raises Wrong where an element has none."""
    given = read_places(path)
    missing = [row.name for row in network.elements if row.name not in given]
    if missing:
        raise unusable(f"{path}: it has no place for {', '.join(missing[:5])}" + (" .." if missing[5:] else ""))
    xs, ys = zip(*given.values())
    left, low = min(xs), min(ys)
    scale = max(len(given) ** 0.5 * 1.6 * BOX[0] / max(max(xs) - left, max(ys) - low, 1e-9), 1e-12)
    spots: Spots = {}
    for row in network.elements:
        x, y = given[row.name]
        spots[ELEMENT, row.name] = ((x - left) * scale + BOX[0], (y - low) * scale + BOX[1])
    for source in network.sources:
        x, y = spots[ELEMENT, source.at]
        spots[SOURCE, source.name] = (x, y + 1.5 * BOX[1])
    width = max(x for x, _ in spots.values()) + BOX[0]
    return Layout(spots, width, max(y for _, y in spots.values()) + BOX[1])


def small_enough(elements: int, way_out: str) -> None:
    """Raises Wrong where a picture would have more elements than can be read, with what to do then."""
    if elements > LARGEST:
        raise Wrong(f"{elements:,} elements are too many for a picture, which has {LARGEST:,} at most: {way_out}")


def layout_of(network: Plan, layout: str | None, places: str | None) -> Layout:
    """The layout that is asked for, with the ways of its links: without a wish a map where the plan has rings and the map can be
    read, and else in layers. Raises Wrong."""
    found = placed(network, places) if places is not None else laid_out(network, layout or usual(network))
    count = len(network.elements)
    if places is None and layout is None and count <= MANY and size_of_boxes(found, count) < READABLE:
        layers = laid_out(network, LAYERED)
        found = max(found, layers, key=lambda one: size_of_boxes(one, count))
    return replace(found, ways=ways_of(network, found))


def usual(network: Plan) -> str:
    """The layout of a plan without a wish, where it can be read."""
    return MAP if has_rings(network) else LAYERED


def ways_of(network: Plan, layout: Layout) -> dict[tuple[Key, Key], Way]:
    """The ways of links that would go behind a box if they were straight."""
    keys = list(layout.spots)
    number = {key: place for place, key in enumerate(keys)}
    pairs = [(number[ELEMENT, a], number[ELEMENT, b]) for a, b in pairs_of(network)]
    pairs += [(number[SOURCE, row.name], number[ELEMENT, row.at]) for row in network.sources]
    its = fit(layout, len(network.elements))
    scale = size_of_boxes(layout, len(network.elements))
    box = BOX[0] * scale / its.across, BOX[1] * scale / its.up
    found = ways.found_ways([layout.spots[key] for key in keys], pairs, box)
    return {(keys[first], keys[second]): way for (first, second), way in found.items()}


def room_of(spots: list[tuple[float, float]]) -> float:
    """How large boxes may be, of their whole size, so that none comes too near to another; at most half as large again."""
    import numpy

    if len(spots) < 2:
        return MOST
    places = numpy.array(spots)
    least = MOST
    for number, (x, y) in enumerate(spots[1:], start=1):
        before = numpy.abs(places[:number] - (x, y))
        gaps = numpy.maximum(before[:, 0] / (BOX[0] * GAP), before[:, 1] / (BOX[1] * GAP * 1.6))
        least = min(least, float(gaps.min()))
    return max(least, 0.02)
