"""Ways of links in a picture: straight, but beside the boxes that a straight one would go behind; found by Graphviz."""

from __future__ import annotations

import subprocess
from collections.abc import Iterable, Sequence
from math import hypot

Point = tuple[float, float]
Way = tuple[Point, ...]
Box = tuple[float, float]
MOST = 400  # boxes among which ways are sought: with more it takes minutes
AIR = 6  # points between a way and a box
SHARES = (0.25, 0.5, 0.75, 1.0)  # points of a curve that are kept
POINTS = 72  # of an inch


def length_of(way: Sequence[Point]) -> float:
    """How long a way is."""
    return sum(hypot(u - x, v - y) for (x, y), (u, v) in zip(way, way[1:]))


def piece_at(way: Sequence[Point], share: float) -> tuple[Point, Point, float]:
    """The straight piece in which a share of a way lies, and the share of that piece."""
    if len(way) == 2:
        return way[0], way[1], share
    left = length_of(way) * share
    for start, end in zip(way, way[1:]):
        length = length_of((start, end))
        if left <= length:
            break
        left -= length
    return start, end, min(left / max(length, 1e-9), 1.0)


def point_at(way: Sequence[Point], share: float) -> Point:
    """The point of a way at a share of its length."""
    (x, y), (u, v), part = piece_at(way, share)
    return x + (u - x) * part, y + (v - y) * part


def moved(way: Sequence[Point], aside: float) -> list[Point]:
    """The way moved aside by some inches, as a whole at the middle of each piece."""
    sides = []
    for (x, y), (u, v) in zip(way, way[1:]):
        across, up = u - x, v - y
        length = max((across**2 + up**2) ** 0.5, 1e-9)
        sides.append((-up / length * aside, across / length * aside))
    moves = [sides[0], *(((a + c) / 2, (b + d) / 2) for (a, b), (c, d) in zip(sides, sides[1:])), sides[-1]]
    return [(x + across, y + up) for (x, y), (across, up) in zip(way, moves)]


def is_within(point: Point, middle: Point, box: Box) -> bool:
    """Whether a point lies in a box of this size about a middle."""
    return abs(point[0] - middle[0]) <= box[0] / 2 and abs(point[1] - middle[1]) <= box[1] / 2


def behind(spots: Sequence[Point], pairs: Iterable[tuple[int, int]], box: Box) -> list[tuple[int, int]]:
    """The pairs of boxes between whose middles a straight way goes behind another box."""
    import numpy

    places, half = numpy.array(spots), numpy.array(box) / 2
    found = []
    for first, second in pairs:
        start, way = places[first], places[second] - places[first]
        way = numpy.where(abs(way) < 1e-9, 1e-9, way)
        near, far = (places - half - start) / way, (places + half - start) / way
        enters, leaves = numpy.minimum(near, far).max(axis=1), numpy.maximum(near, far).min(axis=1)
        is_met = (enters < leaves) & (leaves > 0) & (enters < 1)
        is_met[[first, second]] = False
        if is_met.any():
            found.append((first, second))
    return found


def graph_of(spots: Sequence[Point], pairs: Iterable[tuple[int, int]], box: Box) -> str:
    """Boxes that stand where they stand, and the pairs of which a way is sought, as Graphviz reads it."""
    head = f'graph ways {{ splines=true; esep="+{AIR}"; node [shape=box, fixedsize=true, width={box[0]:.4f}, height={box[1]:.4f}, label=""];'
    nodes = [f'{place} [pos="{x * POINTS:.2f},{y * POINTS:.2f}"];' for place, (x, y) in enumerate(spots)]
    return "\n".join([head, *nodes, *(f"{first} -- {second};" for first, second in pairs), "}"]) + "\n"


def curve(points: Sequence[Point]) -> list[Point]:
    """Points of the curve that Graphviz writes: its first one, and then three for each piece."""
    found = [points[0]]
    for place in range(0, len(points) - 3, 3):
        a, b, c, d = points[place : place + 4]
        for t in SHARES:
            s = 1 - t
            weights = (s**3, 3 * s * s * t, 3 * s * t * t, t**3)
            x, y = (sum(weight * point[axis] for weight, point in zip(weights, (a, b, c, d))) for axis in (0, 1))
            found.append((x, y))
    return found


def read(text: str, spots: Sequence[Point]) -> dict[tuple[int, int], Way]:
    """The ways that Graphviz wrote, moved to where the boxes stand."""
    rows = [line.split() for line in text.splitlines()]
    node = next(row for row in rows if row[0] == "node")
    right, up = (spots[int(node[1])][axis] - float(node[2 + axis]) for axis in (0, 1))
    found: dict[tuple[int, int], Way] = {}
    for row in rows:
        if row[0] == "edge":
            numbers = [float(word) for word in row[4 : 4 + 2 * int(row[3])]]
            points = [(x + right, y + up) for x, y in zip(numbers[::2], numbers[1::2])]
            found[int(row[1]), int(row[2])] = tuple(curve(points))
    return found


def found_ways(spots: Sequence[Point], pairs: Iterable[tuple[int, int]], box: Box) -> dict[tuple[int, int], Way]:
    """The ways of those pairs between which a straight one would go behind a box; none of too many boxes, or without Graphviz."""
    sought = behind(spots, pairs, box) if 2 < len(spots) <= MOST else []
    if not sought:
        return {}
    try:
        run = subprocess.run(
            ["neato", "-n", "-Tplain"], input=graph_of(spots, sought, box).encode(), check=True, capture_output=True
        )
    except (OSError, subprocess.CalledProcessError):
        return {}
    return read(run.stdout.decode(), spots)
