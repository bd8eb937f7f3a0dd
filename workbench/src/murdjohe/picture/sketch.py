"""A picture of a plan by matplotlib: elements as boxes coloured by their levels, links as cables, what is taken as thick arrows."""

from __future__ import annotations

from typing import Any

from murdjohe.network.wiring import Line
from murdjohe.picture import colours, figures, group_bands, places, ways
from murdjohe.picture.places import BOX, ELEMENT, MARGIN, SOURCE, Key, Layout
from murdjohe.picture.views import View
from murdjohe.picture.ways import Point
from murdjohe.plan.model import Element, Source

FONT = 9.0  # points, where boxes have their whole size
STROKE = 0.8  # points of a hatch
APART = 0.09  # inches between links that join the same elements
BAND = 6.0  # points that the band of a group is wide
DASHED, WAITING = (0, (4, 3)), (0, (6, 2, 1, 2))


class Page:
    """A page with axes in inches, and the layout brought to it."""

    def __init__(self, layout: Layout, count: int) -> None:
        from matplotlib import pyplot

        self.layout = layout
        self.fit = places.fit(layout, count)
        width, height = self.fit.size
        self.spots = {key: self.fit.spot(point) for key, point in layout.spots.items()}
        self.scale = places.room_of(list(self.spots.values()))
        self.font = FONT * self.scale
        self.box = (BOX[0] * self.scale, BOX[1] * self.scale)
        self.size = width, height
        self.figure = pyplot.figure(figsize=(width, height))
        self.axes = self.figure.add_axes((0, 0, 1, 1))
        self.axes.set(xlim=(0, width), ylim=(0, height))
        self.axes.axis("off")

    def fitting(self, text: str, share: float) -> float:
        """The size of a text, in points, that takes so much of a box's height, or less, so that it fits into its width."""
        return min(72 * self.box[1] * share, 72 * self.box[0] / (0.68 * max(len(text), 4)))

    def write(self, place: Point, text: str, **how: Any) -> None:
        """A text whose middle is there."""
        plain = {"ha": "center", "va": "center", "fontsize": self.font, "zorder": 6}
        self.axes.text(*place, text, **(plain | how))


def edge_of_box(page: Page, middle: Point, other: Point) -> Point:
    """Where the way from the middle of a box to another point leaves the box."""
    across, up = other[0] - middle[0], other[1] - middle[1]
    half = page.box[0] / 2 + 0.02, page.box[1] / 2 + 0.02
    share = min(half[0] / abs(across) if across else 9e9, half[1] / abs(up) if up else 9e9, 0.5)
    return middle[0] + across * share, middle[1] + up * share


def way_of(page: Page, a: Point, b: Point, aside: float) -> tuple[Point, Point]:
    """Where a cable between two boxes begins and ends, moved aside by some inches."""
    start, end = edge_of_box(page, a, b), edge_of_box(page, b, a)
    across, up = b[0] - a[0], b[1] - a[1]
    length = max((across**2 + up**2) ** 0.5, 1e-9)
    move = -up / length * aside, across / length * aside
    return (start[0] + move[0], start[1] + move[1]), (end[0] + move[0], end[1] + move[1])


def path_of(page: Page, first: Key, second: Key, aside: float) -> list[Point]:
    """The points of a cable between two boxes, moved aside by some inches: two where it is straight."""
    a, b = page.spots[first], page.spots[second]
    bent = page.layout.way(first, second)
    if bent is None:
        return list(way_of(page, a, b, aside))
    box = page.box[0] + 0.04, page.box[1] + 0.04
    inner = [page.fit.spot(point) for point in bent]
    inner = [point for point in inner if not (ways.is_within(point, a, box) or ways.is_within(point, b, box))]
    if not inner:
        return list(way_of(page, a, b, aside))
    return ways.moved([edge_of_box(page, a, inner[0]), *inner, edge_of_box(page, b, inner[-1])], aside)


def before(page: Page, path: list[Point]) -> Point:
    """Where the priority of an arrow stands: a little before its end."""
    return ways.point_at(path, max(1 - page.font * 0.026 / max(ways.length_of(path), 1e-9), 0.6))


def beside(page: Page, start: Point, end: Point, share: float) -> Point:
    """A point a little beside the way from one to another."""
    (x, y), across, up = between(start, end, share), end[0] - start[0], end[1] - start[1]
    steep = 1.0 + 1.6 * abs(up) / max(abs(across) + abs(up), 1e-9)  # (names are wider than high)
    aside = page.font * 0.011 * steep / max((across**2 + up**2) ** 0.5, 1e-9) * (1 if across >= 0 else -1)
    return x - up * aside, y + across * aside


def between(start: Point, end: Point, share: float) -> Point:
    """A point on the way from one to another."""
    return start[0] + (end[0] - start[0]) * share, start[1] + (end[1] - start[1]) * share


def cable_style(view: View, lines: list[Line]) -> dict[str, Any]:
    """How a cable is drawn: dashed where it has failed, pale where nobody may take it."""
    names = {line.name for line in lines}
    dashes: Any = DASHED if names & view.down else WAITING if names & view.waiting else "-"
    colour = colours.GREY if any(line.priority for line in lines) else colours.PALE
    return {"color": colour, "linewidth": 1.0 if dashes == "-" else 1.8, "linestyle": dashes, "zorder": 2}


def arrow(page: Page, start: Point, end: Point, colour: str, width: float, **how: Any) -> None:
    """An arrow that ends there."""
    style = {"arrowstyle": "-|>", "mutation_scale": max(4, page.font * (1.0 + width / 4)), "linewidth": width}
    style |= {"color": colour, "shrinkA": 0, "shrinkB": 0}
    page.axes.annotate("", xy=end, xytext=start, arrowprops=style | how, zorder=3)


def arrow_along(page: Page, path: list[Point], colour: str, width: float, **how: Any) -> None:
    """An arrow along a cable, at whose last piece its head is."""
    start = path[-2]
    if len(path) > 2:
        line = {"color": colour, "linewidth": width, "linestyle": how.get("linestyle", "-"), "zorder": 3}
        page.axes.plot(*zip(*path), solid_capstyle="butt", **line)
        start = ways.point_at(path, max(1 - 0.2 / ways.length_of(path), 0.5))
    arrow(page, start, path[-1], colour, width, **how)


def drawn_lines(page: Page, view: View, lines: list[Line], path: list[Point]) -> None:
    """The lines of a cable into one of its ends: an arrow, thick where one is taken, red on a closed walk, and their priorities."""
    word = next((view.red[line.name] for line in lines if line.name in view.red), None)
    if word:
        arrow_along(page, path, colours.LOOP, 3 * page.scale + 0.8)
        paper = {"facecolor": "white", "edgecolor": colours.LOOP, "pad": 1.2}
        page.write(ways.point_at(path, 0.5), word, color=colours.LOOP, weight="bold", bbox=paper, zorder=7)
    elif any(view.taken(line.receiver) == line.name for line in lines):
        arrow_along(page, path, colours.DARK, 2.2 * page.scale + 0.4)
    else:
        arrow(page, ways.point_at(path, 0.8 if len(path) == 2 else 0.95), path[-1], colours.GREY, 0.8)
    if view.has_words:
        ranks = [f" r{view.ranks[line.name]}" if line.name in view.ranks else "" for line in lines]
        ports = [f" {view.ports[line.name]}" if line.name in view.ports else "" for line in lines]
        words = ", ".join(f"{line.priority}{rank}{port}" for line, rank, port in zip(lines, ranks, ports))
        box = {"facecolor": "white", "lw": 0, "pad": 0.6}
        page.write(before(page, path), words, color=colours.DARK, fontsize=page.font * 0.72, bbox=box)


def drawn_bands(page: Page, view: View, links: list[str], path: list[Point]) -> list[str]:
    """The bands of the groups that have a link, side by side below its cable; their signs."""
    found = group_bands.along(view.groups, links)
    for number, one in enumerate(found):
        aside = (number - (len(found) - 1) / 2) * BAND * page.scale / 72
        band = {"color": one.colour, "linewidth": BAND * page.scale, "zorder": 1.5, "solid_capstyle": "butt"}
        page.axes.plot(*zip(*ways.moved(path, aside)), **band)
    return [one.sign for one in found]


def drawn_ground(page: Page, view: View, key: places.Key) -> None:
    """The colours of the groups that have an element or a source, round its box."""
    from matplotlib.patches import FancyBboxPatch

    x, y = page.spots[key]
    found = group_bands.around(view.groups, *key)
    for number, one in reversed(list(enumerate(found, start=1))):
        wide = [side + 2 * number * BAND * page.scale / 72 for side in page.box]
        shape = f"round,pad=0,rounding_size={wide[1] * 0.2}"
        how: dict[str, Any] = {"facecolor": one.colour, "edgecolor": "none", "zorder": 1.5}
        page.axes.add_patch(FancyBboxPatch((x - wide[0] / 2, y - wide[1] / 2), *wide, boxstyle=shape, **how))


def drawn_cable(page: Page, view: View, lines: list[Line], aside: float) -> None:
    """A link or a bundle: the cable, its arrows, its name, and a cross where it has failed."""
    first = lines[0]
    path = path_of(page, (ELEMENT, first.sender), (ELEMENT, first.receiver), aside)
    links = dict.fromkeys(line.link for line in lines)
    if first.bundle[0] == "bundle" and len(links) > 1:
        band = {"color": colours.PALE, "linewidth": 9 * page.scale, "zorder": 1, "solid_capstyle": "butt"}
        page.axes.plot(*zip(*path), **band)
    grouped = drawn_bands(page, view, list(links), path)
    page.axes.plot(*zip(*path), **cable_style(view, lines))
    for receiver, way in ((first.receiver, path), (first.sender, path[::-1])):
        own = [line for line in lines if line.priority and line.receiver == receiver]
        if own:
            drawn_lines(page, view, own, way)
    is_cut = any(line.name in view.down for line in lines)
    name = f"{first.bundle[1]}: {len(links)} links" if len(links) > 1 else first.link
    name += f" {''.join(grouped)}" if grouped else ""
    if view.has_words or is_cut:
        text = {
            "fontsize": page.font * 0.72,
            "color": colours.DARK,
            "weight": "bold" if is_cut else "normal",
            "zorder": 4,
        }
        text["bbox"] = {"facecolor": "white", "lw": 0, "pad": 0.6}
        share = 0.3 if any(line.name in view.red for line in lines) else 0.5
        page.write(beside(page, *ways.piece_at(path, share)), f"✕ {name}" if is_cut else name, **text)


def cables_of(view: View) -> list[tuple[list[Line], int, int]]:
    """The lines of each bundle, with its place among those between the same elements, and how many these are."""
    bundles: dict[tuple[str, str], list[Line]] = {}
    for line in view.wired.lines.values():
        bundles.setdefault(line.bundle, []).append(line)
    beside: dict[frozenset[str], list[list[Line]]] = {}
    for lines in bundles.values():
        beside.setdefault(frozenset((lines[0].sender, lines[0].receiver)), []).append(lines)
    return [(lines, place, len(group)) for group in beside.values() for place, lines in enumerate(group)]


def words_of(view: View, element: Element) -> tuple[str, list[str], str | None]:
    """What stands in a box, its name first, and the level by which it is coloured."""
    name = element.name
    if not view.has_report:
        said = [f"own {view.wired.own[name]}"] + ([f"floor {element.floor}"] if element.floor is not None else [])
        return name, said if view.has_words else [], None
    shown = view.shown[name]
    mode = f" ({shown.mode})" if shown.mode != "auto" else ""
    state = "" if shown.state == "locked" else f" {shown.state}"
    return name, [f"{shown.level}{state}{mode}"] if view.has_words else [], shown.level


def drawn_element(page: Page, view: View, element: Element) -> None:
    """An element: a box coloured by its level, hatched where it follows no source."""
    from matplotlib.patches import FancyBboxPatch

    name, said, level = words_of(view, element)
    fill = colours.of_level(level)
    x, y = page.spots[ELEMENT, name]
    width, height = page.box
    is_hatched = name in view.unfed
    shape = f"round,pad=0,rounding_size={height * 0.2}"
    how: dict[str, Any] = {"facecolor": fill, "edgecolor": colours.DARK, "linewidth": 0.9, "zorder": 5}
    if is_hatched:
        how |= {"hatch": "////", "edgecolor": "#FFFFFF" if colours.ink(fill) == "#FFFFFF" else colours.DARK}
    page.axes.add_patch(FancyBboxPatch((x - width / 2, y - height / 2), width, height, boxstyle=shape, **how))
    outline = {"facecolor": "none", "edgecolor": colours.DARK, "linewidth": 1.0, "zorder": 5.5}
    page.axes.add_patch(FancyBboxPatch((x - width / 2, y - height / 2), width, height, boxstyle=shape, **outline))
    paper = {"bbox": {"facecolor": fill, "lw": 0, "pad": 0.5}} if is_hatched else {}
    for row, text in enumerate([name, *said]):
        share = 0.7 if not said else 0.4 if row == 0 else 0.31 if len(said) == 1 else 0.2
        at = x, y + height * (0.0 if not said else 0.24 if row == 0 else -0.2 if len(said) == 1 else 0.13 - 0.23 * row)
        size = page.fitting(text, share)
        page.write(at, text, fontsize=size, weight="normal" if row else "bold", color=colours.ink(fill), **paper)


def drawn_source(page: Page, view: View, source: Source) -> None:
    """A source: an ellipse coloured by the level that it gives, and the arrow to its element."""
    from matplotlib.patches import Ellipse

    here = page.spots[SOURCE, source.name]
    level = view.level_of_source(source)
    path = path_of(page, (SOURCE, source.name), (ELEMENT, source.at), 0)
    is_down = source.name in view.down
    dashes: Any = DASHED if is_down else "-"
    is_taken = view.taken(source.at) == source.name
    colour, width = (colours.DARK, 2.2 * page.scale + 0.4) if is_taken else (colours.GREY, 0.8)
    if source.priority:
        arrow_along(page, path, colour, width, linestyle=dashes)
    how: dict[str, Any] = {"facecolor": colours.of_level(level), "edgecolor": colours.DARK, "zorder": 5}
    page.axes.add_patch(Ellipse(here, *page.box, linestyle=dashes, **how))
    rows = [source.name, level] + (["✕ down"] if is_down else []) if view.has_words else [source.name]
    size = min(page.fitting(row + "  ", 0.75 / len(rows)) for row in rows)
    page.write(here, "\n".join(rows), fontsize=size, color=colours.ink(colours.of_level(level)), linespacing=1.0)


def levels_shown(view: View) -> list[str]:
    """The levels whose colours come up, best first."""
    sources = [view.level_of_source(source) for source in view.network.sources]
    return colours.in_order([*(change.level or "" for change in view.shown.values()), *sources])


def drawn_legend(page: Page, view: View) -> None:
    """What colours, hatches and lines mean."""
    from matplotlib.lines import Line2D
    from matplotlib.patches import Patch

    def stroke(label: str, **how: Any) -> Line2D:
        return Line2D([0], [0], label=label, **how)

    keys: list[Any] = [
        Patch(facecolor=colours.of_level(level), edgecolor=colours.DARK, label=level) for level in levels_shown(view)
    ]
    what = "follows no source" if view.has_report else "no way to a source"
    if view.unfed:
        keys.append(Patch(facecolor="white", edgecolor=colours.DARK, hatch="////", label=what))
    if view.has_report:
        keys.append(stroke("taken", color=colours.DARK, linewidth=2.6))
    keys.append(stroke("may be taken, with its priority at the arrow", color=colours.GREY, linewidth=1))
    if view.down:
        keys.append(stroke("✕ down", color=colours.GREY, linewidth=1.2, linestyle=DASHED))
    if view.waiting:
        keys.append(stroke("up again, waiting", color=colours.GREY, linewidth=1.2, linestyle=WAITING))
    if any(line.bundle[0] == "bundle" for line in view.wired.lines.values()):
        keys.append(stroke("bundle", color=colours.PALE, linewidth=7))
    keys += [Patch(facecolor=colour, edgecolor="none", label=text) for text, colour in group_bands.legend(view.groups)]
    for word in dict.fromkeys(view.red.values()):
        keys.append(
            stroke(
                {"PAIR": "pair that takes timing from each other", "RING": "possible loop"}.get(word, "TIMING LOOP"),
                color=colours.LOOP,
                linewidth=3,
            )
        )
    page.figure.legend(
        handles=keys, loc="lower center", ncols=6, fontsize=max(8, page.size[0] * 0.5), frameon=False, borderaxespad=0.6
    )


def picture(view: View, layout: Layout, ending: str) -> bytes:
    """The picture in a format of matplotlib. The same plan and report give the same octets."""
    figures.begin(STROKE)
    page = Page(layout, len(view.wired.elements))
    for lines, place, count in cables_of(view):
        drawn_cable(page, view, lines, (place - (count - 1) / 2) * APART)
    for key in page.spots if view.groups else ():
        drawn_ground(page, view, key)
    for source in view.network.sources:
        drawn_source(page, view, source)
    for element in view.network.elements:
        drawn_element(page, view, element)
    page.write(
        (MARGIN, page.size[1] - 0.35), view.title, ha="left", fontsize=max(10, page.size[0] * 0.95), weight="bold"
    )
    drawn_legend(page, view)
    return figures.octets(page.figure, ending)
