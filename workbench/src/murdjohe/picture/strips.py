"""A timeline by matplotlib: a strip for each element, coloured by its level, with events as marks and closed walks in red."""

from __future__ import annotations

from dataclasses import dataclass

from murdjohe.answers.reports import Change
from murdjohe.core import times
from murdjohe.picture import bands, colours, figures
from murdjohe.picture.bands import Band
from murdjohe.runs.moments import Event

HATCHES = {"holdover": "///", "freerun": "xxx", "forced": "..", "manual": "oo"}  # of states and of switches
HIGH = 40  # elements from which on the times are written above too
FOOT = 1.45  # inches below the strips, for times and the legend
LOOP, PAIR, CLOSED = "LOOP", "PAIR", "CLOSED"  # closed is a walk of which only a plan tells whether it is of one bundle
MEANINGS = {LOOP: "TIMING LOOP", PAIR: "pair, taking timing from each other", CLOSED: "closed walk, by another link"}
LABELLED = 60  # events that are written beside their marks
STROKE = 0.6  # points of a hatch
SIGN, SLANT = 0.062, 0.77  # inches of a sign of a label, and how much of them goes across, and up


@dataclass(frozen=True)
class Red:
    """A closed walk at an element, from one millisecond to another, and the word for it."""

    element: str
    start: int
    stop: int
    word: str

    @property
    def colour(self) -> str:
        return colours.PAIR if self.word == PAIR else colours.LOOP


@dataclass(frozen=True)
class Timeline:
    """What is drawn: a title, the changes, elements in their order, events, closed walks, the end, and what is folded."""

    title: str
    rows: list[Change]
    order: list[str]
    events: tuple[Event, ...]
    red: list[Red]
    end: int
    fold: int
    day: int | None = None  # the time of day at which the run begins, where times of day are shown

    def time(self, at: int) -> str:
        """A millisecond as the axis has it."""
        return bands.minutes(at) if self.day is None else times.clock(at, self.day).removesuffix(".000")

    @property
    def start(self) -> int:
        return self.rows[0].at

    @property
    def moments(self) -> list[int]:
        """The milliseconds that have a place of their own."""
        walks = {at for red in self.red for at in (red.start, red.stop)}
        return sorted({row.at for row in self.rows} | {event.at for event in self.events} | walks | {self.end})


def words_of(line: Timeline) -> dict[int, str]:
    """What is written at the events of each millisecond: the first three of them, and how many more there are."""
    its: dict[int, list[Event]] = {}
    for event in line.events:
        its.setdefault(event.at, []).append(event)
    found = {}
    for at, events in its.items():
        words = [" ".join(word for word in (one.what, one.target, one.value) if word) for one in events]
        found[at] = ", ".join(words[:3]) + (f" and {len(words) - 3} more" if words[3:] else "")
    return found


class Strips:
    """The axes of a timeline, and where each millisecond stands on them."""

    def __init__(self, line: Timeline) -> None:
        from matplotlib import pyplot

        self.line = line
        self.its = bands.bands_of(line.rows, line.order, line.end)
        self.places, self.folds = bands.places_of(line.moments, line.fold)
        self.width = self.places[line.end] or 1
        self.foot_rows = 1.3 if self.folds else 0.0
        width = 12.0
        left, right = 0.35 + 0.075 * max(map(len, self.its), default=0), 0.3
        self.words = words_of(line) if len(line.events) <= LABELLED else {}
        rise = 0.0
        for at, text in self.words.items():
            long = SIGN * (len(text) + 3) * SLANT  # inches that a label goes to the right, and up
            rise, right = max(rise, long), max(right, long - (self.width - self.places[at]) / self.width * 10.0 + 0.1)
        head, high = max(0.65, rise + 0.65) if line.events else 0.65, 0.3 * (len(self.its) + self.foot_rows + 0.2)
        height = head + high + FOOT
        self.figure = pyplot.figure(figsize=(width, height))
        place = (left / width, FOOT / height, (width - left - right) / width, high / height)
        self.axes = self.figure.add_axes(place)

    def drawn_band(self, row: int, band: Band) -> None:
        """One band, with the input written in it where there is room."""
        left, right = self.places[band.start], self.places[band.stop]
        fill = colours.of_level(band.level)
        hatch = "".join(HATCHES.get(word, "") for word in (band.state, band.mode)) or None
        edge = colours.GREY if colours.ink(fill) == "#FFFFFF" else colours.DARK
        box = {"height": 0.8, "color": fill, "edgecolor": edge, "linewidth": 0.4, "hatch": hatch}
        self.axes.barh(row, right - left, left=left, **box)
        if right - left > self.width * 0.012 * len(band.taken):
            paper = {"facecolor": fill, "edgecolor": "none", "pad": 1}
            text = {"ha": "center", "va": "center", "fontsize": 7, "color": colours.ink(fill), "bbox": paper}
            self.axes.text((left + right) / 2, row, band.taken, **text)

    def drawn_red(self, red: Red) -> None:
        """A closed walk: a red strip at the foot of its element's, with its word where there is room."""
        if red.element not in self.its:
            return
        row = list(self.its).index(red.element)
        left, right = self.places[red.start], self.places[red.stop]
        self.axes.barh(row + 0.3, right - left, left=left, height=0.24, color=red.colour, linewidth=0, zorder=4)
        if right - left > self.width * 0.03:
            text = {"ha": "center", "va": "center", "fontsize": 6, "color": "white", "weight": "bold", "zorder": 5}
            self.axes.text((left + right) / 2, row + 0.3, red.word, **text)

    def drawn_events(self) -> None:
        """Events as marks: a line through all strips, and above it what happens."""
        for at in dict.fromkeys(event.at for event in self.line.events):
            self.axes.axvline(self.places[at], color=colours.DARK, linewidth=0.9, zorder=3)
        for at, text in self.words.items():
            how = {"rotation": 40, "ha": "left", "va": "bottom", "fontsize": 7, "rotation_mode": "anchor"}
            self.axes.text(self.places[at], -0.75, f"▾ {text}", **how)

    def drawn_folds(self) -> None:
        """Where time is left out: a dotted line, and how long it is."""
        for place, length in self.folds.items():
            self.axes.axvline(place, linestyle=":", color="black", linewidth=0.8)
            text = {"rotation": 90, "ha": "center", "va": "top", "fontsize": 6, "color": colours.DARK}
            text["bbox"] = {"facecolor": "white", "lw": 0, "pad": 0.5}
            self.axes.text(place, len(self.its) - 0.4, bands.length_of(length), **text)

    def drawn_axes(self) -> None:
        """The times below, and above too where there are many elements; the elements at the left."""
        shown = bands.labelled(self.line.moments, self.places, self.width / 70)
        ticks = [self.places[at] for at in shown]
        self.axes.set_xticks(ticks, [self.line.time(at) for at in shown], rotation=90, fontsize=7)
        is_high = len(self.its) > HIGH and not self.line.events
        self.axes.tick_params(axis="x", labeltop=is_high, top=is_high)
        self.axes.set_yticks(range(len(self.its)), list(self.its), fontsize=8)
        low = len(self.its) - 0.4 + self.foot_rows
        self.axes.set(
            xlim=(0, self.width),
            ylim=(low, -0.6),
            xlabel="minutes:seconds from the start" if self.line.day is None else "time of day",
        )

    def drawn_legend(self) -> None:
        """Levels by colour, best first; states and switches by hatch."""
        from matplotlib.patches import Patch

        rows, red = self.line.rows, self.line.red
        keys = [
            Patch(facecolor=colours.of_level(level), edgecolor="black", label=level)
            for level in colours.in_order(row.level or "" for row in rows)
        ]
        there = {row.state for row in rows} | {row.mode for row in rows}
        keys += [
            Patch(facecolor="white", edgecolor="black", hatch=hatch, label=word)
            for word, hatch in HATCHES.items()
            if word in there
        ]
        words = {one.word: one.colour for one in red}
        keys += [Patch(facecolor=colour, label=MEANINGS[word]) for word, colour in words.items()]
        self.figure.legend(handles=keys, loc="lower center", ncols=8, fontsize=8, frameon=False, borderaxespad=0.2)


def picture(line: Timeline, ending: str) -> bytes:
    """The whole picture. The same report gives the same octets."""
    figures.begin(STROKE)
    strips = Strips(line)
    for row, own in enumerate(strips.its.values()):
        for band in own:
            strips.drawn_band(row, band)
    for red in line.red:
        strips.drawn_red(red)
    strips.drawn_events()
    strips.drawn_folds()
    strips.drawn_axes()
    strips.drawn_legend()
    strips.figure.text(0.01, 1 - 0.12 / strips.figure.get_figheight(), line.title, fontsize=10, weight="bold", va="top")
    return figures.octets(strips.figure, ending)
