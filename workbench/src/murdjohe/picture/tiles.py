"""A map of cases and elements by matplotlib: a line for each case, a column for each element or for some together."""

from __future__ import annotations


from murdjohe.picture import colours, figures, strips
from murdjohe.picture.case_maps import FINE, FREERUN, HOLDOVER, WORSE, CaseMap, Column, Row
from murdjohe.picture.views import LOOP, PAIR

# The colours of what elements are, in the order of the legend, and what it says of each.
COLOURS = {
    FINE: colours.PLAIN,
    WORSE: colours.WORSE,
    HOLDOVER: colours.HOLDOVER,
    FREERUN: colours.FREERUN,
    PAIR: colours.PAIR,
    LOOP: colours.LOOP,
}
MEANINGS = {
    FINE: "follows a source",
    WORSE: "follows a source at a worse level",
    HOLDOVER: "follows a clock in holdover",
    FREERUN: "follows a free-running clock",
    PAIR: strips.MEANINGS[PAIR],
    LOOP: strips.MEANINGS[LOOP],
}
STOPPED = "not told: more than 200,000 changes"
HATCH = "////"  # of what follows a closed walk, where there is no room for its word
STROKE = 0.6  # points of a hatch
FONT, SIGN = 8, 0.07  # points of a name, and inches that each of its signs takes at most
NARROWEST, WIDEST, HIGH = 0.13, 0.8, 0.26  # inches of a column and of a line
WIDTH, HEAD, MARGIN, KEY = 11.5, 0.95, 0.3, 2.5  # inches: of all columns, above for the title, round all, of a key


class Tiles:
    """The axes of a map, a unit for each column and line."""

    def __init__(self, its: CaseMap) -> None:
        from matplotlib import pyplot

        self.its = its
        self.cases = [label_of(row) for row in its.rows]
        self.elements = [name_of(column) for column in its.columns]
        across, down = max(1, len(its.columns)), len(its.rows)
        self.column = min(WIDEST, max(NARROWEST, WIDTH / across))
        longest = SIGN * max(map(len, self.elements), default=0)
        self.is_upright = longest > self.column - 0.05
        above = HEAD + (longest if self.is_upright else 0.15) + 0.15
        left = MARGIN + SIGN * max(map(len, self.cases), default=0) + 0.1
        said = 0.085 * max(len(its.title) * 1.2, len(its.about), len(its.way)) + 2 * MARGIN
        width = max(left + across * self.column + MARGIN, said, 6.0)
        keys = keys_of(its)
        self.keys_across = max(1, min(len(keys), int((width - MARGIN) / KEY)))
        foot = 0.35 + 0.22 * -(-len(keys) // self.keys_across)
        height = above + max(1, down) * HIGH + foot
        self.figure = pyplot.figure(figsize=(width, height))
        place = (left / width, foot / height, across * self.column / width, max(1, down) * HIGH / height)
        self.axes = self.figure.add_axes(place)
        self.axes.set(xlim=(0, across), ylim=(max(1, down), 0))

    def drawn_row(self, number: int, row: Row) -> None:
        """The line of a case."""
        if row.ends is None:
            text = {"ha": "left", "va": "center", "fontsize": FONT, "color": colours.DARK, "style": "italic"}
            self.axes.text(0.1, number + 0.5, STOPPED, **text)
            return
        spots = [(place, 1) for place in range(len(self.its.columns))]
        fills = [fill_of(row, column, self.its.widest) for column in self.its.columns]
        self.axes.broken_barh(spots, (number, 1), facecolors=fills, edgecolor=colours.PALE, linewidth=0.4)
        for word in (PAIR, LOOP):
            places = [place for place, column in enumerate(self.its.columns) if row.walk(column) == word]
            if places:
                self.drawn_walks(places, number, word)

    def is_striped(self, word: str) -> bool:
        """Whether a closed walk is marked by stripes, since a field has no room for its word."""
        return self.its.widest == 1 and self.column < SIGN * len(word) + 0.1

    def drawn_walks(self, places: list[int], number: int, word: str) -> None:
        """The marks of a closed walk in a line: its word, or stripes; below shades a strip of its colour."""
        spots = [(place, 1) for place in places]
        if self.its.widest > 1:
            self.axes.broken_barh(spots, (number + 0.65, 0.35), facecolors=COLOURS[word], linewidth=0)
        elif self.is_striped(word):
            self.axes.broken_barh(spots, (number, 1), facecolor="none", edgecolor="white", hatch=HATCH, linewidth=0)
        else:
            text = {"ha": "center", "va": "center", "fontsize": FONT - 1, "color": "white", "weight": "bold"}
            for place in places:
                self.axes.text(place + 0.5, number + 0.5, word, **text)

    def drawn_names(self) -> None:
        """The cases at the left, the elements above."""
        middles = [place + 0.5 for place in range(len(self.its.columns))]
        self.axes.xaxis.tick_top()
        self.axes.set_xticks(middles, self.elements, rotation=90 if self.is_upright else 0, fontsize=FONT)
        self.axes.set_yticks([number + 0.5 for number in range(len(self.its.rows))], self.cases, fontsize=FONT)
        self.axes.tick_params(length=0)

    def drawn_words(self) -> None:
        """The title, and below it what is to be seen."""
        width, height = self.figure.get_size_inches()
        for text, below, how in (
            (self.its.title, 0.15, {"fontsize": 10, "weight": "bold"}),
            (self.its.about, 0.4, {"fontsize": 9, "color": colours.DARK}),
            (self.its.way, 0.6, {"fontsize": 9, "color": colours.DARK}),
        ):
            self.figure.text(MARGIN / width, 1 - below / height, text, va="top", **how)

    def drawn_legend(self) -> None:
        """What colours and shades mean."""
        from matplotlib.patches import Patch

        stripes = {
            MEANINGS[word]: {"hatch": HATCH, "edgecolor": "white"} for word in (PAIR, LOOP) if self.is_striped(word)
        }
        outline = {"edgecolor": colours.DARK}
        keys = [Patch(facecolor=fill, label=label, **stripes.get(label, outline)) for label, fill in keys_of(self.its)]
        about = {"loc": "lower center", "ncols": self.keys_across, "fontsize": FONT, "frameon": False}
        self.figure.legend(handles=keys, borderaxespad=0.4, **about)


def label_of(row: Row) -> str:
    """A case, with how many elements it leaves without a source, and whether it is unsettled."""
    return f"{row.outcome.case} ({row.outcome.lost:,})" + ("" if row.outcome.is_settled else ", unsettled")


def name_of(column: Column) -> str:
    """A column by its first element, with how many more there are in it."""
    return column[0] + (f" +{len(column) - 1}" if len(column) > 1 else "")


def fill_of(row: Row, column: Column, widest: int) -> str:
    """The colour of a field: of what its element is, or a shade for the share of its elements that have no source."""
    if widest > 1:
        return colours.shade(row.unfed(column) / len(column))
    return COLOURS[row.ends_in(column)[0]]


def keys_of(its: CaseMap) -> list[tuple[str, str]]:
    """What the legend says: each meaning that there is, with its colour."""
    walks = {word for row in its.rows for column in its.columns if (word := row.walk(column))}
    if its.widest > 1:
        labels = {0.0: "none without a source", 1 / its.widest: f"1 of {its.widest}", 0.5: "half", 1.0: "all"}
        keys = [(label, colours.shade(share)) for share, label in labels.items()]
        return keys + [(MEANINGS[word], COLOURS[word]) for word in (PAIR, LOOP) if word in walks]
    there = {end for row in its.rows for column in its.columns for end in row.ends_in(column)}
    return [(MEANINGS[end], fill) for end, fill in COLOURS.items() if end in there]


def picture(its: CaseMap, ending: str) -> bytes:
    """The picture in a format of matplotlib. The same map gives the same octets."""
    figures.begin(STROKE)
    tiles = Tiles(its)
    for number, row in enumerate(its.rows):
        tiles.drawn_row(number, row)
    tiles.drawn_names()
    tiles.drawn_words()
    if its.rows:
        tiles.drawn_legend()
    else:
        tiles.axes.axis("off")
    return figures.octets(tiles.figure, ending)
