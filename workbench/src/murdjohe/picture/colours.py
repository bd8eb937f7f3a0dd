"""Colours of quality levels and of what is wrong: the same in every picture, the page and the timeline.

The levels go from light, the best, to dark, in steps that are told apart in grey and by people who don't tell red from green.
Levels of the two options that stand at one place of their tables have one colour. Red is for closed walks alone.
"""

from __future__ import annotations

import math
from collections.abc import Iterable

from murdjohe.core.levels import LEVELS

# Steps of ColorBrewer's YlGnBu, by Cynthia Brewer.
LEVEL_COLOURS = {
    "QL-ePRTC": "#FFFFE5",
    "QL-PRTC": "#E9F7B1",
    "QL-ePRC": "#D1EDB3",
    "QL-PRC": "#AEDFB6",
    "QL-PRS": "#AEDFB6",
    "QL-STU": "#80CEBB",
    "QL-SSU-A": "#59BFC0",
    "QL-ST2": "#59BFC0",
    "QL-SSU-B": "#39ADC3",
    "QL-TNC": "#39ADC3",
    "QL-ST3E": "#2296C1",
    "QL-eEEC": "#1F78B4",
    "QL-SEC": "#2259A6",
    "QL-ST3": "#2259A6",
    "QL-SMC": "#243F99",
    "QL-PROV": "#1A2B7E",
    "QL-DNU": "#081D58",
    "QL-DUS": "#081D58",
}
PLAIN = "#FFFFFF"  # where no level is known
LOOP, PAIR = "#D00000", "#E07000"
# What an element is at the end of a case, the lighter the better: steps of ColorBrewer's Purples, by Cynthia Brewer.
WORSE, HOLDOVER, FREERUN = "#DADAEB", "#9E9AC8", "#54278F"
DARK, GREY, PALE = "#1A1A1A", "#8A8A8A", "#D0D0D0"
LEAST_SHADE, MOST_SHADE = 0xD0, 0x1A  # greys of a small share, and of all
MIDDLE = 0.18  # the brightness from which on ink is black


def brightness(colour: str) -> float:
    """How bright a colour is to the eye, 0 to 1: relative luminance as WCAG has it."""
    parts = (int(colour[place : place + 2], 16) / 255 for place in (1, 3, 5))
    linear = [part / 12.92 if part <= 0.04045 else math.pow((part + 0.055) / 1.055, 2.4) for part in parts]
    return 0.2126 * linear[0] + 0.7152 * linear[1] + 0.0722 * linear[2]


def ink(colour: str) -> str:
    """Black or white, whichever is read better on a colour."""
    return "#000000" if brightness(colour) > MIDDLE else "#FFFFFF"


def of_level(level: str | None) -> str:
    """The colour of a level, and white for none."""
    return LEVEL_COLOURS.get(level or "", PLAIN)


def shade(share: float) -> str:
    """A grey for a share: white for none, and else the darker the greater it is."""
    grey = round(LEAST_SHADE + (MOST_SHADE - LEAST_SHADE) * share) if share else 0xFF
    return f"#{grey:02X}{grey:02X}{grey:02X}"


def in_order(levels: Iterable[str]) -> list[str]:
    """Levels of one option without repeats, the best first."""
    given = set(levels)
    option = next((names for names in LEVELS.values() if given <= set(names)), [*LEVELS["I"], *LEVELS["II"]])
    return [level for level in dict.fromkeys(option) if level in given]
