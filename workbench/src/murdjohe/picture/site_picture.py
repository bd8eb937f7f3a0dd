"""A picture of a placement by matplotlib: links, each element in the colour of its nearest clock, and clocks as stars."""

from __future__ import annotations

from collections import Counter, deque
from typing import Any

from murdjohe.picture import colours, figures, places
from murdjohe.picture.places import ELEMENT, MAP
from murdjohe.place.placements import Placed
from murdjohe.plan.model import Plan

PAGE = 16.5, 11.7  # inches
MARGIN = 0.06  # of the page, round the picture
NAMED = 80  # elements up to which all names are written
LEGEND = 20  # clocks of which the legend tells how many elements they are nearest to
STROKE = 0.8
# Colours of Okabe and Ito, told apart by people who don't tell red from green; clocks beyond these have them again.
HUES = ("#0072B2", "#E69F00", "#009E73", "#CC79A7", "#56B4E9", "#D55E00", "#F0E442", "#000000")


def nearest(found: Placed) -> dict[int, int]:
    """For each element the nearest clock, by the numbers of elements; the first of those that are as near."""
    clocks = list(dict.fromkeys(found.problem.clocks(found.chosen.sites)))
    near = dict(zip(clocks, clocks))
    waiting = deque(clocks)
    while waiting:
        at = waiting.popleft()
        for _, other in found.problem.network.lines_out[at]:
            if other not in near:
                near[other] = near[at]
                waiting.append(other)
    return near


def legend_of(found: Placed, near: dict[int, int], hues: dict[int, str], axes: Any) -> None:
    """The clocks with how many elements each is nearest to, beside the picture."""
    names, counts = found.problem.network.names, Counter(near.values())
    for clock in list(hues)[:LEGEND]:
        axes.scatter([], [], marker="*", s=180, color=hues[clock], label=f"{names[clock]}: {counts[clock]:,}")
    axes.legend(title="nearest clock of", loc="lower left", frameon=False, fontsize=8, ncol=4)


def drawn(found: Placed, plan: Plan, ending: str) -> bytes:
    """The picture of a placement in a plan."""
    figures.begin(STROKE)
    from matplotlib import pyplot

    network, spots = found.problem.network, places.layout_of(plan, MAP, None).spots
    at = [spots[ELEMENT, name] for name in network.names]
    near = nearest(found)
    clocks = list(dict.fromkeys(found.problem.clocks(found.chosen.sites)))
    hues = {clock: HUES[number % len(HUES)] for number, clock in enumerate(clocks)}
    figure = pyplot.figure(figsize=PAGE)
    axes = figure.add_axes((MARGIN, MARGIN, 1 - 2 * MARGIN, 1 - 2 * MARGIN))
    axes.axis("off")
    for sender, receiver in zip(network.senders[::2], network.receivers[::2]):
        axes.plot(*zip(at[sender], at[receiver]), color=colours.PALE, linewidth=1.2, zorder=1)
    fills = [hues[near[place]] if place in near else colours.PLAIN for place in range(network.size)]
    axes.scatter(*zip(*at), s=60, c=fills, edgecolors=colours.DARK, linewidths=0.6, zorder=2)
    if clocks:
        stars = [at[clock] for clock in clocks]
        axes.scatter(*zip(*stars), s=420, marker="*", c=list(hues.values()), edgecolors=colours.DARK, zorder=3)
    has_names = network.size <= NAMED
    for place, name in enumerate(network.names):
        if has_names or place in hues:
            axes.annotate(name, at[place], xytext=(0, 9), textcoords="offset points", ha="center", fontsize=8, zorder=4)
    axes.set_title(f"cost {found.cost.normalize():f}: {len(found.sites):,} sites chosen, {len(clocks):,} clocks in all")
    legend_of(found, near, hues, axes)
    return figures.octets(figure, ending)
