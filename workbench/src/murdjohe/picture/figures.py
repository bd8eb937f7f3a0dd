"""What pictures by matplotlib have in common: the formats that they come in, and how they are begun and written."""

from __future__ import annotations

import io
from typing import Any

from murdjohe.core.faults import Wrong

ENDINGS = ("svg", "png", "pdf")
DOTS = 120  # an inch, in a png
SETTINGS = {"svg.fonttype": "none", "svg.hashsalt": "murdjohe", "font.family": "sans-serif"}  # (no number by chance)


def ending_of(path: str) -> str:
    """The format of a picture, by the end of its name. Raises Wrong."""
    ending = path.rpartition(".")[2]
    if ending not in ENDINGS:
        raise Wrong(f"{path}: a picture ends in .svg, .png or .pdf")
    return ending


def begin(stroke: float) -> None:
    """Has matplotlib draw without a screen, with hatches of so many points. That there is no folder for its cache is not told."""
    import logging

    logging.getLogger("matplotlib").setLevel(logging.ERROR)
    import matplotlib

    matplotlib.use("agg")
    matplotlib.rcParams.update(SETTINGS | {"hatch.linewidth": stroke})


def octets(figure: Any, ending: str) -> bytes:
    """A figure in a format, without the time: the same figure gives the same octets. It is closed."""
    from matplotlib import pyplot

    data = io.BytesIO()
    about = {"svg": {"Date": None}, "pdf": {"CreationDate": None}}.get(ending)
    figure.savefig(data, format=ending, dpi=DOTS, metadata=about)
    pyplot.close(figure)
    return data.getvalue()
