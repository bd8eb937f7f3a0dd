"""G.803's reference chain, as the longest that a chain of timing should be."""

from __future__ import annotations

from murdjohe.core import row_tables

WHAT = {"links": "lines", "since": "lines since a filter", "clocks": "filters"}
# the columns of `chains`, and what the reference chain has at most of each
LONGEST = tuple((one.name, one.limit, WHAT[one.name]) for one in row_tables.CHAINS.columns if one.limit)
