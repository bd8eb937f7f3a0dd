"""Times with units."""

from __future__ import annotations

import pytest
from hypothesis import given
from hypothesis import strategies as st

from murdjohe.core.times import milliseconds


@pytest.mark.parametrize(
    ("word", "time"),
    [
        *(("20m", 1_200_000), ("90s", 90_000), ("1h30m", 5_400_000), ("500ms", 500), ("1s500ms", 1_500)),
        *(("24h", 86_400_000), ("0s", 0), ("00:20:00", 1_200_000), ("24:00:00", 86_400_000)),
        *(("1:02:03", 3_723_000), ("02:10", 7_800_000), ("00:00:01.250", 1_250)),
    ],
)
def test_units_are_taken(word: str, time: int) -> None:
    assert milliseconds(word) == time


@pytest.mark.parametrize(
    "word",
    [*"20 m 20M 30m1h 1h1h 1.5h -1m 1:2:3 00:60:00 00:00:60 1:0 1:60 01:00.5 1e3s ٣m 1d".split(), "", "1m "],
)
def test_other_words_are_no_times(word: str) -> None:
    assert milliseconds(word) is None


@given(st.integers(0, 23), st.integers(0, 59), st.integers(0, 59), st.integers(0, 999))
def test_a_sum_of_units_is_their_sum(hours: int, minutes: int, seconds: int, rest: int) -> None:
    total = ((hours * 60 + minutes) * 60 + seconds) * 1000
    assert milliseconds(f"{hours}h{minutes}m{seconds}s{rest}ms") == total + rest
    assert milliseconds(f"{hours:02}:{minutes:02}:{seconds:02}") == total


@given(st.text(max_size=12))
def test_no_text_breaks_it(word: str) -> None:
    time = milliseconds(word)
    assert time is None or time >= 0
