"""What an element had to send over a long time: pieces say what one run says, or it is told from when on that isn't known."""

from __future__ import annotations

from collections.abc import Iterator

import pytest
from conftest import EXAMPLES
from hypothesis import given, settings
from hypothesis import strategies as st

from murdjohe.answers import api
from murdjohe.capture import soak
from murdjohe.capture.soak import Limits, Row, Sent, Soak

PLAN = (EXAMPLES / "node" / "plan.toml").read_text()
TIED = PLAN.replace("priority_b = 2", "priority_b = 1")
SECOND, MINUTE = 1_000, 60_000
# Frames of a tester on a line, as `encode I` makes them of these levels.
LEVELS = {"QL-PRC": "2", "QL-SSU-A": "4", "QL-SEC": "b"}


def frame(level: str) -> str:
    return f"0180c20000020200000000a188090a0019a7000110000000010004{LEVELS[level]:0>2}".ljust(120, "0")


def heard(line: str, end: int, *changes: tuple[int, str], phase: int = 0) -> list[Row]:
    """A message a second on a line, of the level that was last told."""
    return [
        Row(at, f"frame,{line},{frame([level for then, level in changes if then <= at][-1])}")
        for at in range(phase, end, SECOND)
        if any(then <= at for then, _ in changes)
    ]


def pieces_of(plan: str, rows: list[Row], end: int, limits: Limits) -> Iterator[list[Sent]]:
    """What the device of the bench had to send, piece by piece."""

    def replay(text: str, until: int) -> tuple[list[Sent], int]:
        answer = api.node(plan.encode(), "device", text.encode(), until).result
        return [Sent(row.at, row.line, row.frame) for row in answer.rows], until

    ordered = sorted(rows, key=lambda row: row.at)
    return Soak(ordered, replay, limits).sent(end)


def sent(plan: str, rows: list[Row], end: int, limits: Limits) -> list[list[Sent]]:
    """All of these pieces."""
    return list(pieces_of(plan, rows, end, limits))


def whole(pieces: list[list[Sent]]) -> list[Sent]:
    return [one for piece in pieces for one in piece]


END = 100 * MINUTE
WEST = heard("west>device", END, (400, "QL-PRC"), (31 * MINUTE, "QL-SEC"), (64 * MINUTE, "QL-PRC"), phase=400)
EAST = heard("east>device", END, (600, "QL-PRC"), (47 * MINUTE, "QL-SSU-A"), phase=600)
EVENTS = [
    Row(40 * MINUTE, "down,east>device,"),
    Row(55 * MINUTE + 7, "up,east>device,"),
    Row(80 * MINUTE, "lockout,west>device,"),
]


def test_pieces_say_what_one_run_says() -> None:
    rows = [*WEST, *EAST, *EVENTS]
    one = sent(PLAN, rows, END, Limits())
    pieces = sent(PLAN, rows, END, Limits(length=30 * MINUTE))
    assert len(one) == 1 and len(pieces) >= 4
    assert whole(pieces) == one[0] and one[0]
    # (so many octets are some 22 minutes of both lines)
    small = sent(PLAN, rows, END, Limits(octets=400_000))
    assert len(small) >= 5 and whole(small) == one[0]


def test_a_piece_is_cut_where_nothing_runs() -> None:
    # the cut at 80 minutes has a lockout behind it, and moves before the one that it has within the longest wait
    events = [Row(79 * MINUTE, "lockout,west>device,"), Row(70 * MINUTE, "unlock,west>device,")]
    events.sort(key=lambda row: row.at)
    assert soak.cut_before(events, 0, 80 * MINUTE) == 70 * MINUTE - SECOND
    assert soak.cut_before([], 0, 80 * MINUTE) == 80 * MINUTE
    assert soak.cut_before([Row(80 * MINUTE - soak.QUIET, "clear,device,")], 0, 80 * MINUTE) == 80 * MINUTE


def test_what_stands_is_carried_on() -> None:
    events = [
        Row(1, "down,west>device,"), Row(2, "down,east>device,"), Row(3, "up,west>device,"),
        Row(4, "lockout,west>device,"), Row(5, "manual,east>device,"), Row(6, "level,S,QL-SEC"),
        Row(7, "level,S,QL-PRC"), Row(8, "forced,west>device,"), Row(9, "clear,device,"),
        Row(10, "manual,west>device,"), Row(11, "esmc-off,south>tester,"), Row(9_999, "up,east>device,"),
    ]  # fmt: skip
    found = [(row.at, row.rest) for row in soak.carried(events, 1_000)]
    assert found == [
        (1_000, "down,east>device,"),
        (1_000, "lockout,west>device,"),
        (1_000, "esmc-off,south>tester,"),
        (1_000, "level,S,QL-PRC"),
        (1_000 + soak.SWITCHED, "manual,west>device,"),
    ]


def test_the_input_that_is_followed_by_a_tie_is_followed_in_the_next_piece() -> None:
    # east is heard first, and west, as good, isn't taken for it; alone, a piece would begin with west, the lesser number
    rows = [
        *heard("east>device", END, (600, "QL-PRC"), phase=600),
        *heard("west>device", END, (90_400, "QL-PRC"), phase=400),
    ]
    one = sent(TIED, rows, END, Limits())
    pieces = sent(TIED, rows, END, Limits(length=30 * MINUTE))
    assert len(pieces) >= 3 and whole(pieces) == one[0]
    last = [frame.frame for frame in one[0] if frame.at == END // SECOND * SECOND and frame.line == "east>tester"]
    assert last and last[0][54:56] == "0f"  # do-not-use goes back on east to the end


def test_where_events_never_rest_it_is_told_up_to_where_it_is_known() -> None:
    events = [Row(at, "clear-wtr,west>device,") for at in range(0, END, 5 * MINUTE)]
    with pytest.raises(soak.Lost) as lost:
        sent(PLAN, [*WEST, *EAST, *events], END, Limits(length=30 * MINUTE))
    assert lost.value.at == 30 * MINUTE and "one after the other" in str(lost.value)


@settings(max_examples=10)
@given(
    st.lists(
        st.tuples(
            st.integers(1, 99), st.sampled_from(["west", "east"]), st.sampled_from(["down", "up", "lockout", "unlock"])
        ),
        max_size=6,
    ),
    st.lists(st.tuples(st.integers(1, 99), st.sampled_from(list(LEVELS))), min_size=1, max_size=6),
    st.sampled_from([PLAN, TIED]),
)
def test_any_time_in_pieces(done: list[tuple[int, str, str]], changes: list[tuple[int, str]], plan: str) -> None:
    """Whatever is done and said, pieces give a front of what one run gives, and all of it where nothing is told."""
    events = sorted(Row(at * MINUTE, f"{word},{line}>device,") for at, line, word in done)
    west = heard("west>device", END, (0, "QL-PRC"), *sorted((at * MINUTE, level) for at, level in changes), phase=400)
    rows = [*west, *EAST, *events]
    one = sent(plan, rows, END, Limits())[0]
    found: list[Sent] = []
    try:
        for piece in pieces_of(plan, rows, END, Limits(length=40 * MINUTE)):
            found += piece
        assert found == one
    except soak.Lost as lost:
        assert 0 < lost.at < END and found == one[: len(found)]
