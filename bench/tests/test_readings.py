"""The readings against answers by hand, against each other, and against the models."""

import random
import struct
from pathlib import Path

import pytest

from bench.compare import frames, plans, ranks
from bench.levels import CODES, LEVELS
from bench.program import TOP
from bench.readings.captures import pcap_answer, pcap_bytes
from bench.readings.frames import Wrong, expected, frame_of, row_of
from bench.readings.plans import plan_of, rank_answer
from bench.readings.records import check_answer, events_refusal, number_of
from bench.readings.refused import Refused, Unsure
from bench.repository import script

SHORT = 20_000  # longer plans take the readings a second each
DEEP = b"[" * 100  # the program refuses lists in lists of this depth, which TOML allows
ROW = b"020000000001,event,QL-PRTC,0011223344556677,00,1,0"


def by_hand(name: str, place: Path) -> list[tuple[list[bytes | None], tuple[int, str]]]:
    """The files of each row of a table of cases/, made as cases/run makes them, with the status and the answer by hand."""
    rows, wrong = script("cases/run").prepared("no program", TOP / "cases" / name, place)
    assert not wrong
    files = [[place / name / word for word in row.words[1:]] for row in rows]
    read = [[path.read_bytes() if path.exists() else None for path in its] for its in files]
    return [(data, (row.status, row.text.decode("ascii"))) for row, data in zip(rows, read)]


def test_plans_by_hand_are_answered_as_by_hand(tmp_path: Path) -> None:
    seen = 0
    for (plan,), wanted in by_hand("plans-by-hand", tmp_path):
        if plan is None or len(plan) >= SHORT or DEEP in plan:
            continue
        try:
            assert rank_answer(plan) == wanted, plan
        except Unsure:
            continue  # Python's reader is of an older TOML
        seen += 1
    assert seen > 500


def test_certificates_by_hand_are_answered_as_by_hand(tmp_path: Path) -> None:
    seen = 0
    for (plan, certificate), wanted in by_hand("certificates-by-hand", tmp_path):
        if plan is not None and certificate is not None and max(len(plan), len(certificate)) < SHORT:
            assert check_answer(plan_of(plan), certificate) == wanted, (plan, certificate)
            seen += 1
    assert seen > 80


def test_random_plans_are_read_as_the_tables_say() -> None:
    chance, unsure = random.Random(7), 0
    for _ in range(300):
        plan, wanted = plans.random_plan(chance)
        try:
            assert rank_answer(plan) == wanted, plan
        except Unsure:
            unsure += 1
    assert unsure < 100


def test_ranks_are_those_of_networkx() -> None:
    chance = random.Random(3)
    for _ in range(60):
        plan = ranks.with_bundles(chance, ranks.random_plan(chance))
        text = ranks.plan_text(plan).encode("ascii")
        assert rank_answer(text) == ranks.expected(plan)
        certificate, wanted = ranks.random_certificate(chance, plan)
        assert check_answer(plan_of(text), certificate.encode("ascii")) == wanted


@pytest.mark.parametrize("option", CODES)
def test_a_frame_of_a_row_has_that_row(option: str) -> None:
    chance = random.Random(5)
    for _ in range(200):
        row = ",".join(frames.random_row(chance, option)).encode("ascii")
        assert row_of(option, frame_of(option, row).encode("ascii")) == row.decode("ascii").lower().replace(
            row.decode("ascii").split(",")[2].lower(), row.decode("ascii").split(",")[2]
        )


def test_what_is_wrong_with_frames_has_its_number() -> None:
    frame = frame_of("I", ROW)
    assert expected("decode", "I", frame.encode("ascii") + b"\n") == (0, ROW.decode("ascii") + "\n")
    assert expected("decode", "I", b"\n" + frame[:-2].encode("ascii")) == (6, "bad frames 13 2 4\n")
    assert expected("decode", "I", frame[1:].encode("ascii")) == (6, "bad frames 12 1\n")
    assert expected("encode", "I", b"020000000001,info,QL-PRTC\n") == (6, "bad frames 14 1\n")
    with pytest.raises(Wrong):
        frame_of("II", ROW.replace(b"QL-PRTC", b"QL-PRC"))


def test_a_capture_of_rows_has_those_rows() -> None:
    rows = b"1,5," + ROW + b"\n4294967295,0,020000000002,info,QL-DNU\n"
    status, capture = pcap_bytes("I", rows)
    assert status == 0 and pcap_answer("I", capture) == (0, rows + b"passed,0\n")
    assert pcap_answer("I", capture[:-1]) == (6, b"bad capture 42 2\n")
    assert pcap_answer("I", capture[:20] + struct.pack("<I", 113) + capture[24:]) == (6, b"bad capture 41\n")
    assert pcap_answer("I", b"") == (6, b"bad capture 40\n")
    assert pcap_bytes("I", b"4294967296,0," + ROW) == (6, b"bad frames 14 1\n")


def test_numbers_have_no_sign_and_no_leading_zero() -> None:
    assert [number_of(word, 10) for word in ("0", "10", "11", "01", "+1", "", " 1")] == [0, 10, *[None] * 5]


def test_event_lists_are_refused_by_the_first_thing_that_is_wrong() -> None:
    plan = plan_of(b'[[element]]\nname = "A"\n[[source]]\nname = "S"\nat = "A"\nlevel = "QL-PRC"\n')
    head = b"at,what,target,value\n"
    wrong = {
        b"": None,
        b"0,down,S,\n0,clear,A,\n": None,
        b"1,down,S,\n0,down,S,\n": "29 2",
        b"0,down,S\n": "27 1",
        b"86400001,down,S,\n": "28 1",
        b"0,downs,S,\n": "30 1",
        b"0,esmc-off,S,\n": "31 1",
        b"0,level,S,QL-STU\n": "32 1",
    }
    for rows, number in wrong.items():
        assert events_refusal(plan, head + rows) == (number and f"bad events {number}\n"), rows
    assert events_refusal(plan, b"at,what\n") == "bad events 26\n"


def test_a_refused_plan_is_no_plan() -> None:
    with pytest.raises(Refused):
        plan_of(b'[[element]]\nname = "A"\n' * 2)
    assert [len(levels) for levels in LEVELS.values()] == [9, 13]
