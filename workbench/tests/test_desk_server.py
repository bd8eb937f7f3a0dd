"""The server of the desk: what its page gets, and that nobody else gets anything."""

from __future__ import annotations

import asyncio
import json
import os
import signal
import socket
import time
from collections.abc import AsyncIterator
from pathlib import Path
from typing import Any

import aiohttp
import pytest
from desk_plans import RING
from desk_running import SET, Running, posted, running, state_of, talked

from murdjohe.desk import server


@pytest.fixture
def ring(folder: Path) -> Any:
    """A desk with the ring of three."""
    (folder / "plan.toml").write_bytes(RING)
    with running("plan.toml", folder=folder) as desk:
        yield desk


@pytest.fixture(scope="module")
def watched(tmp_path_factory: pytest.TempPathFactory) -> Any:
    """A desk with the ring of three at which nothing changes, whoever tries."""
    folder = tmp_path_factory.mktemp("watched")
    (folder / "plan.toml").write_bytes(RING)
    with running("plan.toml", folder=folder) as desk:
        yield desk


def test_the_page_comes_with_its_cookie_and_its_policy(watched: Running) -> None:
    async def talk(session: aiohttp.ClientSession) -> Any:
        async with session.get(f"/?token={watched.token}") as answer:
            text = await answer.text()
        parts = []
        for name in server.FILES:
            async with session.get(f"/page/{name}") as one:
                parts.append(one.status)
        return answer.status, answer.headers, text, parts

    status, headers, text, parts = talked(watched, talk, is_known=False)
    assert status == 200 and 'src="/page/desk.js"' in text and set(parts) == {200}
    cookie = headers["Set-Cookie"]
    assert watched.token in cookie and "HttpOnly" in cookie and "SameSite=Strict" in cookie
    policy = headers["Content-Security-Policy"]
    assert policy.startswith("default-src 'none'; script-src 'self'; style-src 'self'") and "http" not in policy
    assert "unsafe" not in policy and len(watched.token) >= 43 and watched.base.startswith("http://127.0.0.1:")


def test_it_listens_on_this_machine_alone(watched: Running) -> None:
    rows = [line.split() for line in Path("/proc/net/tcp").read_text().splitlines()[1:]]
    mine = [row[1] for row in rows if row[3] == "0A" and row[1].endswith(f":{watched.port:04X}")]
    assert mine == [f"0100007F:{watched.port:04X}"]
    if Path("/proc/net/tcp6").exists():
        assert f":{watched.port:04X} " not in Path("/proc/net/tcp6").read_text()


ATTACKS: list[tuple[str, str, dict[str, str], bool]] = [
    ("GET", "/", {}, False),
    ("GET", "/?token=guess", {}, False),
    ("GET", "/?token=", {}, False),
    ("GET", "/state", {}, False),
    ("GET", "/state", {"Cookie": "murdjohe-desk=guess"}, False),
    ("GET", "/page/desk.js", {}, False),
    ("GET", "/news", {}, False),
    ("GET", "/state", {"Host": "planner.example"}, True),
    ("GET", "/state", {"Host": "127.0.0.1"}, True),
    ("GET", "/state", {"Origin": "http://planner.example"}, True),
    ("GET", "/news", {"Sec-Fetch-Site": "cross-site"}, True),
    ("GET", "/state", {"Sec-Fetch-Site": "same-site"}, True),
    ("POST", "/edit", {"Origin": "http://planner.example"}, True),
    ("POST", "/edit", {"Origin": "null"}, True),
    ("POST", "/undo", {"Origin": "http://127.0.0.1:1"}, True),
    ("POST", "/save", {}, False),
    ("PUT", "/edit", {"Origin": "http://planner.example"}, True),
]


@pytest.mark.parametrize("method, path, headers, is_known", ATTACKS)
def test_a_stranger_gets_nothing(
    watched: Running, method: str, path: str, headers: dict[str, str], is_known: bool
) -> None:
    async def talk(session: aiohttp.ClientSession) -> Any:
        data = json.dumps({"on": 0, "edit": SET}) if method != "GET" else None
        kind = {"Content-Type": "application/json"} if data else {}
        async with session.request(method, path, data=data, headers={**kind, **headers}) as answer:
            return answer.status, await answer.read()

    assert talked(watched, talk, is_known) == (403, b"no\n")
    assert state_of(watched)["number"] == 0


def test_a_page_of_another_origin_sends_no_json(watched: Running) -> None:
    async def talk(session: aiohttp.ClientSession) -> Any:
        async with session.post(
            "/edit", data=json.dumps({"on": 0, "edit": SET}), headers={"Content-Type": "text/plain"}
        ) as answer:
            return answer.status

    assert talked(watched, talk) == 415 and state_of(watched)["number"] == 0


def raw(desk: Running, text: str, body: bytes = b"") -> bytes:
    """What comes back to octets as they are."""
    with socket.create_connection(("127.0.0.1", desk.port), timeout=20) as wire:
        cookie = "; ".join(f"{name}={value}" for name, value in desk.cookies.items())
        wire.sendall(text.format(host=f"127.0.0.1:{desk.port}", cookie=cookie).replace("\n", "\r\n").encode() + body)
        wire.settimeout(20)
        pieces = []
        try:
            while piece := wire.recv(65536):
                pieces.append(piece)
        except (ConnectionError, TimeoutError):
            pass
        return b"".join(pieces)


@pytest.mark.parametrize(
    "path",
    [
        "/page/../server.py", "/page/..%2fserver.py", "/page/%2e%2e/%2e%2e/core/program.py", "/../../etc/passwd",
        "//etc/passwd", "/page//etc/passwd", "/page/", "/desk.html",
    ],
)  # fmt: skip
def test_a_path_upwards_gets_nothing(watched: Running, path: str) -> None:
    said = raw(watched, f"GET {path} HTTP/1.1\nHost: {{host}}\nCookie: {{cookie}}\nConnection: close\n\n")
    assert said.split()[1] in (b"404", b"400") and said.endswith(b"\r\n\r\nno\n") and b"import" not in said


def peak_of(desk: Running) -> int:
    """The most memory that the server ever took, in kilobytes."""
    lines = Path(f"/proc/{desk.process.pid}/status").read_text().splitlines()
    return int(next(line for line in lines if line.startswith("VmHWM")).split()[1])


def test_a_body_of_a_gigabyte_gets_nothing(watched: Running) -> None:
    before = peak_of(watched)
    head = (
        "POST /edit HTTP/1.1\nHost: {host}\nOrigin: http://{host}\nCookie: {cookie}\nContent-Type: application/json\n"
    )
    said = raw(watched, head + "Content-Length: 1073741824\n\n", b"{" * 65536)
    assert said.startswith(b"HTTP/1.1 413") and said.endswith(b"too long\n")

    async def pieces() -> AsyncIterator[bytes]:
        for _ in range(1024):
            yield b" " * 1048576

    async def talk(session: aiohttp.ClientSession) -> Any:
        try:
            async with session.post("/edit", data=pieces(), headers={"Content-Type": "application/json"}) as answer:
                return answer.status
        except aiohttp.ClientError:
            return 413

    assert talked(watched, talk) == 413 and state_of(watched)["number"] == 0
    assert peak_of(watched) < before + 400_000


@pytest.mark.parametrize(
    "data", [b"", b"[", b"[]", b"{}", b'{"on": 0}', b'{"on": "0", "edit": {}}', b"\xff", b"[" * 100_000]
)
def test_nonsense_changes_nothing(watched: Running, data: bytes) -> None:
    async def talk(session: aiohttp.ClientSession) -> Any:
        found = []
        for path in ("/edit", "/undo", "/propose", "/why", "/tables", "/save", "/find", "/gap"):
            async with session.post(path, data=data, headers={"Content-Type": "application/json"}) as answer:
                found.append((answer.status, "said" in await answer.json()))
        return found

    assert {(status in (400, 409, 422), is_said) for status, is_said in talked(watched, talk)} == {(True, True)}
    assert state_of(watched)["number"] == 0


def test_an_edit_is_made_judged_told_and_saved(ring: Running, folder: Path) -> None:
    async def talk(session: aiohttp.ClientSession) -> Any:
        async with session.get("/news") as news:
            assert [await news.content.readline() for _ in range(3)] == [b"event: ready\n", b"data: {}\n", b"\n"]
            async with session.post("/edit", json={"on": 0, "edit": SET}) as answer:
                made = await answer.json()
            told: dict[str, Any] = {}
            while set(told) != {"change", "loop", "agree", "protected", "chains", "run", "cut"}:
                lines = [(await asyncio.wait_for(news.content.readline(), 20)).decode().strip() for _ in range(3)]
                data = json.loads(lines[1].removeprefix("data: "))
                if data["number"] == 1:  # (verdicts on the first state may come before)
                    told[data.get("name") if lines[0] == "event: verdict" else "change"] = data
            return made, told

    made, told = talked(ring, talk)
    assert made == {"number": 1} and all(data["number"] == 1 for data in told.values())
    assert told["change"]["rows"] == [{"section": "link", "name": "L3", "a": "C", "b": "A", "priority_a": 7}]
    assert told["loop"]["said"]["accepted"] and told["chains"]["said"]["links"] == 2
    assert (folder / "plan.toml").read_bytes() == RING  # (nothing is written before Save)
    status, said = posted(ring, "/save", on=1, what="plan", word="plan.toml")
    assert (status, (folder / "plan.toml").read_bytes()) == (
        200,
        RING.replace(b"priority_a = 2", b"priority_a = 7"),
    ), said
    assert state_of(ring)["saved"] is True


def test_two_pages_on_one_desk(ring: Running) -> None:
    assert posted(ring, "/edit", on=0, edit=SET)[0] == 200
    status, said = posted(ring, "/edit", on=0, edit={**SET, "value": 9})
    assert (status, said["since"], said["number"]) == (409, ["priority_a of link L3: 7"], 1)
    assert [posted(ring, path, on=0)[0] for path in ("/undo", "/redo", "/orders", "/cases")] == [409] * 4
    assert posted(ring, "/undo", on=1) == (200, {"number": 2})


def test_commands_propose_and_are_taken_as_one_edit(ring: Running) -> None:
    status, found = posted(ring, "/propose", on=0, by="protect")
    (found,) = found["sets"]
    assert status == 200 and found["said"][0].endswith("would change; checked: accepted, agreed, protected"), found
    assert posted(ring, "/edit", on=0, edit=found["edit"]) == (200, {"number": 1})
    assert [one["rows"] for one in posted(ring, "/propose", on=1, by="repair")[1]["sets"]] == [[]]
    assert posted(ring, "/propose", on=1, by="survey")[0] == 422
    assert posted(ring, "/undo", on=1)[0] == 200


def test_why_cases_and_orders(ring: Running) -> None:
    assert posted(ring, "/edit", on=0, edit={"kind": "events", "at": 60000, "rows": [["down", "L1", ""]]})[0] == 200
    text = posted(ring, "/why", on=1, element="C", at=70000)[1]["text"]
    assert text[0].startswith("At 00:01:10.000 C takes")
    assert posted(ring, "/why", on=1, element="X", at=70000)[0] == 422
    cases = posted(ring, "/cases", on=1)[1]["cases"]
    assert [(one["kind"], one["name"], one["lost"]) for one in cases] == [
        ("link", "L1", 1),  # (B has no other input; C takes L3, whose level is better than B's own clock)
        ("link", "L2", 0),
        ("link", "L3", 0),
        ("source", "S", 3),
        ("element", "A", 3),
        ("element", "B", 1),
        ("element", "C", 1),
    ]
    assert posted(ring, "/orders", on=1)[1]["text"].startswith("A\n  1st  source S (priority 1)\n")


def test_all_that_a_failure_cuts_off(ring: Running) -> None:
    """A takes S, B takes A, and C takes B: without L1 both go without, though L3 leads to them."""
    assert posted(ring, "/edit", on=0, edit={**SET, "value": 0})[0] == 200
    deadline = time.monotonic() + 20
    said: dict[str, Any] = {}
    while "cut" not in said and time.monotonic() < deadline:
        said = {one["name"]: one for one in state_of(ring)["said"]}
    assert said["cut"] == {"number": 1, "name": "cut", "said": {"elements": ["B", "C"], "failures": 3}}
    assert said["protected"]["said"]["gaps"][0] == ["link", "L1", 2, "B"]
    assert posted(ring, "/gap", on=1, place=0) == (200, {"on": 1, "elements": ["B", "C"]})
    assert posted(ring, "/gap", on=1, place=1) == (200, {"on": 1, "elements": ["C"]})
    assert [posted(ring, "/gap", on=1, place=place)[0] for place in (-1, 3, "0", None)] == [422] * 4
    assert posted(ring, "/gap", on=0, place=0)[0] == 409


def test_no_word_of_the_token_is_logged(ring: Running) -> None:
    status, said = ring.ended(signal.SIGINT)
    assert status == 0 and ring.token not in said and os.environ.get("MURDJOHE_CORE", "?") not in said
