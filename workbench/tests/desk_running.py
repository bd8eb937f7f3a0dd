"""A desk as a person starts it: the command in a process of its own, and the address that it prints."""

from __future__ import annotations

import asyncio
import os
import signal
import subprocess
from collections.abc import Awaitable, Callable, Iterator
from contextlib import contextmanager
from pathlib import Path
from typing import Any
from urllib.parse import parse_qs, urlsplit

import aiohttp
from conftest import LAUNCHER

Talk = Callable[[aiohttp.ClientSession], Awaitable[Any]]
SET = {"kind": "value", "section": "link", "name": "L3", "key": "priority_a", "value": 7}


class Running:
    """A desk that runs: its process, and the address and the token that it printed."""

    def __init__(self, words: tuple[str, ...], folder: Path) -> None:
        states = {"XDG_STATE_HOME": str(folder / "states-of-the-user")}
        command = [str(LAUNCHER), "desk", *words]
        self.process = subprocess.Popen(
            command, cwd=folder, env={**os.environ, **states}, stdout=subprocess.PIPE, stderr=subprocess.PIPE, text=True
        )
        assert self.process.stdout is not None
        self.address = self.process.stdout.readline().strip()
        if not self.address:
            raise AssertionError(self.process.communicate()[1])
        parts = urlsplit(self.address)
        self.base = f"http://{parts.netloc}"
        self.port = parts.port or 0
        self.token = parse_qs(parts.query)["token"][0]
        self.cookies = {f"murdjohe-desk-{self.port}": self.token}

    def ended(self, number: int = signal.SIGTERM) -> tuple[int, str]:
        """Ends it, and gives its status and what it said."""
        if self.process.poll() is None:
            self.process.send_signal(number)
        _, said = self.process.communicate(timeout=20)
        return self.process.returncode, said


@contextmanager
def running(*words: str, folder: Path) -> Iterator[Running]:
    """A desk that runs meanwhile."""
    desk = Running(words, folder)
    try:
        yield desk
    finally:
        desk.ended()


def talked(desk: Running, talk: Talk, is_known: bool = True) -> Any:
    """What comes of talking to a desk, as its page or as somebody who doesn't know the token."""

    async def all_of_it() -> Any:
        jar = aiohttp.CookieJar(unsafe=True)
        cookies = desk.cookies if is_known else {}
        headers = {"Origin": desk.base} if is_known else {}
        async with aiohttp.ClientSession(desk.base, cookie_jar=jar, cookies=cookies, headers=headers) as session:
            return await talk(session)

    return asyncio.run(all_of_it())


def posted(desk: Running, path: str, **data: Any) -> tuple[int, Any]:
    """The status and the answer to something that the page asks."""

    async def talk(session: aiohttp.ClientSession) -> tuple[int, Any]:
        async with session.post(path, json=data) as answer:
            return answer.status, await answer.json()

    found: tuple[int, Any] = talked(desk, talk)
    return found


def state_of(desk: Running) -> dict[str, Any]:
    """What the page begins with."""

    async def talk(session: aiohttp.ClientSession) -> Any:
        async with session.get("/state") as answer:
            return await answer.json()

    found: dict[str, Any] = talked(desk, talk)
    return found
