"""The server of a desk: on 127.0.0.1 alone, for whoever has the token of its address, and for no other page of the browser."""

from __future__ import annotations

import asyncio
import base64
import hmac
import json
import secrets
import signal
from collections.abc import Awaitable, Callable
from pathlib import Path
from typing import Any, TypeVar

from aiohttp import web

from murdjohe.core import program
from murdjohe.core.faults import Wrong
from murdjohe.desk import edits, failing, importing, proposals
from murdjohe.desk.desks import Desk
from murdjohe.desk.states import Conflict
from murdjohe.network import plan_file
from murdjohe.picture import pages
from murdjohe.runs.simulation import EventFile
from murdjohe.why import choice_text, choices
from murdjohe.why.choices import Asked as AskedWhy

HOST = "127.0.0.1"
LONGEST_BODY = 64 * 1024 * 1024  # octets of a request
PARTS = Path(__file__).parent / "page"
KINDS = {".html": "text/html", ".css": "text/css", ".js": "text/javascript"}
# The files of the page: its own, and the modules of the page of `report` that it draws with.
FILES = {
    **{name: pages.PARTS / name for name in ("model.js", "picture.js", "tables.js")},
    **{path.name: path for path in sorted(PARTS.glob("*.*"))},
}
HEADERS = {
    "Content-Security-Policy": "default-src 'none'; script-src 'self'; style-src 'self'; img-src 'self' data:; "
    "connect-src 'self'; form-action 'none'; frame-ancestors 'none'; base-uri 'none'",
    "X-Content-Type-Options": "nosniff",
    "X-Frame-Options": "DENY",
    "Referrer-Policy": "no-referrer",
    "Cache-Control": "no-store",
    "Cross-Origin-Resource-Policy": "same-origin",
    "Cross-Origin-Opener-Policy": "same-origin",
}
OURS = ("same-origin", "none")  # what a browser says of requests of this page, and of an address that was typed
ResultT = TypeVar("ResultT")
Handler = Callable[[web.Request], Awaitable[web.StreamResponse]]


def answer(data: Any, status: int = 200) -> web.Response:
    """An answer as JSON."""
    return web.Response(text=json.dumps(data, separators=(",", ":")), content_type="application/json", status=status)


class Server:
    """A desk with those who look at it."""

    def __init__(self, desk: Desk, token: str | None = None) -> None:
        self.desk = desk
        self.token = token or secrets.token_urlsafe(32)
        self.port = 0
        self.pages: set[asyncio.Queue[tuple[str, dict[str, Any]] | None]] = set()
        self.work = asyncio.Semaphore(2)  # what takes long, at once

    @property
    def address(self) -> str:
        """The address that is opened in the browser."""
        return f"http://{HOST}:{self.port}/?token={self.token}"

    @property
    def cookie(self) -> str:
        """The name of the cookie, which other ports share."""
        return f"murdjohe-desk-{self.port}"

    def application(self) -> web.Application:
        """What answers requests."""
        app = web.Application(middlewares=[self.guarded], client_max_size=LONGEST_BODY)
        app.router.add_get("/", self.front)
        app.router.add_get("/page/{name}", self.part)
        app.router.add_get("/state", self.state)
        app.router.add_get("/run", self.run)
        app.router.add_get("/news", self.news)
        posts = (self.edit, self.undo, self.redo, self.propose, self.why, self.cases, self.gap)
        for work in (*posts, self.tables, self.orders, self.find, self.save):
            app.router.add_post(f"/{work.__name__}", self.posted(work))
        return app

    def is_known(self, request: web.Request) -> bool:
        """Whether a request has the token, in the cookie or, for the page alone, in the address."""
        given = request.cookies.get(self.cookie, "")
        if request.path == "/" and request.method == "GET" and "token" in request.query:
            given = request.query["token"]
        return hmac.compare_digest(given.encode(), self.token.encode())

    def is_ours(self, request: web.Request) -> bool:
        """Whether a request is for this host, and of no other page."""
        hosts = (f"{HOST}:{self.port}", f"localhost:{self.port}")
        origin = request.headers.get("Origin")
        if request.host not in hosts or (origin is not None and origin != f"http://{request.host}"):
            return False
        if request.method == "POST" and origin is None:
            return False
        return request.path == "/" or request.headers.get("Sec-Fetch-Site", "none") in OURS

    @web.middleware
    async def guarded(self, request: web.Request, handler: Handler) -> web.StreamResponse:
        """Lets requests through that may be answered; all others get nothing."""
        try:
            if not (self.is_ours(request) and self.is_known(request)):
                response: web.StreamResponse = web.Response(status=403, text="no\n")
            elif (request.content_length or 0) > LONGEST_BODY:
                response = web.Response(status=413, text="too long\n")
            else:
                response = await handler(request)
        except web.HTTPException as fault:
            response = web.Response(status=fault.status, text="no\n")
        if not response.prepared:
            response.headers.update(HEADERS)
        if response.status in (403, 413):
            response.force_close()
        return response

    async def front(self, request: web.Request) -> web.StreamResponse:
        """The page, with the token as a cookie."""
        response = web.Response(text=FILES["desk.html"].read_text(encoding="utf-8"), content_type="text/html")
        response.set_cookie(self.cookie, self.token, httponly=True, samesite="Strict", path="/")
        return response

    async def part(self, request: web.Request) -> web.StreamResponse:
        """A file of the page."""
        path = FILES.get(request.match_info["name"])
        if path is None:
            raise web.HTTPNotFound()
        return web.Response(text=path.read_text(encoding="utf-8"), content_type=KINDS[path.suffix])

    @staticmethod
    def region_of(request: web.Request) -> int | None:
        """The region that is looked into, where one is."""
        word = request.query.get("region", "")
        return int(word) if word.isascii() and word.isdigit() else None

    async def state(self, request: web.Request) -> web.StreamResponse:
        """All that the page begins with."""
        region = self.region_of(request)
        return answer(await self.worked(lambda: self.desk.state(region)))

    async def run(self, request: web.Request) -> web.StreamResponse:
        """The run of a state."""
        on, region = request.query.get("on", ""), self.region_of(request)
        try:
            number = int(on) if on.isascii() and on.isdigit() else -1
            return answer(await self.worked(lambda: self.desk.run(number, region)))
        except Wrong as wrong:
            return answer({"said": str(wrong)}, 404)

    async def news(self, request: web.Request) -> web.StreamResponse:
        """What changes, as it does."""
        response = web.StreamResponse(headers={**HEADERS, "Content-Type": "text/event-stream"})
        await response.prepare(request)
        mine: asyncio.Queue[tuple[str, dict[str, Any]] | None] = asyncio.Queue()
        self.pages.add(mine)
        try:
            await response.write(b"event: ready\ndata: {}\n\n")
            while (told := await mine.get()) is not None:
                await response.write(
                    f"event: {told[0]}\ndata: {json.dumps(told[1], separators=(',', ':'))}\n\n".encode()
                )
        except (ConnectionError, asyncio.CancelledError):
            pass
        finally:
            self.pages.discard(mine)
        return response

    def posted(self, work: Callable[[Any], Awaitable[Any]]) -> Handler:
        """What answers a request that changes something or asks for work: JSON in, JSON out, what is wrong in a sentence."""

        async def handler(request: web.Request) -> web.StreamResponse:
            if request.content_type != "application/json":
                return answer({"said": "it has to be JSON"}, 415)
            try:
                given = json.loads(await request.read())
                return answer(await work(given if isinstance(given, dict) else {}))
            except Conflict as conflict:
                return answer({"said": str(conflict), "since": conflict.since, "number": self.desk.states.number}, 409)
            except Wrong as wrong:
                return answer({"said": str(wrong), "status": wrong.status}, 422)
            except (ValueError, RecursionError):
                return answer({"said": "that is no request of this page"}, 400)
            except (program.Absent, program.Ended, program.NoAnswer) as fault:
                return answer({"said": str(fault)}, 422)

        return handler

    async def worked(self, work: Callable[[], ResultT]) -> ResultT:
        """What some work gives that takes long, done beside the server."""
        async with self.work:
            return await asyncio.get_running_loop().run_in_executor(None, work)

    @staticmethod
    def on(given: dict[str, Any]) -> int:
        """The state on which something was asked."""
        number = given.get("on")
        return number if isinstance(number, int) else -1

    async def edit(self, given: dict[str, Any]) -> Any:
        """Makes an edit."""
        edit = edits.of_data(given.get("edit"))
        wish = given.get("place")
        wishes = {}
        if isinstance(edit, edits.AddRow) and isinstance(wish, list) and len(wish) == 2:
            x, y = (float(one) if isinstance(one, (int, float)) else 0.0 for one in wish)
            wishes[str(edit.row.get("name"))] = (max(-50.0, min(x, 10_000.0)), max(-50.0, min(y, 10_000.0)))
        return self.done(self.desk.edit(edit, self.on(given), wishes).number)

    @staticmethod
    def done(number: int) -> dict[str, int]:
        """What is answered to a change."""
        return {"number": number}

    async def undo(self, given: dict[str, Any]) -> Any:
        """Takes the last edit back."""
        return self.done(self.desk.undo(self.on(given)).number)

    async def redo(self, given: dict[str, Any]) -> Any:
        """Makes the edit again that was undone last."""
        return self.done(self.desk.redo(self.on(given)).number)

    async def propose(self, given: dict[str, Any]) -> Any:
        """What a command would change."""
        self.desk.states.meant_for(self.on(given))
        command, data = str(given.get("by")), self.desk.states.data
        found = await self.worked(lambda: proposals.proposed(command, data))
        sets = [{"rows": one.rows, "said": one.said, "edit": edits.as_data(one.edit)} for one in found]
        return {"on": self.on(given), "sets": sets}

    async def why(self, given: dict[str, Any]) -> Any:
        """Why an element takes what it takes in a millisecond of the run."""
        self.desk.states.meant_for(self.on(given))
        element, at = str(given.get("element")), given.get("at")
        if not isinstance(at, int):
            raise Wrong("why: which millisecond?")
        states = self.desk.states
        data, text = states.data, states.event_text
        asked = AskedWhy(element, at, choices.USUAL)

        def work() -> list[str]:
            found = choices.answered(plan_file.taken(states.name, data), EventFile("the events", text), asked)
            return choice_text.text_of(found, self.desk.files.start)

        return {"text": await self.worked(work)}

    async def cases(self, given: dict[str, Any]) -> Any:
        """All single failures, each alone."""
        self.desk.states.meant_for(self.on(given))
        data = self.desk.states.data
        return {
            "on": self.on(given),
            "cases": await self.worked(lambda: failing.cases_of(plan_file.taken("the plan", data))),
        }

    async def gap(self, given: dict[str, Any]) -> Any:
        """The elements that a failure of the verdict cuts off."""
        self.desk.states.meant_for(self.on(given))
        word = given.get("place")
        place = word if isinstance(word, int) else -1
        return {"on": self.on(given), "elements": await self.worked(lambda: self.desk.gap(place))}

    async def tables(self, given: dict[str, Any]) -> Any:
        """Makes a plan of tables, and takes it."""
        self.desk.states.meant_for(self.on(given))
        found: dict[str, tuple[str, bytes]] = {}
        its = given.get("tables")
        for kind, table in its.items() if isinstance(its, dict) else ():
            if kind in importing.KINDS and isinstance(table, dict):
                found[kind] = (str(table.get("name")), base64.b64decode(str(table.get("data")), validate=True))
        edit, said = await self.worked(lambda: importing.plan_of(found, str(given.get("option", "I"))))
        return {**self.done(self.desk.edit(edit, self.on(given)).number), "said": said}

    async def orders(self, given: dict[str, Any]) -> Any:
        """What to set at each element."""
        self.desk.states.meant_for(self.on(given))
        return {"text": self.desk.content("orders", "orders.txt").decode()}

    async def find(self, given: dict[str, Any]) -> Any:
        """In which region an element lies."""
        parts, name = self.desk.parts, str(given.get("name"))
        if parts is None or name not in parts.of:
            raise Wrong(f"there is no element {name!r}")
        return {"region": parts.of[name]}

    async def save(self, given: dict[str, Any]) -> Any:
        """Writes a file."""
        self.desk.states.meant_for(self.on(given))
        kind, word, is_over = str(given.get("what")), str(given.get("word")), given.get("over") is True
        return {"said": await self.worked(lambda: self.desk.save(kind, word, is_over))}

    def tell(self, kind: str, data: dict[str, Any]) -> None:
        """Tells all pages what changed; in the thread of the server."""
        for page in self.pages:
            page.put_nowait((kind, data))

    async def serve(self, port: int, ready: Callable[[], None]) -> None:
        """Serves the desk until it is ended from outside. Raises OSError where the port isn't free."""
        loop = asyncio.get_running_loop()
        runner = web.AppRunner(self.application(), access_log=None)
        await runner.setup()
        try:
            site = web.TCPSite(runner, HOST, port, shutdown_timeout=1.0)
            await site.start()
            self.port = runner.addresses[0][1]
            self.desk.news = lambda kind, data: self.hand_over(loop, kind, data)
            ended = self.ending(loop)
            ready()
            beginning = loop.run_in_executor(None, self.desk.begin)
            await ended.wait()
            await beginning
        finally:
            for page in self.pages:
                page.put_nowait(None)
            await runner.cleanup()

    @staticmethod
    def ending(loop: asyncio.AbstractEventLoop) -> asyncio.Event:
        """What a signal sets that ends the desk."""
        ended = asyncio.Event()
        for number in (signal.SIGINT, signal.SIGTERM, signal.SIGHUP):
            loop.add_signal_handler(number, ended.set)
        return ended

    def hand_over(self, loop: asyncio.AbstractEventLoop, kind: str, data: dict[str, Any]) -> None:
        """Hands what changed over to the thread of the server, from any thread."""
        try:
            loop.call_soon_threadsafe(self.tell, kind, data)
        except RuntimeError:  # (it has ended)
            pass
