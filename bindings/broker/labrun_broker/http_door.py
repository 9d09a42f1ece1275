"""The broker for whoever speaks HTTP and JSON: what a request asks is asked of `keeping` (visits.py), and what is answered is written here.

openapi.json says each route and field. By the network a request gives the token, if there is one, as `Authorization: Bearer TOKEN`; by a
Unix socket comes who may open it."""

from __future__ import annotations

import asyncio
import json
from dataclasses import replace
from pathlib import Path
from typing import Any, Awaitable, Callable, Sequence
from urllib.parse import urlsplit

from labrun import LabrunError, Stopped

from . import http_words
from .bays import Kept
from .door import Door
from .entrance import DEAR, UNKNOWN, Caller, Entrance, NotLetIn
from .errors import BadWish
from .serving import HEADERS, IS_TCP, LOG, SLOW, Served, is_asked_here, served, web
from .sockets import is_left, parsed
from .users import user_of
from .visits import OVER, WAITING, Visit, Visits
from .wishes import Ended

Handler = Callable[[web.Request], Awaitable[web.StreamResponse]]
CHANGES, BEAT = 1.0, 5.0  # seconds between two looks for whom one waits; and after which it is told again in any case
FORBIDDEN, TOO_MANY = 403, 429
CALLER, QUERY = "caller", "query"
STOPPED = "stopped"  # the last event when the broker ends
LOOKS = ("/v1/status", "/v1/openapi.json")
ALLOWED = {"Access-Control-Allow-Methods": "GET, POST, DELETE", "Access-Control-Allow-Headers": "authorization, content-type", "Access-Control-Max-Age": "600"}


class HttpDoor:
    """All routes. `origins` are those of pages that may ask, besides this server's own."""

    def __init__(self, keeping: Kept, entrance: Entrance, origins: Sequence[str] = ()) -> None:
        self.keeping, self.entrance, self.origins = keeping, entrance, origins
        self.visits = Visits(keeping, entrance)
        self._openapi = Path(__file__).with_name("openapi.json").read_bytes()

    def app(self) -> web.Application:
        app = web.Application(client_max_size=http_words.MOST_BYTES, middlewares=[self._answers])
        one = "/v1/sessions/{ticket}"
        app.router.add_get("/v1/openapi.json", taking(self._describes), allow_head=False)
        app.router.add_get("/v1/status", taking(self._status), allow_head=False)
        app.router.add_post("/v1/release", taking(self._release))
        app.router.add_post("/v1/sessions", taking(self._asks, "wait"))
        app.router.add_get(one, taking(self._waits, "wait", "while"), allow_head=False)
        app.router.add_delete(one, taking(self._lets_go, "failed"))
        app.router.add_get(f"{one}/events", taking(self._events), allow_head=False)
        app.router.add_post(f"{one}/ping", taking(self._pings))
        app.router.add_post(f"{one}/notes", taking(self._notes))
        app.on_response_prepare.append(self._adds_heads)
        app.on_shutdown.append(self._ends)
        return app

    async def _ends(self, _: web.Application) -> None:
        await self.visits.close()

    # ---- who is let in, and how faults are told

    @web.middleware
    async def _answers(self, request: web.Request, handler: Handler) -> web.StreamResponse:
        try:
            self._lets_in_page(request)
            if request.method == "OPTIONS" and "Access-Control-Request-Method" in request.headers:
                return web.Response(status=204, headers=ALLOWED)
            request[CALLER] = self._lets_in(request)
            with self.entrance.present(request[CALLER]):
                return await handler(request)
        except LabrunError as fault:
            if isinstance(fault, NotLetIn) and fault.status != FORBIDDEN:
                self.entrance.tells(f"{peer_of(request)} (HTTP)", str(fault))
            status, told = http_words.told(fault)
        except web.HTTPException as fault:
            status, told = fault.status, {"kind": "BadWish", "text": f"{request.method} {request.path}: {fault.reason}; /v1/openapi.json has all that there is"}
        except Exception as fault:
            LOG.exception("a fault of the broker")
            status, told = 500, {"kind": "LabrunError", "text": f"a fault of the broker: {type(fault).__name__}"}
        return answer(told, status)

    def _lets_in_page(self, request: web.Request) -> None:
        """A page of elsewhere may ask nothing, unless it is named; nor one whose name was turned to this address."""
        origin = request.headers.get("Origin")
        if origin is not None and origin not in self.origins and urlsplit(origin).netloc != request.headers.get("Host", ""):
            raise NotLetIn(FORBIDDEN, f"a page of {origin} may not ask here: serve --http-origin {origin} lets it")
        if request.app[IS_TCP] and not self.entrance.asks_for_token and not is_asked_here(request):
            raise NotLetIn(FORBIDDEN, "without a token it is asked for by its own address only, as 127.0.0.1")

    def _lets_in(self, request: web.Request) -> Caller:
        uid = None if request.transport is None else user_of(request.transport.get_extra_info("socket"))
        given = request.headers.get("Authorization", "")
        caller = self.entrance.caller(given, not request.app[IS_TCP], uid, request.path in LOOKS, by_http=True)
        if (why := self.entrance.is_too_fast(peer_of(request), 1 if request.path.startswith("/v1/sessions") else DEAR)) is not None:
            raise NotLetIn(TOO_MANY, why)
        return caller

    async def _adds_heads(self, request: web.Request, response: web.StreamResponse) -> None:
        response.headers.update(HEADERS)
        if (origin := request.headers.get("Origin")) in self.origins:
            response.headers.update({"Access-Control-Allow-Origin": str(origin), "Vary": "Origin"})
        if response.status == UNKNOWN:
            response.headers["WWW-Authenticate"] = "Bearer"

    async def _body(self, request: web.Request) -> bytes:
        try:
            async with asyncio.timeout(SLOW):
                return await request.read()
        except web.HTTPRequestEntityTooLarge:
            raise BadWish(f"a body of more than {http_words.MOST_BYTES} bytes") from None
        except TimeoutError:
            raise BadWish(f"the body didn't come within {SLOW:g} s") from None
        except (web.RequestPayloadError, ValueError) as fault:
            raise BadWish(f"the body can't be read: {fault}") from None

    # ---- the bay

    async def _describes(self, _: web.Request) -> web.Response:
        return web.Response(body=self._openapi, content_type="application/json")

    async def _status(self, request: web.Request) -> web.Response:
        return answer({**self.keeping.status(request[CALLER].person), "notice": self.keeping.notice})

    async def _release(self, request: web.Request) -> web.Response:
        given = http_words.read(await self._body(request), http_words.RELEASE, "station")
        person = request[CALLER].person
        by = given.get("by", "")[: self.keeping.bay.limits.name] or ("" if person else "an operator")
        return answer({"instruments": list(await self.keeping.release(given["station"], by, given.get("session", 0), person, given.get("bay", "")))})

    # ---- sessions

    async def _asks(self, request: web.Request) -> web.Response:
        caller, wish = request[CALLER], http_words.wish_of_body(await self._body(request))
        # (of a client that is gone already, as one that was killed while the broker was stopped, nothing is asked)
        check_there(request)
        visit = await self.visits.asks(replace(wish, person=caller.person), caller)
        visit.host = request.remote or "here"
        return await self._outlasts(visit, request)

    async def _waits(self, request: web.Request) -> web.Response:
        return await self._outlasts(await self._visit(request), request)

    async def _outlasts(self, visit: Visit, request: web.Request) -> web.Response:
        with visit.asking(lambda: is_there(request)):
            await visit.outlasts(request[QUERY].get("while", WAITING), request[QUERY].get("wait", 0.0), lambda: is_there(request))
        return shown(visit, request)

    async def _pings(self, request: web.Request) -> web.Response:
        visit = await self._visit(request)
        with visit.asking():
            return shown(visit, request)

    async def _notes(self, request: web.Request) -> web.Response:
        given = http_words.read(await self._body(request), http_words.NOTE, "text")
        visit = await self._visit(request)
        with visit.asking():
            await visit.notes(given["text"], given.get("number", 0))
            return shown(visit, request)

    async def _lets_go(self, request: web.Request) -> web.Response:
        """(Who asks for it twice, because no answer came, is told that it is done.)"""
        failed = request[QUERY].get("failed")
        try:
            visit = await self._visit(request)
            with visit.asking():
                await visit.lets_go(failed)
        except Ended as fault:
            if fault.kind != "LetGo":
                raise
        return answer({"state": OVER})

    async def _visit(self, request: web.Request) -> Visit:
        visit = await self.visits.of(http_words.text("the ticket", request.match_info["ticket"]), request[CALLER])
        visit.host = request.remote or "here"
        return visit

    async def _events(self, request: web.Request) -> web.StreamResponse:
        visit = await self._visit(request)
        response = web.StreamResponse(headers={"Content-Type": "text/event-stream"})
        with visit.asking(lambda: is_there(request)):
            try:
                await response.prepare(request)
                await self._tells(visit, response, request)
            except (ConnectionError, TimeoutError):
                pass  # (who listened is gone, or takes nothing)
        return response

    async def _tells(self, visit: Visit, response: web.StreamResponse, request: web.Request) -> None:
        """Its state, again whenever that is another, it waits for somebody else or is warned, and after a while in any case."""
        last, last_at, loop = "", 0.0, asyncio.get_running_loop()
        while is_there(request):
            state = visit.state
            about = http_words.told(visit.fault)[1] if visit.fault is not None else visit.shown()
            now = f"{state} {about.get('warning') is not None} {visit.for_whom()}"
            if now != last or loop.time() > last_at + BEAT:
                last, last_at = now, loop.time()
                # (when the broker ends, what is held is held on)
                event = STOPPED if isinstance(visit.fault, Stopped) else state
                async with asyncio.timeout(SLOW):
                    await response.write(f"event: {event}\ndata: {json.dumps(about)}\n\n".encode())
            if state == OVER:
                return
            await visit.outlasts(state, CHANGES, lambda: is_there(request))


def taking(handler: Handler, *words: str) -> Handler:
    """For a request that has these words behind its `?`, and no others."""

    async def looks(request: web.Request) -> web.StreamResponse:
        request[QUERY] = http_words.query(request.query.items(), words)
        return await handler(request)

    return looks


def peer_of(request: web.Request) -> str:
    return request.remote or "unix:"


def is_there(request: web.Request) -> bool:
    """Whether who asks still waits for the answer. (A broker that was stopped learns it from the system, before it has read all that came.)"""
    if request.transport is None or request.transport.is_closing():
        return False
    one = request.transport.get_extra_info("socket")
    return one is None or one.fileno() < 0 or not is_left(one.fileno())


def check_there(request: web.Request) -> None:
    """Nobody reads what is answered to one that isn't; so it isn't told that it holds."""
    if not is_there(request):
        raise Ended("NotHeld", "who asked isn't there any more")


def shown(visit: Visit, request: web.Request) -> web.Response:
    visit.raises()
    check_there(request)
    return answer(visit.shown(), 202 if visit.state == WAITING else 200)


def answer(told: Any, status: int = 200) -> web.Response:
    return web.json_response(told, status=status)


async def serve_http(keeping: Kept, door: Door, entrance: Entrance, origins: Sequence[str] = ()) -> list[Served]:
    """Listens at each address of a door. BadAddress and OSError say why it can't."""
    its, found = HttpDoor(keeping, entrance, origins), list[Served]()
    try:
        for address in door.addresses:
            at = parsed(address)
            tls = None if isinstance(at, str) else door.tls()
            found.append(await served(its.app(), at, door.group, tls, lambda: keeping.bay.limits.clients))
    except BaseException:
        for one in found:
            await one.cleanup()
        raise
    return found
