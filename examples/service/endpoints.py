"""The endpoints of the service, which openapi.json describes."""

from __future__ import annotations

import asyncio
import base64
import re
import time
from bisect import bisect_left, bisect_right
from concurrent.futures import ThreadPoolExecutor
from pathlib import Path
from typing import Callable, Optional
from weakref import WeakValueDictionary

from aiohttp import web
from aiohttp.typedefs import Handler
from authorising import Request
from collecting import Collector, Outcome
from coniks._layout import epoch_of
from coniks.provider import Change, Fault, Operation, ProviderError, Register, UnknownEpoch
from coniks.names import BadName
from connections import LONGEST, Bounds, Connection, is_here, network_of
from holding import LOG, error_of, link_of
from looking import Looker
from observing import LINES, Metrics
from outside import KeyFailed
from past import Past
from prometheus_client import CONTENT_TYPE_LATEST, generate_latest
from problems import Problem, json_reply, key_of, members_of, name_of, number_of, query_of
from queueing import QueueFailed
from stapling import Stapler

BYTES, TEXT = "application/octet-stream", "text/plain; charset=utf-8"
# The page that follows a service, which web/build makes.
_FOLLOW = Path(__file__).resolve().parents[2] / "web/out/follow.html"
# The most entries of a catch-up, and the most epochs of a history.
PAGE, SPAN = 1000, 1000
# The most seconds that a request waits for its receipt.
LONGEST_WAIT = 20
_LOOKUP = "/v1/lookup"
# The parameters of those routes that have some.
_PARAMETERS = {
    "/v1/policy": ["policy"],
    "/v1/note": ["auditor"],
    "/v1/entries": ["after", "policy"],
    "/v1/succession": ["policy"],
    _LOOKUP: ["name", "epoch"],
    "/v1/history": ["name", "first", "last"],
}
_FOR_OPERATORS = ("/healthz", "/readyz", "/metrics")
_FOR_EVER = "max-age=31536000, immutable"


class Endpoints:
    """The handlers. Each call of the directory that waits is made by a thread, and none of them waits for a commit."""

    def __init__(self, collector: Collector, stapler: Stapler, metrics: Metrics, bounds: Bounds):
        self._collector, self._stapler, self._metrics = collector, stapler, metrics
        self._holder, self._bounds, self._looker = collector.holder, bounds, Looker(collector.holder)
        # One thread makes all histories, each of which takes as long as many lookups. Those of a network wait for one another.
        self._thread, self._turns = ThreadPoolExecutor(1, "history"), WeakValueDictionary[str, asyncio.Lock]()
        self.app = web.Application(middlewares=[self._around], client_max_size=bounds.body)
        self.app.on_response_prepare.append(self._count_unseen)
        self.app.add_routes(self.routes())

    def routes(self) -> list[web.RouteDef]:
        return [
            # aiohttp compares a request with one after another.
            web.get(_LOOKUP, self.lookup),
            web.get("/", self.page),
            web.get("/v1/policy", self.policy),
            web.get("/v1/succession", self.succession),
            web.get("/v1/head", self.head),
            web.get("/v1/note", self.note),
            web.get("/v1/entries", self.entries),
            web.get("/v1/history", self.history),
            web.post("/v1/operations", self.operate),
            web.get("/v1/operations/{number}", self.outcome),
            web.get("/healthz", self.healthz),
            web.get("/readyz", self.readyz),
            web.get("/metrics", self.metrics),
        ]

    @web.middleware
    async def _around(self, request: web.Request, handler: Handler) -> web.StreamResponse:
        """Refuses what is too much, makes problems of errors, and notes what became of the request."""
        assert isinstance(request.protocol, Connection)
        request.protocol.begun()
        start, resource = time.monotonic(), request.match_info.route.resource
        # It has no name of anyone.
        route = resource.canonical if resource else "none"
        try:
            await self._count(request, route)
            if route == "/" or route.startswith("/v1/"):
                request["query"] = query_of(request, *_PARAMETERS.get(route, ()))
            # A lookup has an end by itself, which costs less than a timer for each of them.
            async with asyncio.timeout(None if route == _LOOKUP else LONGEST):
                made = await handler(request)
        except ConnectionError:
            # The client has gone.
            raise
        except Exception as error:
            problem = self._problem_of(error)
            made = problem.reply()
            if problem.fault == "TooOften" and not self._bounds.is_behind_proxy:
                made.force_close()
        made.headers.update({"X-Content-Type-Options": "nosniff", "Server": "coniks"})
        seconds = time.monotonic() - start
        self._metrics.seconds(route, made.status).observe(seconds)
        members = {"method": request.method, "route": route, "status": made.status, "ms": round(1000 * seconds, 2)}
        LINES.add("request", members | {"bytes": made.content_length})
        request.protocol.replied()
        return made

    async def _count(self, request: web.Request, route: str) -> None:
        """Counts a request for its address, and waits for its turn. What operators ask on this host is free. Raises `Problem`."""
        request["is_counted"] = True
        address = self._bounds.address_of(request)
        if route not in _FOR_OPERATORS or not is_here(address):
            if seconds := self._bounds.requests.count(address):
                await asyncio.sleep(seconds)

    async def _count_unseen(self, request: web.Request, response: web.StreamResponse) -> None:
        """Counts what aiohttp refuses by itself, such as an expectation."""
        if "is_counted" not in request:
            self._bounds.requests.note(self._bounds.address_of(request))

    def _problem_of(self, error: Exception) -> Problem:
        """What a client is told of an error."""
        if isinstance(error, Problem):
            return error
        if isinstance(error, web.HTTPException):
            return Problem(error.status, "Http", error.reason)
        if isinstance(error, BadName):
            return Problem(400, "Name", str(error))
        if isinstance(error, web.RequestPayloadError):
            return Problem(400, "Request", "the body is not as the headers say")
        if isinstance(error, Fault):
            return Problem(404 if isinstance(error, UnknownEpoch) else 400, type(error).__name__, error.reason)
        if isinstance(error, (ProviderError, KeyFailed, QueueFailed, asyncio.TimeoutError)):
            LOG.warning("unavailable", extra=error_of(error))
            return Problem(503, "Unavailable", "the directory can't be asked now: ask again", 1)
        self._metrics.unexpected.inc()
        LOG.error("unexpected", exc_info=error)
        return Problem(500, "Unexpected", "an error of the service, which its log has")

    async def page(self, request: web.Request) -> web.StreamResponse:
        if not _FOLLOW.is_file():
            raise Problem(404, "NoPage", "the page isn't built: web/build makes it")
        text = await asyncio.to_thread(_FOLLOW.read_text, "utf-8")
        # As the page has it, and what only a header can say.
        policy = re.findall('"Content-Security-Policy" content="(.*)"', text)[0] + "; frame-ancestors 'none'"
        headers = {"Content-Security-Policy": policy, "Referrer-Policy": "no-referrer", "Cache-Control": "no-cache"}
        return web.Response(text=text, content_type="text/html", headers=headers)

    async def policy(self, request: web.Request) -> web.Response:
        past = self._past_of(request)
        return reply(past.policy if past else bytes(self._holder.keys.policy), TEXT, "public, max-age=3600")

    def _past_of(self, request: web.Request) -> Optional[Past]:
        """The directory before this one that a request names by its policy digest, None if it names this one or none. Raises `Problem`."""
        digest, past = request["query"].get("policy"), self._holder.past
        if digest is None or digest == self._holder.keys.policy.digest.hex():
            return None
        if digest not in past:
            raise Problem(404, "UnknownPolicy", "this service has no directory of this policy")
        return past[digest]

    async def succession(self, request: web.Request) -> web.Response:
        """The succession of a directory before this one, which never changes. This one has none: it goes on."""
        if not (past := self._past_of(request)):
            raise Problem(404, "NoSuccession", "this directory has not ended")
        return reply(past.succession, TEXT, "public, max-age=3600")

    async def head(self, request: web.Request) -> web.Response:
        entry = self._holder.directory.chain()[-1]
        return json_reply({"epoch": epoch_of(entry), "link": link_of(entry).hex(), "entry": entry.hex()})

    async def note(self, request: web.Request) -> web.Response:
        name = request["query"].get("auditor")
        if not (note := self._stapler.note if name is None else self._stapler.note_of(name)):
            raise Problem(
                404, "NoNote", "no auditor has cosigned a head yet" if name is None else "this auditor has cosigned no head"
            )
        return reply(bytes(note), TEXT)

    async def entries(self, request: web.Request) -> web.Response:
        past, after = self._past_of(request), number_of(request["query"].get("after", "0"), "after")
        chain = past.entries if past else self._holder.directory.chain()
        start = bisect_right(chain, after, key=epoch_of)
        found = chain[start : start + PAGE]
        # A page that is full never changes: no entry comes between two others.
        return reply(b"".join(found), BYTES, "public, " + _FOR_EVER if len(found) == PAGE else "no-store")

    async def lookup(self, request: web.Request) -> web.Response:
        query = request["query"]
        name, epoch = name_of(query.get("name", "")), number_of(query["epoch"], "epoch") if "epoch" in query else None
        if epoch is None:
            found = await self._looker.reply(name)
        else:
            async with asyncio.timeout(LONGEST):
                await self._check_sight(request, name, epoch)
                found = await asyncio.to_thread(self._holder.reply, name, epoch)
        self._metrics.count_lookup(found)
        # A name is private, and at an epoch that was requested its reply never changes.
        made = reply(found, BYTES, "no-store" if epoch is None else "private, " + _FOR_EVER)
        if note := self._stapler.note:
            made.headers["Coniks-Note"] = base64.b64encode(bytes(note)).decode()
        return made

    async def history(self, request: web.Request) -> web.Response:
        query = request["query"]
        name, first, last = name_of(query.get("name", "")), *(number_of(query.get(it, ""), it) for it in ("first", "last"))
        chain = self._holder.directory.chain()
        # Epochs that are forgotten have no proofs any more.
        first = max(first, epoch_of(chain[self._metrics.first]))
        if bisect_right(chain, last, key=epoch_of) - bisect_left(chain, first, key=epoch_of) > SPAN:
            raise Problem(400, "TooLong", f"a history has at most {SPAN} epochs: ask for fewer at once")
        await self._check_sight(request, name, first)
        turn = self._turns.setdefault(network_of(self._bounds.address_of(request)), asyncio.Lock())
        async with turn:
            made = asyncio.get_running_loop().run_in_executor(self._thread, self._history, name, first, last)
            return reply(await made, BYTES)

    def _history(self, name: str, first: int, last: int) -> bytes:
        """A history without the epochs that a snapshot has meanwhile had forgotten."""
        holder, metrics, proof = self._holder, self._metrics, self._holder.keys.proof(name)
        while True:
            oldest = metrics.first
            try:
                return holder.directory.history(name, proof, max(first, epoch_of(holder.directory.chain()[oldest])), last)
            except UnknownEpoch:
                metrics.find_first()
                if metrics.first == oldest:
                    raise

    async def _check_sight(self, request: web.Request, name: str, epoch: int) -> None:
        """Checks that whoever asks may see an epoch of a name: each recent one, and the owner all."""
        chain, count = self._holder.directory.chain(), self._bounds.recent
        if len(chain) <= count or epoch >= (oldest := epoch_of(chain[-count])):
            return
        if not await asyncio.to_thread(self._collector.authorise, Request(name, None, None, request.headers)):
            raise Problem(403, "OldEpoch", f"only the owner of a name may see it before epoch {oldest}")

    async def operate(self, request: web.Request) -> web.Response:
        requested = await self._collector.take(await operation_of(request), request.headers)
        return await reported(request, requested.number, requested.outcome)

    async def outcome(self, request: web.Request) -> web.Response:
        number = request.match_info["number"]
        if (outcome := self._collector.outcomes.get(number)) is None:
            if not self._collector.has_all:
                raise Problem(503, "Unavailable", "the queue is being read: ask again", 1)
            raise Problem(
                404, "UnknownOperation", "no such operation is known: look the name up, and ask again if it lacks the key"
            )
        return await reported(request, number, outcome)

    # What operators ask.

    async def healthz(self, request: web.Request) -> web.Response:
        """The process runs."""
        return json_reply({"state": "running"})

    async def readyz(self, request: web.Request) -> web.Response:
        """Requests may be sent to this process: its directory answers, and its latest epoch is not late."""
        # If the directory does not answer, this raises.
        await asyncio.to_thread(self._holder.directory.lookup, "a")
        is_late = self._holder.age() > 2 * self._holder.keys.period
        if self._collector.is_over or is_late or self._holder.directory.evidence():
            raise Problem(503, "NotReady", "the service stops, its latest epoch is late, or its log is another one")
        return json_reply({"state": "ready"})

    async def metrics(self, request: web.Request) -> web.Response:
        return reply(generate_latest(self._metrics.registry), CONTENT_TYPE_LATEST)


async def operation_of(request: web.Request) -> Operation:
    """The operation in a request's body."""
    if request.content_type != "application/json":
        raise Problem(415, "ContentType", "application/json is expected")
    members = members_of(await request.read(), "op", "name", "key")
    kinds: dict[str, Callable[[str, bytes], Operation]] = {"register": Register, "change": Change}
    if members["op"] not in kinds:
        raise Problem(400, "Request", "op is register or change")
    return kinds[members["op"]](name_of(members["name"]), key_of(members["key"]))


async def reported(request: web.Request, number: str, decided: Outcome) -> web.Response:
    """The receipt of an operation, if it is decided as soon as the request wants it (RFC 7240), or where to ask for it."""
    wait = re.search(r"(?:^|,)\s*wait\s*=\s*([0-9]{1,4})\s*(?:[,;]|$)", request.headers.get("Prefer", ""), re.I)
    await asyncio.wait([decided], timeout=min(int(wait[1]), LONGEST_WAIT) if wait else 0)
    outcome = decided.result() if decided.done() and not decided.cancelled() else None
    if isinstance(outcome, Problem):
        # A new one: an error that is raised again keeps the frames of each time.
        raise Problem(outcome.status, outcome.fault, str(outcome))
    stored = {"state": "stored", "epoch": epoch_of(outcome), "entry": outcome.hex()} if outcome else None
    made = json_reply(stored or {"state": "waiting", "operation": number}, 200 if stored else 202)
    made.headers["Location"] = f"/v1/operations/{number}"
    return made


def reply(body: bytes, kind: str, cache: str = "no-store") -> web.Response:
    return web.Response(body=body, headers={"Content-Type": kind, "Cache-Control": cache})
