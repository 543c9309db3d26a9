"""What an operator sees of the service: lines of JSON, and metrics for Prometheus. Neither has a name, a key or an opening."""

from __future__ import annotations

import asyncio
import json
import logging
import threading
import time
from bisect import bisect_left
from functools import lru_cache, partial
from typing import Any, Callable, Mapping, Optional, TextIO

from collecting import Collector
from coniks._layout import epoch_of, proof_of_reply
from coniks.provider import ProviderError, UnknownEpoch
from coniks.replica import Replica
from connections import Bounds
from holding import LOG, error_of
from prometheus_client import CollectorRegistry, Counter, Gauge, Histogram, ProcessCollector
from stapling import Stapler

_ENCODER = json.JSONEncoder(default=str)


class Lines(logging.StreamHandler[TextIO]):
    """Writes records as JSON objects to standard error: time, level, event, and what the call added. Those of the event loop are written
    together, once in a turn of it, and others at once."""

    def __init__(self) -> None:
        super().__init__()
        self._retained: list[str] = []
        self._turn = threading.RLock()

    def emit(self, record: logging.LogRecord) -> None:
        members = getattr(record, "members", {})
        if record.exc_info:
            members = members | {"trace": logging.Formatter().formatException(record.exc_info)}
        self.add(record.getMessage(), members, record.levelname.lower(), record.created)

    def add(self, event: str, members: Mapping[str, Any], level: str = "info", at: Optional[float] = None) -> None:
        """Writes a line without a record, which would take a tenth of a lookup's time."""
        line = {"time": round(time.time() if at is None else at, 3), "level": level, "event": event, **members}
        with self._turn:
            self._retained.append(_ENCODER.encode(line) + "\n")
            is_first = len(self._retained) == 1
        try:
            loop = asyncio.get_running_loop()
        except RuntimeError:
            return self.flush()
        if is_first:
            loop.call_soon(self.flush)

    def flush(self) -> None:
        """Writes what is held."""
        with self._turn:
            if self._retained:
                self.stream.write("".join(self._retained))
                self._retained = []
            self.stream.flush()


LINES = Lines()


def log_lines() -> None:
    """Writes all records to standard error."""
    logging.basicConfig(level=logging.INFO, handlers=[LINES])
    # It has a line for each request that is no HTTP.
    logging.getLogger("aiohttp.server").setLevel(logging.CRITICAL)


class Metrics:
    """The metrics. Those of the state are read when they are asked for."""

    def __init__(self, collector: Collector, bounds: Bounds, stapler: Stapler):
        self.registry, self._holder = CollectorRegistry(), collector.holder
        holder, directory, provider = collector.holder, collector.holder.directory, collector.holder.provider
        mine: dict[str, Any] = {"registry": self.registry}
        ProcessCollector(**mine)
        ProcessCollector("coniks_child", lambda: directory.pid or "none", **mine)
        self.seconds = lru_cache(1000)(
            Histogram("coniks_request_seconds", "Requests by route and status", ["route", "status"], **mine).labels
        )
        lookups = Counter("coniks_lookups", "Lookups by what they show", ["outcome"], **mine)
        self._present, self._absent = lookups.labels("present"), lookups.labels("absent")
        self.unexpected = Counter("coniks_unexpected", "Requests that ended by an error of the service", **mine)
        # The place in the chain of the oldest epoch that lookups may name.
        self.first = 0
        gauges: list[tuple[str, str, Callable[[], float]]] = [
            ("epoch", "The number of the latest epoch", lambda: directory.latest().epoch),
            ("epoch_age_seconds", "How long ago it began by the policy's clock", holder.age),
            ("names", "Registered names", lambda: directory.latest().names),
            ("nodes", "Nodes of the tree", lambda: directory.latest().nodes),
            ("operations_waiting", "Operations that wait for an epoch", lambda: collector.pending),
            ("commit_failures", "Commits that failed since the last one that did not", lambda: collector.failures),
            ("update_pending", "Whether an update waits for its signature", lambda: bool(provider and provider.pending)),
            ("connections", "Open connections", lambda: len(bounds.open)),
            ("writer", "Whether this process writes", lambda: provider is not None),
            ("evidence", "Whether the log is another one than this process has seen", lambda: directory.evidence() is not None),
        ]
        if isinstance(directory, Replica):
            lag = directory.lag
            gauges.append(("lag_lines", "Lines that this replica lacks", lambda: lag().lines))
            gauges.append(("lag_seconds", "For how long it may lack one", lambda: lag().seconds))
        for name, text, call in gauges:
            Gauge(f"coniks_{name}", text, **mine).set_function(call)
        failures = Gauge("coniks_auditor_failures", "Notes in a row that an auditor didn't give", ["auditor"], **mine)
        for url in stapler.failures:
            failures.labels(url).set_function(partial(stapler.failures.__getitem__, url))

    def find_first(self) -> None:
        """Finds out which epochs are in memory."""

        def is_known(entry: bytes) -> bool:
            try:
                return bool(self._holder.directory.lookup("a", epoch_of(entry)))
            except UnknownEpoch:
                return False

        self.first = bisect_left(self._holder.directory.chain(), True, key=is_known)

    def compact(self) -> None:
        """Stores a snapshot, or takes the one that the writer has stored, and forgets the epochs before it."""
        before = self.first
        try:
            self._holder.directory.compact()
            self.find_first()
            oldest = epoch_of(self._holder.directory.chain()[self.first])
            LOG.info("compact", extra={"members": {"forgotten": self.first - before, "oldest": oldest}})
        except ProviderError as error:
            LOG.error("compact failed", extra=error_of(error))

    def count_lookup(self, reply: bytes) -> None:
        """Counts a lookup by the kind of the end of its proof, which follows the VRF proof."""
        (self._present if proof_of_reply(reply)[0] == 2 else self._absent).inc()
