"""A writer and a replica over a table in PostgreSQL. After each mistake of an operator the signer was asked for one body per epoch,
no lookup contradicts an earlier one, and the error's text says what to do next."""

from __future__ import annotations

import tempfile
import time
from contextlib import ExitStack, suppress
from typing import Any, Callable, Union

import pytest

from database import Database, soon
from stand_ins import POLICY, Salted, Signer, index, opened, shown, replicated
from coniks.postgres import PostgresLog
from coniks.provider import Change, Lookup, Provider
from coniks.provider import ProviderError, Register, RestartNeeded, UnknownEpoch
from coniks.replica import Replica


Call = Callable[[], object]
# Seconds that a call waits for PostgreSQL, and in which each call must end while PostgreSQL answers nothing.
PATIENCE, ENDS = 4, 9


class Cluster(ExitStack):
    """A writer and a replica over a table, with two epochs, and what their clients have seen."""

    def __init__(self, program: str, database: Database, table: str) -> None:
        super().__init__()
        self.program, self.database, self.table = program, database, table
        self.signer = Signer(self.enter_context(tempfile.TemporaryDirectory()), Salted())
        self.shown: dict[tuple[str, int], Lookup] = {}
        self.own = self.writer(PostgresLog.create(database.conninfo, table, patience=PATIENCE))
        self.own.commit(1, [Register("alice", b"1"), Register("bob", b"1")])
        self.own.commit(2, [Change("alice", b"2")])
        self.replica = self.follower()
        self.look()

    def log(self, conninfo: str = "", table: str = "") -> PostgresLog:
        return self.enter_context(PostgresLog(conninfo or self.database.conninfo, table or self.table, patience=PATIENCE))

    def writer(self, log: PostgresLog, **more: Any) -> Provider:
        return self.enter_context(opened(self.program, self.enter_context(log), self.signer, **more))

    def follower(self, **more: Any) -> Replica:
        return self.enter_context(replicated(self.log(), self.program, more.pop("index", index), policy=POLICY, **more))

    def look(self) -> bool:
        """Looks names up at both, and compares what is shown with what was shown."""
        is_well = True
        for it in (self.own, self.replica):
            for name in ("alice", "bob", "no"):
                for epoch in range(1, it.latest().epoch + 1):
                    with suppress(UnknownEpoch):
                        found = it.lookup(name, epoch)
                        is_well = is_well and self.shown.setdefault((name, epoch), found) == found
        return is_well and shown(self.replica.lookup("bob")) is not None

    def execute(self, *queries: str) -> None:
        for it in queries:
            self.database.execute(it.format(table=self.table))

    def refuses(self, what: str, error: Union[type[ProviderError], tuple[type[ProviderError], ...]], call: Call) -> None:
        """A call raises the error in time, whose text says what to do."""
        start = time.monotonic()
        try:
            returned = call()
        except ProviderError as raised:
            assert isinstance(raised, error) and ":" in str(raised), f"{what}: {raised!r}"
            assert time.monotonic() - start < ENDS, f"{what}: in time"
        else:
            pytest.fail(f"{what}: returned {returned!r}")

    def goes_on(self, what: str) -> None:
        assert self.look(), f"{what}: lookups go on"
        assert self.signer.is_requested_once(), f"{what}: one body for each epoch: {self.signer.requested()}"

    def stops(self, what: str, error: type[ProviderError]) -> None:
        """The replica notices that the log isn't what it was, keeps the evidence, and takes nothing more."""
        assert soon(lambda: isinstance(self.replica.lag().error, error)), f"{what}: the replica notices: {self.replica.lag()}"
        seen = self.replica.evidence()
        assert seen and list(seen.known) == self.replica.chain(), f"{what}: the replica has the evidence"
        self.refuses(f"{what}: the replica's follow", RestartNeeded, self.replica.follow)
        self.refuses(f"{what}: promotion", RestartNeeded, lambda: self.replica.promote(self.signer))
