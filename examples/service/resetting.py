"""Announces the reset of a name whose owner has lost her secret key, and takes it back: `serve reset`. The service that runs reads it
from the queue at its next epoch, and judges it as each other operation.

What was announced is kept beside the log, in `LOG.resets`, or with PostgreSQL in a table: a JSON object for each, with the time, the name,
the voucher, the effect and the operator's user name. It only grows.
"""

from __future__ import annotations

import asyncio
import getpass
import json
import os
import secrets
import time
from contextlib import closing
from dataclasses import dataclass
from typing import Any, Optional
from urllib.parse import quote

from collecting import OPERATORS
from coniks import Policy
from coniks._ecvrf import is_key
from coniks._http import answered
from coniks.names import canonical
from coniks.vouching import Value, announced, of_reply
from holding import LOG, Places
from queueing import Row

# The most bytes of a reply.
_REPLY = 1 << 15


@dataclass(frozen=True)
class Shown:
    """What the latest epoch shows of a name: its bytes, None if it has none."""

    epoch: int
    value: Optional[bytes]


def shown(service: str, policy: Policy, name: str) -> Shown:
    """What the service that runs shows at its latest epoch, by a reply that is verified. Raises `Unusable`, ValueError and `Refusal`."""
    found = answered(f"{service}/v1/lookup?name={quote(canonical(name), safe='')}", _REPLY)
    if found.status != 200:
        raise ValueError(f"the service at {service} answers a lookup with status {found.status}: is it running?")
    body, value = of_reply(policy, canonical(name), found.body)
    return Shown(body.epoch, value)


@dataclass(frozen=True)
class Notice:
    """What the operator stores: the bytes of a name from the next epoch on, and the voucher and the effect that they announce, none if
    they take a notice back."""

    row: Row
    voucher: str = ""
    effect: int = 0

    def told(self, policy: Policy) -> str:
        """What it means, in words."""
        name = json.dumps(self.row.name)
        if not self.effect:
            return f"the reset of {name} is taken back from the next epoch on"
        return f"a reset of {name} to {self.voucher} is announced from the next epoch on, and takes effect at epoch {self.effect}, {time_of(policy, self.effect)}"

    def members(self) -> dict[str, Any]:
        """What is kept of it."""
        found = {"name": self.row.name, "operator": os.environ.get("SUDO_USER") or getpass.getuser()}
        return {**found, "voucher": self.voucher, "effect": self.effect} if self.effect else found

    @property
    def event(self) -> str:
        return "reset announced" if self.effect else "reset taken back"


def time_of(policy: Policy, epoch: int) -> str:
    """When an epoch begins, in UTC."""
    assert policy.epoch_start is not None and policy.epoch_period is not None
    return time.strftime("%Y-%m-%d %H:%M:%S UTC", time.gmtime(policy.epoch_start + (epoch - 1) * policy.epoch_period))


class Resetting:
    """What an operator may announce for a name. The calls raise ValueError if that is nothing."""

    def __init__(self, policy: Policy, name: str, shown_now: Shown):
        self.policy, self.name, self.shown = policy, canonical(name), shown_now
        if not policy.records_vouched or policy.epoch_period is None:
            raise ValueError("this directory promises no records of owners, so no name is reset: change the key with a token")
        if shown_now.value is None:
            raise ValueError("the name is not registered: register it")
        value = Value.read(shown_now.value)
        if value is None:
            raise ValueError("the name has no record, so nothing says who may reset it")
        self.value = value

    def announced(self, voucher: str) -> Notice:
        """The notice for a voucher, in hexadecimal digits, whose effect is late enough if it comes with the next epoch or the one after."""
        record, key = self.value.record, voucher_of(voucher)
        if record.notice == 0:
            raise ValueError("the record of the name says that it is never reset: its owner needs another name")
        if key == record.voucher:
            raise ValueError("the name has this voucher: who has its secret key needs no reset")
        if self.value.notice and self.value.notice.voucher == key:
            raise ValueError(f"this reset is announced already, and takes effect at epoch {self.value.notice.effect}")
        effect = self._next_epoch() + 1 + record.notice
        return Notice(self._row(announced(bytes(record), key, effect)), key.hex(), effect)

    def withdrawn(self) -> Notice:
        """What takes the notice back."""
        if self.value.notice is None:
            raise ValueError("no reset of the name is announced")
        return Notice(self._row(bytes(self.value.record)))

    def _next_epoch(self) -> int:
        assert self.policy.epoch_start is not None and self.policy.epoch_period is not None
        return max(self.shown.epoch, (int(time.time()) - self.policy.epoch_start) // self.policy.epoch_period + 1) + 1

    def _row(self, key: bytes) -> Row:
        return Row(
            secrets.token_urlsafe(18), OPERATORS, self.name, key, secrets.token_bytes(32), self.shown.value, self.shown.epoch
        )


def voucher_of(text: str) -> bytes:
    """The public key of hexadecimal digits. Raises ValueError."""
    try:
        key = bytes.fromhex(text)
    except ValueError:
        key = b""
    if not is_key(key):
        raise ValueError("this is no voucher: take the 64 hexadecimal digits that `coniks-client reset` prints")
    return key


def store(places: Places, policy: Policy, notice: Notice) -> None:
    """Keeps what is announced, and has the queue store it. Raises ValueError if another operation of the name waits."""
    keep(places, policy, {"time": round(time.time(), 3), "event": notice.event, **notice.members()})
    with closing(places.open_queue(policy)) as queue:

        async def put() -> bool:
            return await queue.put(notice.row)

        if not asyncio.run(put()):
            keep(places, policy, {"time": round(time.time(), 3), "event": "not stored", **notice.members()})
            raise ValueError("another operation of this name waits for its epoch: run this again after that")
    LOG.info(notice.event, extra={"members": notice.members()})


def keep(places: Places, policy: Policy, members: dict[str, Any]) -> None:
    """Appends a line to what is kept, durably."""
    line = json.dumps(members)
    if places.is_database:
        return keep_in_database(places.log, f"coniks_resets_{policy.digest[:8].hex()}", line)
    descriptor = os.open(f"{places.log}.resets", os.O_WRONLY | os.O_CREAT | os.O_APPEND | os.O_CLOEXEC, 0o600)
    with open(descriptor, "wb", buffering=0) as file:
        file.write(line.encode() + b"\n")
        os.fsync(descriptor)


def keep_in_database(conninfo: str, table: str, line: str) -> None:
    import psycopg

    with psycopg.connect(conninfo, connect_timeout=5, client_encoding="utf8") as connection:
        connection.execute(
            f"CREATE TABLE IF NOT EXISTS {table} (at BIGINT GENERATED ALWAYS AS IDENTITY PRIMARY KEY, line TEXT NOT NULL)"
        )
        connection.execute(f"INSERT INTO {table} (line) VALUES (%s)", (line,))
