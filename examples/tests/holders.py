"""The parts of examples/service in the process of a test."""

from __future__ import annotations

import time
from contextlib import contextmanager
from pathlib import Path
from typing import Any, Iterator, Sequence

from collecting import Collector, Judged
from coniks.provider import Operation
from holding import Holder, Keys, Places, Terms, make_keys


@contextmanager
def made(
    program: str, room: Path, period: int = 1000, operations: Sequence[Operation] = (), records_vouched: bool = False
) -> Iterator[Any]:
    """A holder over a new directory with one epoch. The clock has the next one."""
    start = int(time.time()) - period - 5
    make_keys(room / "keys", Terms("keys.example.com", start, period, 10 * period, records_vouched))
    with opened(program, room, create=True) as holder:
        holder.provider.commit(1, operations, force=True)
        yield holder


@contextmanager
def opened(program: str, room: Path, create: bool = False) -> Iterator[Any]:
    """A holder over the directory in a folder."""
    holder = Holder(Places(str(room / "log"), str(room / "guard"), program), Keys(room / "keys"), create=create)
    try:
        yield holder
    finally:
        holder.close()


def collector_of(holder: Any) -> Collector:
    """A collector that allows everything."""
    return Collector(holder, lambda _: True)


def judged(operation: Operation) -> Judged:
    """An operation on a name that had no key at epoch 1."""
    return Judged(operation, {}, None, 1)
