"""The lines of `cases/size`, a directory of many names and how many there are of each, those of `cases/restored` and those of
`cases/epochs`."""

from __future__ import annotations

import base64
import hashlib
import json
from typing import Any, Iterator, NamedTuple

KEY = "5a" * 32
NONCE, LATER_NONCE, POLICY = "11" * 32, "44" * 32, "33" * 32


class Size(NamedTuple):
    """How many names are registered, by how many in a batch, and how many lookups there are of each kind."""

    names: int
    batch: int
    lookups: int


def text_of(value: dict[str, Any]) -> str:
    return json.dumps(value, separators=(",", ":"))


def operation(kind: str, number: int, turn: int) -> dict[str, str]:
    """An operation on a name; the turn makes another key and opening of it."""
    found = hashlib.sha256(b"%d %d" % (number, turn)).digest()
    key = base64.b64encode(found[: 1 + number % 32]).decode()
    return {"key": key, "name": f"name-{number}", "op": kind, "opening": hashlib.sha256(found).hexdigest()}


def changes(size: Size, count: int, step: int, turn: int) -> list[dict[str, str]]:
    """Changes of names at a distance: the step has no divisor in common with the number of names."""
    return [operation("change", it * step % size.names, turn) for it in range(count)]


def batches(size: Size) -> Iterator[dict[str, Any]]:
    """The members of each batch but its epoch: all names, then changes, one change, a rotated nonce and one change more."""
    for first in range(0, size.names, size.batch):
        yield {"ops": [operation("register", it, 0) for it in range(first, min(first + size.batch, size.names))]}
    yield {"ops": changes(size, size.batch, 23, 1)}
    yield {"ops": changes(size, 1, 1, 2)}
    half = size.batch // 2
    more = [operation("register", size.names + it, 0) for it in range(half)]
    yield {"nonce": LATER_NONCE, "ops": changes(size, half, 29, 3) + more}
    yield {"ops": changes(size, 1, 1, 4)}


def lookups(size: Size, epoch: int, present: int) -> Iterator[dict[str, Any]]:
    """Lookups at an epoch: of present names among the first ones, and of names that are absent."""
    step = max(1, present // size.lookups)
    names = [it * step for it in range(size.lookups)] + [10 * size.names + it for it in range(size.lookups)]
    for it in names:
        yield {"cmd": "lookup", "epoch": epoch, "name": f"name-{it}"}


def lines(size: Size) -> Iterator[str]:
    """All lines, each without its newline."""
    yield text_of({"cmd": "open", "key": KEY, "nonce": NONCE, "policy": POLICY})
    epoch = 0
    for epoch, members in enumerate(batches(size), 1):
        yield text_of({"cmd": "batch", "epoch": epoch, **members})
    for it in [*lookups(size, 1, size.batch), *lookups(size, epoch, size.names)]:
        yield text_of(it)


def signature(epoch: int) -> str:
    return hashlib.sha512(b"%d" % epoch).hexdigest()


# The epoch of a restored directory, and the one before it.
RESTORED, BEFORE = 7, 5


def index_of(name: str) -> str:
    return hashlib.sha256(name.encode()).hexdigest()


def binding(number: int) -> dict[str, str]:
    """What a name is bound to, with its index."""
    made = operation("register", number, 0)
    return {"index": index_of(made["name"]), **{it: made[it] for it in ("key", "name", "opening")}}


def with_index(made: dict[str, str]) -> dict[str, str]:
    return {"index": index_of(made["name"]), **made}


def entry_of(root: str) -> str:
    """The entry of the restored epoch: version 1, epoch, epoch before, root, previous link, nonce, policy and signature."""
    return f"01{RESTORED:016x}{BEFORE:016x}{root}{'66' * 32}{NONCE}{POLICY}{signature(RESTORED)}"


def restored_lines(size: Size, root: str) -> Iterator[str]:
    """The lines of `cases/restored`: all names are restored, some are listed and looked up, and a batch follows."""
    yield text_of({"cmd": "restore", "entry": entry_of(root)})
    for first in range(0, size.names, size.batch):
        listed = [binding(it) for it in range(first, min(first + size.batch, size.names))]
        yield text_of({"cmd": "restoring", "bindings": listed})
    yield text_of({"cmd": "restoring", "bindings": [binding(size.names), binding(0)]})
    yield text_of({"cmd": "restored"})
    yield from map(text_of, lines_after_restoring(size))


def pages(size: Size, epoch: int) -> Iterator[dict[str, Any]]:
    """The first page of an epoch's bindings, one from the middle on, and a last one that is not full."""
    yield {"cmd": "bindings", "epoch": epoch, "most": size.batch}
    yield {"cmd": "bindings", "epoch": epoch, "after": "7f" + "ff" * 31, "most": size.batch}
    yield {"cmd": "bindings", "epoch": epoch, "after": "ff80" + "00" * 30, "most": size.batch}


def lines_after_restoring(size: Size) -> Iterator[dict[str, Any]]:
    """Pages and lookups at the restored epoch; a batch of changes and registrations; and the same at its epoch."""
    half = size.batch // 2
    ops = changes(size, half, 23, 1) + [operation("register", size.names + it, 0) for it in range(half)]
    yield {"cmd": "latest"}
    yield from pages(size, RESTORED)
    yield from with_indices(lookups(size, RESTORED, size.names))
    yield {"cmd": "prepare", "epoch": RESTORED + 1, "ops": [with_index(it) for it in ops]}
    yield {"cmd": "install", "signature": signature(RESTORED + 1)}
    yield {"cmd": "latest"}
    yield from pages(size, RESTORED + 1)
    yield from with_indices(lookups(size, RESTORED + 1, size.names))


def with_indices(requested: Iterator[dict[str, Any]]) -> Iterator[dict[str, Any]]:
    for it in requested:
        yield {**it, "index": index_of(it["name"])}


INDEX, OTHER_INDEX = "22" * 32, "a2" * 32


def epoch_lines(count: int) -> Iterator[str]:
    """The lines of `cases/epochs`: empty epochs, one that registers a name as the last of this count, and more lines."""
    register = {**operation("register", 0, 0), "index": INDEX}
    change = {**operation("change", 0, 1), "index": INDEX}
    yield text_of({"cmd": "open", "nonce": NONCE, "policy": POLICY})
    for epoch in range(1, count + 1):
        yield text_of({"cmd": "prepare", "epoch": epoch, "ops": [register] if epoch == count else []})
        yield text_of({"cmd": "install", "signature": signature(epoch)})
    yield from map(text_of, lines_after(count, change))


def lines_after(count: int, change: dict[str, str]) -> Iterator[dict[str, Any]]:
    """Lines after the last epoch: updates that are refused, lookups, one more epoch, and the latest."""
    yield {"cmd": "install", "signature": signature(0)}
    yield {"cmd": "prepare", "epoch": count, "ops": [change]}
    yield {"cmd": "prepare", "epoch": count + 1, "ops": [{**change, "index": OTHER_INDEX}]}
    for epoch in (1, count, count + 1):
        yield {"cmd": "lookup", "epoch": epoch, "name": change["name"], "index": INDEX}
    yield {"cmd": "prepare", "epoch": count + 1, "nonce": LATER_NONCE, "ops": [change]}
    yield {"cmd": "install", "signature": signature(count + 1)}
    yield {"cmd": "latest"}
