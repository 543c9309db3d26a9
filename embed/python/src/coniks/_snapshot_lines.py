"""The lines of a snapshot. docs/STORED.md defines them."""

from __future__ import annotations

import json
from typing import TYPE_CHECKING, Any, Callable, Iterator, Mapping, NamedTuple, Optional, Sequence

from . import ENTRY_LENGTH
from ._lines import digits, encoded, entries_of, members_of, number
from .faults import LogFailed, ProgramFailed, SnapshotDiffers

if TYPE_CHECKING:
    from .log import Log, SnapshotLog

# How the first line begins, and the last one, which makes a snapshot whole.
FIRST = b'{"snapshot":'
LAST = b'{"cmd":"restored","link":"'
# The format of snapshots.
FORMAT = 1
# The most entries or bodies of a line.
GROUP = 1000
# About how many bytes a line of bindings has, so that a lookup waits for few of them, and the most bindings.
_PAGE, _MOST = 1 << 17, 4096
# The members of the `open` line that a header has.
OPENING = ("nonce", "policy", "log", "vrf")


class Point(NamedTuple):
    """An epoch in memory: its number, the position of the log after its `install` line, how many names it has, and how many
    replaced bodies the log has below."""

    epoch: int
    position: int
    names: int
    replaced: int


def refused(place: object, what: str) -> SnapshotDiffers:
    return SnapshotDiffers(
        f"the snapshot of {place} {what}: restore it from a backup, or remove it if the log still has all its lines"
    )


def position_of(header: bytes, place: object) -> int:
    """The position that a header has."""
    try:
        reply = json.loads(header.decode())
        position = reply["position"] if reply["snapshot"] is not None else None
    except (KeyError, TypeError, ValueError, RecursionError):
        position = None
    if type(position) is not int or position < 1:
        raise refused(place, "doesn't begin with its header")
    return position


def snapshot_in(log: Log) -> Optional[tuple[int, Iterator[bytes]]]:
    """The position and the lines of the snapshot that a log has, None if it has none."""
    stored: Optional[SnapshotLog] = log if hasattr(log, "snapshot") else None  # type: ignore[assignment]
    return stored.snapshot() if stored else None


def entries_in(log: Log) -> Iterator[bytes]:
    """The entries of all epochs that a log and its snapshot have."""
    found, position = snapshot_in(log), 0
    if found:
        position, lines = found
        for line in lines:
            reply = members_of(line, LogFailed, f"a line of the snapshot of {log}")
            if reply.get("cmd"):
                break
            listed = reply.get("entries")
            for entry in listed if isinstance(listed, list) else ():
                yield digits({"entries": entry}, "entries", ENTRY_LENGTH, LogFailed)
    yield from entries_of(log.read(position))


def grouped(member: str, values: Sequence[bytes]) -> Iterator[bytes]:
    for at in range(0, len(values), GROUP):
        yield encoded({member: [it.hex() for it in values[at : at + GROUP]]})


def lines_of(
    ask: Callable[[bytes], Mapping[str, Any]],
    opening: Mapping[str, Any],
    point: Point,
    chain: Sequence[bytes],
    replaced: Sequence[bytes],
    link: bytes,
) -> Iterator[bytes]:
    """The lines of the snapshot of an epoch, whose bindings a child is asked for, one page after another."""
    header = {"snapshot": FORMAT, "position": point.position, "epochs": len(chain), "names": point.names}
    yield encoded({**header, **opening})
    yield from grouped("entries", chain)
    yield from grouped("replaced", replaced)
    yield encoded({"cmd": "restore", "entry": chain[-1].hex()})
    yield from pages(ask, point.epoch)
    yield LAST + link.hex().encode() + b'"}'


def pages(ask: Callable[[bytes], Mapping[str, Any]], epoch: int) -> Iterator[bytes]:
    """The `restoring` lines of an epoch's bindings."""
    after, most, has_more = dict[str, str](), 256, True
    while has_more:
        reported = ask(encoded({"cmd": "bindings", "epoch": epoch, **after, "most": most}))
        bindings, has_more = reported.get("bindings"), reported.get("more") is True
        if not isinstance(bindings, list) or number(reported, "epoch") != epoch or (has_more and not bindings):
            raise ProgramFailed("the program printed no page of bindings: look which program it is")
        if bindings:
            line = encoded({"cmd": "restoring", "bindings": bindings})
            yield line
            after = {"after": digits(bindings[-1], "index", 32).hex()}
            most = max(1, min(_MOST, len(bindings) * _PAGE // len(line)))
