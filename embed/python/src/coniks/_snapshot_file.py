"""The snapshot of a log in a file, which is beside it."""

from __future__ import annotations

import io
import os
from typing import Callable, Iterable, Iterator, Optional

from ._files import Replacement, check_kind, check_rest, chunks_of, opened_at, sync_folder
from ._snapshot_lines import FIRST, LAST, position_of, refused
from .faults import LogFailed, LogRefused

# The header is shorter than this, and so is the last line.
_MOST = 4096


def stored(path: str, mode: int) -> Optional[tuple[int, Iterator[bytes]]]:
    """The position of the snapshot of the log at a path, and its lines; None if there is none."""
    place = path + ".snapshot"
    try:
        opened = opened_at(place, os.O_RDONLY, "r")
    except FileNotFoundError:
        return None
    except OSError as error:
        raise LogFailed(f"the file {place} can't be opened: {error.strerror}. Repair that, and try again") from error
    file = opened.fileno()
    check_kind(file, mode, f"the file {place}")
    size = os.fstat(file).st_size
    try:
        header, end = os.pread(file, _MOST, 0), os.pread(file, _MOST, max(0, size - _MOST))
    except OSError as error:
        raise LogFailed(f"the file {place} can't be read: {error.strerror}. Repair that, and try again") from error
    if not end.endswith(b"\n") or not end[end.rfind(b"\n", 0, -1) + 1 :].startswith(LAST):
        raise refused(place, "is cut")
    return position_of(header.partition(b"\n")[0], place), _lines(opened, size, place)


def _lines(opened: io.FileIO, size: int, place: str) -> Iterator[bytes]:
    parts = [b""]
    with opened:
        for chunk in chunks_of(opened.fileno(), 0, size, f"the file {place}"):
            head, *lines = chunk.split(b"\n")
            parts.append(head)
            for line in lines:
                yield b"".join(parts)
                parts = [line]


def write(path: str, lines: Iterable[bytes], check: Callable[[], object]) -> None:
    """Stores the snapshot of the log at a path. `check` is called before it takes the place of an older one."""
    check_place(path + ".snapshot")
    replacement = Replacement(path + ".snapshot", 0o600, path, FIRST)
    try:
        for line in lines:
            replacement.write(line + b"\n")
        check()
        replacement.put().close()
    finally:
        replacement.drop()


def check_place(place: str) -> None:
    """Raises `LogRefused` if another file than a snapshot is in its place, one that was cut included."""
    try:
        with opened_at(place, os.O_RDONLY, "r") as opened:
            check_rest(opened.fileno(), FIRST, place)
    except FileNotFoundError:
        pass
    except OSError as error:
        raise LogRefused(f"the snapshot can't be stored: {error.strerror}") from error


def sync(path: str) -> None:
    """Has the snapshot of the log at a path on the disk, also one that a process stored which was killed, or an operator."""
    place = path + ".snapshot"
    try:
        with opened_at(place, os.O_RDONLY, "r") as opened:
            os.fsync(opened.fileno())
        sync_folder(place)
    except OSError as error:
        raise LogRefused(
            f"the file {place} can't be synced: {error.strerror}. No line is dropped; repair that, and try again"
        ) from error
