"""Where `coniks.provider` stores its lines: what a log must do, and a log in a file."""

from __future__ import annotations

import io
import os
import re
import threading
import weakref
from bisect import bisect_right
from contextlib import suppress
from itertools import islice
from typing import Callable, Iterable, Iterator, NamedTuple, Optional, Protocol, TypeVar

from ._files import (
    CHUNK,
    Path,
    Replacement,
    check_kind,
    chunks_of,
    identity_at,
    identity_of,
    lock,
    opened_at,
    sync_folder,
    write_at,
)
from ._snapshot_file import stored, sync, write
from ._threads import Worker
from .faults import Closed, DirectoryExists, LinesDropped, LogFailed, LogRefused, NoDirectory, Overtaken, SnapshotDiffers

__all__ = ["FileLog", "Log", "Path", "SharedLog", "SnapshotLog"]

_Self = TypeVar("_Self", bound="Closing")
# How the first line of each log begins, and the one before the lines of a log whose first lines were dropped.
_HEAD = b'{"cmd":"open"'
_FIRST = re.compile(rb'\{"first":([1-9][0-9]{0,19})\}\n')
_MOVED = "was moved or replaced while it was open: put it back, or open what is there now and start a new provider over it"
# The line that opens a directory is shorter.
_LONGEST_OPEN = 512


class Log(Protocol):
    """Where a provider's lines are stored. Lines have no newline and are counted from 0. `str(log)` names the log in errors.

    A log may also have `check_writable()`, which raises `LogFailed` if an append could not succeed, as far as that can be told
    without one. A provider calls it before it starts to write. If a log has `is_new`, and it is true, a provider makes a
    directory in it without being asked to. If it has the calls of `SnapshotLog`, it may begin with a snapshot.
    """

    def append(self, position: int, line: bytes) -> None:
        """Stores a line so that it outlives the machine's failure, and then returns. Raises `Overtaken` if the log has a line
        at this position, and `LogRefused` if it is certain that the line is not stored and will not be. After another
        exception it may be stored or not. A log that doesn't exist yet is made by an append at position 0."""

    def read(self, position: int) -> Iterator[bytes]:
        """Returns the lines from a position on. Raises `NoDirectory` if the log doesn't exist, and `LinesDropped` if it begins
        after that position."""


class SnapshotLog(Log, Protocol):
    """A log that stores a snapshot, which has the effect of all lines below its position."""

    def snapshot(self) -> Optional[tuple[int, Iterator[bytes]]]:
        """Returns the position of the stored snapshot and its lines, or None if there is none. Raises `LogFailed` if the log ends
        before the position, and `LinesDropped` if it begins after it. The lines raise `LinesDropped` if another snapshot takes
        the place of this one while they are read."""

    def compact(self, position: int, lines: Iterable[bytes]) -> None:
        """Stores a snapshot in place of an older one. A failure of the machine at any moment leaves one of both whole. Raises
        `Overtaken` if a snapshot of a later position is stored, `LogRefused` if it is certain that the older one stays, and
        what the lines raise, which stores nothing. After another exception either is stored."""

    def drop_before(self, position: int) -> None:
        """Drops the lines below a position, at most that of the snapshot: back up the snapshot first. Positions go on. Raises
        `LogRefused` without such a snapshot."""


class SharedLog(Log, Protocol):
    """A log that several processes have open, as `coniks.postgres.PostgresLog`. A replica follows it."""

    def wait(self, position: int, seconds: float) -> int:
        """Waits until the log has a line at this position, at most some seconds. Returns how many lines it has, those counted
        that were dropped."""


class Closing:
    """What a `with` statement closes at its end."""

    def close(self) -> None:
        raise NotImplementedError

    def __enter__(self: _Self) -> _Self:
        return self

    def __exit__(self, *_: object) -> None:
        self.close()


class _Opened(NamedTuple):
    """A log's file: how many positions are taken, and where the last line ends. It is one value, so that each reader has all of it
    or none. `marks` are positions of some lines and where these begin, the first one and about one in each mebibyte."""

    file: io.FileIO
    identity: tuple[int, int]
    lines: int
    end: int
    marks: list[tuple[int, int]]

    @property
    def first(self) -> int:
        """The position of the first line."""
        return self.marks[0][0]

    def before(self, position: int) -> tuple[int, int]:
        """The mark at a position, or the last one before it."""
        return self.marks[max(0, bisect_right(self.marks, (position, self.end)) - 1)]

    def extended(self, size: int) -> _Opened:
        """What it is after a line of this size."""
        lines, end = self.lines + 1, self.end + size
        if end - self.marks[-1][1] >= CHUNK:
            self.marks.append((lines, end))
        return self._replace(lines=lines, end=end)


class FileLog(Closing):
    """A log in a file, one line after another, and its snapshot in `PATH.snapshot`. One process has it open at a time.

    The files contain keys, and the openings that blind the commitments, so their mode is 0600. A file that others may read or
    write is refused, unless `mode` allows it. A missing file is a log that doesn't exist yet: reading it raises `NoDirectory`,
    and an append at position 0 makes it.

    Each append checks that the file is still the one at its path and has the length that it was left with. What changes the file is
    called in a thread that no signal interrupts: the caller's, or one of the log's own if the caller's is the main thread.
    """

    def __init__(self, path: Path, *, mode: int = 0o600):
        """Opens the file, and drops a cut last line. Raises `LogFailed` if another process has it open, and leaves a file as it
        is that doesn't begin as a log."""
        self.is_new = False
        self._path, self._mode, self._owner = os.path.abspath(os.fsdecode(path)), mode, os.getpid()
        # What is at the end of the file is unknown from the first byte of an append to its end.
        self._is_bad, self._is_closed = False, False
        self._opened: Optional[_Opened] = None
        with suppress(FileNotFoundError):
            self._open(os.O_RDWR)
        # Held while the file is changed, never by the main thread.
        self._work, self._changing = Worker(), threading.Lock()
        # A log that nobody closes ends with its last reference.
        self._unused = weakref.finalize(self, self._work.stop)
        self._unused.atexit = False

    @classmethod
    def create(cls, path: Path, *, mode: int = 0o600) -> FileLog:
        """Makes the file, in which a provider then makes a directory. Raises `DirectoryExists` if it has lines, or a snapshot."""
        log = cls(path, mode=mode)
        try:
            if log._opened is None:
                log._check_no_snapshot()
                log._open(os.O_RDWR | os.O_CREAT)
            assert log._opened
            if log._opened.end:
                raise DirectoryExists(f"there is a directory in {log}: open it without create, or choose another path")
            log._check_no_snapshot()
        except BaseException:
            log.close()
            raise
        log.is_new = True
        return log

    def __str__(self) -> str:
        return f"the file {self._path}"

    def _check_no_snapshot(self) -> None:
        if os.path.lexists(self._path + ".snapshot"):
            raise DirectoryExists(
                f"{self} has no line, and there is a snapshot of a directory beside it: restore the log, or choose another path"
            )

    def _open(self, flags: int) -> None:
        try:
            while (found := self._opened_file(flags)) is None:
                pass
        except FileNotFoundError:
            if flags & os.O_CREAT:
                raise LogFailed(f"{self} can't be made: its folder is missing") from None
            raise
        except FileExistsError:
            raise Overtaken(f"another process has made {self} meanwhile: it writes to it, so close this log") from None
        except BlockingIOError as error:
            raise LogFailed(f"another process has {self} open: one provider writes to it at a time") from error
        except OSError as error:
            raise LogFailed(f"{self} can't be opened: {error.strerror}. Repair that, and try again") from error
        self._opened = found

    def _opened_file(self, flags: int) -> Optional[_Opened]:
        """The file at the path, or None if another one took its place while it was locked."""
        opened = opened_at(self._path, flags)
        try:
            file = opened.fileno()
            check_kind(file, self._mode, str(self))
            lock(file)
            if identity_at(self._path) != identity_of(file):
                opened.close()
                return None
            found = self._mended(opened)
            sync_folder(self._path)
        except BaseException:
            opened.close()
            raise
        return found

    def _mended(self, opened: io.FileIO) -> _Opened:
        """The file's whole lines. What follows them is dropped, and the last one is on the disk."""
        file = opened.fileno()
        marks = [self._beginning(file)]
        [(count, end)] = marks
        start = at = end
        while chunk := os.pread(file, CHUNK, at):
            last = chunk.rfind(b"\n")
            if last >= 0:
                before = chunk.rfind(b"\n", 0, last)
                start, end = end if before < 0 else at + before + 1, at + last + 1
            count += chunk.count(b"\n")
            at += len(chunk)
            marks.append((count, end))
        line = os.pread(file, end - start, start)
        # No line has a zero byte. After a power failure a file has them in place of what wasn't written.
        if b"\0" in line:
            count, end, line = count - 1, start, b""
            marks = [it for it in marks if it <= (count, end)]
        os.ftruncate(file, end)
        # A process that was killed, or whose sync failed, may have left the last line in the page cache alone. It is written
        # again, because a page whose write failed counts as written.
        write_at(file, line, end - len(line))
        os.fsync(file)
        return _Opened(opened, identity_of(file), count, end, marks)

    def _beginning(self, file: int) -> tuple[int, int]:
        """The position of the first line, and where that begins."""
        head = os.pread(file, _LONGEST_OPEN, 0)
        # A power failure can have left zeros of the first line, which no call has returned.
        if head[: len(_HEAD)] == _HEAD[: len(head)] or (len(head) < _LONGEST_OPEN and _HEAD.startswith(head.rstrip(b"\0"))):
            return 0, 0
        found = _FIRST.match(head)
        if not found:
            raise LogFailed(f"{self} is no log of a provider, and is left as it is: give the path of a log")
        return int(found.group(1)), found.end()

    def _change(self, call: Callable[[], None]) -> None:
        """Makes a call while no other one changes the file."""

        def changes() -> None:
            with self._changing:
                call()

        if threading.current_thread() is threading.main_thread():
            self._work.call(changes)
        else:
            changes()

    def append(self, position: int, line: bytes) -> None:
        """Appends a line and syncs the file. After `LogRefused` the file is as before. After another error of the file the log
        must be opened again. An interrupt ends only the wait: the line may be appended."""
        self._check()
        if b"\n" in line or b"\0" in line:
            raise ValueError("a line has no newline and no zero byte")
        if position == 0 and not line.startswith(_HEAD):
            raise ValueError("the first line opens a directory")
        self._change(lambda: self._append(position, line))

    def _append(self, position: int, line: bytes) -> None:
        self._check_end()
        if self._opened is None and position == 0:
            self._check_no_snapshot()
            self._open(os.O_RDWR | os.O_CREAT | os.O_EXCL)
        count, end = (self._opened.lines, self._opened.end) if self._opened else (0, 0)
        if position < count:
            raise Overtaken(
                f"{self} has {count} lines, so position {position} is taken: another provider writes to it, so close this one"
            )
        if position > count or self._opened is None:
            raise ValueError(f"the log has {count} lines, so the next position isn't {position}")
        self._check_place(LogRefused, end)
        file, self._is_bad = self._opened.file.fileno(), True
        try:
            write_at(file, line + b"\n", end)
            os.fsync(file)
        except BaseException as error:
            self._undo(end)
            if isinstance(error, OSError):
                raise LogRefused(
                    f"{self} can't be written: {error.strerror}. Nothing is stored; repair that, and try again"
                ) from error
            raise
        # Whoever opens the path now must find this line.
        self._check_place(LogFailed.final, end + len(line) + 1)
        self._opened = self._opened.extended(len(line) + 1)
        self._is_bad = False

    def check_writable(self) -> None:
        """Raises `LogFailed` if an append would be refused at once."""
        self._check()
        self._change(self._check_writable)

    def _check_writable(self) -> None:
        self._check_end()
        if self._opened:
            self._check_place(LogRefused, self._opened.end)

    def _undo(self, end: int) -> None:
        """Drops a line that may be cut, or be in the page cache alone. If that fails, the log stays bad."""
        assert self._opened
        try:
            os.ftruncate(self._opened.file.fileno(), end)
            os.fsync(self._opened.file.fileno())
        except OSError as error:
            raise LogFailed.final(
                f"what an append to {self} left can't be dropped: {error.strerror}. Open the log again"
            ) from error
        self._is_bad = False

    def _check_place(self, error: Callable[[str], LogFailed], end: int) -> None:
        """Raises an error if the path has another file, or the file another length."""
        assert self._opened
        if identity_at(self._path) != self._opened.identity:
            raise error(f"{self} {_MOVED}")
        if os.fstat(self._opened.file.fileno()).st_size != end:
            raise error(f"{self} was changed by another process: compare it with a backup, and open it again")

    def read(self, position: int) -> Iterator[bytes]:
        """Returns the lines from a position on, as they are at the call of it."""
        self._check()
        opened = self._opened
        if opened is None:
            raise NoDirectory(f"{self} is missing: give the path of a log, or make a directory with create")
        self._check_first(position, opened)
        return self._lines(position, opened)

    def _check_first(self, position: int, opened: _Opened) -> None:
        if position < opened.first:
            raise LinesDropped(
                f"{self} begins at line {opened.first}, and line {position} was dropped: "
                f"restore a snapshot whose position is at least {opened.first}"
            )

    def _lines(self, position: int, opened: _Opened) -> Iterator[bytes]:
        # It may have been closed since the call of `read`.
        self._check()
        number, start = opened.before(position)
        parts = [b""]
        for chunk in chunks_of(opened.file.fileno(), start, opened.end, str(self)):
            head, *lines = chunk.split(b"\n")
            parts.append(head)
            for line in lines:
                if number >= position:
                    yield b"".join(parts)
                number, parts = number + 1, [line]

    def snapshot(self) -> Optional[tuple[int, Iterator[bytes]]]:
        """Returns the position of the snapshot in `PATH.snapshot` and its lines, or None if there is none."""
        self._check()
        found = stored(self._path, self._mode)
        if found is None:
            return None
        position, lines = found
        opened = self._opened
        count = opened.lines if opened else 0
        if position > count:
            raise LogFailed(f"{self} has {count} lines, and its snapshot has the position {position}: restore the log's last lines")
        if opened:
            self._check_first(position, opened)
        return position, lines

    def compact(self, position: int, lines: Iterable[bytes]) -> None:
        """Stores a snapshot in `PATH.snapshot`. It is written to `PATH.snapshot.new`, synced and renamed, and the folder is
        synced. After `LogFailed` a failure of the machine could bring back the older one."""
        self._check_position(position)
        write(self._path, lines, lambda: self._check_position(position))

    def _check_position(self, position: int) -> None:
        """Raises `LogRefused` if the path has another file, `Overtaken` if there is a later snapshot than one of this position, and
        ValueError if it is none of a snapshot."""
        self._check()
        self._change(self._check_identity)
        # One that was cut may be replaced, and one of a position whose lines were dropped.
        with suppress(SnapshotDiffers, LinesDropped):
            if (before := self.snapshot()) and before[0] > position:
                raise Overtaken(f"{self} has a snapshot of position {before[0]}, and {position} is before that: take a later epoch")
        if self._opened is None or not max(1, self._opened.first) <= position <= self._opened.lines:
            raise ValueError(f"position {position} isn't one of a snapshot of the log")

    def _check_identity(self) -> None:
        self._check_end()
        if self._opened and identity_at(self._path) != self._opened.identity:
            raise LogRefused(f"{self} {_MOVED}")

    def drop_before(self, position: int) -> None:
        """Drops the lines below a position, at most that of the snapshot, which is synced first. The file is replaced as a whole:
        the rest is written to `PATH.new`, synced, locked and renamed, and the folder is synced. Appends wait meanwhile. After
        `LogFailed` the log must be opened again.

        Back up the snapshot first: without it a log that has dropped lines can't be started. An interrupt ends only the wait.
        """
        self._check()
        found = self.snapshot()
        if found is None:
            raise LogRefused(f"{self} has no snapshot, so no line may go: call the provider's compact, and back the snapshot up")
        if not 0 <= position <= found[0]:
            raise LogRefused(
                f"the snapshot of {self} has the position {found[0]}, so the lines from there on stay: "
                f"call compact before you drop those below {position}"
            )
        for _ in found[1]:
            # A snapshot that can't be read to its end raises an error here.
            pass
        self._change(lambda: self._drop(position))

    def _drop(self, position: int) -> None:
        """Puts a file that begins at a position in the place of this one, whose lock it has."""
        self._check_end()
        assert self._opened
        opened = self._opened
        if position <= opened.first:
            return
        self._check_place(LogRefused, opened.end)
        sync(self._path)
        mark, start = opened.before(position)
        start += sum(len(it) + 1 for it in islice(self._lines(mark, opened), position - mark))
        head = b'{"first":%d}\n' % position
        replacement = Replacement(self._path, os.fstat(opened.file.fileno()).st_mode & 0o777, self._path, head[:9])
        try:
            replacement.write(head)
            for chunk in chunks_of(opened.file.fileno(), start, opened.end, str(self)):
                replacement.write(chunk)
            self._check_place(LogRefused, opened.end)
            # Until the new file is known to be at the path after a failure of the machine, no line may be added to it.
            self._is_bad = True
            try:
                file = replacement.put()
            except LogRefused:
                self._is_bad = False
                raise
        finally:
            replacement.drop()
        moved = len(head) - start
        marks = [(position, len(head)), *((number, at + moved) for number, at in opened.marks if number > position)]
        self._opened = _Opened(file, identity_of(file.fileno()), opened.lines, opened.end + moved, marks)
        self._is_bad = False

    def _check(self) -> None:
        if self._is_closed:
            raise LogFailed.final(f"{self} is closed: open it again")
        if os.getpid() != self._owner:
            raise LogFailed.final(f"{self} was opened by the process that this one was forked from: open it in one process alone")

    def _check_end(self) -> None:
        self._check()
        if self._is_bad:
            raise LogFailed.final(f"{self} may end with a line that an append was interrupted in: open it again")

    def close(self) -> None:
        """Closes the file, after an append that is under way. Another process can open it then."""
        self._is_closed = True
        if os.getpid() == self._owner:
            # Another call of close may have ended the thread.
            with suppress(Closed):
                self._change(self._close)
            self._work.stop()
        else:
            self._close()

    def _close(self) -> None:
        if self._opened:
            self._opened.file.close()
