"""Files of a log: which are refused, how one is locked, and how one takes the place of another."""

from __future__ import annotations

import errno
import fcntl
import io
import os
import stat
import time
from contextlib import suppress
from typing import Callable, Iterator, Optional, Union

from .faults import LogFailed, LogRefused, ProviderError

Path = Union[str, "os.PathLike[str]"]
CHUNK = 1 << 20
_LOCK_SECONDS = 1
_FLAGS = os.O_CLOEXEC | os.O_NONBLOCK | os.O_NOCTTY


def cause(error: Exception) -> str:
    """What an error that a log raised says. The text of one that isn't of the machine may have a line, so its class is named."""
    if isinstance(error, ProviderError):
        return str(error)
    if isinstance(error, OSError) and error.strerror:
        return error.strerror
    return f"it raised {type(error).__name__}, which is the cause of this error"


def opened_at(path: Path, flags: int, mode: str = "r+") -> io.FileIO:
    """A file that is opened with these flags. One that is made has mode 0600."""
    return io.FileIO(path, mode, opener=lambda it, _: os.open(it, flags | _FLAGS, 0o600))


def check_kind(file: int, mode: int, what: str) -> None:
    """Raises `LogFailed` if a file isn't regular, or has rights beyond `mode`."""
    found = os.fstat(file)
    if not stat.S_ISREG(found.st_mode):
        raise LogFailed(f"{what} is no regular file: give the path of a log")
    if stat.S_IMODE(found.st_mode) & ~mode:
        rights = f"{stat.S_IMODE(found.st_mode):04o}"
        raise LogFailed(f"{what} has keys in it and the rights {rights}: chmod 600, or pass mode=0o{rights}")


def lock(file: int) -> None:
    """Takes a file for this process. One that was killed while it started a child may have it for some milliseconds more, until
    the child has closed what it was born with."""
    until = time.monotonic() + _LOCK_SECONDS
    while True:
        try:
            return fcntl.flock(file, fcntl.LOCK_EX | fcntl.LOCK_NB)
        except BlockingIOError:
            if time.monotonic() > until:
                raise
            time.sleep(0.01)


def identity_at(path: Path) -> Optional[tuple[int, int]]:
    """What tells the file at a path from others, None if there is none."""
    try:
        found = os.stat(path)
    except OSError:
        return None
    return found.st_dev, found.st_ino


def identity_of(file: int) -> tuple[int, int]:
    found = os.fstat(file)
    return found.st_dev, found.st_ino


def write_at(file: int, data: bytes, at: int) -> None:
    while data:
        size = os.pwrite(file, data, at)
        data, at = data[size:], at + size


def chunks_of(file: int, at: int, end: int, what: str) -> Iterator[bytes]:
    """The bytes of a file from one place to another."""
    while at < end:
        try:
            chunk = os.pread(file, min(CHUNK, end - at), at)
        except OSError as error:
            raise LogFailed(f"{what} can't be read: {error.strerror}. Repair that, and try again") from error
        if not chunk:
            raise LogFailed(f"{what} was cut by another process: compare it with a backup, and open it again")
        at += len(chunk)
        yield chunk


def sync_folder(path: Path) -> None:
    folder = os.open(os.path.dirname(os.path.realpath(path)), os.O_RDONLY | os.O_DIRECTORY | os.O_CLOEXEC)
    try:
        os.fsync(folder)
    finally:
        os.close(folder)


def rewrite(path: Path, data: bytes, mode: int = 0o644, may: Callable[[], bool] = lambda: True) -> bool:
    """Stores a file durably in the place of another one, by way of `PATH.new`. Only one process at a time may do so: `may` is asked
    last, and if it refuses, nothing is stored. Returns whether it was."""
    new = f"{os.fspath(path)}.new"
    with suppress(FileNotFoundError):
        # A process that was killed left it. Its rights may be others.
        if not os.path.islink(new):
            with opened_at(new, os.O_RDONLY, "r") as rest:
                check_rest(rest.fileno(), data[:8], new)
        os.unlink(new)
    with open(new, "xb", opener=lambda it, flags: os.open(it, flags, mode)) as file:
        file.write(data)
        file.flush()
        os.fsync(file.fileno())
        if not may():
            if identity_at(new) == identity_of(file.fileno()):
                os.unlink(new)
            return False
    os.replace(new, path)
    sync_folder(path)
    return True


def is_rest(head: bytes, begin: bytes) -> bool:
    """Whether a file that begins with `head`, or is no longer than that, is the rest of one that begins with `begin`. A power failure can
    have cut it, or left zeros."""
    written = head[: len(begin)].rstrip(b"\0")
    return begin.startswith(written)


def check_rest(file: int, begin: bytes, path: str) -> None:
    """Raises `FileExistsError` if a file isn't the rest of one that begins with these bytes: it is somebody else's."""
    if os.fstat(file).st_size and not is_rest(os.pread(file, len(begin), 0), begin):
        raise FileExistsError(errno.EEXIST, f"another file is at {path}, and is left as it is: move it away")


class Replacement:
    """A file that is written beside another one, `PATH.new`, and then takes its place. A symbolic link stays: `PATH` is then the file
    that it leads to. What a process left there that was killed is overwritten, and no file that begins otherwise. Only one process or
    thread at a time has it: the others get `LogRefused`."""

    def __init__(self, path: str, mode: int, log: str, begin: bytes):
        """Makes the file, with these rights and the owner of a log. `begin` is how it will begin."""
        self._path, self._size = os.path.realpath(path), 0
        self._new = self._path + ".new"
        self._file: Optional[io.FileIO] = None
        try:
            self._file = opened_at(self._new, os.O_RDWR | os.O_CREAT | os.O_NOFOLLOW)
            fcntl.flock(self._file, fcntl.LOCK_EX | fcntl.LOCK_NB)
            if identity_at(self._new) != identity_of(self._file.fileno()):
                raise BlockingIOError
            check_rest(self._file.fileno(), begin, self._new)
        except BlockingIOError as error:
            self._forget()
            raise LogRefused(f"another call is writing {self._new}: call again after it") from error
        except OSError as error:
            self._forget()
            raise self._refused("made", error) from error
        try:
            self._begin(self._file.fileno(), mode, os.stat(log))
        except OSError as error:
            self.drop()
            raise self._refused("made", error) from error

    @staticmethod
    def _begin(file: int, mode: int, log: os.stat_result) -> None:
        """Empties the file, and gives it these rights and the owner of a log."""
        mine = os.fstat(file)
        if (log.st_uid, log.st_gid) != (mine.st_uid, mine.st_gid):
            os.fchown(file, log.st_uid, log.st_gid)
        os.fchmod(file, mode)
        os.ftruncate(file, 0)

    def _refused(self, what: str, error: OSError) -> LogRefused:
        return LogRefused(f"{self._new} can't be {what}: {error.strerror}. Nothing is changed; repair that, and try again")

    def write(self, data: bytes) -> None:
        """Appends bytes. Raises `LogRefused` if there is no room for them."""
        assert self._file
        try:
            write_at(self._file.fileno(), data, self._size)
        except OSError as error:
            raise self._refused("written", error) from error
        self._size += len(data)

    def put(self) -> io.FileIO:
        """Puts the file in the place of the other one, and returns it. Raises `LogRefused` if it isn't there, and `LogFailed` if
        a failure of the machine could bring back the other one."""
        assert self._file
        try:
            os.fsync(self._file.fileno())
            if identity_at(self._new) != identity_of(self._file.fileno()):
                raise FileNotFoundError(errno.ENOENT, "it was moved or removed")
            os.rename(self._new, self._path)
        except OSError as error:
            raise self._refused("stored", error) from error
        file, self._file = self._file, None
        try:
            sync_folder(self._path)
        except OSError as error:
            file.close()
            raise LogFailed(
                f"the folder of {self._path} can't be synced: {error.strerror}. Repair that, and open the log again"
            ) from error
        return file

    def _forget(self) -> None:
        if self._file:
            self._file.close()
        self._file = None

    def drop(self) -> None:
        """Removes the file, unless it was put, or another one is there."""
        if self._file:
            with suppress(OSError):
                if identity_at(self._new) == identity_of(self._file.fileno()):
                    os.unlink(self._new)
            self._forget()
