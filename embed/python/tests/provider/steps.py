"""Stops a commit at each of its steps: by an exception, a child that ends, a log that fails, or a full disk.

After each, the directory is started again, once by `restart` and once by a new process's means: from the log alone. What was
acknowledged must be there, and an update whose body was logged must be installed with that body.
"""

from __future__ import annotations

import errno
from pathlib import Path
from typing import Any, Callable, Iterator, NamedTuple, NoReturn, Optional, Union

from stand_ins import Salted, Signer, kill_child, opened
from coniks.provider import FileLog, LogFailed, LogRefused, Register, SignerFailed


Hook = Callable[[], object]


class Stop(BaseException):
    """Ends a call as an interrupt does."""


class HookedLog:
    """A log over another one that calls a function before and after an append."""

    def __init__(self, log: Any) -> None:
        self.log = log
        self.before: Callable[[bytes], object] = lambda line: None
        self.after: Callable[[bytes], object] = lambda line: None

    def append(self, position: int, line: bytes) -> None:
        self.before(line)
        self.log.append(position, line)
        self.after(line)

    def read(self, position: int) -> Iterator[bytes]:
        lines: Iterator[bytes] = self.log.read(position)
        return lines

    def check_writable(self) -> None:
        self.log.check_writable()


class Stage:
    """A directory with one epoch, whose next commit is stopped."""

    def __init__(self, room: str, program: str, children: int = 1) -> None:
        self.room, self.program, self.children = Path(room), program, children
        self.file = FileLog(self.room / "log")
        self.log, self.signer = HookedLog(self.file), Signer(room, Salted())
        self.provider = opened(program, self.log, self.signer, create=True, children=children)
        self.first = self.provider.commit(1, [Register("first", b"key")])

    def kill_child(self, *_: object) -> None:
        kill_child(self.provider)

    def start_again(self, how: str) -> None:
        """Goes on after a stop: by `restart`, from the file alone, or by the next call, if nothing is open."""
        self.log.before = self.log.after = lambda line: None
        self.signer.before = lambda: None
        if how == "restart":
            return self.provider.restart()
        if how == "next":
            if self.provider.pending:
                self.provider.retry()
            return None
        self.close()
        self.file = FileLog(self.room / "log")
        self.log = HookedLog(self.file)
        self.provider = opened(self.program, self.log, self.signer, children=self.children)

    def close(self) -> None:
        self.provider.close()
        self.file.close()


def of_kind(kind: bytes, call: Hook) -> Callable[[bytes], object]:
    """A hook that makes its call at lines of one kind."""
    return lambda line: call() if b'"cmd":"%s"' % kind in line else None


def stopped(error: Union[BaseException, type[BaseException]] = Stop) -> Callable[..., NoReturn]:
    def call(*_: object) -> NoReturn:
        raise error

    return call


# What stops a commit: its name, what sets it up, the error of `commit`, and whether the signer's body is in the log.
Stopper = tuple[str, Callable[[Stage], object], Optional[type[BaseException]], bool]


def hooks() -> Iterator[Stopper]:
    no_disk = OSError(errno.ENOSPC, "full")

    def before_log(kind: bytes, call: Callable[[Stage], Hook]) -> Callable[[Stage], None]:
        return lambda stage: setattr(stage.log, "before", of_kind(kind, call(stage)))

    def after_log(kind: bytes, call: Callable[[Stage], Hook]) -> Callable[[Stage], None]:
        return lambda stage: setattr(stage.log, "after", of_kind(kind, call(stage)))

    def in_signer(call: Callable[[Stage], Hook]) -> Callable[[Stage], None]:
        return lambda stage: setattr(stage.signer, "before", call(stage))

    def at_line(name: str, is_logged: bool) -> Iterator[Stopper]:
        kind = name.encode()
        yield f"an interrupt before `{name}` is logged", before_log(kind, stop), Stop, is_logged
        yield f"the log fails before `{name}`", before_log(kind, full), LogFailed, is_logged
        yield f"the log refuses `{name}`", before_log(kind, none), LogRefused, is_logged
        yield f"an interrupt after `{name}` is logged", after_log(kind, stop), Stop, True
        yield f"the log fails after `{name}`", after_log(kind, full), LogFailed, True
        yield f"the child ends as `{name}` is logged", after_log(kind, dead), None, True

    stop: Callable[[Stage], Hook] = lambda _: stopped()
    full: Callable[[Stage], Hook] = lambda _: stopped(no_disk)
    none: Callable[[Stage], Hook] = lambda _: stopped(LogRefused("told to refuse"))
    dead: Callable[[Stage], Hook] = lambda stage: stage.kill_child
    yield "the child ends before", lambda stage: stage.kill_child(), None, True
    yield from at_line("prepare", False)
    yield "an interrupt in the signer", in_signer(stop), Stop, True
    yield "the child ends as the signer is asked", in_signer(dead), None, True
    yield "the signer fails", in_signer(lambda _: stopped(TimeoutError())), SignerFailed, True
    yield from at_line("install", True)


class Stopping(NamedTuple):
    """What sets up the stop of a commit, the error of `commit`, and whether the signer's body is in the log then."""

    set_up: Callable[[Any], object]
    error: Optional[type[BaseException]]
    is_logged: bool


STOPS = {what: Stopping(set_up, error, is_logged) for what, set_up, error, is_logged in hooks()}


def starts(*hows: str) -> list[tuple[str, str]]:
    """Each stop with each way to go on. The next call goes on only if nothing needs a restart."""
    is_open = (None, LogRefused, SignerFailed)
    return [(what, how) for what, stop in STOPS.items() for how in hows if how != "next" or stop.error in is_open]
