"""The program `provider` as child processes: one, or two that take the same lines."""

from __future__ import annotations

import errno
import fcntl
import os
import select
import subprocess
import threading
import time
from contextlib import contextmanager, suppress
from typing import Any, Iterable, Iterator, Mapping, Optional, Sequence

from ._lines import answer, grouped
from .faults import ChildrenDiffer, ProgramFailed, ProviderError

_GET_PIPE_SIZE = 1032  # fcntl.F_GETPIPE_SZ, from Python 3.10 on
# The seconds after which a lookup that waits for a child checks whether the other one is free.
_LOOK_AGAIN = 0.005
DIFFER = "two children answer one line differently: the machine or the program is at fault. Look for that, then restart"
# What follows a line that one of two children takes. Once it has answered a batch it frees memory, which takes milliseconds: lookups
# go to it again after the answer to this.
_LATEST = b'{"cmd":"latest"}\n'
# Errors of a program's file. Others are of the machine, such as too many open files.
_OF_PATHS = (errno.ENOENT, errno.EACCES, errno.ENOEXEC, errno.ENOTDIR, errno.ELOOP, errno.ENAMETOOLONG)
_NOT_REQUESTED = "the program isn't asked after an error, or once another one took its place: ask again"


class Child:
    """The program as a child process: lines go in and come out. It is in a session of its own, so that a terminal's interrupt
    doesn't end it, and it ends with its parent, because its input does. After an error it isn't asked again."""

    def __init__(self, words: Sequence[str], timeout: Optional[float]):
        try:
            pipe = subprocess.PIPE
            self._process = subprocess.Popen(words, stdin=pipe, stdout=pipe, bufsize=0, start_new_session=True)
        except OSError as error:
            advice = "Look at its path" if error.errno in _OF_PATHS else "Free what is missing, and try again"
            raise ProgramFailed(f"the program {words[0]} can't be started: {error.strerror}. {advice}") from error
        assert self._process.stdin and self._process.stdout
        self._in, self._out = self._process.stdin.fileno(), self._process.stdout.fileno()
        self._timeout, self.is_sound = timeout, True
        # `asking` is held while the child answers, and `turn` by a line that waits for that, so that no lookup goes before it.
        self.asking, self.turn = threading.Lock(), threading.Lock()
        self._retained, self._at = b"", 0
        # Lines of this size in all are written before their answers are read. The pipe has room for them, so that the child
        # and its parent never both wait for the other to read.
        self.at_once = fcntl.fcntl(self._in, _GET_PIPE_SIZE) // 2
        self._can_write, self._can_read = select.poll(), select.poll()
        self._can_write.register(self._in, select.POLLOUT)
        self._can_read.register(self._out, select.POLLIN)
        if timeout is not None:
            os.set_blocking(self._in, False)

    @property
    def pid(self) -> int:
        return self._process.pid

    def send(self, lines: Iterable[bytes]) -> None:
        """Writes lines with their newlines. Each gets an answer."""
        if not self.is_sound:
            raise ProgramFailed(_NOT_REQUESTED)
        try:
            self._send(b"".join(lines))
        except BaseException:
            self.is_sound = False
            raise

    def receive(self, count: int, times: int = 1) -> list[bytes]:
        """Reads the next answers, each of which may take the timeout so many times."""
        try:
            return [self._receive(times) for _ in range(count)]
        except BaseException:
            self.is_sound = False
            raise

    def ask(self, lines: bytes, times: int, is_sent: bool) -> list[bytes]:
        """What the program answers to lines, which may have been sent."""
        with self.turn, self.asking:
            if not is_sent:
                self.send([lines])
            return self.receive(lines.count(b"\n"), times)

    def read(self, reply: bytes) -> Mapping[str, Any]:
        """What an answer says. After one that isn't defined the program isn't asked again."""
        try:
            return answer(reply)
        except ProgramFailed:
            self.is_sound = False
            raise

    def answers(self, lines: Iterable[bytes]) -> list[bytes]:
        """What the program prints for lines with their newlines."""
        answers: list[bytes] = []
        for group in grouped(lines, self.at_once):
            with self.turn, self.asking:
                self.send(group)
                answers += self.receive(len(group))
        return answers

    def _wait(self, pipe: select.poll, until: float) -> None:
        """Waits for a pipe to be ready, if there is a timeout."""
        if self._timeout is not None and not pipe.poll(max(0, until - time.monotonic()) * 1000):
            raise ProgramFailed(f"the program didn't answer in {self._timeout} seconds, and is started again")

    def _send(self, data: bytes) -> None:
        until, rest = time.monotonic() + (self._timeout or 0), memoryview(data)
        while rest:
            try:
                rest = rest[os.write(self._in, rest) :]
            except BlockingIOError:
                self._wait(self._can_write, until)
            except OSError:
                raise self._ended() from None

    def _receive(self, times: int) -> bytes:
        end = self._retained.find(b"\n", self._at)
        if end < 0:
            until = time.monotonic() + (self._timeout or 0) * times
            parts = [self._retained[self._at :]]
            while end < 0:
                self._wait(self._can_read, until)
                parts.append(os.read(self._out, 65536))
                if not parts[-1]:
                    raise self._ended()
                end = parts[-1].find(b"\n")
            end += sum(map(len, parts[:-1]))
            self._retained, self._at = b"".join(parts), 0
        line = self._retained[self._at : end]
        self._at = end + 1
        return line

    def _ended(self) -> ProgramFailed:
        try:
            return ProgramFailed(f"the program ended with status {self._process.wait(5)}: see its standard error")
        except subprocess.TimeoutExpired:
            return ProgramFailed("the program closed its streams, and is started again")

    def is_usable(self) -> bool:
        """Whether the program runs and was never out of step."""
        if self._process.poll() is not None:
            self.is_sound = False
        return self.is_sound

    def kill(self) -> None:
        """Ends the program at once. Whoever waits for its answer gets an error."""
        self.is_sound = False
        self._process.kill()

    def stop(self, seconds: float) -> None:
        """Ends the program: its input ends, and after some seconds it is killed. The log has all that matters."""
        assert self._process.stdin and self._process.stdout
        self._process.stdin.close()
        try:
            self._process.wait(seconds)
        except subprocess.TimeoutExpired:
            self._process.kill()
            self._process.wait()
        self._process.stdout.close()


class Children:
    """One child, or two that have taken the same lines.

    Two take a line one after another, so that lookups go to the one that isn't taking it. What they answer is compared. One that
    fails isn't asked again, and the other one goes on alone. `is_used` says whether lookups are asked: until then, in a replay,
    both take a line at once.
    """

    def __init__(self, words: Sequence[str], count: int, timeout: Optional[float]):
        self.is_used = False
        # Why no line is taken any more: the children have answered one differently.
        self.differing: Optional[ChildrenDiffer] = None
        self._all: list[Child] = []
        try:
            for _ in range(count):
                self._all.append(Child(words, timeout))
        except BaseException:
            self.end()
            raise

    @property
    def pids(self) -> list[int]:
        """The process numbers of those that can be asked, as far as is known."""
        return [it.pid for it in self._all if it.is_sound]

    @property
    def pid(self) -> int:
        """That of the first one, or of one that has ended if there is no other."""
        return [*self.pids, self._all[0].pid][0]

    @property
    def at_once(self) -> int:
        """Lines of this size in all are sent before their answers are read."""
        return self._all[0].at_once

    def ask(self, line: bytes, times: int = 1) -> Mapping[str, Any]:
        """What the program answers to a line. Each child may take the timeout so many times. What the first one refuses isn't
        asked of the other one, since it changes nothing."""
        if self.differing:
            raise self.differing
        children, is_sent = self._sound(), not self.is_used
        lines = b"".join([line, b"\n", b"" if is_sent or len(self._all) == 1 else _LATEST])
        if is_sent:
            for child in children:
                # One that fails here fails again below.
                with suppress(ProgramFailed):
                    child.send([lines])
        failure = ProgramFailed(_NOT_REQUESTED)
        first, reported = list[bytes](), None
        for child in children:
            try:
                reply = child.ask(lines, times, is_sent)
            except ProgramFailed as error:
                failure = error
                continue
            if reported is None:
                first, reported = reply, child.read(reply[0])
            self._compare(first, reply)
        if reported is None:
            raise failure
        return reported

    def _compare(self, one: object, other: object) -> None:
        if one != other:
            self.differing = ChildrenDiffer(DIFFER)
            raise self.differing

    def answers(self, lines: Sequence[bytes]) -> list[bytes]:
        """What each child prints for lines with their newlines."""
        first, *others = [it.answers(lines) for it in self._sound()]
        for other in others:
            self._compare(first, other)
        return first

    def look(self, line: bytes) -> Mapping[str, Any]:
        """What the child that is free answers to a line that changes nothing."""
        with self.lent() as child:
            child.send([line, b"\n"])
            [reply] = child.receive(1)
            return child.read(reply)

    @contextmanager
    def lent(self) -> Iterator[Child]:
        """The child for lookups, which no line is asked meanwhile. The one that no line waits for, if there is one."""
        child = self._free()
        while not child.turn.acquire(timeout=_LOOK_AGAIN):
            child = self._free()
        try:
            child.asking.acquire()
        finally:
            child.turn.release()
        try:
            yield child
        finally:
            child.asking.release()

    def _free(self) -> Child:
        return min(self._all, key=lambda it: (not it.is_sound, it.turn.locked()))

    def _sound(self) -> list[Child]:
        sound = [it for it in self._all if it.is_sound]
        if not sound:
            raise ProgramFailed(_NOT_REQUESTED)
        return sound

    def is_usable(self) -> bool:
        """Whether one of them can be asked."""
        return any([it.is_usable() for it in self._all])

    def is_whole(self) -> bool:
        """Whether all of them can be asked."""
        return all([it.is_usable() for it in self._all])

    def distrust(self) -> None:
        """Notes that what they printed isn't defined, so that none is asked again."""
        for child in self._all:
            child.is_sound = False

    def kill(self) -> None:
        """Ends them at once. Whoever waits for an answer gets an error."""
        for child in self._all:
            child.kill()

    def end(self, seconds: float = 0) -> None:
        """Ends them at once, and waits until they have ended."""
        self.kill()
        for child in self._all:
            child.stop(seconds)

    def replace(self) -> None:
        """Ends them, whose place others have. They may hang in an answer."""
        self.kill()
        for child in self._all:
            with child.asking:
                child.stop(0)

    def leave(self) -> None:
        """Ends them, whose place others have, after the lookups that they are answering."""
        for child in self._all:
            with child.asking:
                # Lookups that wait for it go to the others, and not until this one's memory is gone.
                child.is_sound = False
        self.end()
