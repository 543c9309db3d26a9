"""A log in memory that several processes of a test have open."""

from __future__ import annotations

import threading
from typing import Callable, Iterator

from coniks import provider
from coniks.provider import Overtaken


class Lines:
    """The lines of a log that several processes have open."""

    def __init__(self) -> None:
        self.all: list[bytes] = []
        self.is_changed, self.is_closed = threading.Condition(), False

    def replace(self, lines: list[bytes]) -> None:
        """Puts other lines in the place of these."""
        with self.is_changed:
            self.all = lines
            self.is_changed.notify_all()

    def close(self) -> None:
        with self.is_changed:
            self.is_closed = True
            self.is_changed.notify_all()


class MemoryLog:
    """A log as one process has it open. As a log in PostgreSQL does, it appends no line after one that it hasn't seen."""

    def __init__(self, shared: Lines, step: Callable[[str], None] = lambda what: None) -> None:
        self.shared, self._step, self._seen = shared, step, (-1, b"")

    def append(self, position: int, line: bytes) -> None:
        self._step("before an append")
        with self.shared.is_changed:
            lines, (last, before) = self.shared.all, self._seen
            if position != len(lines) or (last == position - 1 and position and lines[last] != before):
                raise Overtaken(f"the log has {len(lines)} lines, or others than were seen: close this one")
            lines.append(line)
            self._seen = (position, line)
            self.shared.is_changed.notify_all()
        self._step("after an append")

    def read(self, position: int) -> Iterator[bytes]:
        lines = list(self.shared.all)
        if not lines:
            raise provider.NoDirectory("the log is empty: look which one it is")
        for number, line in enumerate(lines[position:], position):
            self._seen = (number, line)
            yield line

    def wait(self, position: int, seconds: float) -> int:
        with self.shared.is_changed:
            self.shared.is_changed.wait_for(lambda: len(self.shared.all) > position or self.shared.is_closed, seconds)
            return len(self.shared.all)

    def check_writable(self) -> None:
        """An append can always be tried."""
