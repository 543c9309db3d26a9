"""The processor time of a page's thread, beside the time for which the machine lets it wait."""

from __future__ import annotations

import threading
import time
from bisect import bisect_left, bisect_right
from pathlib import Path
from typing import Iterator, Optional

# Seconds between two samples.
EACH = 0.004


def children() -> dict[int, list[int]]:
    """The processes of this machine by their parents."""
    found: dict[int, list[int]] = {}
    for it in Path("/proc").glob("[0-9]*/stat"):
        try:
            parent = int(it.read_text("utf-8").rpartition(")")[2].split()[1])
        except OSError:
            continue
        found.setdefault(parent, []).append(int(it.parent.name))
    return found


def renderers(parent: int) -> Iterator[int]:
    """The renderers of a browser that a process has started. Each has its page in its first thread."""
    by_parent, left = children(), [parent]
    while left:
        process = left.pop()
        left += by_parent.get(process, [])
        if b"--type=renderer" in Path(f"/proc/{process}/cmdline").read_bytes():
            yield process


def times(process: int) -> Optional[tuple[float, float]]:
    """The milliseconds for which the first thread of a process has computed, and for which the machine has let it wait; None if it has
    ended."""
    try:
        computed, waited = Path(f"/proc/{process}/task/{process}/schedstat").read_text("utf-8").split()[:2]
    except OSError:
        return None
    return int(computed) / 1e6, int(waited) / 1e6


class Computing:
    """Samples the processor time of a browser's renderers while it is entered. Then `seconds` has for how long that was, without the time
    for which the machine has let a page wait."""

    def __init__(self, parent: int) -> None:
        self._begun: list[float] = []
        self._ended: list[float] = []
        self._parent, self._start, self.seconds = parent, 0.0, 0.0
        self._sampled: dict[int, list[tuple[float, float]]] = {it: [] for it in renderers(parent)}
        self._is_over, self._thread = threading.Event(), threading.Thread(target=self._sample, daemon=True)

    def __enter__(self) -> Computing:
        self._start = time.monotonic()
        self._thread.start()
        return self

    def __exit__(self, *_: object) -> None:
        took = time.monotonic() - self._start
        self._is_over.set()
        self._thread.join()
        self.seconds = took - max([0.0, *map(self._waited, renderers(self._parent))]) / 1000

    def _waited(self, process: int) -> float:
        """The milliseconds for which a renderer has waited, which may have begun meanwhile."""
        before, now = self._sampled.get(process), times(process)
        return (now[1] if now else 0) - (before[0][1] if before else 0)

    def _sample(self) -> None:
        is_last = False
        while not is_last:
            is_last = self._is_over.wait(EACH)
            self._begun.append(time.time() * 1000)
            for process, values in self._sampled.items():
                values.append(times(process) or (values[-1] if values else (0, 0)))
            self._ended.append(time.time() * 1000)

    def between(self, begin: float, end: float) -> float:
        """The milliseconds, at most, for which a page has computed between two times in Unix milliseconds."""
        first, last = bisect_right(self._ended, begin) - 1, bisect_left(self._begun, end)
        if first < 0 or last == len(self._begun):
            return end - begin
        return min(end - begin, max(it[last][0] - it[first][0] for it in self._sampled.values()))

    def without_waits(self, begin: float, end: float) -> float:
        """The milliseconds between two times in Unix milliseconds, at most, without those for which the machine has let a page wait."""
        first, last = bisect_left(self._begun, begin), bisect_right(self._ended, end) - 1
        waited = [it[last][1] - it[first][1] for it in self._sampled.values() if first < last]
        return end - begin - max([0.0, *waited])
