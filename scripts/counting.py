"""What a run of tests has passed, failed and skipped, by the end of its output."""

from __future__ import annotations

import re
from dataclasses import dataclass, field
from typing import Iterable, Iterator

# The last line of a script that counts, and that of `pytest --quiet` with its parts. An error is one of a fixture or of a module.
LAST = re.compile(r"(\d+) passed, (\d+) failed(?:, (\d+) skipped)?")
PYTEST = re.compile(r"\d+ \w+(?:, \d+ \w+)* in [\d.]+s(?: \(.*\))?")
PART = re.compile(r"(\d+) (passed|failed|error|skipped)")
# A line that names a test which failed: of pytest's summary, of `node --test`, and of a script.
WRONG = re.compile(r"ERROR .*|✖.*|.*\bFAILED\b.*")
# A line of the summary of `node --test`.
NODE = re.compile(r"^ℹ (pass|fail|cancelled|skipped) (\d+)$", re.M)


def say(text: str) -> None:
    """Prints a line at once, whole also beside other threads."""
    print(f"{text}\n", end="", flush=True)


def counts_of(text: str, status: int) -> list[int]:
    """What has passed, failed and been skipped by the end of a command's output. Without counts, or with a bad status and no failure,
    something has failed."""
    line = (text.strip().splitlines() or [""])[-1].strip()
    if found := LAST.fullmatch(line):
        counts = [int(it or 0) for it in found.groups()]
    elif PYTEST.fullmatch(line):
        printed = {word: int(count) for count, word in PART.findall(line)}
        counts = [printed.get("passed", 0), printed.get("failed", 0) + printed.get("error", 0), printed.get("skipped", 0)]
    else:
        printed = {word: int(count) for word, count in NODE.findall(text)}
        counts = [printed["pass"], printed["fail"] + printed["cancelled"], printed["skipped"]] if len(printed) == 4 else [0, 1, 0]
    return [counts[0], max(counts[1], int(status != 0)), counts[2]]


def wrong_in(lines: Iterable[str], most: int = 10) -> Iterator[str]:
    """The lines of a command's output that name what failed, the last line if none does; of many the last ones."""
    last, found = "", list[str]()
    for line in map(str.strip, lines):
        last = line or last
        if WRONG.fullmatch(line):
            found.append(line)
    yield from found[-most:] or [last]


@dataclass
class Tally:
    """What has passed, failed and been skipped so far, and which tests failed."""

    passed: int = 0
    failed: int = 0
    skipped: int = 0
    wrong: list[str] = field(default_factory=list)

    def add(self, passed: int, failed: int, skipped: int = 0) -> None:
        self.passed, self.failed, self.skipped = self.passed + passed, self.failed + failed, self.skipped + skipped

    def skip(self, what: str, tool: str) -> None:
        """Counts what cannot run here, and prints what it needs."""
        self.add(0, 0, 1)
        say(f"skipped: {what}, which needs {tool}")

    def line(self) -> str:
        return f"{self.passed} passed, {self.failed} failed" + (f", {self.skipped} skipped" if self.skipped else "")
