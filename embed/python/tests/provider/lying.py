"""A program that runs `provider` and alters some of its answers: what a broken one, or one of another version, would print."""

from __future__ import annotations

import subprocess
import sys
import time
from typing import Any, Callable

from stored import joined, parted

Answer = dict[str, Any]


def lacks(answer: Answer) -> None:
    """A page without its last binding."""
    if answer.get("ok") == "bindings":
        del answer["bindings"][-1:]


def repeats(answer: Answer) -> None:
    if answer.get("ok") == "bindings":
        answer["bindings"] += answer["bindings"][-1:]


def rebinds(answer: Answer) -> None:
    """A page with another key."""
    if answer.get("ok") == "bindings" and answer["bindings"]:
        answer["bindings"][0]["key"] = "b3RoZXI="


def babbles(answer: Answer) -> None:
    """A page of something else."""
    if answer.get("ok") == "bindings":
        answer.update(bindings=[7], more=True)


def never_ends(answer: Answer) -> None:
    if answer.get("ok") == "bindings":
        answer.update(bindings=[], more=True)


def links(answer: Answer) -> None:
    """A restored directory with another link."""
    if answer.get("ok") == "restored":
        answer["link"] = "00" * 32


class AfterRestored:
    """Alters the answers of a child once it was restored."""

    def __init__(self, alter: Callable[[Answer], None]) -> None:
        self._alter, self._is_restored = alter, False

    def __call__(self, answer: Answer) -> None:
        self._is_restored = self._is_restored or answer.get("ok") == "restored"
        if self._is_restored:
            self._alter(answer)


def counts(answer: Answer) -> None:
    if answer.get("ok") == "latest":
        answer["names"] += 1


class CountsLater:
    """Alters the number of names, but not in the first answer."""

    def __init__(self) -> None:
        self._count = 0

    def __call__(self, answer: Answer) -> None:
        if answer.get("ok") == "latest":
            self._count += 1
            answer["names"] += self._count > 1


def builds(answer: Answer) -> None:
    """Updates with another number of nodes."""
    if answer.get("ok") == "prepare":
        answer["nodes"] += 1


def salts(answer: Answer) -> None:
    """Lookups with another nonce."""
    if answer.get("ok") == "lookup":
        answer["nonce"] = "00" * 32


# The seconds that a slow restore takes.
SLOW = 4


def waits(answer: Answer) -> None:
    """A restore that takes some seconds."""
    if answer.get("ok") == "restored":
        time.sleep(SLOW)


def knows_none(answer: Answer) -> None:
    """A program that has no line of a restore."""
    if answer.get("ok") == "restore":
        answer.clear()
        answer["fault"] = "Command"


MODES: dict[str, Callable[[], Callable[[Answer], None]]] = {
    "lacks": lambda: lacks,
    "repeats": lambda: repeats,
    "rebinds": lambda: rebinds,
    "babbles": lambda: babbles,
    "never ends": lambda: never_ends,
    "links": lambda: links,
    "counts": lambda: AfterRestored(counts),
    "counts later": lambda: AfterRestored(CountsLater()),
    "builds": lambda: AfterRestored(builds),
    "salts": lambda: AfterRestored(salts),
    "slow": lambda: waits,
    "knows none": lambda: knows_none,
}


def main(mode: str, words: list[str]) -> None:
    alter = MODES[mode]()
    with subprocess.Popen(words, stdin=subprocess.PIPE, stdout=subprocess.PIPE) as real:
        assert real.stdin and real.stdout
        for line in sys.stdin.buffer:
            real.stdin.write(line)
            real.stdin.flush()
            answer, store = parted(real.stdout.readline())
            alter(answer)
            sys.stdout.buffer.write(joined(answer, store))
            sys.stdout.buffer.flush()
        real.stdin.close()


if __name__ == "__main__":
    main(sys.argv[1], sys.argv[2:])
