"""Prints how many lookups a second `coniks.provider` makes, and how long a log of many names takes to be replayed."""

from __future__ import annotations

import random
import resource
import sys
import tempfile
import time
from pathlib import Path
from typing import Callable, Sequence

from stand_ins import KEY, Salted, Signer, opened
from coniks.provider import FileLog, Lookup, Register

BATCH = 4096


def main(program: str, names: int = 100_000, lookups: int = 20_000) -> int:
    with tempfile.TemporaryDirectory() as room:
        signer, chance = Signer(room, Salted()), random.Random(20261126)
        with FileLog(Path(room) / "log") as log:
            start = time.monotonic()
            with opened(program, log, signer, create=True) as provider:
                for epoch, first in enumerate(range(0, names, BATCH), 1):
                    made = [Register(f"user-{it}", KEY) for it in range(first, min(names, first + BATCH))]
                    provider.commit(epoch, made)
                tell("commits", names, "names", time.monotonic() - start)
                requested = [f"user-{chance.randrange(names)}" for _ in range(lookups)]
                calls: list[tuple[str, Callable[[], Sequence[object]]]] = [
                    ("lookup", lambda: [provider.lookup(it) for it in requested]),
                    ("lookups", lambda: provider.lookups(requested)),
                ]
                for what, look in calls:
                    start, user = time.monotonic(), resource.getrusage(resource.RUSAGE_SELF).ru_utime
                    found = look()
                    took, used = time.monotonic() - start, resource.getrusage(resource.RUSAGE_SELF).ru_utime - user
                    assert [it.name for it in found if isinstance(it, Lookup)] == requested
                    tell(what, lookups, "lookups", took, f", of which Python's own {used:.2f} s")
            start = time.monotonic()
            with opened(program, log, signer) as provider:
                tell("replay", names, "names", time.monotonic() - start)
                assert provider.latest().names == names
        size = (Path(room) / "log").stat().st_size
        print(f"log: {size} bytes, {size / names:.0f} a name")
    return 0


def tell(what: str, count: int, of: str, seconds: float, more: str = "") -> None:
    print(f"{what}: {count} {of} in {seconds:.2f} s, {count / seconds:.0f} a second{more}", flush=True)


if __name__ == "__main__":
    sys.exit(main(sys.argv[1], *map(int, sys.argv[2:])))
