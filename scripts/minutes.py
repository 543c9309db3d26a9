"""What each crate takes of the gate's processor time, by kind of work, as the processes of a run of `rt ci` show it."""

from __future__ import annotations

import json
import os
import re
import tempfile
from collections import defaultdict
from pathlib import Path
from threading import Event, Thread
from typing import Iterable, Optional

TOP = Path(__file__).resolve().parent.parent
FILE = TOP / "out/minutes.json"

# What a process works on: the proof of a crate, that of its tests, the proof that its must-fail edits begin with, the edits, or the
# compilers of a program.
KINDS = ["proof", "tests", "seed", "edits", "compilers"]
TICKS = os.sysconf("SC_CLK_TCK")
SECONDS = 0.5

# Seconds by crate and kind.
Times = dict[str, dict[str, float]]


def kind_of(words: list[str], home: str) -> str:
    """The kind of work of a process of `rattle`, by its arguments and its folder."""
    if "--test" in words:
        return "tests"
    if re.match(rf"{re.escape(tempfile.gettempdir())}/rt-edit-", home):
        begun = words[words.index("--incremental") + 1] if "--incremental" in words else ""
        return "seed" if begun.endswith("/seed") else "edits"
    return "compilers" if "--crate-checked" in words else "proof"


def fields_of(process: str) -> tuple[str, list[str]]:
    """The name of a process, and the fields of its state after the name."""
    with open(f"/proc/{process}/stat", encoding="utf-8", errors="replace") as file:
        name, _, rest = file.read().partition("(")[2].rpartition(")")
    return name, rest.split()


def is_ours(process: str) -> bool:
    """Whether this process started a process, or what started it."""
    while process not in ("0", "1"):
        if process == str(os.getpid()):
            return True
        process = fields_of(process)[1][1]
    return False


def look(process: str) -> Optional[tuple[str, str, str, float]]:
    """The start, crate and kind of a process of `rattle` that was started from here, and its seconds so far; None for another process."""
    name, fields = fields_of(process)
    if name != "rattle" or not is_ours(process):
        return None
    with open(f"/proc/{process}/cmdline", encoding="utf-8", errors="replace") as file:
        words = file.read().split("\0")
    if "--crate-name" not in words:
        return None
    crate = words[words.index("--crate-name") + 1]
    return fields[19], crate, kind_of(words, os.readlink(f"/proc/{process}/cwd")), (int(fields[11]) + int(fields[12])) / TICKS


class Sampler(Thread):
    """Reads what the processes of `rattle` have taken, twice a second, until it is stopped. The end of each is missed: half a second
    at most."""

    def __init__(self) -> None:
        super().__init__(daemon=True)
        self.is_over, self.seen = Event(), dict[tuple[str, str], tuple[str, str, float]]()

    def run(self) -> None:
        while not self.is_over.wait(SECONDS):
            self.sample()

    def sample(self) -> None:
        for process in filter(str.isdecimal, os.listdir("/proc")):
            try:
                if found := look(process):
                    self.seen[process, found[0]] = found[1:]
            except OSError:
                # It has ended.
                pass

    def stop(self) -> Times:
        self.is_over.set()
        self.join()
        times: Times = defaultdict(lambda: defaultdict(float))
        for crate, kind, seconds in self.seen.values():
            times[crate][kind] += seconds
        return {crate: dict(it) for crate, it in times.items()}


def read() -> Times:
    """What the last runs took here: none before the first."""
    found: Times = json.loads(FILE.read_text("utf-8")) if FILE.is_file() else {}
    return found


def note(times: Times) -> None:
    """Keeps what a run took. A crate that it took from an earlier run keeps its times."""
    FILE.parent.mkdir(exist_ok=True)
    proved = {crate: it for crate, it in times.items() if it.get("proof", 0) > 1}
    FILE.write_text(json.dumps(read() | proved, indent=1) + "\n", "utf-8")


def table(times: Times, crates: Iterable[str]) -> list[str]:
    """Lines with the minutes of some crates by kind, and of all of them."""
    rows = [(it, [times.get(it, {}).get(kind, 0) / 60 for kind in KINDS]) for it in crates]
    rows.append(("all", [sum(values) for values in zip(*(row for _, row in rows))]))
    head = f"{'minutes':24}" + "".join(f"{it:>11}" for it in [*KINDS, "all"])
    return [head, *(f"{name:24}" + "".join(f"{it:11.1f}" for it in [*row, sum(row)]) for name, row in rows)]
