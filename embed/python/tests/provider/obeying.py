"""A program that runs `provider` and does at some lines what files tell it.

    obeying.py FOLDER PROGRAM

A file `PID KIND WHAT` in the folder is for the process of this number, at its next line of this kind. `waits` lets it wait until the
file is gone, `ends` ends it before it reads the line, `ends after` before it answers. `differs` alters its answer, and `refuses`
makes it a fault. `forgets` leaves out the line for the log, and `forges` alters it. A file without a number, `KIND WHAT`, is for whichever process takes it first. Each process appends the kinds of its
lines to the file `PID seen`, and `KIND waits` to it when it waits.
"""

from __future__ import annotations

import json
import os
import subprocess
import sys
import time
from pathlib import Path
from typing import Any, Optional

from stored import joined, parted

# The longest wait, if nobody is left who removes the file.
SECONDS = 60


def reported(folder: Path, kind: str) -> Optional[str]:
    """What a file tells at a line. The file is taken, unless it says how long to wait."""
    if (folder / f"{os.getpid()} {kind} waits").exists():
        return "waits"
    for whose in (f"{os.getpid()} ", ""):
        for what in ("ends", "ends after", "differs", "refuses", "forgets", "forges"):
            try:
                os.unlink(folder / f"{whose}{kind} {what}")
                return what
            except FileNotFoundError:
                pass
    return None


def note(folder: Path, text: str) -> None:
    with open(folder / f"{os.getpid()} seen", "a", encoding="utf-8") as file:
        print(text, file=file)


def altered(answer: dict[str, Any]) -> dict[str, Any]:
    """Another answer: each text of hexadecimal digits has another last one."""
    members = {"body", "root", "link", "entry", "nonce"} & answer.keys()
    return {**answer, **{it: answer[it][:-1] + ("1" if answer[it][-1] == "0" else "0") for it in members}}


def main(folder: Path, program: str) -> int:
    with subprocess.Popen([program], stdin=subprocess.PIPE, stdout=subprocess.PIPE) as real:
        assert real.stdin and real.stdout
        for line in sys.stdin.buffer:
            kind = json.loads(line)["cmd"]
            note(folder, kind)
            what = reported(folder, kind)
            if what == "ends":
                real.kill()
                return 1
            if what == "waits":
                note(folder, f"{kind} waits")
                until = time.monotonic() + SECONDS
                while (folder / f"{os.getpid()} {kind} waits").exists() and time.monotonic() < until:
                    time.sleep(0.002)
            real.stdin.write(line)
            real.stdin.flush()
            answer, store = parted(real.stdout.readline())
            if what == "ends after":
                real.kill()
                return 1
            if what == "differs":
                answer = altered(answer)
            elif what == "refuses":
                answer, store = {"fault": "NotOpen"}, b""
            elif what == "forgets":
                store = b""
            elif what == "forges":
                store = store.replace(b'"cmd"', b'"Cmd"')
            sys.stdout.buffer.write(joined(answer, store))
            sys.stdout.buffer.flush()
        real.stdin.close()
    return 0


if __name__ == "__main__":
    sys.exit(main(Path(sys.argv[1]), sys.argv[2]))
