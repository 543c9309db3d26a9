"""A program that prints what it is told: a line of a file for each line that it reads. In place of a line, `end N` ends it with a
status, and `wait N` lets it wait for some seconds first."""

from __future__ import annotations

import sys
import time
from pathlib import Path


def main(reported: str) -> int:
    for line in Path(reported).read_text().splitlines():
        if not sys.stdin.readline():
            return 0
        if line.startswith("end "):
            return int(line[4:])
        if line.startswith("wait "):
            time.sleep(float(line[5:]))
        print(line, flush=True)
    sys.stdin.read()
    return 0


if __name__ == "__main__":
    sys.exit(main(sys.argv[1]))
