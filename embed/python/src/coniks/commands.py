"""The commands `coniks-audit` and `coniks-client`. A package that is missing is status 3, which is no alarm."""

from __future__ import annotations

import importlib
import sys

from ._telling import Verdict

__all__ = ["audit", "client"]


def _run(module: str, command: str) -> int:
    try:
        found = importlib.import_module(f".{module}", __package__)
    except ImportError as error:
        print(f"{command}: {error}", file=sys.stderr)
        return Verdict.UNUSABLE.status
    return int(found.main())


def audit() -> int:
    """Runs `coniks-audit`."""
    return _run("audit", "coniks-audit")


def client() -> int:
    """Runs `coniks-client`."""
    return _run("contacts", "coniks-client")


if __name__ == "__main__":
    sys.exit({"audit": audit, "client": client}[sys.argv.pop(1)]())
