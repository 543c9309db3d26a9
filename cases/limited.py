"""Runs of a program under limits on its time and memory."""

from __future__ import annotations

import os
import resource
import signal
import subprocess
import tempfile
from typing import Any, Iterable, Optional, Sequence, Union

MIB = 1 << 20


class Late(Exception):
    """A run that had no end within its time."""


def limit_of(usual: int) -> float:
    """The seconds that a run may take: those of CONIKS_CASE_SECONDS, if it is set, else the usual ones."""
    return float(os.environ.get("CONIKS_CASE_SECONDS", usual))


def late_after(seconds: float) -> str:
    return f"no end within {seconds:g} seconds"


def ended(
    words: Sequence[Union[str, bytes]], usual: int, given: Optional[bytes] = None, **streams: Any
) -> subprocess.CompletedProcess[bytes]:
    """A run that has ended. One that is `Late` is killed, with all that it started."""
    seconds = limit_of(usual)
    with subprocess.Popen(words, start_new_session=True, **streams) as process:
        try:
            output, errors = process.communicate(given, seconds)
        except subprocess.TimeoutExpired:
            raise Late(late_after(seconds)) from None
        finally:
            if process.poll() is None:
                os.killpg(process.pid, signal.SIGKILL)
    return subprocess.CompletedProcess(words, process.returncode, output, errors)


def output_of(program: str, words: list[str], given: Iterable[bytes], limit: int, status: int = 0) -> tuple[bytes, list[str]]:
    """The output of a run under a limit in MiB of data, and what is wrong with its end, if anything."""

    def limit_memory() -> None:
        resource.setrlimit(resource.RLIMIT_DATA, (limit * MIB, limit * MIB))

    pipe = subprocess.PIPE
    with tempfile.TemporaryFile() as source:
        source.writelines(given)
        source.seek(0)
        try:
            ran = ended([program, *words], 120, stdin=source, stdout=pipe, stderr=pipe, preexec_fn=limit_memory)
        except Late as late:
            return b"", [str(late)]
    is_well = ran.returncode == status and not ran.stderr
    return ran.stdout, [] if is_well else [f"status {ran.returncode}, standard error {ran.stderr[:200]!r}"]
