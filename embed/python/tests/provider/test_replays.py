"""The program's own replay beside that of `coniks.provider`: each case of cases/replay.jsonl by both, and the files of a directory."""

from __future__ import annotations

import json
import subprocess
import sys
from pathlib import Path
from typing import Any, Optional

from stand_ins import HERE, Salted, Signer, guarded, index, opened
from raising import raises
from coniks._engine import Engine
from coniks.faults import ProviderError
from coniks.provider import FileLog, Register, Settings, SignerFailed

ROOT = HERE.parents[3]
sys.path.append(str(ROOT / "cases"))

from case_rows import chosen

# A file whose first line does not begin as that of `FileLog` is no log for it.
OTHER_FILES = ("log-with-a-member-twice", "log-with-white-space", "snapshot-with-other-members")
# The policy of the cases.
DIGEST = b"\x33" * 32


def split(lines: list[bytes]) -> tuple[list[bytes], list[bytes]]:
    """The lines of a snapshot, if there is one, and those of the log."""
    if not lines or b'"snapshot":' not in lines[0]:
        return [], lines
    ends = [at + 1 for at, line in enumerate(lines) if b'"cmd":"restored"' in line]
    begins = [at for at, line in enumerate(lines) if b'"cmd":"open"' in line or line.startswith(b'{"first"')]
    at = [*ends, *begins, len(lines)][0]
    return lines[:at], lines[at:]


def written(path: Path, lines: list[bytes]) -> None:
    path.write_bytes(b"".join(line + b"\n" for line in lines))
    path.chmod(0o600)


def replayed(program: str, path: Path) -> Optional[dict[str, Any]]:
    """What an engine has after a replay, as the program prints it; None if it refuses the log."""
    try:
        with FileLog(path) as log:
            engine = Engine(Settings(program, index, DIGEST, workers=1), log)
            try:
                engine.replay()
            finally:
                engine.children.end()
    except ProviderError:
        return None
    size = engine.size
    found = {"epoch": size.epoch, "link": size.link.hex(), "names": size.names, "nodes": size.nodes, "ok": "replay"}
    pending = {"pending": engine.update.pending.body.hex()} if engine.update else {}
    return {**found, **pending, "position": engine.position}


def test_cases(program: str, tmp_path: Path) -> None:
    """Both accept the same lines, and then have the same."""
    cases, wrong = chosen(["replay"])
    assert len(cases) > 150 and not wrong
    for case in cases:
        # A log without a line is a directory that is made.
        name = case.members["name"]
        if name == "no-line":
            continue
        snapshot, log = split(case.given().removesuffix(b"\n").split(b"\n"))
        path = tmp_path / name
        written(path, log)
        if snapshot:
            written(Path(f"{path}.snapshot"), snapshot)
        reported = json.loads(case.read("out"))
        wanted = None if "refused" in reported or name in OTHER_FILES else reported
        assert replayed(program, path) == wanted, name


def checked(program: str, *files: Path) -> Any:
    """What `provider --replay` prints for files, one after another."""
    given = b"".join(it.read_bytes() for it in files)
    return json.loads(subprocess.run([program, "--replay"], input=given, stdout=subprocess.PIPE, check=False).stdout)


def test_directory(program: str, tmp_path: Path) -> None:
    """The files of a directory: a log, a snapshot with its log, and one from which lines were dropped, each with an update that is
    pending over one that was given up."""
    path, stored, signer = tmp_path / "log", tmp_path / "log.snapshot", Signer(str(tmp_path), Salted())
    with FileLog.create(path) as log, opened(program, log, signer, guarded(signer), create=True) as own:

        def fails(epoch: int) -> None:
            signer.fails = 1
            raises("a signer that fails", SignerFailed, lambda: own.commit(epoch, [Register(f"never-{epoch}", b"key")], force=True))

        def is_shown(*files: Path) -> bool:
            reported, latest = checked(program, *files), own.latest()
            assert own.pending and reported["pending"] == own.pending.body.hex(), reported
            return (reported["epoch"], reported["link"], reported["names"]) == (latest.epoch, latest.link.hex(), latest.names)

        own.commit(1, [Register(f"user-{it}", b"key %d" % it) for it in range(300)], force=True)
        fails(2)
        own.abandon()
        fails(3)
        assert is_shown(path)
        own.abandon()
        own.commit(4, [Register("last", b"key")], nonce=bytes(range(32)), force=True)
        position = own.compact()
        fails(5)
        own.abandon()
        fails(6)
        assert is_shown(stored, path) and is_shown(path)
        log.drop_before(position)
        assert is_shown(stored, path) and checked(program, path)["refused"] == {"fault": "Order"}
        whole = path.read_bytes()
        path.write_bytes(whole[:-2])
        reported = checked(program, stored, path)
        assert reported == {"line": len(stored.read_bytes().splitlines()) + 2, "refused": {"fault": "Json"}}, "a line that is cut"
        path.write_bytes(whole)
