"""The two formats of a log: one that an earlier version wrote goes on, and what a log of the second format must not have."""

from __future__ import annotations

import json
import tempfile
from dataclasses import replace
from pathlib import Path
from typing import Callable
from unittest import mock

from memory_log import Lines, MemoryLog
from one_chain import staged
from stand_ins import HERE, POLICY, Salted, Signer, audited, guarded, index, opened, shown, soon
from raising import raises
from coniks.provider import Change, EpochSpent, FileLog, LogFailed, LogRefused, Operation, Register, SignerFailed, entries, Settings
from coniks.replica import Replica


# A log of the first format. Its second update was replaced by the third, and its last one is pending. The link of its latest
# epoch, by `sha256sum` of 53 and the entry.
FIRST = HERE / "first_format.jsonl"
FIRST_LINK = "7257d887ec239edcbd40d9c743e62042daf22daf64ef7fe96e750016b2d10c91"


def test_first(program: str) -> None:
    """The log of an earlier version goes on: its pending update is settled, and the next one that is given up is named."""
    with tempfile.TemporaryDirectory() as room:
        path, signer = Path(room) / "log", Signer(room, Salted())
        path.write_bytes(FIRST.read_bytes())
        path.chmod(0o600)
        with FileLog(path) as log:
            chain = [*entries(log)]
            with opened(program, log, signer, guarded(signer, known=chain[-1]), sign_pending=False) as own:
                assert own.latest().epoch == 5 and own.latest().link.hex() == FIRST_LINK, "first format: it is replayed"
                assert [shown(own.lookup(it)) for it in ("alice", "bob", "carol")] == [b"5", b"1", b"3"], "first format: its names"
                made = own.commit(7, [Register("emil", b"7")])
                assert (
                    made.entry[9:17] == bytes(7) + b"\6" and len(own.chain()) == 5
                ), "first format: what is pending is settled first"
                signer.fails = 1
                raises("first format: a signer that fails", SignerFailed, lambda: own.commit(8, [Register("fritz", b"8")]))
                own.abandon()
                with mock.patch.object(log, "append", side_effect=LogRefused("told to refuse: try again")):
                    raises("first format: a log that refuses", LogRefused, lambda: own.commit(9, []))
                assert own.pending and own.pending.epoch == 8, "first format: it is pending again"
                own.commit(9, [])
                lines = [json.loads(it) for it in log.read(0)]
                assert (
                    lines[-2]["abandons"] == lines[-3]["body"] and "log" not in lines[0]
                ), "first format: a line says what it abandons"
        with FileLog(path) as log, opened(program, log, signer, guarded(signer)) as own:
            assert [it[8] for it in own.chain()] == [1, 3, 5, 6, 7, 9], "first format: a replay"
            assert audited(own.chain(), signer.keys, False), "first format: one chain"


def edited(line: bytes, **members: object) -> bytes:
    """A line with other members. Those that are None are left out."""
    return json.dumps({it: of for it, of in {**json.loads(line), **members}.items() if of is not None}).encode()


def otherwise(line: bytes) -> bytes:
    """A line as another tool may write it: the members in another order, spaces, escapes and capital digits."""

    def changed(it: object) -> object:
        if isinstance(it, dict):
            return {name: of.upper() if name in ("index", "opening", "nonce") else changed(of) for name, of in reversed(it.items())}
        return [*map(changed, it)] if isinstance(it, list) else it

    return json.dumps(changed(json.loads(line)), indent=None, separators=(", ", " : "), ensure_ascii=True).encode()


def test_written_otherwise(program: str) -> None:
    """A pending update is known by its epoch, nonce and operations, however its line is written."""
    names = ["bob", 'ö "\\ \x00\u2028 \U0001f600', "x" * 255]
    for nonce in (None, bytes(range(32))):
        with staged(program) as stage:
            mine: list[Operation] = [Register(it, b"key of " + it.encode()) for it in names]
            stage.signer.fails = 1
            raises("written otherwise", SignerFailed, lambda: stage.provider.commit(2, mine, nonce))
            stage.provider.close()
            lines = [*stage.lines.all[:-1], otherwise(stage.lines.all[-1])]
            assert lines[-1] != stage.lines.all[-1]
            stage.lines.replace([*lines])
            with opened(program, MemoryLog(stage.lines), stage.signer, stage.guard, sign_pending=False) as own:
                *same, last = mine
                alike: list[Operation] = [
                    replace(last, key=b"other"),
                    replace(last, opening=bytes(32)),
                    Change(last.name, last.key, last.opening),
                ]
                wrong: list[list[Operation]] = [same, mine[::-1], *([*same, it] for it in alike)]
                for others in wrong:
                    raises("written otherwise: other operations", EpochSpent, lambda: own.commit(2, others, nonce))
                raises("written otherwise: another nonce", EpochSpent, lambda: own.commit(2, mine, bytes(32)))
                assert own.commit(2, mine, nonce).epoch == 2 and len(stage.lines.all) == len(lines) + 1
                assert [shown(own.lookup(it.name)) for it in mine] == [it.key for it in mine]


def test_second(program: str) -> None:
    """A log of the second format in which another tool replaced an update."""
    with staged(program) as stage:
        stage.fails("second format", 2)
        stage.provider.abandon()
        stage.provider.commit(3, [Register("third", b"key")])
        stage.provider.close()
        lines = stage.lines.all
        other = json.loads(lines[1])["body"]
        assert json.loads(lines[0])["log"] == 2, "second format: the first line says so"
        wrong: list[tuple[str, list[bytes]]] = [
            ("no word of the update that is replaced", [*lines[:4], edited(lines[4], abandons=None), lines[5]]),
            ("another body in its place", [*lines[:4], edited(lines[4], abandons=other), lines[5]]),
            ("a number in its place", [*lines[:4], edited(lines[4], abandons=1), lines[5]]),
            ("a body that is abandoned where none is pending", [lines[0], edited(lines[1], abandons=other), *lines[2:]]),
            ("another format", [edited(lines[0], log=3), *lines[1:]]),
            ("a format in text", [edited(lines[0], log="2"), *lines[1:]]),
            ("a format that is no whole number", [edited(lines[0], log=2.0), *lines[1:]]),
            ("a format that is true", [edited(lines[0], log=True), *lines[1:]]),
        ]
        for what, edits in wrong:
            shared = Lines()
            shared.replace(edits)
            start: Callable[[], object] = lambda: opened(program, MemoryLog(shared), stage.signer, stage.guard)
            raised = raises(f"second format: {what}", LogFailed, start)
            assert ": " in str(raised) and other not in str(raised), f"second format: {what}: it says what to do: {raised}"
        shared = Lines()
        shared.replace([edited(lines[0], log=None), *lines[1:4], edited(lines[4], abandons=None), lines[5]])
        with opened(program, MemoryLog(shared), stage.signer, stage.guard) as own:
            assert [it[8] for it in own.chain()] == [1, 3], "second format: the first one has no such rule"
        shared.replace([edited(lines[0], log=None), *lines[1:]])
        with opened(program, MemoryLog(shared), stage.signer, stage.guard) as own:
            assert [it[8] for it in own.chain()] == [1, 3], "second format: the first one may have the word"


def test_running(program: str) -> None:
    """A replica and a provider that run while another tool replaces an update: lookups go on, and then both follow again."""
    with staged(program) as stage:
        own = stage.provider
        replica = Replica(Settings(program, index, POLICY, workers=1), MemoryLog(stage.lines))
        stage.fails("running")
        lines = list(stage.lines.all)
        own.abandon()
        own.commit(3, [Register("third", b"key")])
        after = list(stage.lines.all)
        assert soon(lambda: replica.latest().epoch == 3), "running: the replica follows"
        stage.lines.replace(lines)
        stage.provider.close()
        behind = Replica(Settings(program, index, POLICY, workers=1), MemoryLog(stage.lines))
        stage.lines.replace([*lines, edited(after[len(lines)], abandons=None), *after[len(lines) + 1 :]])
        assert soon(lambda: type(behind.lag().error) is LogFailed), f"running: a replica notices: {behind.lag()}"
        raises("running: follow", LogFailed, behind.follow)
        raises("running: a promotion", LogFailed, lambda: behind.promote(stage.guard))
        raises("running: a restart", LogFailed, behind.restart)
        assert behind.lookup("first").epoch == 1 and shown(behind.lookup("third")) is None, "running: lookups go on"
        stage.lines.replace(after)
        assert soon(
            lambda: behind.latest().epoch == 3 and not behind.lag().error
        ), "running: it follows the log that is whole again"
        with behind.promote(stage.guard, verify=stage.signer.verify) as new:
            assert new.commit(4, []).epoch == 4 and stage.is_one_chain(), "running: and is promoted"
        replica.close()
