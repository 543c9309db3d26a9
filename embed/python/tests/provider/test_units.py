"""Each error of `coniks.provider`, what a log must do, and calls from several threads."""

from __future__ import annotations

import copy
import gc
import json
import os
import pickle
import random
import signal
import stat
import subprocess
import sys
import tempfile
import threading
import time
from collections import Counter
from contextlib import contextmanager
from pathlib import Path
from typing import Any, Callable, Iterable, Iterator, Optional, cast
from unittest import mock

import pytest

from stand_ins import HERE, POLICY, Salted, Signer, audited, has_ended, index, kill_child, opened, shown, soon, provided
from raising import raises
from coniks import provider
from coniks._engine import Sample
from coniks._threads import Worker
from coniks.guard import Guard
from coniks.provider import Change, Epoch, FileLog, Lookup, Provider, Register, entries, Settings


FAULTS: dict[str, dict[str, Any]] = {
    "Json": {}, "Command": {}, "Member": {"member": "ops", "position": 3}, "NotOpen": {}, "AlreadyOpen": {}, "BatchTooLong": {},
    "NameLength": {"position": 1}, "KeyLength": {"position": 0}, "NameTwice": {"position": 2}, "NameTaken": {"position": 0},
    "NameUnknown": {"position": 0}, "OtherIndex": {"position": 0}, "IndexClash": {"position": 1}, "EpochNotLater": {"latest": 7},
    "NotAbandoned": {}, "NotPrepared": {}, "OtherUpdate": {}, "UnknownEpoch": {}, "NotRestoring": {}, "NotLater": {}, "Version": {},
    "Malformed": {}, "RootDiffers": {},
}  # fmt: skip
# The faults that have another name than their class.
PRINTED = {"OtherUpdate": "ReplayDiffers"}
OPEN = '{"ok":"open"}'
PREPARED = '{"body":"%s","epoch":1,"nodes":1,"ok":"prepare","root":"%s"}' % (
    "01" + "00" * 7 + "01" + "00" * 8 + "aa" * 32 + "00" * 64 + POLICY.hex(),
    "aa" * 32,
)


class Room:
    """A folder with a log, a signer and a provider over them."""

    def __init__(self, program: str, **more: Any) -> None:
        self._folder = tempfile.TemporaryDirectory()
        self.room = Path(self._folder.name)
        self.program, self.signer = program, Signer(self.room, Salted())
        self.log = FileLog.create(self.room / "log")
        self.provider = opened(program, self.log, self.signer, **more)

    def __enter__(self) -> Room:
        return self

    def __exit__(self, *_: object) -> None:
        self.provider.close()
        self.log.close()
        self._folder.cleanup()

    def start_again(self, **more: Any) -> None:
        """A new provider over the same file."""
        self.provider.close()
        self.log.close()
        self.log = FileLog(self.room / "log")
        self.provider = opened(self.program, self.log, self.signer, **more)


def faked(room: Path, answers: Iterable[str]) -> list[str]:
    """The words of a program that prints these lines."""
    reported = room / "told"
    reported.write_text("".join(f"{it}\n" for it in answers))
    return [sys.executable, str(HERE / "fake.py"), str(reported)]


class OneLine:
    """A log in memory, in which a directory may be made."""

    is_new = True

    def __init__(self) -> None:
        self.lines: list[bytes] = []

    def append(self, position: int, line: bytes) -> None:
        if position < len(self.lines):
            raise provider.Overtaken("taken")
        self.lines.append(line)

    def read(self, position: int) -> Iterator[bytes]:
        return iter(self.lines[position:])


def test_each_fault_has_a_class() -> None:
    assert {it.__name__ for it in provider.Fault.__subclasses__()} == FAULTS.keys()


@pytest.mark.parametrize("name", FAULTS)
def test_named_fault(tmp_path: Path, name: str) -> None:
    """A fault of docs/LINES.md, as a program prints it."""
    members = FAULTS[name]
    reported = json.dumps({"fault": PRINTED.get(name, name)} | members)
    with Provider(Settings(faked(tmp_path, [OPEN, reported, reported]), index, POLICY), Salted().sign, OneLine()) as it:
        whole = {part: members.get(part) for part in ("position", "latest", "member")}
        raised = raises(name, getattr(provider, name), lambda: it.commit(1, []), **whole)
        for copied in (copy.copy(raised), pickle.loads(pickle.dumps(raised))):
            assert type(copied) is type(raised) and str(copied) == str(raised) and vars(copied) == vars(raised), "a copy"
        raises("the provider goes on", getattr(provider, name), lambda: it.lookup("alice"), **whole)


def test_real_faults(program: str) -> None:
    """The faults that a right program can be brought to print, each of which changes nothing."""
    known: dict[str, bytes] = {}
    with Room(program) as it, tempfile.TemporaryDirectory() as other:
        by_name: Callable[[str], bytes] = lambda name: known.get(name) or index(name)
        with FileLog(Path(other) / "log") as log, Provider(
            Settings(program, by_name, POLICY, workers=2, depth=3), it.signer.keys.sign, log, create=True
        ) as own:
            first = own.commit(5, [Register("alice", b"key"), Register("bob", b"key")])
            before, size = own.latest(), os.path.getsize(Path(other) / "log")
            known["alice"] = known["dora"] = index("bob")
            long = "x" * 256
            calls: list[tuple[str, str, Callable[[], object], dict[str, Any]]] = [
                (
                    "a name too long",
                    "NameLength",
                    lambda: own.commit(6, [Register("carl", b"k"), Register(long, b"k")]),
                    {"position": 1},
                ),
                ("an empty key", "KeyLength", lambda: own.commit(6, [Register("carl", b"")]), {"position": 0}),
                ("a key too long", "KeyLength", lambda: own.commit(6, [Register("carl", bytes(16385))]), {"position": 0}),
                (
                    "a name twice",
                    "NameTwice",
                    lambda: own.commit(6, [Register("carl", b"k"), Register("carl", b"k")]),
                    {"position": 1},
                ),
                ("a name taken", "NameTaken", lambda: own.commit(6, [Register("bob", b"k")]), {"position": 0}),
                ("a name unknown", "NameUnknown", lambda: own.commit(6, [Change("carl", b"k")]), {"position": 0}),
                ("another index", "OtherIndex", lambda: own.commit(6, [Change("alice", b"k")]), {"position": 0}),
                ("an index twice", "IndexClash", lambda: own.commit(6, [Register("dora", b"k")]), {"position": 0}),
                (
                    "too many",
                    "BatchTooLong",
                    lambda: own.commit(6, [Register(f"user-{n}", b"k") for n in range(4097)]),
                    {"position": None},
                ),
                ("an epoch not later", "EpochNotLater", lambda: own.commit(5, []), {"latest": 5}),
                ("epoch 0", "EpochNotLater", lambda: own.commit(0, []), {"latest": 5}),
                ("nothing pending", "NotPrepared", own.retry, {}),
                ("an epoch that isn't there", "UnknownEpoch", lambda: own.lookup("bob", 4), {}),
                ("an empty name", "NameLength", lambda: own.lookup(""), {"position": None}),
                ("another index of a lookup", "OtherIndex", lambda: own.lookup("alice"), {"position": None}),
            ]
            for what, error, call, attributes in calls:
                raises(f"fault: {what}", getattr(provider, error), call, **attributes)
                assert own.latest() == before and os.path.getsize(Path(other) / "log") == size, f"fault: {what}, changes nothing"
            assert shown(own.lookup("bob")) == b"key", "fault: lookups go on after one"
            many = own.lookups(["bob"] * 500 + ["alice", "\ud800", ""] + ["bob"] * 500)
            kinds = [type(one).__name__ for one in many]
            wanted = ["Lookup"] * 500 + ["OtherIndex", "NotText", "NameLength"] + ["Lookup"] * 500
            assert kinds == wanted, "many lookups: each has its result or its error"
            second = own.commit(6, [Change("bob", b"other")], nonce=bytes(31) + b"\1")
            assert second.entry[0] == 2 and second.entry[81:113] == bytes(31) + b"\1", "the nonce is rotated"
            assert (
                own.lookup("bob", 5).entry == first.entry and shown(own.lookup("bob", 5)) == b"key"
            ), "an older epoch is looked up"
            assert own.lookup("bob").entry == second.entry and shown(own.lookup("bob")) == b"other", "the latest epoch is looked up"
            assert shown(own.lookup("nobody")) is None, "a name that isn't there"
            many = own.lookups(["bob", "nobody", 'bob é " \\ \u0001'] * 300)
            seen = [shown(one) for one in many if isinstance(one, Lookup)]
            assert seen == [b"other", None, None] * 300, "many lookups are those of each"
            assert own.lookups([]) == [], "many lookups of none"
            assert own.latest().link == second.link and own.latest().names == 2 and own.latest().epoch == 6, "the latest"
            stored = [bytes.fromhex(json.loads(it)["link"]) for it in log.read(0) if b'"link"' in it]
            assert stored == [first.link, second.link], "the log has the links"
        printed = subprocess.run([program, *["--workers", "1"]], stdin=open(Path(other) / "log", "rb"), capture_output=True)
        made = [json.loads(line) for line in printed.stdout.splitlines()]
        assert printed.returncode == 0 and [line["ok"] for line in made] == [
            "open",
            *["prepare", "install"] * 2,
        ], "the log is a script of the program"
        assert [line["entry"] for line in made if "entry" in line] == [
            first.entry.hex(),
            second.entry.hex(),
        ], "the script gives the entries"


def test_arguments(program: str) -> None:
    with Room(program) as it:
        own = it.provider
        calls: list[tuple[str, type[Exception], Callable[[], object]]] = [
            ("an operation of another type", TypeError, lambda: own.commit(1, [cast(Any, ("alice", b"key"))])),
            ("a key of text", TypeError, lambda: own.commit(1, [Register("alice", cast(Any, "key"))])),
            ("a name of bytes", TypeError, lambda: own.commit(1, [Register(cast(Any, b"alice"), b"key")])),
            ("a short opening", ValueError, lambda: own.commit(1, [Register("alice", b"key", b"short")])),
            ("a short nonce", ValueError, lambda: own.commit(1, [], nonce=b"short")),
            ("an epoch of text", TypeError, lambda: own.commit(cast(Any, "1"), [])),
            ("an epoch too large", provider.Member, lambda: own.commit(1 << 64, [], far=True)),
            ("an epoch too far", provider.EpochTooFar, lambda: own.commit((1 << 64) - 1, [])),
            ("an epoch just too far", provider.EpochTooFar, lambda: own.commit((1 << 32) + 1, [])),
            ("a negative epoch", provider.Member, lambda: own.lookup("alice", -1)),
            ("a negative epoch of a batch", provider.Member, lambda: own.commit(-1, [])),
            ("a lookup of bytes", TypeError, lambda: own.lookup(cast(Any, b"alice"))),
            ("a lookup of half a pair", provider.NotText, lambda: own.lookup("\ud800")),
            ("an operation of half a pair", provider.NotText, lambda: own.commit(1, [Register("\udcff", b"key")])),
        ]
        for what, error, call in calls:
            raises(f"arguments: {what}", error, call)
        options: list[tuple[str, type[Exception], dict[str, Any]]] = [
            ("a short policy", ValueError, {"policy": b"short"}),
            ("a short nonce", ValueError, {"policy": POLICY, "nonce": b"short"}),
            ("workers of text", TypeError, {"policy": POLICY, "workers": "2"}),
        ]
        for what, error, more in options:
            raises(
                f"arguments: {what}",
                error,
                lambda: provided(program, index, Salted().sign, OneLine(), **more),
            )
        indices: list[tuple[str, type[Exception], Callable[[str], Any]]] = [
            ("an index of 31 bytes", ValueError, lambda _: bytes(31)),
            ("an index of text", TypeError, lambda _: "0" * 32),
        ]
        for what, error, wrong in indices:
            with Provider(Settings(program, wrong, POLICY), Salted().sign, OneLine()) as other:
                raises(f"arguments: {what}", error, lambda: other.lookup("alice"))
        assert own.commit(1, [Register("alice", b"key")]).epoch == 1, "arguments: the provider goes on"
        assert own.commit((1 << 32) + 1, []).epoch == (1 << 32) + 1, "arguments: an epoch as far as it may be"
        assert own.commit(1 << 40, [], far=True).epoch == 1 << 40, "arguments: an epoch too far that is meant"
        assert (
            Register("a", b"k").opening != Register("a", b"k").opening and len(Change("a", b"k").opening) == 32
        ), "openings differ"
        own.close()
        own.close()
        closed: list[Callable[[], object]] = [
            own.latest,
            own.restart,
            own.retry,
            lambda: own.lookup("alice"),
            lambda: own.commit(2, []),
        ]
        for call in closed:
            raises("a closed provider", provider.Closed, call)


BODY = json.loads(PREPARED)["body"]
ENTRY = BODY + "00" * 64
INSTALLED = '{"entry":"%s","epoch":1,"link":"%s","ok":"install","root":"%s"}'
# What a program prints, and the seconds that it may take.
BROKEN: dict[str, tuple[list[str], int]] = {
    "ends at once": (["end 3"], 20),
    "ends at `prepare`": ([OPEN, "end 0"], 20),
    "prints no JSON": ([OPEN, "what"], 20),
    "prints a list": ([OPEN, "[]"], 20),
    "prints another fault": ([OPEN, '{"fault":"Unheard"}'], 20),
    "prints a short body": ([OPEN, PREPARED.replace(BODY, BODY[2:])], 20),
    "prints a body of another epoch": ([OPEN, PREPARED.replace(BODY, BODY[:16] + "02" + BODY[18:])], 20),
    "prints a body of another root": ([OPEN, PREPARED.replace('"root":"aa', '"root":"ab')], 20),
    "prints a body with another link before": ([OPEN, PREPARED.replace(BODY, BODY[:98] + "01" + BODY[100:])], 20),
    "prints a body of another policy": ([OPEN, PREPARED.replace(BODY, BODY[:-2] + "00")], 20),
    "ends at `install`": ([OPEN, PREPARED, "end 3"], 20),
    "refuses to install": ([OPEN, PREPARED, '{"fault":"NotPrepared"}'], 20),
    "prints another entry": ([OPEN, PREPARED, INSTALLED % ("01" * 209, "00" * 32, "aa" * 32)], 20),
    "prints another epoch": ([OPEN, PREPARED, INSTALLED.replace('epoch":1', 'epoch":2') % (ENTRY, "00" * 32, "aa" * 32)], 20),
    "prints another root": ([OPEN, PREPARED, INSTALLED % (ENTRY, "00" * 32, "ab" * 32)], 20),
    "prints a text for the epoch": (
        [OPEN, PREPARED, INSTALLED.replace('epoch":1', 'epoch":"1"') % (ENTRY, "00" * 32, "aa" * 32)],
        20,
    ),
    "is too slow": ([OPEN, "wait 60"], 2),
}


@pytest.mark.parametrize("what", BROKEN)
def test_broken_program(tmp_path: Path, what: str) -> None:
    """A child that ends, is too slow, or prints what isn't defined."""
    answers, timeout = BROKEN[what]
    own: Optional[Provider] = None

    def start() -> Epoch:
        nonlocal own
        own = Provider(Settings(faked(tmp_path, answers), index, POLICY, timeout=timeout), lambda body: bytes(64), OneLine())
        return own.commit(1, [])

    begun = time.monotonic()
    raises("a commit", provider.ProgramFailed, start)
    assert time.monotonic() - begun < 15, "in time"
    if own:
        assert own.chain() == [] and own.latest().epoch == 0, "the chain is there"
        own.close()


def test_program(program: str) -> None:
    """A program that isn't there, and children that are killed."""

    def start(at: str) -> Provider:
        return Provider(Settings(at, index, POLICY), Salted().sign, OneLine())

    raised = raises("a program that isn't there", provider.ProgramFailed, lambda: start("/nowhere/provider"))
    assert "Look at its path" in str(raised)
    with mock.patch.object(subprocess, "Popen", side_effect=OSError(24, "Too many open files")):
        raised = raises("a machine without room for it", provider.ProgramFailed, lambda: start(program))
    assert "Too many open files. Free what is missing" in str(raised)
    with Room(program, timeout=60) as it:
        made = it.provider.commit(1, [Register(f"user-{n}", bytes(16000)) for n in range(200)])
        before = it.provider.pid
        it.provider.restart()
        assert it.provider.pid != before and it.provider.latest().epoch == 1, "a restart without need"
        calls: list[tuple[str, Callable[[], object]]] = [
            ("a lookup", lambda: it.provider.lookup("user-1").entry == made.entry),
            ("lookups", lambda: isinstance(it.provider.lookups(["user-1"])[0], Lookup)),
            ("a commit", lambda: it.provider.commit(2, [Register("next", b"key")]).epoch == 2),
            ("no call", lambda: soon(lambda: it.provider.pid != before)),
        ]
        for what, call in calls:
            before = it.provider.pid
            kill_child(it.provider)
            assert call(), f"a child that was killed: {what} goes on"
        assert it.provider.latest().names == 201 and len(it.provider.chain()) == 2, "a child that was killed: all is there"
    with Room(program, timeout=60) as it:
        it.provider.commit(1, [Register("alice", b"key")])
        for number in range(5):
            kill_child(it.provider)
            assert it.provider.lookup("alice").epoch == 1, "a child that ends again and again is started again"
        kill_child(it.provider)
        raises("a sixth time in a minute: a lookup", provider.ProgramFailed, lambda: it.provider.lookup("alice"))
        raises("a sixth time in a minute: a commit", provider.ProgramFailed, lambda: it.provider.commit(2, []))
        assert len(it.provider.chain()) == 1, "a sixth time in a minute: the chain is there"
        it.provider.restart()
        assert it.provider.lookup("alice").epoch == 1 and it.provider.commit(2, []).epoch == 2, "a sixth time in a minute: restart"


def test_stopped_child(program: str) -> None:
    """A child that hangs: a call waits for the timeout and no longer, and then another child answers."""
    with Room(program, timeout=3) as it:
        it.provider.commit(1, [Register("alice", b"key")])
        for what, call in [("a lookup", lambda: it.provider.lookup("alice")), ("a commit", lambda: it.provider.commit(2, []))]:
            assert it.provider.pid
            os.kill(it.provider.pid, signal.SIGSTOP)
            start = time.monotonic()
            raises(f"a child that hangs: {what}", provider.ProgramFailed, cast(Any, call))
            assert time.monotonic() - start < 8, f"a child that hangs: {what} ends"
            assert soon(lambda: is_looked_up(it.provider, "alice")), f"a child that hangs: after {what}"
    with Room(program) as it:
        it.provider.commit(1, [Register("alice", b"key")])
        assert it.provider.pid
        os.kill(it.provider.pid, signal.SIGSTOP)
        waiting = threading.Thread(target=lambda: is_looked_up(it.provider, "alice"))
        waiting.start()
        it.provider.restart()
        waiting.join(20)
        assert not waiting.is_alive() and it.provider.lookup("alice").epoch == 1, "a child that hangs without a timeout: restart"
        assert it.provider.pid
        os.kill(it.provider.pid, signal.SIGSTOP)
        start = time.monotonic()
        it.provider.close()
        assert time.monotonic() - start < 5, "a child that hangs: close ends"


@pytest.mark.parametrize("name", ["a" * 256, "a" * 200_000, "\U0001f511" * 64], ids=["256", "200000", "wide"])
def test_long_names(program: str, name: str) -> None:
    """A long name beside ordinary lookups is refused, and no call waits for ever: the pipe to the child has no room for such a line."""
    with Room(program, timeout=20) as it:
        it.provider.commit(1, [Register("alice", bytes(10_000))])
        found = it.provider.lookups(["alice", "bob", *["alice"] * 300, name] * 4)
        assert [type(one) for one in found] == ([Lookup] * 302 + [provider.NameLength]) * 4
        raises("a lookup of a long name", provider.NameLength, lambda: it.provider.lookup(name))
        assert it.provider.commit(2, []).epoch == 2


def is_looked_up(own: Provider, name: str) -> bool:
    try:
        return own.lookup(name).name == name
    except provider.ProgramFailed:
        return False


def test_signer(program: str) -> None:
    """A signer that fails: no other body follows the entry before."""
    with Room(program) as it:
        own, mine = it.provider, [Register("alice", b"key")]
        failures: dict[str, Callable[[], None]] = {
            "raises": lambda: setattr(it.signer, "fails", 1),
            "signs wrongly": lambda: setattr(it.signer.keys, "sign", lambda body: bytes(64)),
            "signs in text": lambda: setattr(it.signer.keys, "sign", lambda body: "0" * 64),
            "signs shortly": lambda: setattr(it.signer.keys, "sign", lambda body: bytes(63)),
        }
        for what, set_up in failures.items():
            set_up()
            raises(f"a signer that {what}", provider.SignerFailed, lambda: own.commit(3, mine))
            it.signer.keys = Salted()
            assert own.pending and own.pending.epoch == 3 and own.latest().epoch == 0, f"a signer that {what}: it is pending"
        for what, key in [("operations", b"other"), ("openings", b"key")]:
            other = [Register("alice", key)]
            raises(f"other {what} under the number", provider.EpochSpent, lambda: own.commit(3, other), epoch=3, requested=3)
        raises("the same operations under a number before", provider.EpochSpent, lambda: own.commit(2, mine), epoch=2, requested=3)
        it.signer.fails = 1
        raises("a later number while the signer fails", provider.SignerFailed, lambda: own.commit(4, [Change("alice", b"4")]))
        assert own.pending and own.pending.epoch == 3, "a later number while the signer fails: the update is pending"
        it.signer.fails = 1
        raises("a retry that fails", provider.SignerFailed, own.retry)
        assert own.commit(3, mine).epoch == 3 and own.pending is None, "the same operations"
        assert len(it.signer.requested()[3]) == 1, "one body"
        it.signer.fails = 1
        raises("the next fails", provider.SignerFailed, lambda: own.commit(5, [Change("alice", b"5")]))
        assert own.retry().epoch == 5 and shown(own.lookup("alice")) == b"5", "a retry"
        it.signer.fails = 1
        raises("the third fails", provider.SignerFailed, lambda: own.commit(6, [Change("alice", b"6"), Register("six", b"6")]))
        raises("the number before", provider.EpochSpent, lambda: own.commit(5, [Change("alice", b"7")]), epoch=5, requested=6)
        raises("a refused batch under a later number", provider.NameUnknown, lambda: own.commit(7, [Change("bob", b"k")]))
        assert own.pending is None and own.latest().epoch == 6, "a refused batch: the update before is installed"
        assert (
            own.commit(9, [Change("alice", b"9")]).epoch == 9
            and shown(own.lookup("alice")) == b"9"
            and shown(own.lookup("six")) == b"6"
        ), "a later epoch"
        # And after a restart.
        it.signer.fails = 1
        raises("before a restart", provider.SignerFailed, lambda: own.commit(10, [Change("alice", b"10")]))
        it.signer.fails = 1
        raises("a start whose signer fails", provider.SignerFailed, it.start_again)
        it.log.close()
        it.start_again(sign_pending=False)
        own = it.provider
        assert (
            own.pending and own.pending.epoch == 10 and own.latest().epoch == 9 and shown(own.lookup("alice")) == b"9"
        ), "a start that doesn't sign"
        raises("after a restart: other operations", provider.EpochSpent, lambda: own.commit(10, [Change("alice", b"other")]))
        it.signer.fails = 1
        raises("a restart whose signer fails", provider.SignerFailed, own.restart)
        assert (
            shown(own.lookup("alice")) == b"9" and own.pending and own.pending.epoch == 10
        ), "a restart whose signer fails: lookups go on"
        own.restart()
        assert own.pending is None and own.latest().epoch == 10 and shown(own.lookup("alice")) == b"10", "a restart that signs"
        assert it.signer.is_requested_once() and set(it.signer.requested()) == {3, 5, 6, 9, 10}, "one body for each epoch"
        assert audited(entries(it.log), it.signer.keys, False) and len(list(entries(it.log))) == 5, "the chain is audited"
    for error in (provider.EpochSpent(3, 5), provider.EpochTooFar(3, 5), provider.EpochNotNow(3, 5)):
        copied = pickle.loads(pickle.dumps(error))
        assert (str(copied), vars(copied)) == (str(error), vars(error)), f"{type(error).__name__}, pickled"


def test_wrong_key(program: str, room: str) -> None:
    """A key that isn't the directory's, under a guard without `verify`: nothing is stored by it, and with the right one back the
    update is signed. So is one whose invalid signature such a guard has stored."""
    signer, path, log = Signer(room, Salted()), Path(room) / "record", Path(room) / "log"

    @contextmanager
    def over(sign: Callable[[bytes], bytes], new: bool = False) -> Iterator[Provider]:
        guard = Guard(path, sign, new_directory=new)
        with FileLog.create(log) if new else FileLog(log) as file, opened(program, file, signer, guard) as own:
            yield own

    with over(signer, True) as own:
        own.commit(1, [Register("alice", b"key")])
    with over(lambda _: bytes(64)) as own:
        raises("a wrong key", provider.SignerFailed, lambda: own.commit(2, []))
        assert own.pending
        body = own.pending.body
        assert Guard(path, signer).asked() == body, "a wrong key: nothing is stored by it"
        Guard(path, lambda _: bytes(64))(body)
        raises("a wrong key: again", provider.SignerFailed, own.retry)
    with over(signer) as own:
        assert own.latest().epoch == 2 and audited(own.chain(), signer.keys, False), "a wrong key: the right one is back"


def test_logs(program: str) -> None:
    """A log of another directory, a damaged one, one that another provider has, and one whose lines were changed."""
    with Room(program) as it:
        it.provider.commit(1, [Register("alice", b"key")])
        it.provider.commit(2, [Change("alice", b"new")])
        it.provider.close()
        raises("a log that is open", provider.LogFailed, lambda: FileLog(it.room / "log"))
        script = f"from coniks.provider import FileLog\nFileLog({str(it.room / 'log')!r})"
        ran = subprocess.run([sys.executable, "-c", script], capture_output=True, text=True)
        assert "LogFailed: another process has the file" in ran.stderr, f"a log that another process has open: {ran.stderr}"

        def start(log: provider.Log = it.log, policy: bytes = POLICY, nonce: Optional[bytes] = None) -> None:
            Provider(Settings(program, index, policy, nonce=nonce), it.signer, log).close()

        raises("another policy", provider.LogFailed, lambda: start(policy=bytes(32)))
        raises("another nonce", provider.LogFailed, lambda: start(nonce=bytes(32)))
        whole, nonce = list(it.log.read(0)), bytes.fromhex(json.loads(next(it.log.read(0)))["nonce"])
        start(nonce=nonce)
        assert [list(it.log.read(number)) for number in range(6)] == [whole[number:] for number in range(6)], "read from a position"
        wrong: Callable[[int, bytes, bytes], list[bytes]] = lambda place, old, new: [
            *whole[:place],
            whole[place].replace(old, new),
            *whole[place + 1 :],
        ]
        body, link = b'"body":"01', b'"link":"%s' % json.loads(whole[2])["link"][:2].encode()
        for what, error, lines in [
            ("an edited body", provider.ReplayDiffers, wrong(1, body, b'"body":"02')),
            ("no body", provider.ReplayDiffers, wrong(1, b'"body"', b'"bode"')),
            ("an edited key", provider.ReplayDiffers, wrong(1, b'"key":"a2V5"', b'"key":"a2V6"')),
            ("an edited link", provider.ReplayDiffers, wrong(2, link, b'"link":"%02x' % (int(link[-2:], 16) ^ 1))),
            (
                "an edited signature",
                provider.ReplayDiffers,
                wrong(2, b'"signature":"', b'"signature":"%s' % (b"0" * 128) + b'","signatures":"'),
            ),
            ("a line too few", provider.ReplayDiffers, whole[:1] + whole[2:]),
            ("no `open`", provider.ReplayDiffers, whole[1:]),
            ("no JSON", provider.LogFailed, wrong(1, b"{", b"[")),
            ("a lookup", provider.LogFailed, [*whole, b'{"cmd":"latest"}']),
        ]:
            log = OneLine()
            log.lines = lines
            raises(f"a log with {what}", error, lambda: start(log))
        log = OneLine()
        log.lines = whole[:-1]
        with Provider(Settings(program, index, POLICY), it.signer, log) as own:
            assert (
                own.latest().epoch == 2 and it.signer.is_requested_once() and len(log.lines) == 5
            ), "a log that ends before `install`"
            log.lines.append(b"another provider's")
            raises("a log that was overtaken", provider.Overtaken, lambda: own.commit(3, []))
            raised = raises("a log that was overtaken: the next commit", provider.RestartNeeded, lambda: own.commit(3, []))
            assert "adds nothing more, unless restart()" in str(raised), f"a log that was overtaken: what helps: {raised}"
            raises("a log that was overtaken: retry", provider.RestartNeeded, own.retry)
            assert own.lookup("alice").epoch == 2 and len(own.chain()) == 2, "a log that was overtaken: lookups go on"
            log.lines.pop()
            own.restart()
            assert own.commit(3, []).epoch == 3, "a log that was overtaken: restart"
            assert it.signer.is_requested_once() and len(it.signer.requested()[3]) == 1, "a log that was overtaken: no body"
        for broken, word in [(OSError(28, "No space left"), "No space left. "), (ValueError("hunter2"), "ValueError, which is")]:
            failing = OneLine()
            for call, printed in [("read", "the log can't be read"), ("append", "the log can't be written")]:
                with mock.patch.object(failing, call, side_effect=broken):
                    raised = raises(printed, provider.LogFailed, lambda: start(failing))
                assert str(raised).startswith(printed) and word in str(raised) and "hunter2" not in str(raised), str(raised)
        foreign = OneLine()
        foreign.lines = [*whole, b'{"cmd":"latest"}']
        raised = raises("a line that no provider writes", provider.LogFailed, lambda: start(foreign))
        assert str(raised) == "line 5 of the log is none of a provider: look what wrote it, and restore the log without it"
        raises("a file that can't be made", provider.LogFailed, lambda: FileLog.create(it.room / "nowhere/log"))


# How a log begins.
FIRST = b'{"cmd":"open"}'


def test_file() -> None:
    """The file of a log: cut lines, positions, and what else it must refuse."""
    with tempfile.TemporaryDirectory() as room:
        file = Path(room) / "log"
        with FileLog.create(file) as log:
            assert list(log.read(0)) == [] and file.stat().st_mode & 0o777 == 0o600, "a new log"
            raises("a first line that opens nothing", ValueError, lambda: log.append(0, b"first"))
            for number, line in enumerate([FIRST, b"", b"x" * 3_000_000]):
                log.append(number, line)
            raises("a position that is taken", provider.Overtaken, lambda: log.append(2, b"other"))
            raises("a position too far", ValueError, lambda: log.append(4, b"other"))
            raises("a line with a newline", ValueError, lambda: log.append(3, b"a\nb"))
            assert list(log.read(0)) == [FIRST, b"", b"x" * 3_000_000] and list(log.read(2)) == [
                b"x" * 3_000_000
            ], "what was appended is read"
            forked = os.fork()
            if not forked:
                try:
                    log.append(3, b"of a fork")
                except provider.LogFailed:
                    os._exit(7)
                os._exit(0)
            assert os.waitstatus_to_exitcode(os.waitpid(forked, 0)[1]) == 7, "a forked process can't append"
        raises("a closed log", provider.LogFailed, lambda: log.append(3, b""))
        raises("a closed log is read", provider.LogFailed, lambda: log.read(0))
        raised = raises("a file for a folder", provider.LogFailed, lambda: FileLog(file / "log"))
        assert str(raised).endswith("can't be opened: Not a directory. Repair that, and try again"), raised
        with FileLog(file) as log:
            Path(f"{file}.snapshot").symlink_to(f"{file}.snapshot")
            raised = raises("a link to itself", provider.LogFailed, log.snapshot)
            assert str(raised).endswith(". Repair that, and try again"), raised
            lines = log.read(0)
        raises("a log that is closed before its lines are read", provider.LogFailed, lambda: next(lines))
        raises("a log is made over a log", provider.DirectoryExists, lambda: FileLog.create(file))
        check_cut(file)
        check_opened(file)


def check_cut(file: Path) -> None:
    """A crash has cut the last line, at each byte, or left zeros in its place."""
    whole = FIRST + b"\n\nlast line\n"
    for size in range(len(whole) + 1):
        file.write_bytes(whole[:size])
        with FileLog(file) as log:
            there = list(log.read(0))
            log.append(len(there), b"next" if there else FIRST)
        wanted = whole[:size].split(b"\n")[:-1]
        after = b"".join(it + b"\n" for it in [*wanted, b"next" if wanted else FIRST])
        assert there == wanted and file.read_bytes() == after, f"a log cut at {size}: {there}"
    ends: list[tuple[str, bytes, list[bytes]]] = [
        ("zeros at the end", FIRST + b"\nsecond" + bytes(5000), [FIRST]),
        ("a line with zeros", FIRST + b"\nse" + bytes(5000) + b"d\n", [FIRST]),
        ("zeros after a beginning", FIRST + bytes(9), []),
        ("a long cut line", FIRST + b"\n" + b"x" * (3 << 20), [FIRST]),
    ]
    for what, text, wanted in ends:
        file.write_bytes(text)
        with FileLog(file) as log:
            assert list(log.read(0)) == wanted, f"a log with {what}"


def check_opened(file: Path) -> None:
    """What is on the disk once a log is open."""
    synced: list[bool] = []
    written: list[tuple[bytes, int]] = []
    sync, write = os.fsync, os.pwrite
    file.write_bytes(FIRST + b"\nlast line\ncut")

    def noted_sync(place: int) -> None:
        synced.append(stat.S_ISDIR(os.fstat(place).st_mode))
        sync(place)

    def noted_write(place: int, data: bytes, at: int) -> int:
        written.append((data, at))
        return write(place, data, at)

    with mock.patch.object(os, "fsync", noted_sync), mock.patch.object(os, "pwrite", noted_write):
        FileLog(file).close()
    is_well = synced == [False, True] and written == [(b"last line\n", len(FIRST) + 1)]
    assert is_well, "a log that opens: the last line and the folder are synced"


HEAD = b'{"cmd":"open"'


@pytest.mark.parametrize("left", [b"", bytes(1), bytes(280), HEAD[:5] + bytes(275), HEAD, HEAD + bytes(200)])
def test_first_append_lost(program: str, room: str, left: bytes) -> None:
    """What a power failure leaves of a first line that no call has returned: a directory is made there."""
    path = Path(room) / "log"
    path.write_bytes(left)
    path.chmod(0o600)
    with FileLog.create(path) as log, opened(program, log, Signer(room, Salted())) as own:
        assert own.commit(1, []).epoch == 1
    with FileLog(path) as log, opened(program, log, Signer(room, Salted())) as own:
        assert own.latest().epoch == 1


@pytest.mark.parametrize("other", [bytes(512), bytes(200) + b"x", bytes(200) + b"\n", b"{" + bytes(600), b"a" + bytes(200)])
def test_no_log(room: str, other: bytes) -> None:
    """A file that isn't the rest of a log is refused, and left as it is."""
    path = Path(room) / "log"
    path.write_bytes(other)
    path.chmod(0o600)
    for call in (FileLog, FileLog.create):
        raises("no log", provider.LogFailed, lambda: call(path))
        assert path.read_bytes() == other


def test_threads(program: str) -> None:
    """Lookups from several threads go on while the signer is asked and while the log appends, and show no entry before the log
    has it."""
    with Room(program) as it:
        own, is_over, counted, append = it.provider, threading.Event(), [0, 0, 0], it.log.append
        wrong: list[Lookup] = []
        own.commit(1, [Register("alice", b"1")])

        def look() -> None:
            while not is_over.is_set():
                found = own.lookup("alice")
                logged = list(entries(it.log))
                counted[0] += 1
                if found.entry not in logged or shown(found) != b"%d" % found.epoch:
                    wrong.append(found)

        def goes_on() -> bool:
            # Each thread may be at the end of a lookup that has begun before.
            enough = counted[0] + len(threads) + 1
            return soon(lambda: counted[0] >= enough)

        def slow() -> None:
            counted[1] += goes_on()

        def slow_append(position: int, line: bytes) -> None:
            for is_stored in (False, True):
                if is_stored:
                    append(position, line)
                counted[2] += goes_on()

        it.signer.before = slow
        threads = [threading.Thread(target=look) for _ in range(3)]
        for thread in threads:
            thread.start()
        made: list[Epoch] = []
        changing = [threading.Thread(target=lambda: made.append(own.commit(2, [Change("alice", b"2")])))]
        changing[0].start()
        changing[0].join()
        for epoch in range(3, 8):
            own.commit(epoch, [Change("alice", b"%d" % epoch)])
        with mock.patch.object(it.log, "append", slow_append):
            own.commit(8, [Change("alice", b"8")])
        is_over.set()
        for thread in threads:
            thread.join()
        assert not wrong and counted[0] > 5, f"threads: lookups are right: {(wrong[:1], counted)}"
        assert counted[1] == 7, f"threads: they go on while the signer is asked: {counted}"
        assert counted[2] == 4, f"threads: they go on before and after each line is stored: {counted}"
        forked = os.fork()
        if not forked:
            try:
                own.latest()
            except provider.Closed:
                os._exit(7)
            os._exit(0)
        assert os.waitstatus_to_exitcode(os.waitpid(forked, 0)[1]) == 7, "threads: a forked process can't use it"
        assert own.latest().epoch == 8, "threads: the provider goes on"


def test_close_by_a_thread(program: str) -> None:
    """A caller of `close` runs nothing of `subprocess`, so that an interrupt leaves none of its locks behind."""
    with Room(program) as it:
        it.provider.commit(1, [])
        seen, pid = list[str](), it.provider.pid

        def profiled(frame: Any, event: str, _: object) -> None:
            if frame.f_code.co_filename == subprocess.__file__:
                seen.append(frame.f_code.co_name)

        sys.setprofile(profiled)
        try:
            it.provider.close()
            it.provider.close()
        finally:
            sys.setprofile(None)
        assert not seen and pid and has_ended(pid), seen


def test_number_used_again() -> None:
    """A thread that has the number of a worker's thread, which has ended, isn't that thread."""
    worker, found = Worker(), list[bool]()
    number = worker._thread.ident
    worker.stop()
    assert worker.join(20)

    def compared() -> None:
        if threading.get_ident() == number:
            found.append(worker.is_this_thread())

    for _ in range(1000):
        thread = threading.Thread(target=compared)
        thread.start()
        thread.join()
    if not found:
        pytest.skip("no thread got the same number")
    assert not any(found)


def test_abandoned(program: str) -> None:
    """A provider that nobody closes: its threads and its child end with it."""
    with tempfile.TemporaryDirectory() as room, FileLog(Path(room) / "log") as log:
        before = {*threading.enumerate()}
        own = opened(program, log, Signer(room, Salted()), create=True)
        pid, started = own.pid or 0, {*threading.enumerate()} - before
        assert len(started) == 4
        del own
        gc.collect()
        assert soon(lambda: not any(it.is_alive() for it in started)), "its threads end"
        assert soon(lambda: has_ended(pid)), "its child ends"


def test_sample() -> None:
    """Which operations a start compares: the first, the last, and 64 others, each as often as any other."""
    counts: Counter[str] = Counter()
    for _ in range(300):
        sample, listed = Sample(), [{"name": f"{it}", "index": ""} for it in range(1000)]
        at = 0
        while at < 1000:
            size = random.choice([0, 1, 7, 64, 200])
            sample.add(listed[at : at + size])
            at += size
        first, last, *stored = [name for name, _ in sample.all()]
        assert (first, last, len(stored), len({*stored})) == ("0", "999", 64, 64), "a sample has the first, the last and 64 others"
        counts.update(stored)
    parts = [sum(counts[f"{it}"] for it in range(begin, begin + 100)) for begin in range(0, 1000, 100)]
    # 1,920 in the mean. The standard deviation is 40.
    assert all(1720 < it < 2120 for it in parts), f"a sample prefers no operation: {parts}"
    small = Sample()
    small.add([{"name": "a", "index": "1"}, {"name": "b", "index": "2"}])
    assert small.all() == [("a", "1"), ("b", "2")] * 2 and small.last() == [("b", "2")] and not Sample().all(), "a sample of two"
