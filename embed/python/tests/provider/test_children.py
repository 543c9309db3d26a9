"""Two children that take the lines in turn: lookups beside a batch, children that end, and children that differ."""

from __future__ import annotations

import gc
import os
import sys
import threading
import time
from contextlib import contextmanager, suppress
from pathlib import Path
from typing import Any, Callable, ContextManager, Iterator

import pytest

from stand_ins import HERE, POLICY, Salted, Signer, audited, children_of, guarded, has_ended, in_room, index, lines, opened
from stand_ins import shown, soon
from kills import kill
from memory_log import Lines, MemoryLog
from raising import raises
from snapshots import fill, seen
from snapshots import staged as with_snapshots
from steps import HookedLog, of_kind, stopped
from coniks._lines import lookup_line
from coniks.provider import Change, ChildrenDiffer, Closed, Epoch, FileLog, LogRefused, NameTaken, NameUnknown, NoDirectory
from coniks.provider import ProgramFailed, Register, RestartNeeded, SignerFailed, UnknownEpoch, entries, Settings
from coniks.replica import Replica

# How long a call may take that must not wait for a child.
SECONDS = 20


class Stage:
    """A directory with one epoch, whose two children do what files tell them."""

    def __init__(self, room: str, program: str, **more: Any) -> None:
        self.room, self.program, self.more = Path(room), [sys.executable, str(HERE / "obeying.py"), room, program], more
        self.file = FileLog.create(self.room / "log")
        self.log: Any = HookedLog(self.file)
        self.signer = Signer(room, Salted())
        self.own = self.opened(create=True)
        self.first = self.own.commit(1, [Register("first", b"key")])
        # How often each child has seen a line before the calls of a test.
        self._before = {pid: self._lines(pid) for pid in self.own.pids}

    def opened(self, **more: Any) -> Any:
        words: Any = self.program
        return opened(words, self.log, self.signer, children=2, **{**self.more, **more})

    def tell(self, child: int, kind: str, what: str) -> Path:
        file = self.room / f"{self.own.pids[child]} {kind} {what}"
        file.touch()
        return file

    def _lines(self, pid: int) -> list[str]:
        file = self.room / f"{pid} seen"
        return file.read_text().splitlines() if file.exists() else []

    def seen(self, pid: int) -> list[str]:
        """The kinds of lines that a child has taken since the first epoch, without those that change nothing."""
        found = self._lines(pid)[len(self._before.get(pid, ())) :]
        return [it for it in found if it not in ("latest", "lookup")]

    def commit(self, epoch: int, name: str = "") -> Epoch:
        made: Epoch = self.own.commit(epoch, [Register(name or f"user-{epoch}", b"key")])
        return made

    def is_alike(self) -> bool:
        """Whether both children run and have the same, by the proofs of all names at the latest epoch."""
        own = self.own
        names = ["first", "nobody", *(f"user-{it}" for it in range(10))]
        reported = own._host.known.children.answers([lookup_line(name, index(name), own.latest().epoch) for name in names])
        return len(own.pids) == 2 and len(reported) == len(names)

    def is_requested_once(self) -> bool:
        """Whether the signer was asked once for each body."""
        requested = lines(self.signer.file)
        return len(requested) == len({*requested}) and self.signer.is_requested_once()

    def close(self) -> None:
        self.own.close()
        self.file.close()


def staged(program: str, **more: Any) -> ContextManager[Stage]:
    return in_room(lambda room: Stage(room, program, **more))


def begun(call: Callable[[], object]) -> tuple[threading.Thread, list[object]]:
    """A call in a thread of its own, and what it returns or raises once it is over."""
    over: list[object] = []

    def calls() -> None:
        try:
            over.append(call())
        except BaseException as error:
            over.append(error)

    thread = threading.Thread(target=calls, daemon=True)
    thread.start()
    return thread, over


def returned(call: Callable[[], Any]) -> Any:
    """What a call returns that must not wait for a child."""
    thread, over = begun(call)
    thread.join(SECONDS)
    assert over, "it waits"
    assert not isinstance(over[0], BaseException), over[0]
    return over[0]


@contextmanager
def none_left() -> Iterator[None]:
    """Checks that no child is left of what is done here."""
    before = {*children_of(os.getpid())}
    yield
    assert soon(lambda: all(map(has_ended, {*children_of(os.getpid())} - before))), "no child is left"


@pytest.mark.parametrize("kind", ["prepare", "install"])
@pytest.mark.parametrize("child", [0, 1])
def test_lookup(program: str, child: int, kind: str) -> None:
    """A child takes a line, and doesn't come to its end: lookups are answered by the other one, at the epoch before."""
    with none_left(), staged(program) as it:
        file = it.tell(child, kind, "waits")
        pid = it.own.pids[child]
        thread, over = begun(lambda: it.commit(2))
        assert soon(lambda: f"{kind} waits" in it.seen(pid)), "the child takes the line"
        found = returned(lambda: it.own.lookup("first"))
        assert found.entry == it.first.entry and shown(found) == b"key", "a lookup is answered"
        names = ["first", "user-2", "nobody"] * 400
        many = returned(lambda: it.own.lookups(names))
        assert {found.entry for found in many} == {it.first.entry} and len(many) == len(names), "many are"
        assert shown(returned(lambda: it.own.lookup("user-2"))) is None, "the batch isn't shown"
        raises("its epoch isn't shown", UnknownEpoch, lambda: it.own.lookup("first", 2))
        assert it.own.latest().epoch == 1 and it.own.chain() == [it.first.entry] and not over, "the batch isn't over"
        file.unlink()
        thread.join(SECONDS)
        [made] = over
        assert isinstance(made, Epoch) and it.own.lookup("user-2").entry == made.entry, "then it is, and is shown"
        assert it.seen(it.own.pids[0]).count(kind) == it.seen(it.own.pids[1]).count(kind) == 1, "each child has taken the line"
        assert it.is_alike() and it.is_requested_once() and audited(entries(it.log), it.signer.keys, False)


def test_no_way_back(program: str) -> None:
    """From the moment at which the log has an epoch, and both children have, each lookup shows it. Before it none does, while the
    children already have it."""
    with none_left(), staged(program) as it:
        before: list[bytes] = []
        it.log.before = of_kind(b"install", lambda: before.extend(it.own.lookup("first").entry for _ in range(10)))
        made = it.commit(2)
        assert {*before} == {it.first.entry}, "while both children have installed it, and the log has it not"
        for child in (0, 1):
            file = it.tell(child, "prepare", "waits")
            pid = it.own.pids[child]
            thread, _ = begun(lambda: it.commit(3 + child))
            assert soon(lambda: it.seen(pid).count("prepare waits") == 1), "the child takes the line"
            assert returned(lambda: it.own.lookup("first")).epoch == 2 + child, "the other child has the latest"
            file.unlink()
            thread.join(SECONDS)
        assert it.own.lookup("first").epoch == 4 and made.epoch == 2


@pytest.mark.parametrize("kind", ["prepare", "install"])
@pytest.mark.parametrize("what", ["ends", "ends after"])
@pytest.mark.parametrize("child", [0, 1])
def test_end(program: str, child: int, what: str, kind: str) -> None:
    """A child ends at a line. The other one takes it, the commit returns, and the place is filled."""
    with none_left(), staged(program) as it:
        ended = it.own.pids[child]
        it.tell(child, kind, what)
        made = it.commit(2)
        assert it.own.pids and ended not in it.own.pids, "it is known to have ended"
        assert it.own.lookup("user-2").entry == made.entry == it.own.chain()[-1], "the epoch is shown"
        again = it.commit(3)
        assert it.own.lookup("user-3").entry == again.entry, "the other one goes on alone"
        assert soon(lambda: len(it.own.pids) == 2), "the place is filled"
        assert it.own.lookup("user-3").entry == again.entry and it.is_alike(), "by one that has the same"
        it.commit(4)
        assert it.is_alike() and it.is_requested_once() and it.own.pending is None
        assert audited(entries(it.log), it.signer.keys, False)


@pytest.mark.parametrize("kind", ["prepare", "install"])
def test_both_end(program: str, kind: str) -> None:
    """Both children end at a line: the commit says so, others are started, and the update is installed or was never seen."""
    with none_left(), staged(program) as it:
        for child in (0, 1):
            it.tell(child, kind, "ends")
        raises("a commit", ProgramFailed, lambda: it.commit(2))
        assert returned(lambda: it.own.lookup("first")).entry == it.first.entry, "lookups wait for others"
        assert bool(it.own.pending) == (kind == "install"), "what is pending is"
        made = it.own.retry() if it.own.pending else it.commit(2)
        assert it.own.lookup("user-2").entry == made.entry and it.is_alike()
        assert it.signer.is_requested_once() and audited(entries(it.log), it.signer.keys, False)


@pytest.mark.parametrize("child", [0, 1])
def test_end_at_lookup(program: str, child: int) -> None:
    """A child ends at a lookup, which the other one answers while a batch goes on."""
    with none_left(), staged(program) as it:
        file = it.tell(1 - child, "prepare", "waits")
        pid = it.own.pids[1 - child]
        thread, over = begun(lambda: it.commit(2))
        assert soon(lambda: "prepare waits" in it.seen(pid)), "the other one takes a line"
        it.tell(child, "lookup", "ends")
        looking, found = begun(lambda: it.own.lookup("first"))
        looking.join(0.3)
        assert not found and not over, "no child is free"
        file.unlink()
        thread.join(SECONDS)
        looking.join(SECONDS)
        assert isinstance(over[0], Epoch) and found[0].epoch in (1, 2), (over, found)  # type: ignore[attr-defined]
        assert soon(lambda: len(it.own.pids) == 2) and it.is_alike() and it.is_requested_once()


def test_kill_while_idle(program: str) -> None:
    """A child is killed that isn't asked, also again while its place is filled: nobody has to ask for it."""
    with none_left(), staged(program) as it:
        for child in (0, 1):
            pids = it.own.pids
            kill(pids[child])
            assert it.own.lookup("first").epoch == it.own.latest().epoch, "the other one answers"
            it.own._host.begin_anew()
            assert soon(lambda: len(it.own.pids) == 2 and pids[child] not in it.own.pids), "the place is filled"
            it.commit(2 + child)
            assert it.is_alike()


@pytest.mark.parametrize("kind", ["prepare", "install"])
@pytest.mark.parametrize("child", [0, 1])
def test_differ(program: str, child: int, kind: str) -> None:
    """One child answers otherwise: neither the log nor, for `prepare`, the signer sees the line. Lookups go on, and nothing is
    changed before a restart, which asks two new children."""
    with none_left(), staged(program) as it:
        it.tell(child, kind, "differs")
        before = [*it.file.read(0)]
        raises("a commit", ChildrenDiffer, lambda: it.commit(2))
        added = [*it.file.read(0)][len(before) :]
        assert len(added) == (kind == "install") and len(lines(it.signer.file)) == 1 + (kind == "install"), "nothing else"
        calls: list[Callable[[], object]] = [lambda: it.commit(3), it.own.retry, it.own.compact]
        for call in calls:
            raises("another change", RestartNeeded, call)
        kill(it.own.pids[0])
        assert it.own.lookup("first").entry == it.first.entry, "lookups go on"
        time.sleep(1.5)
        assert len(it.own.pids) == 1, "no place is filled before a restart"
        kill(it.own.pids[0])
        raises("a lookup", ChildrenDiffer, lambda: it.own.lookup("first"))
        it.own.restart()
        assert it.own.pending is None and it.own.latest().epoch == 1 + (kind == "install")
        it.commit(4)
        assert it.is_alike() and it.signer.is_requested_once() and audited(entries(it.log), it.signer.keys, False)


def test_differ_in_lookups(program: str) -> None:
    """What two children answer to many lookups is compared once a place is filled."""
    with none_left(), staged(program) as it:
        kill(it.own.pids[1])
        it.tell(0, "lookup", "differs")
        # The first of the proofs that are compared is altered.
        assert soon(lambda: it.own._host.broken is not None), "it is noticed"
        assert isinstance(it.own._host.broken, ChildrenDiffer)
        raises("a commit", RestartNeeded, lambda: it.commit(2))
        it.own.restart()
        assert it.commit(2).epoch == 2 and it.is_alike()


def test_differ_at_start(program: str) -> None:
    """Two children answer a line of a replay otherwise: a start and a restart say so, and no child is left."""
    with none_left(), staged(program) as it:
        pids = it.own.pids
        (it.room / "install differs").touch()
        raises("a restart", ChildrenDiffer, it.own.restart)
        assert it.own.pids == pids and it.own.lookup("first").epoch == 1, "the old children stay"
        raises("a commit", RestartNeeded, lambda: it.commit(2))
        it.own.restart()
        it.commit(2)
        it.close()
        it.file = FileLog(it.room / "log")
        it.log = HookedLog(it.file)
        (it.room / "install differs").touch()
        with none_left():
            raises("a start", ChildrenDiffer, it.opened)
        it.own = it.opened()
        assert it.own.latest().epoch == 2 and it.is_alike()


def test_differ_in_restore(program: str) -> None:
    """Two children that are restored from a new snapshot differ: the old ones go on, and no snapshot is stored."""
    with none_left(), staged(program) as it:
        it.own.close()
        it.log = it.file
        it.own = it.opened()
        pids = it.own.pids
        (it.room / "restored differs").touch()
        raises("a snapshot", ChildrenDiffer, it.own.compact)
        assert it.own.pids == pids and not (it.room / "log.snapshot").exists(), "nothing is changed"
        it.commit(2)
        it.own.compact()
        assert it.is_alike() and (it.room / "log.snapshot").exists()


def test_other_log(program: str) -> None:
    """A child ends, and the log isn't the one that this process has seen, or is gone: nothing is changed, and lookups go on."""
    for what in ("shorter", "other", "gone"):
        with none_left(), staged(program) as it:
            made = it.commit(2)
            whole = [*it.file.read(0)]
            others = {"shorter": whole[:3], "other": [*whole[:3], whole[3].replace(b"user-2", b"user-3"), whole[4]]}

            def read(position: int, there: Any = others.get(what)) -> Iterator[bytes]:
                if there is None:
                    raise NoDirectory("told to be gone: look for it")
                return iter(there[position:])

            it.log.read = read
            kill(it.own.pids[0])
            assert soon(lambda: it.own._host.broken is not None), f"{what}: it is noticed"
            raises(f"{what}: a commit", RestartNeeded, lambda: it.commit(3))
            assert it.own.lookup("user-2").entry == made.entry, f"{what}: lookups go on"
            assert bool(it.own.evidence()) == (what != "gone"), f"{what}: the evidence is kept"
            del it.log.read
            it.own.restart()
            it.commit(3)
            assert it.is_alike(), what


def test_refused(program: str) -> None:
    """What the first child refuses isn't asked of the second one. What the second one alone refuses is an error."""
    with none_left(), staged(program) as it:
        first, second = it.own.pids
        raises("a name that is taken", NameTaken, lambda: it.commit(2, "first"))
        raises("a name that is unknown", NameUnknown, lambda: it.own.commit(2, [Change("nobody", b"key")]))
        assert (it.seen(first), it.seen(second)) == (["prepare"] * 2, []), "the second one wasn't asked"
        assert len([*it.file.read(0)]) == 3 and it.is_alike(), "nothing is changed"
        made = it.commit(2)
        assert (it.seen(first)[2:], it.seen(second)) == (["prepare", "install"], ["prepare", "install"])
        assert it.own.lookup("user-2").entry == made.entry and it.is_alike()
        it.tell(1, "prepare", "refuses")
        raises("the second one refuses", ChildrenDiffer, lambda: it.commit(3))
        assert len([*it.file.read(0)]) == 5 and len(lines(it.signer.file)) == 2, "neither log nor signer has seen it"


@pytest.mark.parametrize("kind", ["prepare", "install"])
@pytest.mark.parametrize("what", ["forgets", "forges"])
def test_no_line_for_the_log(program: str, kind: str, what: str) -> None:
    """Both children print no line for the log, or another one than they were sent: the log has nothing of it, and other children
    go on."""
    with none_left(), staged(program) as it:
        for child in (0, 1):
            it.tell(child, kind, what)
        before = [*it.file.read(0)]
        raised = raises("a commit", ProgramFailed, lambda: it.commit(2))
        assert "for the log" in str(raised)
        added = [*it.file.read(0)][len(before) :]
        assert len(added) == (kind == "install") and it.own.lookup("first").entry == it.first.entry, "the log has nothing of it"
        made = it.own.retry() if it.own.pending else it.commit(2)
        assert it.own.lookup("user-2").entry == made.entry and it.is_alike() and it.is_requested_once() == (kind == "prepare")


def test_log_refuses(program: str) -> None:
    """The log refuses lines: both children take back an update, and both keep an epoch until the log has it."""
    with none_left(), staged(program) as it:
        first, second = it.own.pids
        for kind, count in [(b"prepare", 0), (b"install", 1)]:
            it.log.before = of_kind(kind, stopped(LogRefused("told to refuse")))
            raises("a commit", LogRefused, lambda: it.commit(2))
            it.log.before = lambda line: None
            assert bool(it.own.pending) == bool(count) and it.own.lookup("first").epoch == 1
        assert it.own.retry().epoch == 2 and it.is_alike() and it.is_requested_once()
        assert it.seen(first) == it.seen(second) == ["prepare", "withdraw", "prepare", "install"], "each line once"


def test_withdrawn(program: str) -> None:
    """The log refuses the line that would replace an update that was given up: in both children that one is pending again."""
    with in_room(lambda room: Stage(room, program)) as it:
        gives_up(it)
        refuses(it, 3)
        first, second = it.own.pids
        assert it.seen(first)[-3:] == it.seen(second)[-3:] == ["prepare", "withdraw", "prepare"], "both have taken it back"
        made = it.commit(4)
        assert it.own.lookup("user-4").entry == made.entry and it.is_alike()


def gives_up(it: Stage) -> None:
    """Leaves an update pending that a guard has abandoned."""
    it.close()
    it.file = FileLog(it.room / "log")
    it.log = HookedLog(it.file)
    it.own = it.opened(sign=guarded(it.signer, known=it.first.entry))
    it.signer.fails = 1
    raises("a signer that fails", SignerFailed, lambda: it.commit(2))
    it.own.abandon()


def refuses(it: Stage, epoch: int) -> None:
    """The log refuses a `prepare` line, and then goes on."""
    it.log.before = of_kind(b"prepare", stopped(LogRefused("told to refuse")))
    raises("a commit", LogRefused, lambda: it.commit(epoch))
    it.log.before = lambda line: None


@pytest.mark.parametrize("what", ["ends", "ends after", "refuses", "differs"])
@pytest.mark.parametrize("children", [[0], [1], [0, 1]])
@pytest.mark.parametrize("is_over", [False, True])
def test_end_at_withdraw(program: str, children: list[int], what: str, is_over: bool) -> None:
    """Children end, or answer otherwise, at the line that drops a refused update: with and without one that was pending before, the
    next commit goes on as if the refused one never was. Two that differ are restarted first."""
    with none_left(), in_room(lambda room: Stage(room, program)) as it:
        if is_over:
            gives_up(it)
        before = [*it.file.read(0)]
        for child in children:
            it.tell(child, "withdraw", what)
        refuses(it, 3)
        assert [*it.file.read(0)] == before and it.own.lookup("first").entry == it.first.entry, "nothing is changed"
        if what == "refuses" and len(children) == 1 and children[0]:
            raises("a commit", RestartNeeded, lambda: it.commit(4))
            it.own.restart(sign_pending=False)
        assert bool(it.own.pending) == is_over, "what was pending is"
        made = it.commit(4)
        assert it.own.lookup("user-4").entry == made.entry and soon(lambda: len(it.own.pids) == 2) and it.is_alike()
        assert audited(entries(it.log), it.signer.keys, False)


@pytest.mark.parametrize("count", [0, 3, -1, True, "2", 2.0, None])
def test_count(program: str, room: str, count: Any) -> None:
    log = FileLog.create(Path(room) / "log")
    with log, none_left():
        raised = raises("another number", ValueError, lambda: opened(program, log, Signer(room, Salted()), children=count))
        assert "1 or 2 children" in str(raised)


def test_none_left(program: str, room: str) -> None:
    """Each way to end: `close`, an error of the start, a program of which one can't be started, and the last reference."""
    signer = Signer(room, Salted())
    with none_left(), FileLog.create(Path(room) / "log") as log:
        own = opened(program, log, signer, children=2)
        own.commit(1, [])
        pids = own.pids
        assert len({*pids}) == 2 and not any(map(has_ended, pids))
        own.close()
        assert all(map(has_ended, pids)), "close"
        raises("a closed one", Closed, lambda: own.lookup("nobody"))
        own = opened(program, log, signer, children=2)
        pids = own.pids
        del own
        gc.collect()
        assert soon(lambda: all(map(has_ended, pids))), "the last reference"
        with none_left():
            raises("a missing program", ProgramFailed, lambda: opened(str(Path(room) / "none"), log, signer, children=2))
        with none_left(), opened(program, log, signer, children=2) as own:
            own.restart()
            own.commit(2, [])
            own.compact()
    with none_left(), FileLog(Path(room) / "other") as log:
        raises("no directory", NoDirectory, lambda: opened(program, log, signer, children=2))


def test_second_cannot_start(program: str, room: str, monkeypatch: pytest.MonkeyPatch) -> None:
    """The second child can't be started: the start says so, and the first one is ended."""
    from coniks import _children

    real, count = _children.Child.__init__, 0

    def started(self: Any, *arguments: Any) -> None:
        nonlocal count
        count += 1
        if count == 2:
            raise ProgramFailed("told to fail: try again")
        real(self, *arguments)

    with none_left(), FileLog.create(Path(room) / "log") as log:
        monkeypatch.setattr(_children.Child, "__init__", started)
        raises("a start", ProgramFailed, lambda: opened(program, log, Signer(room, Salted()), children=2))


def test_snapshot(program: str) -> None:
    """A snapshot with two children: both are restored from it, the lookups are the same, and older epochs are gone in both."""
    epochs = [1, 4, 5, 9]
    with none_left(), with_snapshots(program, children=2) as it:
        fill(it.own, epochs)
        before, chain, pids = seen(it.own, epochs[2:]), it.own.chain(), it.own.pids
        assert it.own.compact(5) == 7 and not {*pids} & {*it.own.pids} and all(map(has_ended, pids)), "two others"
        for how in ("compact", "a child that ended", "a start", "a restart"):
            if how == "a child that ended":
                pids = it.own.pids
                kill(pids[0])
                assert soon(lambda: len(it.own.pids) == 2 and pids[0] not in it.own.pids), how
            elif how == "a start":
                it.again()
            elif how == "a restart":
                it.own.restart()
            assert len({*it.own.pids}) == 2 and seen(it.own, epochs[2:]) == before and it.own.chain() == chain, how
            requested = [lookup_line("user-1-0", index("user-1-0"), epoch) for epoch in (4, 9)]
            reported = it.own._host.known.children.answers(requested)
            assert reported[0] == b'{"fault":"UnknownEpoch"}' and b'"ok":"lookup"' in reported[1], how
        it.own.commit(14, [Change("user-1-0", b"last")])
        assert shown(it.own.lookup("user-1-0")) == b"last"


@pytest.mark.parametrize("child", [0, 1])
@pytest.mark.parametrize("kind", ["bindings", "prepare", "install", "lookup"])
def test_end_while_compacting(program: str, kind: str, child: int) -> None:
    """A child ends while a snapshot is taken and batches are committed. Then either a snapshot is stored, or it isn't; what was
    acknowledged is there."""
    with none_left(), staged(program) as it:
        it.own.close()
        it.log = it.file
        it.own = it.opened()
        it.commit(2)
        it.tell(child, kind, "ends")
        thread, over = begun(it.own.compact)
        made = [it.commit(epoch) for epoch in (3, 4)]
        thread.join(SECONDS)
        assert over and (isinstance(over[0], ProgramFailed) or over[0] in (5, 7, 9)), over
        assert it.own.lookup("user-4").entry == made[-1].entry and it.own.chain()[-2:] == [one.entry for one in made]
        it.own._host.begin_anew()
        assert soon(lambda: len(it.own.pids) == 2)
        with suppress(FileNotFoundError):
            (it.room / f"{it.own.pids[0]} {kind} ends").unlink()
        it.own.compact()
        assert it.is_alike() and it.is_requested_once() and audited(entries(it.file), it.signer.keys, False)


def test_replica(program: str, room: str) -> None:
    """A replica with two children follows, answers beside a line that one of them takes, and is promoted with both."""
    shared, signer = Lines(), Signer(room, Salted())
    words: Any = [sys.executable, str(HERE / "obeying.py"), room, program]
    with none_left():
        writer = opened(program, MemoryLog(shared), signer, create=True)
        writer.commit(1, [Register("first", b"key")])
        replica = Replica(Settings(words, index, POLICY, children=2), MemoryLog(shared))
        pids = replica.pids
        file = Path(room) / f"{pids[0]} install waits"
        file.touch()
        made = writer.commit(2, [Register("second", b"key")])
        assert soon(lambda: "install waits" in (Path(room) / f"{pids[0]} seen").read_text()), "it takes the line"
        assert returned(lambda: replica.lookup("first")).epoch == 1, "the other one answers"
        file.unlink()
        assert soon(lambda: replica.latest().epoch == 2) and replica.lookup("second").entry == made.entry
        writer.close()
        provider = replica.promote(signer)
        assert provider.pids == pids and provider.commit(3, []).epoch == 3, "the provider goes on with both"
        os.kill(pids[1], 9)
        assert soon(lambda: len(provider.pids) == 2 and pids[1] not in provider.pids), "and fills a place"
        provider.close()
        shared.close()


def test_nobody_starves(program: str, room: str) -> None:
    """Threads that look names up without a pause, and one that commits: both come to their end."""
    signer = Signer(room, Salted())
    with none_left(), FileLog.create(Path(room) / "log") as log, opened(program, log, signer, children=2) as own:
        own.commit(1, [Register("first", b"key")])
        is_over, counts = threading.Event(), [0] * 4

        def look(number: int) -> None:
            latest = 0
            while not is_over.is_set():
                found = own.lookup("first")
                assert found.epoch >= latest, "no lookup falls back"
                latest, counts[number] = found.epoch, counts[number] + 1

        threads = [begun(lambda number=it: look(number)) for it in range(len(counts))]  # type: ignore[misc]
        for epoch in range(2, 40):
            returned(lambda: own.commit(epoch, [Register(f"user-{epoch}-{it}", b"key") for it in range(50)]))
        is_over.set()
        for thread, over in threads:
            thread.join(SECONDS)
            assert over == [None], over
        assert min(counts) > 38, counts
