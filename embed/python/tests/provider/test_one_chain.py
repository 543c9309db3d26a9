"""One chain: an update that may be signed is settled or abandoned before another one follows the same entry.

What was signed is compared by `is_evidence`, which shares no code with the package.
"""

from __future__ import annotations

import json
import subprocess
import threading
from queue import SimpleQueue
from typing import Any, Callable
from unittest import mock

import pytest

from memory_log import MemoryLog
from stand_ins import opened, shown
from steps import STOPS, of_kind, starts, stopped
from raising import raises
from one_chain import Stage, staged
from coniks._engine import Engine
from coniks.guard import BodyAbandoned, BodySigned, Guard
from coniks.provider import Change, Epoch, EpochSpent, EpochTooFar, LogFailed, LogRefused, NameUnknown, NotPrepared, Overtaken
from coniks.provider import ProgramFailed, Provider, ProviderError, Register, RestartNeeded, SignerFailed, UnknownEpoch, entries


@pytest.mark.parametrize("is_guarded", [True, False])
@pytest.mark.parametrize("what, how", starts("next", "restart", "new", "promote"))
def test_settles(program: str, what: str, how: str, is_guarded: bool) -> None:
    """A commit stops at each of its steps. A later epoch then follows what may be signed."""
    set_up, error, is_logged = STOPS[what]
    with staged(program, is_guarded=is_guarded) as stage:
        set_up(stage)
        mine = [Register("second", b"key")]
        if error:
            raises_any("a commit that stops", error, lambda: stage.provider.commit(2, mine))
        else:
            stage.provider.commit(2, mine)
        stage.start_again(how)
        made = stage.provider.commit(3, [Register("third", b"key")])
        assert stage.epochs() == ([1, 2, 3] if is_logged else [1, 3])
        assert stage.provider.lookup("third").entry == made.entry
        assert stage.is_one_chain() and not stage.given_up()
        stage.provider.restart()
        assert stage.provider.chain() == [*entries(stage.log)], "a replay"


def raises_any(what: str, error: type[BaseException], call: Callable[[], object]) -> None:
    """Checks that a call raises an error of this class, which may be none of `Exception`."""
    with pytest.raises(error) as caught:
        call()
    assert caught.type is error, what


def test_checks(program: str) -> None:
    """What is raised before a pending update is settled, and what a signer that still fails leaves."""
    with staged(program) as stage:
        own, mine = stage.provider, Register("second", b"key")
        stage.fails("checks", 3, mine)
        asked, size = len(stage.bodies()), len(stage.lines.all)
        for what, error, call in [
            ("the number of the pending update", EpochSpent, lambda: own.commit(3, [])),
            ("a number before", EpochSpent, lambda: own.commit(2, [mine])),
            ("a number too far", EpochTooFar, lambda: own.commit((1 << 32) + 4, [])),
        ]:
            raises(f"checks: {what}", error, call)
            assert len(stage.bodies()) == asked and own.pending and own.pending.epoch == 3, f"checks: {what}: nothing is asked"
        stage.signer.fails = 1
        raised = raises("checks: a signer that fails again", SignerFailed, lambda: own.commit(4, [Register("third", b"key")]))
        assert (
            raised and isinstance(raised.__cause__, TimeoutError) and "abandon()" in str(raised)
        ), "checks: its cause and its text"
        assert len(stage.lines.all) == size and own.pending and own.pending.epoch == 3, "checks: nothing is changed"
        assert len({*stage.bodies()[1:]}) == 1 and len(stage.bodies()) == 3, "checks: the same body again"
        raises("checks: a refused batch", NameUnknown, lambda: own.commit(4, [Change("nobody", b"key")]))
        assert own.pending is None and own.latest().epoch == 3, "checks: a refused batch settles what was pending"
        assert stage.is_one_chain() and not stage.given_up(), "checks: one chain"
        stage.fails("checks, far", 1 << 31)
        assert own.commit((1 << 32) + (1 << 31), []).epoch > 1 << 32, "checks: a number too far is counted from the pending one"


def test_given_up(program: str) -> None:
    """An update that is given up, and another one in its place."""
    with staged(program) as stage:
        own, mine = stage.provider, [Register("second", b"key")]
        raises("given up: nothing is pending", NotPrepared, own.abandon)
        stage.fails("given up", 3, *mine)
        pending, size = own.pending, len(stage.lines.all)
        assert pending
        own.abandon()
        own.abandon()
        assert own.pending == pending and len(stage.lines.all) == size, "given up: the log is as it was"
        assert shown(own.lookup("second")) is None and own.latest().epoch == 1, "given up: no lookup shows it"
        raises("given up: no lookup is at its number", UnknownEpoch, lambda: own.lookup("first", 3))
        asked = len(stage.bodies())
        calls: list[tuple[str, type[Exception], Callable[[], object]]] = [
            ("retry", SignerFailed, own.retry),
            ("the same commit", SignerFailed, lambda: own.commit(3, mine)),
            ("other operations", EpochSpent, lambda: own.commit(3, [])),
            ("a refused batch", NameUnknown, lambda: own.commit(4, [Change("nobody", b"key")])),
        ]
        for what, error, call in calls:
            raised = raises(f"given up: {what}", error, call)
            is_reported = error is not SignerFailed or (
                raised and isinstance(raised.__cause__, BodyAbandoned) and "later" in str(raised)
            )
            assert is_reported and len(stage.bodies()) == asked and own.pending == pending, f"given up: {what} signs nothing"
        made = own.commit(4, [Register("third", b"key")])
        assert stage.epochs() == [1, 4] and made.entry[9:17] == bytes(7) + b"\1", "given up: another one follows"
        assert shown(own.lookup("second")) is None and own.latest().names == 2, "given up: no name of it is there"
        prepared = [json.loads(line) for line in stage.lines.all if b'"prepare"' in line]
        reported = [it.get("abandons") for it in prepared]
        assert reported == [None, None, prepared[1]["body"]] and stage.given_up() == [
            pending.body
        ], "given up: the line says what it abandons"
        assert stage.is_one_chain(), "given up: one chain"
        ran = subprocess.run([program], input=b"".join(it + b"\n" for it in stage.lines.all), capture_output=True)
        assert ran.returncode == 0 and ran.stdout.count(b'"ok":"install"') == 2, "given up: the log is a script of the program"
        for how in ("restart", "new", "promote"):
            stage.start_again(how)
            assert stage.provider.chain() == [*entries(stage.log)] and not stage.provider.pending, f"given up: a replay, {how}"
        twice = stage.provider
        stage.fails("given up again", 6)
        twice.abandon()
        second = [Register("seventh", b"key")]
        stage.fails("given up twice", 7, *second)
        assert twice.pending and twice.pending.epoch == 7, "given up twice: the second one is pending"
        stage.signer.fails = 1
        raises("given up twice: the same commit is a retry", SignerFailed, lambda: twice.commit(7, second))
        twice.abandon()
        assert twice.commit(8, []).epoch == 8 and len(stage.given_up()) == 3 and stage.is_one_chain(), "given up twice: a third one"


def test_late(program: str) -> None:
    """What can't be given up: what is signed, and what a signer without a record was asked for."""
    with staged(program, is_guarded=False) as stage:
        stage.fails("late, no guard")
        raised = raises("late: a signer that can't abandon", ProviderError, stage.provider.abandon)
        assert "coniks.guard" in str(raised), "late: it names the guard"
        assert stage.provider.commit(3, []).epoch == 3 and stage.is_one_chain(), "late: the update is settled then"
    for abandon in (None, lambda body: None):
        with staged(program) as stage:
            own = stage.provider
            sign: Any = own._sign
            if abandon:
                # A signer that abandons each body.
                own._sign = mock.Mock(side_effect=sign, abandon=abandon, signed=sign.signed, asked=sign.asked)
            stage.log.before = of_kind(b"install", stopped(LogRefused("told to refuse: try again")))
            raises("late: an epoch that isn't logged", LogRefused, lambda: own.commit(2, []))
            raised = raises("late: it is signed", SignerFailed, own.abandon)
            stage.log.before = lambda line: None
            assert raised and isinstance(raised.__cause__, BodySigned) and "retry" in str(raised), "late: it says to retry"
            assert own.retry().epoch == 2, "late: as it does"
    with staged(program) as stage:
        own = stage.provider
        own.commit(2, [])
        # Another process has the body signed meanwhile.
        stage.fails("late", 3)
        assert own.pending
        stage.guard(own.pending.body)
        raised = raises("late: another process signed it", SignerFailed, own.abandon)
        is_reported = raised and isinstance(raised.__cause__, BodySigned) and "retry" in str(raised)
        assert is_reported and own.retry().epoch == 3 and stage.is_one_chain(), "late: its cause and its text"
        for what, error in [("a signer that can't be reached", TimeoutError("told to fail")), ("another error", KeyError("no"))]:
            stage.fails(what, own.latest().epoch + 1)
            with mock.patch.object(Guard, "abandon", side_effect=error):
                raised = raises(f"late: {what}", SignerFailed, own.abandon)
            assert raised and raised.__cause__ is error and own.retry() and stage.is_one_chain(), f"late: {what} leaves the update"


def refuses_next(stage: Stage) -> None:
    """The log refuses the next line."""
    real, reported = Engine.ask, list[bytes]()

    def ask(engine: Engine, line: bytes) -> Any:
        reported.append(line)
        return real(engine, line)

    stage.log.before = stopped(LogRefused("told to refuse: try again"))
    with mock.patch.object(Engine, "ask", ask):
        raises("a log that refuses", LogRefused, lambda: stage.provider.commit(4, [Register("no", b"key")]))
    stored, (mine, dropped, again) = json.loads(stage.lines.all[-1]), map(json.loads, reported)
    assert mine["abandons"] == stored["body"] and "body" not in mine, "the line says what it abandons"
    assert dropped == {"cmd": "withdraw"} and again == {
        it: stored[it] for it in stored if it != "abandons"
    }, "the child takes it back"


def fails_next(stage: Stage, is_stored: bool) -> None:
    """The log fails before or after it has the next line."""
    setattr(stage.log, "after" if is_stored else "before", stopped(OSError("told to fail")))
    raises("a log that fails", LogFailed, lambda: stage.provider.commit(4, [Register("four", b"key")]))
    raises("then a restart is needed", RestartNeeded, lambda: stage.provider.commit(5, []))
    raises("to give up too", RestartNeeded, stage.provider.abandon)
    stage.start_again("restart")


def signs(stage: Stage) -> None:
    stage.provider.restart()
    stage.provider.close()
    stage.opened()


# What happens between the guard's record and the line of the log, and the epochs of the log then.
EVENTS: dict[str, tuple[Callable[[Stage], object], list[int]]] = {
    "nothing": (lambda stage: None, [1, 5]),
    "a restart": (lambda stage: stage.start_again("restart"), [1, 5]),
    "a new start": (lambda stage: stage.start_again("new"), [1, 5]),
    "a promotion": (lambda stage: stage.start_again("promote"), [1, 5]),
    "starts that ask the signer": (signs, [1, 5]),
    "a child that ends": (lambda stage: stage.kill_child(), [1, 5]),
    "a log that refuses the next line": (refuses_next, [1, 5]),
    "a log that fails before it has the line": (lambda stage: fails_next(stage, False), [1, 5]),
    "a log that fails after it has the line": (lambda stage: fails_next(stage, True), [1, 4, 5]),
}
GIVEN_UP = [(by, what) for by in ("abandon", "guard") for what in EVENTS if by == "abandon" or "log" not in what]


@pytest.mark.parametrize("by, what", GIVEN_UP)
def test_between(program: str, by: str, what: str) -> None:
    event, wanted = EVENTS[what]
    with staged(program) as stage:
        stage.fails(f"between, {what}")
        assert stage.provider.pending
        body = stage.provider.pending.body
        # A process that crashes after the guard's record, or an operator who gives the body up by the guard alone.
        stage.provider.abandon() if by == "abandon" else stage.guard.abandon(body)
        event(stage)
        stage.log.before = stage.log.after = lambda line: None
        own = stage.provider
        if wanted == [1, 5]:
            assert own.pending and own.pending.body == body and own.latest().epoch == 1, "it is pending"
            raises("retry", SignerFailed, own.retry)
        own.commit(5, [Register("five", b"key")])
        assert stage.epochs() == wanted and stage.given_up() == [body] and stage.is_one_chain(), "another one follows"
        own.restart()
        assert own.chain() == [*entries(stage.log)] and not own.pending, "a replay"


def test_refused_again_and_again(program: str) -> None:
    """The log refuses lines, one after another, over an update whose own line abandons another one."""
    with staged(program) as stage:
        bodies: list[bytes] = []
        for epoch in (2, 3):
            stage.fails("again", epoch)
            assert stage.provider.pending
            bodies.append(stage.provider.pending.body)
            stage.provider.abandon()
        assert json.loads(stage.lines.all[-1])["abandons"] == bodies[0].hex()
        saved = [*stage.lines.all]
        for _ in range(3):
            refuses_next(stage)
            assert stage.lines.all == saved and stage.provider.pending and stage.provider.pending.body == bodies[1], "it is pending"
        stage.log.before = lambda line: None
        stage.provider.commit(5, [Register("five", b"key")])
        assert stage.epochs() == [1, 5] and stage.given_up() == bodies and stage.is_one_chain(), "another one follows"
        stage.log.before = of_kind(b"install", stopped(LogRefused("told to refuse: try again")))
        raises("a log that refuses an entry", LogRefused, lambda: stage.provider.commit(6, []))
        stage.log.before = of_kind(b"prepare", stopped(LogRefused("told to refuse: try again")))
        raises("a log that refuses the next line", LogRefused, lambda: stage.provider.commit(7, []))
        assert stage.epochs() == [1, 5, 6] and not stage.provider.pending and stage.provider.latest().epoch == 6
        stage.log.before = lambda line: None
        stage.provider.commit(8, [Register("no", b"key")])
        stage.provider.restart()
        assert stage.epochs() == [1, 5, 6, 8] and stage.is_one_chain() and shown(stage.provider.lookup("no")) == b"key"


def test_order(program: str) -> None:
    """The signer's `abandon` returns before anything else: an update whose signer fails to abandon it is not replaced."""
    with staged(program) as stage:
        stage.fails("order")
        real, seen = Guard.abandon, list[int]()

        def watched(guard: Guard, body: bytes) -> None:
            seen.append(len(stage.lines.all))
            real(guard, body)
            seen.append(len(stage.lines.all))

        with mock.patch.object(Guard, "abandon", watched):
            stage.provider.abandon()
        assert seen == [4, 4] and len(stage.lines.all) == 4, f"order: the log has nothing of it before: {seen}"
        is_refused: list[bool] = []

        def looked() -> None:
            """As the log gets the next line, the guard refuses the body already."""
            try:
                stage.guard(stage.given_up()[0] if stage.given_up() else pending.body)
                is_refused.append(False)
            except BodyAbandoned:
                is_refused.append(True)

        assert stage.provider.pending
        pending = stage.provider.pending
        stage.log.before = of_kind(b"prepare", looked)
        stage.provider.commit(3, [])
        assert is_refused == [True], f"order: the guard refuses it before the log replaces it: {is_refused}"


def test_interrupted(program: str) -> None:
    """An interrupt, as by Ctrl-C, ends the wait for `abandon`, and not what it began."""
    with staged(program) as stage:
        stage.fails("interrupted")
        begun, is_let, real = threading.Event(), threading.Event(), Guard.abandon

        def slow(guard: Guard, body: bytes) -> None:
            begun.set()
            is_let.wait(20)
            real(guard, body)

        with mock.patch.object(Guard, "abandon", slow):
            with mock.patch.object(type(stage.provider._work), "call", side_effect=lambda work: start(stage, work)):
                raises_any("interrupted: the call", KeyboardInterrupt, stage.provider.abandon)
            begun.wait(20)
            is_let.set()
            # The next call waits for it.
            made = stage.provider.commit(3, [])
        assert made.epoch == 3 and len(stage.given_up()) == 1 and stage.is_one_chain(), "interrupted: it goes on"


def start(stage: Stage, work: Callable[[], object]) -> None:
    """Begins a call as `Worker.call` does, and is interrupted while it waits."""
    stage.provider._work.begin(work, SimpleQueue())
    raise KeyboardInterrupt


def test_others(program: str) -> None:
    """Another provider goes on in the log, and then this one's child is started again."""
    with staged(program) as stage:
        own = stage.provider
        with opened(program, stage.log, stage.signer, stage.guard) as other:
            stage.signer.fails = 1
            raises("others: a signer that fails", SignerFailed, lambda: other.commit(2, [Register("second", b"key")]))
        stage.kill_child()
        with mock.patch.object(own._host, "_look_after"):
            # It hasn't seen that update before the child has replayed it.
            raised = raises("others: their update is pending", ProgramFailed, lambda: own.commit(3, [Register("third", b"key")]))
        assert len(stage.lines.all) == 4 and "again" in str(raised), "others: it is not replaced"
        assert own.commit(3, [Register("third", b"key")]) and stage.epochs() == [1, 2, 3], "others: it is settled first"
        assert stage.is_one_chain() and not stage.given_up(), "others: one chain"
    with staged(program) as stage:
        own, real = stage.provider, Provider._settle

        def another() -> None:
            """Another provider installs the update, and leaves one of its own. Then this one's child is started again."""
            stage.log.after = lambda line: None
            with opened(program, stage.log, stage.signer, stage.guard) as other:
                stage.signer.fails = 1
                raises("others, meanwhile: a signer that fails", SignerFailed, lambda: other.commit(3, []))
            stage.kill_child()

        def settle(provider: Provider, *body: bytes) -> Epoch:
            provider._host._look_after()
            return real(provider, *body)

        stage.log.after = of_kind(b"prepare", another)
        with mock.patch.object(Provider, "_settle", settle):
            raises("others: a commit returns no other's epoch", ProgramFailed, lambda: own.commit(2, []))
        assert own.latest().epoch == 2 and own.pending and own.pending.epoch == 3, "others: the update is there"
        assert own.commit(4, []) and stage.epochs() == [1, 2, 3, 4] and stage.is_one_chain(), "others: theirs is settled first"


SECOND = [Register("second", b"key")]
CALLS: dict[str, Callable[[Provider], object]] = {
    "retry": lambda own: own.retry(),
    "a later commit": lambda own: own.commit(9, [Register("ninth", b"key")]),
    "the same commit": lambda own: own.commit(2, SECOND),
    "abandon": lambda own: own.abandon(),
}
OVERTAKEN = [(True, is_given_up, what) for is_given_up in (False, True) for what in CALLS]
OVERTAKEN += [(False, False, what) for what in CALLS if what != "abandon"]


@pytest.mark.parametrize("is_guarded, is_given_up, what", OVERTAKEN)
def test_overtaken(program: str, is_guarded: bool, is_given_up: bool, what: str) -> None:
    """Another provider settles the update that this one left pending, or gives it up, and goes on. A guard then refuses its body."""
    with staged(program, is_guarded=is_guarded) as stage:
        own, sign = stage.provider, stage.guard if is_guarded else None
        stage.fails(f"overtaken: {what}", 2, *SECOND)
        with opened(program, MemoryLog(stage.lines), stage.signer, sign, sign_pending=False) as other:
            if is_given_up:
                other.abandon()
            wanted = [1, *([] if is_given_up else [2]), other.commit(3, []).epoch, other.commit(4, []).epoch]
        raises("the call", Overtaken, lambda: CALLS[what](own))
        raises("then a restart is needed", RestartNeeded, own.retry)
        assert own.lookup("first").epoch == 1, "lookups go on"
        own.restart()
        assert stage.epochs() == wanted and own.commit(9, []).epoch == 9, "a restart"
        assert stage.is_one_chain()
