"""Calls of `coniks.client` that an interrupt breaks off at each bytecode: what is kept is then as before the call or as after it, and
the same call once more makes it as after it."""

from __future__ import annotations

import sys
from dataclasses import dataclass
from types import FrameType
from typing import Any, Callable, Optional

import pytest

pytest.importorskip("nacl.signing")

from client_attacks import WORLD
from client_world import hour, policy_text
from made import THREE, made
import coniks
from coniks.client import Client, Refusal, Trust


FILES = ("coniks/client.py", "coniks/_memory.py", "coniks/_verdicts.py", "coniks/_core.py", "coniks/_messages.py")
FIRST_KEY, NEW_KEY = b"key of alice", b"second key of alice"
TRUST = Trust(b"\7" * 32, 1, 0)


class Breaker:
    """Raises KeyboardInterrupt at one of the bytecodes that a call goes through."""

    def __init__(self, at: int) -> None:
        self.left, self.is_used = at, False

    def __call__(self, frame: FrameType, event: str, given: Any) -> Optional[Any]:
        if not frame.f_code.co_filename.endswith(FILES):
            return None
        frame.f_trace_opcodes = True
        if event == "opcode":
            self.left -= 1
            if self.left < 0 and not self.is_used:
                self.is_used = True
                raise KeyboardInterrupt
        return self


def watching() -> Client:
    client = made(fed=False)
    client.watch("alice", FIRST_KEY)
    client.feed(THREE[:2])
    return client


def changing() -> Client:
    """A client of which no epoch has shown the new key."""
    client = watching()
    client.expect(NEW_KEY, by=9)
    client.feed(THREE[2:])
    return client


def changed() -> Client:
    """A client whose change is over."""
    client = changing()
    client.history("alice", WORLD.history("alice", 1, 2, 3))
    return client


def trusting() -> Client:
    """A client with an alarm to come, whose only auditor has all epochs."""
    client = made(fed=False, trust=TRUST)
    client.watch("alice", b"another key", 1)
    client.feed(THREE)
    client.mark(0, coniks.Head(3, WORLD.link(3)))
    client.history("alice", WORLD.history("alice", 1, 2))
    return client


def alarmed() -> Client:
    client = trusting()
    client.drop()
    return client


@dataclass(frozen=True)
class Broken:
    """A call, how its client is made, and whether the call changes it."""

    begin: Callable[[], Client]
    call: Callable[[Client], object]
    changes: bool = True


CALLS = {
    "feed": Broken(watching, lambda client: client.feed([THREE[2]])),
    "lookup": Broken(watching, lambda client: client.lookup("alice", WORLD.reply("alice", 1), 1)),
    "history": Broken(watching, lambda client: client.history("alice", WORLD.history("alice", 1, 2))),
    "watch": Broken(made, lambda client: client.watch("alice", FIRST_KEY, 1)),
    "expect": Broken(changed, lambda client: client.expect(b"third key", by=9)),
    "cover": Broken(made, lambda client: client.cover(coniks.Head(2, WORLD.link(2)))),
    "the last old epoch": Broken(changing, lambda client: client.lookup("alice", WORLD.reply("alice", 2), 2)),
    "the first new epoch": Broken(changing, lambda client: client.lookup("alice", WORLD.reply("alice", 3), 3)),
    "cover of a change": Broken(changed, lambda client: client.cover(coniks.Head(3, WORLD.link(3)))),
    "mark": Broken(lambda: made(trust=TRUST), lambda client: client.mark(0, coniks.Head(2, WORLD.link(2)))),
    "drop": Broken(trusting, lambda client: client.drop()),
    "note": Broken(alarmed, lambda client: client.note(1)),
    "state": Broken(alarmed, lambda client: client.state, changes=False),
}


def broken_off(client: Client, call: Callable[[Client], object], at: int) -> bool:
    """Makes a call that is broken off at a bytecode. Returns whether it has that many."""
    breaker = Breaker(at)
    before = sys.gettrace()
    sys.settrace(breaker)
    try:
        call(client)
    except KeyboardInterrupt:
        pass
    finally:
        sys.settrace(before)
    return breaker.is_used


def again(client: Client, call: Callable[[Client], object]) -> bytes:
    """The state after the same call once more, which may have been made already."""
    try:
        call(client)
    except (Refusal, ValueError):
        pass
    return client.state


def copied(client: Client) -> Client:
    """Another client with its state."""
    return made(client.state, trust=client._trust)


def same(client: Client) -> Client:
    return client


@pytest.mark.parametrize("started", [same, copied])
@pytest.mark.parametrize("what", CALLS)
def test_broken_off(what: str, started: Callable[[Client], Client]) -> None:
    """A client that has been fed, and one that goes on from its state."""
    it = CALLS[what]
    done = it.begin()
    before = done.state
    it.call(done)
    after, at = done.state, 0
    assert it.changes == (before != after)
    while True:
        client = started(it.begin())
        if not broken_off(client, it.call, at):
            break
        assert client.state in (before, after), f"broken off at bytecode {at}"
        assert again(client, it.call) == after == copied(client).state, f"broken off at bytecode {at}, and again"
        at += 1
    assert at > 20
