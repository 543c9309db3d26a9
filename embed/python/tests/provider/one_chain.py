"""One chain: an update that may be signed is settled or abandoned before another one follows the same entry.

What was signed is compared by `is_evidence`, which shares no code with the package.
"""

from __future__ import annotations

import json
from itertools import combinations
from typing import Any, ContextManager

from bodies import is_evidence
from memory_log import Lines, MemoryLog
from stand_ins import POLICY, Salted, Signer, audited, guarded, in_room, index, kill_child, lines, opened, replicated
from steps import HookedLog
from raising import raises
from coniks.guard import Guard
from coniks.provider import Provider, Register, SignerFailed, entries


class SharedLog(HookedLog):
    """A log that several processes have open, with hooks."""

    def wait(self, position: int, seconds: float) -> int:
        count: int = self.log.wait(position, seconds)
        return count


class Stage:
    """A directory with one epoch over a log in memory. Its signer is a guard, or a function that keeps no record."""

    def __init__(self, room: str, program: str, is_guarded: bool = True, **more: Any) -> None:
        self.program, self.is_guarded = program, is_guarded
        self.more: dict[str, Any] = {"policy": POLICY, "workers": 1, **more}
        self.lines = Lines()
        self.log, self.signer = SharedLog(MemoryLog(self.lines)), Signer(room, Salted())
        self.provider = self.opened(create=True)
        self.first = self.provider.commit(1, [Register("first", b"key")], force=True)

    @property
    def guard(self) -> Guard:
        return guarded(self.signer)

    def opened(self, **more: Any) -> Provider:
        sign = self.guard if self.is_guarded else None
        self.provider = opened(self.program, self.log, self.signer, sign, **{**self.more, **more})
        return self.provider

    def kill_child(self, *_: object) -> None:
        kill_child(self.provider)

    def start_again(self, how: str) -> None:
        """Goes on after a stop without a signature: by the next call, by `restart`, in another process, or by a replica that
        takes over."""
        self.log.before = self.log.after = lambda line: None
        self.signer.before = None
        if how == "restart":
            return self.provider.restart(sign_pending=False)
        if how == "next":
            return None
        self.provider.close()
        if how == "new":
            self.opened(sign_pending=False)
        elif how == "promote":
            replica = replicated(MemoryLog(self.lines), self.program, index, **self.more)
            sign: Any = self.guard if self.is_guarded else self.signer
            self.provider = replica.promote(sign, verify=self.signer.verify, sign_pending=False)

    def bodies(self) -> list[bytes]:
        """The bodies that the key was used for, as often as it was."""
        return [bytes.fromhex(it) for it in lines(self.signer.file)]

    def given_up(self) -> list[bytes]:
        """The bodies that lines of the log abandon."""
        return [bytes.fromhex(it) for line in self.lines.all if (it := json.loads(line).get("abandons"))]

    def epochs(self) -> list[int]:
        return [int.from_bytes(it[1:9], "big") for it in entries(self.log)]

    def is_one_chain(self) -> bool:
        """Whether what was signed and isn't given up is one chain, which is the log's and is audited."""
        signed = {*self.bodies()} - {*self.given_up()}
        return (
            not any(is_evidence(*it) for it in combinations(signed, 2))
            and signed == {it[:145] for it in entries(self.log)}
            and audited(entries(self.log), self.signer.keys, False)
        )

    def fails(self, what: str, epoch: int = 2, *operations: Any) -> None:
        """Leaves an update pending, since the signer fails."""
        self.signer.fails = 1
        mine = operations or (Register(f"user-{epoch}", b"key"),)
        raises(f"{what}: a signer that fails", SignerFailed, lambda: self.provider.commit(epoch, mine, force=True))

    def close(self) -> None:
        self.provider.close()
        self.lines.close()


def staged(program: str, **more: Any) -> ContextManager[Stage]:
    return in_room(lambda room: Stage(room, program, **more))
