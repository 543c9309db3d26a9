"""Asks guards for bodies at random, and abandons some. As a program it does so until it is killed:

    guard_ends.py FOLDER KIND SEED

The folder has the record. KIND is the signature scheme, one of `KINDS`.
"""

from __future__ import annotations

import random
import sys
import time
from contextlib import suppress
from pathlib import Path
from typing import Callable

from bodies import after, is_chain
from stand_ins import Ed25519, Salted, Scheme, Signer, append, lines
from coniks import guard as module
from coniks.guard import BodyRefused, Guard


KINDS: dict[str, Callable[[], Scheme]] = {"salted": Salted, "ed25519": Ed25519}


class Asker:
    """Asks a guard for bodies beside others: for new ones, for the open one, or for none after it is abandoned. It lists what it
    was given and what it has abandoned."""

    def __init__(self, room: Path, guard: Guard, chance: random.Random) -> None:
        self.room, self.guard, self.chance = room, guard, chance

    def step(self) -> None:
        with suppress(BodyRefused, TimeoutError):
            entry, requested, turn = self.guard.signed() or b"", self.guard.asked(), self.chance.randrange(6)
            # A process that was killed may not have listed it.
            self._give(entry[:145])
            epoch = int.from_bytes(entry[1:9], "big") + self.chance.randrange(1, 4)
            mine = after(entry, epoch, b"%d" % self.chance.randrange(1 << 30))
            if requested and turn < 2:
                with suppress(module.BodySigned):
                    self.guard.abandon(requested)
                    append(self.room / "abandoned", requested.hex())
            self._give(requested if requested and turn < 5 else mine)

    def _give(self, body: bytes) -> None:
        append(self.room / "given", (body + self.guard(body)).hex())


NOTHING = "nothing is signed"


def what_is_wrong(room: Path, signer: Signer, guard: Guard) -> str:
    """What is wrong with the entries that were given out. Empty if nothing is."""
    given = {bytes.fromhex(it) for it in lines(room / "given")}
    abandoned = {bytes.fromhex(it) for it in lines(room / "abandoned")}
    if not is_chain([*given, guard.signed() or b""]):
        return "two chains are signed"
    if {it[:145] for it in given} & abandoned:
        return "an abandoned body is signed"
    if not all(signer.verify(it[:145], it[145:]) for it in given):
        return "a signature isn't valid"
    return "" if given else NOTHING


def restless(chance: random.Random) -> Callable[[], None]:
    """What a signer does first: it takes some time, or fails."""

    def before() -> None:
        time.sleep(chance.choice([0, 0, 0.001, 0.004]))
        if chance.randrange(5) == 0:
            raise TimeoutError("the signer is told to fail")

    return before


def drive(folder: str, kind: str, seed: int) -> None:
    chance, room = random.Random(seed), Path(folder)
    signer = Signer(room, KINDS[kind]())
    signer.before = restless(chance)
    asker = Asker(room, Guard(room / "record", signer), chance)
    print("ready", flush=True)
    while True:
        asker.step()


if __name__ == "__main__":
    drive(sys.argv[1], sys.argv[2], int(sys.argv[3]))
