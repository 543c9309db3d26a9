"""Random walks of the owner of a name, over a client that keeps alarms: auditors mark epochs, the clock goes on, entries are signed
again, and the owner notes alarms."""

from __future__ import annotations

import random
from typing import Optional

from bytelists import sha256
from case_runner import Answer
from chain import Entry
from client_world import hour, signed
from walks import NAME, NUMBERS, Walk, world_of

# Three of four auditors are a quorum.
TRUST: Answer = {"digest": sha256(b"trust document").hex(), "auditors": 4, "faulty": 1}
KEYS = "AAAABBBBCA"
WORLD = world_of(KEYS)
AGAIN = {it: signed(WORLD[it][:145], nonce=7) for it in NUMBERS}


class AlarmWalk(Walk):
    world = WORLD

    def __init__(self, chance: random.Random) -> None:
        super().__init__(chance)
        self.now, self.is_again = hour(1), False

    def case(self, state: Optional[bytes]) -> Answer:
        now = self.now
        return {**super().case(state), "now": now, "trust": TRUST}

    def step(self) -> Answer:
        """A step, sometimes some hours after the one before."""
        often = [self.lookup] * 6 + [self.mark] * 9 + [self.reported] * 6 + [self.cover] * 2
        step = self.chance.choice([*often, self.feed, self.feed, self.history, self.watch, self.expect, self.note, self.again])()
        self.now += self.chance.choice([0, 0, 0, 3600, 7200])
        return {**step, "now": self.now}

    def watch(self) -> Answer:
        """Mostly the key of the latest epoch, from it on."""
        if self.chance.random() < 0.3 or not self.fed:
            return super().watch()
        return {"do": "watch", "name": NAME, "key": KEYS[self.fed - 1].encode().hex()}

    def lookup(self) -> Answer:
        """Mostly the latest epoch."""
        if self.chance.random() < 0.4 or not self.fed:
            return super().lookup()
        epoch = NUMBERS[self.fed - 1]
        return {"do": "lookup", "name": NAME, "reply": WORLD.reply("alice", epoch).hex(), "epoch": epoch}

    def reported(self) -> Answer:
        return {"do": self.chance.choice(["missing", "alarms", "confirmed", *["report"] * 5])}

    def cover(self) -> Answer:
        return {"do": "cover"}

    def note(self) -> Answer:
        return {"do": "note", "epoch": self.epoch()}

    def again(self) -> Answer:
        """The latest entry, signed again or with its first signature."""
        latest = NUMBERS[max(self.fed - 1, 0)]
        self.is_again = self.chance.random() < 0.5
        return {"do": "feed", "entries": [(AGAIN[latest] if self.is_again else WORLD[latest]).hex()]}

    def feed(self) -> Answer:
        """The next entries, after the latest one with its first signature if it was signed again."""
        latest, step = [WORLD[NUMBERS[self.fed - 1]].hex()] if self.is_again and self.fed else [], super().feed()
        self.is_again = False
        return {**step, "entries": latest + step["entries"]}

    def mark(self) -> Answer:
        """The head of an auditor, mostly that of the latest epoch."""
        epoch = NUMBERS[max(self.fed - 1, 0)] if self.chance.random() < 0.8 else self.epoch()
        known = epoch if epoch in NUMBERS else 1
        entry = AGAIN[known] if self.chance.random() < 0.1 else WORLD[known]
        return {"do": "mark", "auditor": self.chance.randrange(4), "epoch": epoch, "link": Entry(entry).link.hex()}
