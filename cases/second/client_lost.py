"""Cases of clients: epochs of the watched name that can no longer be verified."""

from __future__ import annotations

from dataclasses import dataclass
from itertools import chain
from typing import Any, Iterator, Optional, Sequence

from client import Answer
from client_attacks import case, feed, flipped, lookup
from client_cases import EQUAL, FIRST_KEY, SECOND_KEY, head, history, vouched, watch
from client_names import MISSING, state_after
from client_world import BATCHES, START, Batch, World, digest, hour, policy_text

LOST = {"do": "lost"}
DAY = 86400
LARGEST = 2**64 - 1
# The last second of a clock in Go.
END_OF_TIME = 2**63 - 1
LATE = hour(6) + 10**9


def lost_at(seconds: int) -> Answer:
    return {"do": "lost", "now": seconds}


@dataclass(frozen=True)
class Directory:
    """A directory, and its policy document."""

    policy: str
    world: World

    @classmethod
    def of(cls, stored: Optional[int], batches: Sequence[tuple[int, Batch]] = BATCHES, **clock: Any) -> Directory:
        text = policy_text(stored=stored, **clock)
        return cls(text, World(batches, policy=digest(text)))

    @property
    def begin(self) -> list[Answer]:
        """Alice's key is watched from epoch 1 on, and all entries are fed."""
        return [watch("alice", FIRST_KEY, 1), feed(*self.world.entries())]

    def case(self, name: str, steps: list[Answer], *wanted: str, **more: Any) -> Answer:
        """A case that begins so."""
        reported = ["watch 1", "fed " + " ".join(f"{it} missing" for it in self.world.epochs)]
        return self.bare(name, [*self.begin, *steps], *reported, *wanted, **more)

    def bare(self, name: str, steps: list[Answer], *wanted: str, **more: Any) -> Answer:
        return case(f"lost: {name}", steps, *wanted, policy=self.policy, **more)

    def shown(self, epoch: int) -> Answer:
        """A lookup of alice at an epoch by its number."""
        return lookup("alice", self.world.reply("alice", epoch), epoch)


DAYS = Directory.of(DAY)


def end(following: int) -> int:
    """When the proofs of an epoch end that another one follows, if they are kept for a day."""
    return hour(following, 0) + DAY


def lost() -> Iterator[Answer]:
    return chain(times(), timeless(), numbers(), proofs(), watches(), pruned(), resumed())


def times() -> Iterator[Answer]:
    yield DAYS.case("a second before its proofs end", [lost_at(end(2) - 1)], "lost")
    yield DAYS.case("as its proofs end", [lost_at(end(2)), MISSING], "lost 1", "missing 1 2 3 5 6")
    gap = [lost_at(it) for it in (end(3) - 1, end(3), end(4), end(5) - 1, end(5))]
    yield DAYS.case("before a number that has no epoch", gap, "lost 1", "lost 1 2", "lost 1 2", "lost 1 2", "lost 1 2 3")
    last = [lost_at(it) for it in (end(6) - 1, end(6), end(7), LATE, END_OF_TIME)]
    yield DAYS.case("never the latest", last, "lost 1 2 3", *["lost 1 2 3 5"] * 4)
    yield DAYS.case("the clock is set back", [lost_at(LATE), lost_at(end(2) - 1), lost_at(0)], "lost 1 2 3 5", "lost", "lost")
    options = {"max_age": 0, "skew": 0}
    yield DAYS.case("ages do not matter", [lost_at(end(2) - 1), lost_at(end(2))], "lost", "lost 1", **options)
    one = [lost_at(it) for it in (hour(2, 0), hour(2, 1))]
    yield Directory.of(1).case("proofs are kept for a second", one, "lost", "lost 1")
    none = [lost_at(it) for it in (0, START - 1, START, hour(2, 0) - 1, hour(2, 0))]
    yield Directory.of(0).case("proofs are kept for 0 seconds", none, *["lost"] * 4, "lost 1")
    yield Directory.of(None).case("proofs are kept for ever", [lost_at(LATE), lost_at(END_OF_TIME)], "lost", "lost")


def timeless() -> Iterator[Answer]:
    """Policies without a clock."""
    always = [lost_at(0), lost_at(END_OF_TIME)]
    for stored, wanted in [(0, "lost 1 2 3 5"), (1, "lost"), (LARGEST, "lost"), (None, "lost")]:
        what = "for ever" if stored is None else f"for {stored} seconds"
        yield Directory.of(stored, has_clock=False).case(f"no clock, and proofs are kept {what}", always, wanted, wanted)
    late = Directory.of(0, [(1, {"alice": b"A"}), (LARGEST - 1, {}), (LARGEST, {})], has_clock=False)
    yield late.case("no clock, and the last numbers there are", [LOST], f"lost 1 {LARGEST - 1}")


def numbers() -> Iterator[Answer]:
    """Times that numbers of 64 bits or doubles do not hold. Modulo 2^64 each of the first five is at most 2."""
    for what, start, period, stored, following in [
        ("the time that they are kept", 0, 1, LARGEST, 2),
        ("the start", LARGEST, 1, 0, 2),
        ("the period", 2, LARGEST, 0, 2),
        ("the period and the number", 0, 2**32, 1, 2**32 + 1),
        ("all numbers", LARGEST, LARGEST, LARGEST, LARGEST),
    ]:
        it = Directory.of(stored, [(1, {"alice": b"A"}), (following, {})], start=start, period=period)
        yield it.case(f"beyond 2^64, by {what}", [lost_at(2), lost_at(END_OF_TIME)], "lost", "lost")
    for what, start, period, stored in [
        ("the time that they are kept", 0, 1, END_OF_TIME - 1),
        ("the start", END_OF_TIME - 2, 1, 1),
        ("the period", 0, END_OF_TIME, 0),
        ("all numbers", 2**62 - 1, 2**61, 2**61),
    ]:
        it = Directory.of(stored, [(1, {"alice": b"A"}), (2, {})], start=start, period=period)
        yield it.case(f"near 2^63, by {what}", [lost_at(END_OF_TIME - 1), lost_at(END_OF_TIME)], "lost", "lost 1")
    far = Directory.of(3, [(1, {"alice": b"A"}), (2**61, {})], start=2, period=2)
    yield far.case("near 2^62, by a number", [lost_at(2**62 + 2), lost_at(2**62 + 3)], "lost", "lost 1")


def proofs() -> Iterator[Answer]:
    """Proofs that come after all."""
    late, world = lost_at(LATE), DAYS.world
    reported = ["lost 1 2 3 5", f"{FIRST_KEY} same", "lost 1 3 5", "missing 1 3 5 6"]
    yield DAYS.case("a reply comes after all", [late, DAYS.shown(2), LOST, MISSING], *reported)
    changed = [late, DAYS.shown(3), LOST, MISSING]
    reported = ["lost 1 2 3 5", f"{SECOND_KEY} changed", "lost 1 2 5", "missing 1 2 5 6"]
    yield DAYS.case("a reply shows another key after all", changed, *reported)
    wrong = [late, lookup("alice", flipped(world.reply("alice", 3), 400), 3), LOST]
    yield DAYS.case("a refused reply", wrong, "lost 1 2 3 5", "RootMismatch", "lost 1 2 3 5")
    whole = [late, history("alice", world.history("alice", 1, 2)), LOST, MISSING]
    yield DAYS.case(
        "a history comes after all", whole, "lost 1 2 3 5", f"{FIRST_KEY} same, {FIRST_KEY} same", "lost 3 5", "missing 3 5 6"
    )
    gaps = [DAYS.shown(2), DAYS.shown(5), lost_at(end(2)), lost_at(end(5) - 1), lost_at(end(5)), lost_at(LATE)]
    reported = [f"{FIRST_KEY} same", f"{SECOND_KEY} changed", "lost 1", "lost 1", "lost 1 3", "lost 1 3"]
    yield DAYS.case("several gaps", gaps, *reported)
    every = [history("alice", world.history("alice", 1, 2, 3, 5, 6)), late, MISSING]
    keys = ", ".join([f"{FIRST_KEY} same"] * 2 + [f"{SECOND_KEY} changed"] * 3)
    yield DAYS.case("each epoch was verified", every, keys, "lost", "missing")


def watches() -> Iterator[Answer]:
    world, late = DAYS.world, lost_at(LATE)
    yield DAYS.bare("no name is watched", [feed(*world.entries()), late, MISSING], "fed 1 2 3 5 6", "lost", "missing")
    since = [feed(*world.entries()), watch("alice", SECOND_KEY, 3), late]
    yield DAYS.bare("epochs before the first watched one", since, "fed 1 2 3 5 6", "watch 3", "lost 3 5")
    yield DAYS.bare("no entry", [watch("alice", FIRST_KEY), late], "watch 1", "lost")
    growing = [watch("alice", FIRST_KEY), feed(world[1]), late, feed(*world.entries(2, 3)), LOST, feed(world[5]), LOST]
    reported = ["watch 1", "fed 1 missing", "lost", "fed 2 missing 3 missing", "lost 1 2", "fed 5 missing", "lost 1 2 3"]
    yield DAYS.bare("the latest, once another one follows", growing, *reported)
    yield DAYS.bare(
        "a late start",
        [watch("alice", SECOND_KEY), feed(world[6]), lost_at(end(6) - 1), lost_at(end(6))],
        *["watch 5", "fed 6 missing", "lost", "lost 5"],
        now=hour(6),
        **vouched(world[5], 1, (5, world.link(5))),
    )


def pruned() -> Iterator[Answer]:
    """Auditors cover the chain."""
    world, late = DAYS.world, lost_at(LATE)
    fifth, sixth = head("cover", 5, world.link(5)), head("cover", 6, world.link(6))
    first = history("alice", world.history("alice", 1, 2))
    steps = [first, fifth, DAYS.shown(1), lost_at(end(5) - 1), lost_at(end(5)), late, MISSING]
    reported = [f"{FIRST_KEY} same, {FIRST_KEY} same", EQUAL, "UnknownEpoch", "lost", "lost 3", "lost 3 5", "missing 3 5 6"]
    yield DAYS.case("an auditor covers it", steps, *reported)
    then = [late, first, DAYS.shown(3), sixth, LOST, DAYS.shown(5), sixth, LOST, MISSING]
    reported = ["lost 1 2 3 5", reported[0], f"{SECOND_KEY} changed", EQUAL, "lost", "UnknownEpoch", EQUAL, "lost", "missing 6"]
    yield DAYS.case("verified, and covered", then, *reported)


def resumed() -> Iterator[Answer]:
    world = DAYS.world
    watching = watch("alice", FIRST_KEY, 1)
    three = state_after([watching, feed(*world.entries(1, 2, 3)), DAYS.shown(2)], policy=DAYS.policy).hex()
    steps = [lost_at(end(2) - 1), lost_at(end(2)), lost_at(LATE), MISSING, feed(world[5]), LOST]
    reported = ["lost", "lost 1", "lost 1", "missing 1 3", "fed 5 missing", "lost 1 3"]
    yield DAYS.bare("a state is resumed", steps, *reported, state=three)
    covered = state_after([*DAYS.begin, DAYS.shown(1), head("cover", 5, world.link(5))], policy=DAYS.policy).hex()
    steps = [MISSING, lost_at(end(3) - 1), lost_at(end(3)), DAYS.shown(2), LOST]
    reported = ["missing 2 3 5 6", "lost", "lost 2", f"{FIRST_KEY} same", "lost"]
    yield DAYS.bare("a state that begins later is resumed", steps, *reported, state=covered)
