"""Cases of clients: a watched name, a change that is expected, and the state."""

from __future__ import annotations

from typing import Iterator, Optional

from bytelists import number, sha256
from client import Answer, state_of
from client_attacks import FED, OTHER, THREE, WORLD, case, edited, feed, flipped, lookup, resigned
from client_cases import ALL, ALL_FED, EQUAL, FIRST_KEY, SECOND_KEY, head, history, watch
from client_world import World, hour

MISSING = {"do": "missing"}
WATCHED = "fed 1 missing 2 missing 3 missing"

# Alice's key changes back and forth.
TURNING = World([(1, {"alice": b"A"}), (2, {"alice": b"B"}), (3, {"alice": b"A"}), (4, {"alice": b"B"}), (5, {"alice": b"C"})])


def expect(key: Optional[str], by: int) -> Answer:
    return {"do": "expect", "key": None if key is None else key.encode().hex(), "by": by}


def shown(name: str, epoch: int, world: World = WORLD) -> Answer:
    return lookup(name, world.reply(name, epoch), epoch)


def names() -> Iterator[Answer]:
    yield case("watch: the same key", [THREE, watch("bob", "key of bob"), shown("bob", 3)], FED, "watch 3", "key of bob same")
    yield case("watch: another key", [THREE, watch("alice", FIRST_KEY), shown("alice", 3)], FED, "watch 3", f"{SECOND_KEY} changed")
    yield case("watch: no key", [THREE, watch("dave", "key"), shown("dave", 3)], FED, "watch 3", "none absent")
    yield case(
        "watch: none is expected, and none is there", [THREE, watch("dave", None), shown("dave", 3)], FED, "watch 3", "none same"
    )
    key = [THREE, watch("carol", None), shown("carol", 3)]
    yield case("watch: none is expected, and one is there", key, FED, "watch 3", "key of carol changed")
    before = [watch("alice", FIRST_KEY), THREE, MISSING, shown("alice", 1), shown("alice", 3), MISSING]
    reported = ["watch 1", WATCHED, "missing 1 2 3", f"{FIRST_KEY} same", f"{SECOND_KEY} changed", "missing 2"]
    yield case("watch: epochs without a reply are missing", before, *reported)
    proved = [*before, history("alice", WORLD.history("alice", 2)), MISSING]
    yield case("watch: a missing epoch is proved later", proved, *reported, f"{FIRST_KEY} same", "missing")
    refused = [watch("alice", FIRST_KEY), THREE, lookup("alice", flipped(WORLD.reply("alice", 3), 400)), MISSING]
    yield case("watch: a refused reply leaves the epoch missing", refused, "watch 1", WATCHED, "RootMismatch", "missing 1 2 3")
    other = [watch("alice", FIRST_KEY), THREE, shown("bob", 3), MISSING]
    yield case("watch: a reply for another name", other, "watch 1", WATCHED, "key of bob", "missing 1 2 3")
    since = [THREE, watch("alice", SECOND_KEY, 3), shown("alice", 1), shown("alice", 3)]
    yield case("watch: epochs before the first are not watched", since, FED, "watch 3", FIRST_KEY, f"{SECOND_KEY} same")
    whole = [ALL, watch("alice", SECOND_KEY, 3), history("alice", WORLD.history("alice", 1, 2, 3, 5, 6)), MISSING]
    found = ", ".join([FIRST_KEY] * 2 + [f"{SECOND_KEY} same"] * 3)
    yield case("watch: by a history", whole, ALL_FED, "watch 3", found, "missing", now=hour(6))
    left_out = [ALL, watch("alice", SECOND_KEY, 3), history("alice", WORLD.history("alice", 3, 6)), MISSING]
    found = ", ".join([f"{SECOND_KEY} same"] * 2)
    yield case("watch: an epoch that a history leaves out", left_out, ALL_FED, "watch 3", found, "missing 5", now=hour(6))
    yield from misuse()
    yield from changes()


def misuse() -> Iterator[Answer]:
    alice = watch("alice", FIRST_KEY)
    for what, step, wanted in [
        ("the same once more", alice, "watch 1"),
        ("another name", watch("bob", "key of bob"), "misuse"),
        ("another key", watch("alice", SECOND_KEY), "misuse"),
        ("another first epoch", watch("alice", FIRST_KEY, 2), "misuse"),
    ]:
        yield case(f"watch: twice, {what}", [alice, step], "watch 1", wanted)
    for what, step in [
        ("no name", watch("", "key")),
        ("a long name", watch("a" * 256, "key")),
        ("an empty key", watch("alice", "")),
    ]:
        yield case(f"watch: {what}", [step], "misuse")
    for what, step in [
        ("the same key", expect(FIRST_KEY, 9)),
        ("an empty key", expect("", 9)),
        ("by the latest epoch", expect(SECOND_KEY, 3)),
        ("by an earlier epoch", expect(SECOND_KEY, 2)),
    ]:
        yield case(f"expect: {what}", [THREE, alice, step], FED, "watch 3", "misuse")
    yield case("expect: no watched name", [expect("key", 9)], "misuse")
    twice = [alice, expect(SECOND_KEY, 9), expect("key", 10), THREE, expect("key", 10)]
    yield case("expect: while another change is open", twice, "watch 1", "expect 9", "misuse", WATCHED, "misuse")


def changes() -> Iterator[Answer]:
    alice = watch("alice", FIRST_KEY)
    begin, reported = [feed(*WORLD.entries(1, 2)), alice, expect(SECOND_KEY, 5)], ["fed 1 2", "watch 2", "expect 5"]
    rest, fed = feed(*WORLD.entries(3, 5)), "fed 3 missing 5 missing"
    new = f"{SECOND_KEY} same"
    steps = [*begin, rest, shown("alice", 2), shown("alice", 3), shown("alice", 5)]
    yield case("expect: the new key before its time", steps, *reported, fed, f"{FIRST_KEY} same", new, new, now=hour(5))
    early = [feed(*WORLD.entries(1, 2)), alice, expect(SECOND_KEY, 3), feed(WORLD[3]), shown("alice", 3)]
    yield case("expect: the new key at its time", early, "fed 1 2", "watch 2", "expect 3", "fed 3 missing", new)
    bob = [feed(WORLD[1]), watch("bob", "key of bob"), expect("new key of bob", 3), feed(*WORLD.entries(2, 3))]
    seen = ["fed 1", "watch 1", "expect 3", "fed 2 missing 3 missing"]
    looked = [shown("bob", 1), shown("bob", 2), shown("bob", 3)]
    yield case("expect: the old key after its time", [*bob, *looked], *seen, *["key of bob same"] * 2, "key of bob changed")
    alone = [
        feed(WORLD[1]),
        watch("carol", None),
        expect("key of carol", 2),
        feed(*WORLD.entries(2)),
        shown("carol", 1),
        shown("carol", 2),
    ]
    yield case("expect: a first key", alone, "fed 1", "watch 1", "expect 2", "fed 2 missing", "none same", "key of carol same")
    never = [feed(WORLD[1]), watch("dave", None), expect("key", 2), feed(*WORLD.entries(2)), shown("dave", 2)]
    yield case("expect: a first key that is not there", never, "fed 1", "watch 1", "expect 2", "fed 2 missing", "none absent")
    third = [*begin, rest, shown("alice", 3)]
    wrong = [feed(*WORLD.entries(1, 2)), alice, expect("another key", 5), rest, shown("alice", 3)]
    yield case("expect: a third key", wrong, *reported, fed, f"{SECOND_KEY} changed", now=hour(5))
    before = [THREE, watch("alice", FIRST_KEY, 1), expect(SECOND_KEY, 9), shown("alice", 3)]
    yield case("expect: the new key before it was expected", before, FED, "watch 1", "expect 9", f"{SECOND_KEY} changed")
    yield from turns(third)


def turns(third: list[Answer]) -> Iterator[Answer]:
    """The key changes back while either may be shown."""
    begin = [watch("alice", "A"), expect("B", 5), feed(*TURNING.entries(1, 2, 3, 4))]
    reported = ["watch 1", "expect 5", "fed 1 missing 2 missing 3 missing 4 missing"]
    for what, epochs, wanted in [
        ("in order", (1, 2, 3, 4), ["A same", "B same", "A changed", "B same"]),
        ("the old key first", (3, 2, 1, 4), ["A same", "B changed", "A same", "B same"]),
        ("a missing epoch last", (1, 4, 3, 2), ["A same", "B same", "A same", "B changed"]),
    ]:
        yield case(f"expect: back and forth, {what}", [*begin, *(shown("alice", it, TURNING) for it in epochs)], *reported, *wanted)
    late = [feed(TURNING[1]), watch("alice", "A"), expect("B", 5), feed(*TURNING.entries(2, 3)), shown("alice", 2, TURNING)]
    wanted = ["fed 1", "watch 1", "expect 5", "fed 2 missing 3 missing", "B same", "A changed"]
    yield case("expect: back, after the first epoch that may show the new key", [*late, shown("alice", 3, TURNING)], *wanted)
    early = [watch("alice", "A"), expect("B", 4), feed(*TURNING.entries(1, 2, 3)), shown("alice", 3, TURNING)]
    wanted = ["watch 1", "expect 4", "fed 1 missing 2 missing 3 missing", "A same", "B changed"]
    yield case("expect: forth, before the last epoch that may show the old key", [*early, shown("alice", 2, TURNING)], *wanted)
    again = [*begin, shown("alice", 4, TURNING), feed(TURNING[5]), expect("C", 7), shown("alice", 5, TURNING)]
    yield case("expect: a second change", again, *reported, "B same", "fed 5 missing", "expect 7", "C changed")
    later = [watch("alice", "A"), expect("B", 2), feed(*TURNING.entries(1, 2, 3, 4)), expect("C", 5), feed(TURNING[5])]
    wanted = ["watch 1", "expect 2", reported[2], "expect 5", "fed 5 missing"]
    looked = [shown("alice", it, TURNING) for it in (4, 5, 3)]
    yield case("expect: a second change after the first", [*later, *looked], *wanted, "B same", "C same", "A changed")
    stored = [*third, shown("alice", 2), head("cover", 5, WORLD.link(5)), shown("alice", 2), shown("alice", 3)]
    wanted = ["fed 1 2", "watch 2", "expect 5", "fed 3 missing 5 missing", f"{SECOND_KEY} same", f"{FIRST_KEY} same", EQUAL]
    yield case("expect: what an auditor covers", stored, *wanted, "UnknownEpoch", "UnknownEpoch", now=hour(5))


def state_after(steps: list[Answer], now: int = hour(3), **more: str) -> bytes:
    """The state of a client after some steps."""
    return state_of(case("", steps, now=now, **more))


def renewed(state: bytes) -> bytes:
    """A state with the digest of what is in it."""
    return state[:-32] + sha256(state[:-32])


def states() -> Iterator[Answer]:
    plain, empty = state_after([THREE]), state_after([])
    watching = state_after([feed(*WORLD.entries(1, 2)), watch("alice", FIRST_KEY, 1), shown("alice", 1), expect(SECOND_KEY, 5)])
    steps = [{"do": "head"}, feed(WORLD[5]), shown("alice", 5)]
    good: list[tuple[str, bytes, list[Answer], list[str]]] = [
        ("it goes on", plain, steps, ["head 3", "fed 5", SECOND_KEY]),
        ("of no entry", empty, [{"do": "head"}, THREE], ["head", FED]),
        ("a fork after it", plain, [feed(OTHER[3])], ["Equivocation overlap 3"]),
        ("a watched name", watching, [MISSING, feed(WORLD[3]), shown("alice", 3)], WATCHING),
    ]
    for what, state, following, wanted in good:
        yield case(f"state: {what}", following, *wanted, now=hour(5), state=state.hex())
    for what, state, refusal in [*damaged(plain, watching), *forged(plain, watching)]:
        yield case(f"state: {what}", [], refusal, state=state.hex())


# Where the last of three entries begins.
LAST = 37 + 2 * 218
WATCHING = ["missing 2", "fed 3 missing", f"{SECOND_KEY} same"]


def damaged(plain: bytes, watching: bytes) -> Iterator[tuple[str, bytes, str]]:
    yield "no byte", b"", "StateLength"
    yield "109 bytes", plain[:109], "StateLength"
    for version in (0, 1, 2, 4):
        yield f"version {version}", renewed(edited(plain, 0, bytes([version]))), "StateVersion"
    yield "version 1, of a watched name", renewed(edited(watching, 0, b"\1")), "StateVersion"
    yield "one byte less", plain[:-1], "StateDamaged"
    yield "one byte more", plain + b"\0", "StateDamaged"
    parts = {"policy": 5, "number of epochs": 36, "entry": 60, "time": 37 + 210, "seen": 37 + 217, "watch": -40, "digest": -1}
    for what, place in parts.items():
        yield f"{what} changed", flipped(watching, place % len(watching)), "StateDamaged"


def forged(plain: bytes, watching: bytes) -> Iterator[tuple[str, bytes, str]]:
    """States whose digest is right."""
    # Where the second epoch begins, and the watch.
    second, end = 37 + 218, 37 + 2 * 218 + 40
    root = edited(plain[37:246], 17, bytes(32))
    other = resigned(plain[37:246], 17, bytes(32))
    for what, state, wanted in [
        ("another policy", edited(plain, 1, bytes(32)), "StatePolicy"),
        ("one epoch more", edited(plain, 33, number(4, 4)), "StateForm"),
        ("one epoch less", edited(plain, 33, number(2, 4)), "StateForm"),
        ("very many epochs", edited(plain, 33, b"\xff" * 4), "StateForm"),
        ("bytes follow", plain[:-32] + b"\0" + plain[-32:], "StateForm"),
        ("seen without a watched name", edited(plain, 254, b"\1"), "StateForm"),
        ("seen 2 without a watched name", edited(plain, 254, b"\2"), "StateForm"),
        ("seen 2", edited(watching, 254, b"\2"), "StateForm"),
        ("seen 6", edited(watching, 254, b"\6"), "StateForm"),
        ("seen 0 of a watched epoch", edited(watching, 254, b"\0"), "StateForm"),
        ("a watch of kind 2", edited(watching, end, b"\2"), "StateForm"),
        ("a watch of kind 3", edited(watching, end, b"\3"), "StateForm"),
        ("a watch of no name", edited(watching, end, b"\1\0"), "StateForm"),
        ("one change more", edited(watching, end + 31, number(2, 4)), "StateForm"),
        ("one change less", edited(watching, end + 31, number(0, 4)), "StateForm"),
        ("very many changes", edited(watching, end + 31, b"\xff" * 4), "StateForm"),
        ("cut in a change", watching[:-33] + bytes(32), "StateForm"),
        ("another root", edited(plain, 37, root), "StateChain"),
        ("another root, signed", edited(plain, 37, other), "StateChain"),
        ("the last root, not signed", edited(plain, LAST + 17, bytes(32)), "StateChain"),
        ("the last signature", flipped(plain, LAST + 150), "StateChain"),
        ("a last entry of another policy", edited(plain, LAST, resigned(plain[LAST : LAST + 209], 113, bytes(32))), "StateChain"),
        ("two epochs changed places", plain[:37] + plain[second:473] + plain[37:second] + plain[473:], "StateChain"),
        ("an epoch left out", edited(plain[:second] + plain[473:], 33, number(2, 4)), "StateChain"),
        ("an epoch twice", plain[:37] + plain[37:second] * 2 + plain[473:], "StateChain"),
        ("a first entry of version 3", edited(plain, 37, resigned(plain[37:246], 0, b"\3")), "StateChain"),
        ("an entry of another policy", edited(plain, 37, resigned(plain[37:246], 113, bytes(32))), "StateChain"),
    ]:
        yield what, renewed(state), wanted
