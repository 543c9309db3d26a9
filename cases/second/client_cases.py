"""Cases of clients: histories, heads of auditors and other clients, and the policy's clock."""

from __future__ import annotations

from typing import Any, Iterator, Optional

from bytelists import number
from client import Answer
from client_attacks import FED, OTHER, THREE, WORLD, case, edited, feed, flipped, lookup, resigned
from client_world import PERIOD, START, World, digest, hour, policy_text, signed

ALL, ALL_FED = feed(*WORLD.entries()), "fed 1 2 3 5 6"
FIRST_KEY, SECOND_KEY = "key of alice", "second key of alice"


def history(name: str, whole: bytes) -> Answer:
    return {"do": "history", "name": name.encode().hex(), "history": whole.hex()}


def histories() -> Iterator[Answer]:
    """A history of alice begins with 83 bytes, then the step of epoch 1."""
    whole = WORLD.history("alice", 1, 2, 3, 5, 6)
    found = ", ".join([FIRST_KEY] * 2 + [SECOND_KEY] * 3)
    good: list[tuple[str, str, bytes, str]] = [
        ("all epochs", "alice", whole, found),
        ("one epoch", "alice", WORLD.history("alice", 3), SECOND_KEY),
        ("no epoch", "alice", WORLD.history("alice"), ""),
        ("some epochs", "alice", WORLD.history("alice", 2, 6), f"{FIRST_KEY}, {SECOND_KEY}"),
        ("an absent name", "dave", WORLD.history("dave", 1, 2, 3), "none, none, none"),
        ("a name that is registered later", "carol", WORLD.history("carol", 1, 2), "none, key of carol"),
    ]
    for what, name, text, wanted in good:
        yield case(f"history: {what}", [ALL, history(name, text)], ALL_FED, wanted, now=hour(6))
    for what, text, wanted in bad_histories(whole):
        yield case(f"history: {what}", [ALL, history("alice", text)], ALL_FED, wanted, now=hour(6))
    yield case("history: of bob", [ALL, history("alice", WORLD.history("bob", 1))], ALL_FED, "VrfProof", now=hour(6))
    yield case("history: an epoch that was not fed", [THREE, history("alice", WORLD.history("alice", 3, 5))], FED, "UnknownEpoch")
    stored = [THREE, watch("alice", FIRST_KEY, 1), history("alice", WORLD.history("alice", 1, 2)[:-1] + b"!"), {"do": "missing"}]
    yield case("history: one wrong proof, and nothing is kept", stored, FED, "watch 1", "RootMismatch", "missing 1 2 3")


def watch(name: str, key: Optional[str], since: Optional[int] = None) -> Answer:
    return {"do": "watch", "name": name.encode().hex(), "key": None if key is None else key.encode().hex(), "since": since}


def bad_histories(whole: bytes) -> Iterator[tuple[str, bytes, str]]:
    count = WORLD.proof("alice", 1)[2]
    first = 83 + 11 + (count + 7) // 8 + 32 * count + 38 + len("alice" + FIRST_KEY)
    for what, size, wanted in [
        ("no byte", 0, "NoHistory"),
        ("a version alone", 1, "CutInVrf"),
        ("cut in the VRF proof", 82, "CutInVrf"),
        ("cut in the epoch", 83 + 7, "CutInStep"),
        ("cut in the number of siblings", 83 + 10, "CutInStep"),
        ("cut in the map", 83 + 11, "CutInStep"),
        ("cut in a sibling", 83 + 12 + 31, "CutInStep"),
        ("cut in the end", first - 1, "CutInStep"),
        ("cut in the second step", first + 1, "CutInStep"),
    ]:
        yield what, whole[:size], wanted
    yield "version 0", edited(whole, 0, b"\0"), "HistoryVersion"
    yield "the VRF proof changed", flipped(whole, 40), "VrfProof"
    yield "epoch 0", edited(whole, 83, bytes(8)), "EpochOrder"
    yield "an epoch twice", edited(whole, first, number(1, 8)), "EpochOrder"
    yield "the end of no step before", edited(whole, 91, b"\3"), "UnknownEnd"
    yield "the end of no step before, and nothing more", whole[:83] + number(1, 8) + b"\3\0\0", "UnknownEnd"
    yield "an unknown end", edited(whole, 91, b"\4"), "UnknownEnd"
    yield "257 siblings", edited(whole, 92, number(257, 2)), "TooDeep"
    yield "256 siblings", edited(whole, 92, number(256, 2)), "SiblingMap"
    yield "a spare bit of the map", edited(whole, 94, bytes([whole[94] | 1])), "SiblingMap"
    yield "a sibling of no step before", edited(whole, 94, b"\0"), "SiblingMap"
    yield "a sibling changed", flipped(whole, 95 + 32), "RootMismatch"
    yield from repeated(whole[:first])
    yield "bytes follow", whole + b"\0", "CutInStep"


def repeated(first: bytes) -> Iterator[tuple[str, bytes, str]]:
    """A second step that sends what the first one has."""
    proof = WORLD.proof("alice", 1)
    count = proof[2]
    siblings, end, spare = proof[3 : 3 + 32 * count], proof[3 + 32 * count :], (count + 7) // 8 * 8 - count
    every = ((1 << count) - 1 << spare).to_bytes((count + 7) // 8, "big")
    front = number(2, 8) + b"\2" + number(count, 2)
    yield "a sibling that stays", first + front + every + siblings + end, "SiblingRepeated"
    yield "an end that stays", first + front + bytes(len(every)) + end, "EndRepeated"
    yield "what stays is not the epoch's", first + number(2, 8) + b"\3" + number(count, 2) + bytes(len(every)), changed(proof)


def changed(proof: bytes) -> str:
    return FIRST_KEY + ", " + FIRST_KEY if proof == WORLD.proof("alice", 2) else "RootMismatch"


def head(do: str, epoch: int, link: bytes) -> Answer:
    return {"do": do, "epoch": epoch, "link": link.hex()}


def chains() -> Iterator[Answer]:
    yield case("head: of no entry", [{"do": "head"}], "head")
    yield case("head: the latest entry", [THREE, {"do": "head"}], FED, "head 3")
    for what, epoch, link, wanted in [
        ("the same", 2, WORLD.link(2), "equal"),
        ("the latest", 6, WORLD.link(6), "equal"),
        ("another link", 2, OTHER.link(3), "differs"),
        ("an epoch that the chain covers and has not", 4, OTHER.link(4), "differs"),
        ("a later epoch", 7, WORLD.link(6), "unknown"),
        ("epoch 0", 0, bytes(32), "unknown"),
    ]:
        yield case(f"compare: {what}", [ALL, head("compare", epoch, link)], ALL_FED, f"compare {wanted}", now=hour(6))
    yield case("compare: without an entry", [head("compare", 1, WORLD.link(1))], "compare unknown")
    yield from pairs()
    yield from covers()
    yield from late_starts()


def pairs() -> Iterator[Answer]:
    two, third = WORLD[2], WORLD[3]
    for what, entry, wanted in [
        ("its own entry", third, "evidence"),
        ("another signature of a body", signed(third[:145], nonce=3), "evidence"),
        ("another root", OTHER[3], "evidence overlap 3"),
        ("a later entry of another chain", OTHER[4], "evidence"),
        ("a longer interval", resigned(third, 9, number(1, 8)), "evidence overlap 2"),
        ("another policy", resigned(two, 113, bytes(32)), "evidence other policy 1"),
        ("version 3", resigned(third, 0, b"\3"), "evidence malformed 1"),
        ("not signed", third[:145] + bytes(64), "Signature"),
        ("another root, not signed", flipped(third, 20), "Signature"),
        ("208 bytes", third[:208], "EntryLength"),
    ]:
        yield case(f"evidence: {what}", [THREE, {"do": "evidence", "entry": entry.hex()}], FED, wanted)
    alone = {"do": "evidence", "entry": resigned(third, 0, b"\3").hex()}
    yield case("evidence: without an entry, version 3", [alone], "evidence malformed")


def covers() -> Iterator[Answer]:
    covered, later = head("cover", 3, WORLD.link(3)), lookup("alice", WORLD.reply("alice", 2), 2)
    same = lookup("alice", WORLD.reply("alice", 3), 3)
    yield case(
        "cover: drops what comes before", [ALL, covered, later, same], ALL_FED, EQUAL, "UnknownEpoch", SECOND_KEY, now=hour(6)
    )
    yield case("cover: another link drops nothing", [ALL, head("cover", 3, OTHER.link(3)), later], *DIFFERS, now=hour(6))
    yield case("cover: an unknown epoch drops nothing", [ALL, head("cover", 9, WORLD.link(6)), later], *UNKNOWN, now=hour(6))
    watching = [ALL, watch("alice", FIRST_KEY, 2), covered, {"do": "missing"}, later, {"do": "missing"}]
    wanted = [ALL_FED, "watch 2", EQUAL, "missing 2 3 5 6", f"{FIRST_KEY} same", "missing 3 5 6"]
    yield case("cover: a missing epoch is kept", watching, *wanted, now=hour(6))
    again = [ALL, covered, feed(WORLD[1]), feed(resigned(WORLD[2], 17, bytes(32))), feed(WORLD[6]), feed(OTHER[3])]
    wanted = [ALL_FED, EQUAL, "VersionBack", "VersionBack", "NotLater", "Equivocation overlap 3"]
    yield case("cover: a dropped entry convicts no more", again, *wanted, now=hour(6))
    to_the_last = [ALL, head("cover", 6, WORLD.link(6)), {"do": "head"}, head("compare", 5, WORLD.link(5))]
    yield case("cover: the latest entry stays", to_the_last, ALL_FED, EQUAL, "head 6", "compare unknown", now=hour(6))


EQUAL = "compare equal"
DIFFERS = [ALL_FED, "compare differs", FIRST_KEY]
UNKNOWN = [ALL_FED, "compare unknown", FIRST_KEY]


def vouched(entry: bytes, least: int, *heads: tuple[int, bytes]) -> dict[str, Any]:
    listed = [[epoch, link.hex()] for epoch, link in heads]
    return {"vouched": {"entry": entry.hex(), "heads": listed, "least": least}}


def late_starts() -> Iterator[Answer]:
    fifth, sixth = WORLD[5], WORLD[6]
    mine, other, older = (5, WORLD.link(5)), (5, OTHER.link(4)), (3, WORLD.link(3))
    steps = [{"do": "head"}, feed(sixth), lookup("alice", WORLD.reply("alice", 6)), lookup("alice", WORLD.reply("alice", 3), 3)]
    wanted = ["head 5", "fed 6", SECOND_KEY, "UnknownEpoch"]
    yield case("late start: two auditors of two", steps, *wanted, now=hour(6), **vouched(fifth, 2, mine, mine))
    yield case("late start: two auditors of three", steps[:1], "head 5", now=hour(6), **vouched(fifth, 2, mine, older, mine))
    again = [feed(WORLD[3]), feed(fifth), head("compare", 3, WORLD.link(3)), head("compare", 4, OTHER.link(4))]
    wanted = ["NotLater", "NotLater", "compare unknown", "compare differs"]
    yield case("late start: what comes before", again, *wanted, now=hour(6), **vouched(fifth, 1, mine))
    none = signed(resigned(fifth, 113, bytes(32))[:145])
    wrong: list[tuple[str, bytes, int, list[tuple[int, bytes]], str]] = [
        ("too few auditors", fifth, 2, [mine, older], "NotVouched"),
        ("no auditor", fifth, 1, [], "NotVouched"),
        ("an auditor of another epoch", fifth, 1, [older], "NotVouched"),
        ("an auditor with another link", fifth, 1, [mine, other], "AuditorsDiffer"),
        ("not signed", flipped(fifth, 30), 1, [mine], "Signature"),
        ("another policy", none, 1, [mine], "OtherPolicy"),
        ("version 3", resigned(fifth, 0, b"\3"), 1, [mine], "Malformed malformed"),
        ("208 bytes", fifth[:208], 1, [mine], "EntryLength"),
    ]
    for what, entry, least, heads, refusal in wrong:
        yield case(f"late start: {what}", [], refusal, now=hour(6), **vouched(entry, least, *heads))


def clocks() -> Iterator[Answer]:
    """Epoch 3 begins 7,200 seconds after the start, and is looked up at other times."""
    requested, by_number = lookup("alice", WORLD.reply("alice", 3)), lookup("alice", WORLD.reply("alice", 3), 3)
    begins = START + 2 * PERIOD
    times: list[tuple[str, int, str, dict[str, Any]]] = [
        ("as it begins", begins, SECOND_KEY, {}),
        ("after two periods", begins + 2 * PERIOD, SECOND_KEY, {}),
        ("a second after two periods", begins + 2 * PERIOD + 1, "Stale", {}),
        ("300 seconds too early", begins - 300, SECOND_KEY, {}),
        ("301 seconds too early", begins - 301, "Future", {}),
        ("before the start of epoch 1", START - 1, "Future", {}),
        ("a max_age of 10, after 10", begins + 10, SECOND_KEY, {"max_age": 10}),
        ("a max_age of 10, after 11", begins + 11, "Stale", {"max_age": 10}),
        ("a max_age of 0, after 1", begins + 1, "Stale", {"max_age": 0}),
        ("a skew of 0, as it begins", begins, SECOND_KEY, {"skew": 0}),
        ("a skew of 0, a second too early", begins - 1, "Future", {"skew": 0}),
        ("years later", begins + 10**9, "Stale", {}),
    ]
    for what, now, wanted, more in times:
        yield case(f"clock: {what}", [THREE, requested, by_number], FED, wanted, SECOND_KEY, now=now, **more)
    stale = [THREE, {**lookup("bob", flipped(WORLD.reply("alice", 3), 250)), "now": begins + 10**6}]
    yield case("clock: the age comes before the VRF proof", stale, FED, "Stale")
    forked = [THREE, {**lookup("alice", OTHER.reply("alice", 3)), "now": begins + 10**6}]
    yield case("clock: evidence comes before the age", forked, FED, "Equivocation overlap 3")
    text = policy_text(has_clock=False)
    timeless = World([(1, {"alice": FIRST_KEY.encode()})], policy=digest(text))
    much_later = [feed(timeless[1]), {**lookup("alice", timeless.reply("alice", 1)), "now": hour(10**6)}]
    yield case("clock: a policy without one", much_later, "fed 1", FIRST_KEY, policy=text)
    far = resigned(WORLD[3], 1, number(2**64 - 1, 8))
    last = [
        feed(*WORLD.entries(1, 2), far),
        lookup("alice", WORLD.reply("alice", 3, entry=far)),
        lookup("alice", WORLD.reply("alice", 2)),
    ]
    yield case("clock: the last number there is", last, f"fed 1 2 {2**64 - 1}", "Future", "OtherEpoch", now=hour(2))
