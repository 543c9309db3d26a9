"""The cases of records, in words, with their results. No result was computed."""

from __future__ import annotations

from functools import cache
from typing import NamedTuple, Optional

import curve
from bytelists import sha256
from client_attacks import SMALL
from vouched import Fields, Place, made, noticed

# The policy digests of a directory, and of one that it succeeds.
NOW, BEFORE = sha256(b"the policy"), sha256(b"the policy before")
PLACES = {
    "": Place([NOW], b"alice", True),
    "no clock": Place([NOW], b"alice", False),
    "succeeds": Place([BEFORE, NOW], b"alice", True),
    "bob": Place([NOW], b"bob", True),
}
# The secret keys of alice, of her next device, and of another one.
SECRETS = {name: sha256(name.encode()) for name in ("alice", "next", "third")}
VOUCHERS = {name: curve.public_key(it) for name, it in SECRETS.items()}


class Change(NamedTuple):
    """A comparison: what it shows, the earlier and the later bytes by their names, the epochs, the result, and the place."""

    name: str
    earlier: str
    later: str
    epochs: Optional[tuple[int, int, int]]
    result: str
    place: str = ""


class Step(NamedTuple):
    """What a service may show: what it shows, the present bytes and the others by their names, the epoch, whether it may, and the place."""

    name: str
    present: str
    value: str
    epoch: int
    is_allowed: bool
    place: str = ""


def place_of(name: str) -> Place:
    return PLACES[name]


def record(secret: str, fields: Fields, before: Optional[bytes] = None, policy: bytes = NOW, name: bytes = b"alice") -> bytes:
    return made(policy, name, SECRETS[secret], fields, before)


def asked(value: Optional[bytes], voucher: str, effect: int) -> bytes:
    return noticed(value or b"", (VOUCHERS[voucher], effect))


def numbered(value: bytes, number: int) -> bytes:
    """What a record of a number is made after: any record of the number before."""
    return value[:8] + (number - 1).to_bytes(8, "big") + value[16:]


@cache
def values() -> dict[str, Optional[bytes]]:
    """Bytes by their names. `first` allows a reset after 3 epochs, `never` none."""
    first, never = record("alice", Fields(b"k", 3)), record("alice", Fields(b"k"))
    second = record("alice", Fields(b"l", 3), first)
    found: dict[str, Optional[bytes]] = {
        "none": None,
        "first": first,
        "never": never,
        "second": second,
        "second after never": record("alice", Fields(b"l", 3), never),
        "third": record("alice", Fields(b"m", 3), second),
        "closed": record("alice", Fields(b"", 3), first),
        "first closed": record("alice", Fields(b"", 3)),
        "never closed": record("alice", Fields(b"")),
    }
    return {**found, **far(first), **notices(first, never, second), **resets(first, never), **wrong(first, second)}


def far(first: bytes) -> dict[str, Optional[bytes]]:
    """Records of which those before are unknown."""
    found: dict[str, Optional[bytes]] = {}
    for number in (3, 4, 5, 1 << 40, (1 << 64) - 1):
        after = numbered(first, number)
        found[f"alice's {number}"] = record("alice", Fields(b"x", 3), after)
        found[f"alice's closed {number}"] = record("alice", Fields(b"", 3), after)
        found[f"next's {number}"] = record("next", Fields(b"x", 3), after)
        for effect in (13, 14, 15, 16, 17, 20):
            found[f"next's {number} from {effect}"] = record("next", Fields(b"x", 3, effect), after)
            found[f"alice's {number} from {effect}"] = record("alice", Fields(b"x", 3, effect), after)
    return found


def notices(first: bytes, never: bytes, second: bytes) -> dict[str, Optional[bytes]]:
    found: dict[str, Optional[bytes]] = {}
    for effect in (11, 13, 14, 15, 20):
        found[f"first, next from {effect}"] = asked(first, "next", effect)
    found |= {
        "first, third from 11": asked(first, "third", 11),
        "first, third from 14": asked(first, "third", 14),
        "first, alice from 14": asked(first, "alice", 14),
        "never, next from 14": asked(never, "next", 14),
        "second, next from 14": asked(second, "next", 14),
        "second, next from 15": asked(second, "next", 15),
        "second, next from 16": asked(second, "next", 16),
        "notice of a notice": asked(asked(first, "next", 14), "third", 15),
        "notice of no record": asked(b"plain", "next", 14),
        "notice with a small voucher": noticed(first, (bytes.fromhex(SMALL["the identity"]), 14)),
    }
    return found


def resets(first: bytes, never: bytes) -> dict[str, Optional[bytes]]:
    found: dict[str, Optional[bytes]] = {}
    for effect in (11, 13, 14, 15, 20):
        found[f"reset from {effect}"] = record("next", Fields(b"n", 2, effect), asked(first, "next", effect))
    reset = found["reset from 14"]
    found |= {
        "reset of never": record("next", Fields(b"n", 2, 14), asked(never, "next", 14)),
        "reset by alice": record("alice", Fields(b"n", 2, 14), asked(first, "alice", 14)),
        "reset by another than announced": record("third", Fields(b"n", 2, 14), asked(first, "next", 14)),
        "reset with another effect": record("next", Fields(b"n", 2, 15), asked(first, "next", 14)),
        "reset without an effect": record("next", Fields(b"n", 2), first),
        "reset that closes": record("next", Fields(b"", 2, 14), asked(first, "next", 14)),
        "reset from 14, third from 17": asked(reset, "third", 17),
        "reset from 14, third from 16": asked(reset, "third", 16),
        "after the reset from 14": record("next", Fields(b"o", 2), reset),
        "reset of the closed from 14": record("next", Fields(b"n", 3, 14), asked(record("alice", Fields(b"", 3)), "next", 14)),
    }
    return found


def wrong(first: bytes, second: bytes) -> dict[str, Optional[bytes]]:
    """Bytes that are no record, or one that nobody or somebody else signed."""
    start = record("third", Fields(b"k", 3))
    return {
        "plain": b"plain key",
        "tag alone": b"vouched1",
        "former layout": b"vouched1" + first[8:80] + first[96:],
        "cut": first[:159],
        "longest": record("alice", Fields(b"l" * 16176, 3), first),
        "too long": record("alice", Fields(b"l" * 16177, 3), first),
        "longest, next from 15": asked(record("alice", Fields(b"l" * 16176, 3), first), "next", 15),
        "another second": record("alice", Fields(b"x", 3), first),
        "second, another signature": second[:100] + bytes([second[100] ^ 1]) + second[101:],
        "second, another key": second[:-1] + b"x",
        "second, another notice": second[:87] + b"\4" + second[88:],
        "second of another record": record("alice", Fields(b"l", 3), record("alice", Fields(b"z", 3))),
        "second over a notice": record("alice", Fields(b"l", 3), asked(first, "next", 14)),
        "second with the digest of a notice": record("alice", Fields(b"l", 3, 1), asked(first, "next", 14)),
        "third's first": start,
        "third's second": record("third", Fields(b"l", 3), start),
        "bob's first": record("alice", Fields(b"k", 3), name=b"bob"),
        "first of the policy before": record("alice", Fields(b"k", 3), policy=BEFORE),
        "second of the policy before": record("alice", Fields(b"l", 3), first, policy=BEFORE),
        "first with an effect": record("alice", Fields(b"k", 3, 1)),
        "number 0": first[:15] + b"\0" + first[16:],
        "small voucher": first[:16] + bytes.fromhex(SMALL["the identity"]) + first[48:],
        "opened again": record("alice", Fields(b"k", 3), record("alice", Fields(b"", 3))),
    }


def value_of(name: str) -> Optional[bytes]:
    return values()[name]


# From epoch 10 to epoch 11, from 10 to 20 with an epoch at each number between, and with some fewer.
NEXT, WIDE = (10, 10, 11), (10, 19, 20)
CHANGES = [
    Change("the same bytes", "first", "first", NEXT, "same"),
    Change("the same bytes, which are no record", "plain", "plain", NEXT, "same"),
    Change("no key any more", "first", "none", WIDE, "unvouched"),
    Change("no key any more after no record", "plain", "none", WIDE, "unvouched"),
    Change("a record after no record", "plain", "first", WIDE, "unknown"),
    Change("a record after one of the former layout", "former layout", "second", WIDE, "unknown"),
    Change("no record after a record", "first", "plain", WIDE, "unvouched"),
    Change("a cut record", "first", "cut", WIDE, "unvouched"),
    Change("the next record", "first", "second", NEXT, "vouched"),
    Change("the next record, later", "first", "second", WIDE, "vouched"),
    Change("the next record, which has no effect of a reset", "first", "second with the digest of a notice", WIDE, "unvouched"),
    Change("a next record that takes a notice back", "first, next from 14", "second", NEXT, "vouched"),
    Change("a next record with the digest of the notice", "first, next from 14", "second over a notice", NEXT, "vouched"),
    Change("the next record after another one", "first", "second of another record", NEXT, "unvouched"),
    Change("another signature", "first", "second, another signature", WIDE, "unvouched"),
    Change("another key", "first", "second, another key", WIDE, "unvouched"),
    Change("another notice than signed", "first", "second, another notice", WIDE, "unvouched"),
    Change("another record of one number", "second", "another second", WIDE, "unvouched"),
    Change("an older record", "second", "first", WIDE, "unvouched"),
    Change("an older record of a reset", "third", "reset from 14", WIDE, "unvouched"),
    Change("another record of one number, of a reset", "third", "next's 3 from 20", WIDE, "unvouched"),
    Change("the next record of another name", "first", "second", NEXT, "unvouched", "bob"),
    Change("the next record by another voucher", "first", "third's second", WIDE, "unvouched"),
    Change("the longest record", "first", "longest", NEXT, "vouched"),
    Change("too long a record", "first", "too long", NEXT, "unvouched"),
    Change("the longest record with a notice", "first", "longest, next from 15", (10, 11, 12), "vouched"),
    Change("two records later", "first", "third", WIDE, "vouched"),
    Change("two records later at the next epoch", "first", "third", NEXT, "unvouched"),
    Change("two records later after two epochs", "first", "third", (10, 11, 20), "vouched"),
    Change("three records later after two epochs", "first", "alice's 4", (10, 11, 20), "unvouched"),
    Change("three records later after three epochs", "first", "alice's 4", (10, 12, 20), "vouched"),
    Change("2^40 records later in ten epochs", "first", f"alice's {1 << 40}", WIDE, "unvouched"),
    Change("2^40 records later in as many epochs", "first", f"alice's {1 << 40}", (10, 8 + (1 << 40), 1 << 50), "vouched"),
    Change("2^40 records later in one epoch less", "first", f"alice's {1 << 40}", (10, 7 + (1 << 40), 1 << 50), "unvouched"),
    Change("the last number at the last epoch", "first", f"alice's {(1 << 64) - 1}", (1, (1 << 64) - 2, (1 << 64) - 1), "vouched"),
    Change("closed", "first", "closed", NEXT, "vouched"),
    Change("closed, later", "first", "alice's closed 4", WIDE, "vouched"),
    Change("opened again by its owner", "first closed", "opened again", NEXT, "unvouched"),
    Change("opened again two records later", "first closed", "alice's 3", WIDE, "unvouched"),
    Change("opened again by two resets", "first closed", "alice's 4", (10, 17, 18), "reset"),
    Change("opened again by two resets, too early", "first closed", "alice's 4", (10, 15, 16), "unvouched"),
    Change("opened again by two resets after a closed record", "never closed", "alice's 5", (10, 15, 16), "reset"),
    Change("opened again by two resets after a closed record, too early", "never closed", "alice's 5", (10, 14, 15), "unvouched"),
    Change("closed for ever", "first closed", "alice's closed 4", WIDE, "vouched"),
    Change("a closed name is reset", "first closed", "reset of the closed from 14", (10, 13, 14), "reset"),
    # Notices.
    Change("a notice as early as may be", "first", "first, next from 14", NEXT, "same"),
    Change("a notice one epoch too early", "first", "first, next from 13", NEXT, "unvouched"),
    Change("a notice of an epoch between", "first", "first, next from 14", (10, 15, 20), "same"),
    Change("a notice of the later epoch, since none is between", "first", "first, next from 20", (10, 10, 20), "unvouched"),
    Change("a notice that was taken back", "first, next from 14", "first", NEXT, "same"),
    Change("another notice", "first, third from 14", "first, next from 15", NEXT, "same"),
    Change("the notice that was there, which is old", "first, next from 11", "first, next from 11", WIDE, "same"),
    Change("a notice to the voucher of the record", "first", "first, alice from 14", NEXT, "unvouched"),
    Change("a notice over a record that never allows a reset", "never", "never, next from 14", NEXT, "unvouched"),
    Change("a notice without a clock", "first", "first, next from 14", NEXT, "unvouched", "no clock"),
    Change("a notice over the next record", "first", "second, next from 15", (10, 11, 12), "vouched"),
    Change("a notice over the next record, too early", "first", "second, next from 14", (10, 11, 12), "unvouched"),
    Change("a notice over the next record at the next epoch", "first", "second, next from 15", NEXT, "unvouched"),
    Change("a notice over a notice", "first", "notice of a notice", WIDE, "unvouched"),
    Change("a notice over no record", "first", "notice of no record", WIDE, "unvouched"),
    Change("a notice with a small voucher", "first", "notice with a small voucher", WIDE, "unvouched"),
    Change("a notice over another record", "second", "first, next from 14", WIDE, "unvouched"),
    # Resets.
    Change("a reset after its notice", "first, next from 14", "reset from 14", (13, 13, 14), "reset"),
    Change("a reset before its effect", "first, next from 14", "reset from 14", (12, 12, 13), "unvouched"),
    Change("a reset long after its effect", "first, next from 11", "reset from 11", (50, 50, 51), "reset"),
    Change("a reset whose notice was not seen", "first", "reset from 14", (10, 13, 14), "reset"),
    Change("a reset whose notice was not seen, with too short a notice", "first", "reset from 13", (10, 13, 14), "unvouched"),
    Change("a reset whose notice could be at the last epoch alone", "first", "reset from 20", (10, 10, 20), "unvouched"),
    Change("a reset whose notice could be in time", "first", "reset from 20", (10, 11, 20), "reset"),
    Change("a reset at the next epoch without a notice", "first", "reset from 14", (13, 13, 14), "unvouched"),
    Change("a reset after another notice", "first, third from 14", "reset from 14", (13, 13, 14), "unvouched"),
    Change("a reset after another notice, which was replaced", "first, third from 14", "reset from 15", (11, 14, 15), "reset"),
    Change(
        "a reset by another than announced", "first, next from 14", "reset by another than announced", (13, 13, 14), "unvouched"
    ),
    Change("a reset with another effect", "first, next from 14", "reset with another effect", (14, 14, 15), "unvouched"),
    Change("a reset without an effect", "first, next from 14", "reset without an effect", (13, 13, 14), "unvouched"),
    Change("a reset of a record that never allows one", "never", "reset of never", WIDE, "unvouched"),
    Change("a reset to the same voucher", "first", "reset by alice", WIDE, "unvouched"),
    Change("a reset without a clock", "first, next from 14", "reset from 14", (13, 13, 14), "unvouched", "no clock"),
    Change("a reset that closes", "first, next from 14", "reset that closes", (13, 13, 14), "reset"),
    Change("a record after the reset", "first", "after the reset from 14", WIDE, "reset"),
    Change("a record after the reset, as early as may be", "first", "next's 3", (10, 14, 15), "reset"),
    Change("a record after the reset, one epoch too early", "first", "next's 3", (10, 13, 14), "unvouched"),
    Change("a record after a reset that was announced", "first, next from 11", "next's 3", (10, 11, 12), "reset"),
    Change("a record after a reset that was announced for another", "first, third from 11", "next's 3", (10, 11, 12), "unvouched"),
    Change("another voucher two records after one that never allows it", "never", "next's 3", WIDE, "unvouched"),
    Change("another voucher three records later", "never", "next's 4", (10, 13, 14), "reset"),
    Change("another voucher three records later, in one epoch less", "never", "next's 4", (10, 12, 13), "unvouched"),
    Change("a reset of a record that was not seen", "never", "next's 3 from 13", WIDE, "reset"),
    Change("a reset of a record that was not seen, before its effect", "never", "next's 3 from 20", (10, 18, 19), "unvouched"),
    Change("two resets, back to the first voucher", "first", "alice's 3 from 16", WIDE, "reset"),
    Change("two resets, back too early", "first", "alice's 3 from 15", WIDE, "unvouched"),
    Change("two resets of a record that never allows the first", "never", "alice's 3 from 20", WIDE, "unvouched"),
    Change("two resets after a record between", "never", "alice's 4 from 15", WIDE, "reset"),
    Change("two resets after a record between, too early", "never", "alice's 4 from 14", WIDE, "unvouched"),
    Change("a notice after a reset", "first", "reset from 14, third from 17", WIDE, "reset"),
    Change("a notice after a reset, too early", "first", "reset from 14, third from 16", WIDE, "unvouched"),
    # Different policies.
    Change("the next record by the policy before", "first", "second of the policy before", NEXT, "vouched", "succeeds"),
    Change("the next record by a policy that is not in the line", "first", "second of the policy before", NEXT, "unvouched"),
    Change("records under different policies", "first of the policy before", "alice's 5", None, "vouched", "succeeds"),
    Change("a notice under another policy", "first", "first, next from 11", None, "same", "succeeds"),
    Change("a reset under another policy", "first", "reset from 11", None, "reset", "succeeds"),
    Change("a reset under another policy without a clock", "first", "reset from 11", None, "reset", "no clock"),
    Change(
        "a reset of a record that never allows one, under another policy", "never", "reset of never", None, "unvouched", "succeeds"
    ),
]
STEPS = [
    Step("may: a first record", "none", "first", 11, True),
    Step("may not: a first record of another name", "none", "bob's first", 11, False),
    Step("may: a first record of this other name", "none", "bob's first", 11, True, "bob"),
    Step("may not: a second record at first", "none", "second", 11, False),
    Step("may not: a first record with an effect", "none", "first with an effect", 11, False),
    Step("may not: a first record with a notice", "none", "first, next from 14", 11, False),
    Step("may not: a record of number 0", "none", "number 0", 11, False),
    Step("may not: no record", "none", "plain", 11, False),
    Step("may not: the former layout", "none", "former layout", 11, False),
    Step("may not: a small voucher", "none", "small voucher", 11, False),
    Step("may not: the present bytes", "first", "first", 11, False),
    Step("may: the next record", "first", "second", 11, True),
    Step("may not: the next record but one", "first", "third", 11, False),
    Step("may not: the record before", "second", "first", 11, False),
    Step("may not: a record after no record", "plain", "first", 11, False),
    Step("may not: the next record of another voucher", "first", "third's second", 11, False),
    Step("may: to close", "first", "closed", 11, True),
    Step("may not: to open again", "first closed", "opened again", 11, False),
    Step("may: a notice", "first", "first, next from 14", 11, True),
    Step("may not: a notice that is too short", "first", "first, next from 14", 12, False),
    Step("may not: a notice over a record that never allows it", "never", "never, next from 14", 11, False),
    Step("may not: a notice to the voucher of the record", "first", "first, alice from 14", 11, False),
    Step("may not: a notice without a clock", "first", "first, next from 14", 11, False, "no clock"),
    Step("may: another notice", "first, next from 14", "first, third from 14", 11, True),
    Step("may: to take a notice back", "first, next from 14", "first", 11, True),
    Step("may: the next record after a notice", "first, next from 14", "second", 11, True),
    Step("may not: the next record with a notice", "first", "second, next from 16", 11, False),
    Step("may: a reset at its effect", "first, next from 14", "reset from 14", 14, True),
    Step("may not: a reset before its effect", "first, next from 14", "reset from 14", 13, False),
    Step("may not: a reset without a notice", "first", "reset from 14", 14, False),
    Step("may not: a reset after another notice", "first, third from 14", "reset from 14", 14, False),
    Step("may not: a reset without a clock", "first, next from 14", "reset from 14", 14, False, "no clock"),
    Step("may not: a reset with a notice over it", "first, next from 14", "reset from 14, third from 17", 14, False),
    Step("may: the next record after a reset", "reset from 14", "after the reset from 14", 15, True),
    Step("may: a record that was signed over the policy before", "first", "second of the policy before", 11, True, "succeeds"),
    Step("may not: a record that was signed over another policy", "first", "second of the policy before", 11, False),
]
