#!/usr/bin/env python3
"""Tests what the client and the auditor refuse, and what is no evidence of equivocation, on the lines of lines.jsonl.

The last line is `N passed, M failed`.
"""

from __future__ import annotations

import hashlib
import json
import sys
from pathlib import Path
from typing import Any, Callable, Optional, Sequence

HERE = Path(__file__).resolve().parent
sys.dont_write_bytecode = True
sys.path.append(str(HERE.parent.parent / "embed/python/src"))

import coniks
import ecvrf
from auditor import audit
from client import look_up, opened, watch
from coniks.client import Cause, Refusal, Watched
from equivocation import Evidence, convicts, find_evidence
from keys import PublicKeys, is_signed
from nacl import bindings as sodium
from nacl.signing import SigningKey
from vectors import Count, flipped

SIGNER, VRF = (hashlib.sha256(it).digest() for it in (b"signing key", b"key of the VRF"))
KEYS = PublicKeys(bytes(SigningKey(SIGNER).verify_key), ecvrf.public_key(VRF))
LINES: list[dict[str, Any]] = [json.loads(it) for it in (HERE / "lines.jsonl").read_text("utf-8").splitlines()]
ENTRIES = [bytes.fromhex(it["entry"]) for it in LINES if it["ok"] == "install"]
LOOKUP = next(it for it in LINES if it["ok"] == "lookup" and it["name"] == "alice")
ABSENT = next(it for it in LINES if it["ok"] == "lookup" and it["name"] == "dave")


def reply(name: str = "alice", line: dict[str, Any] = LOOKUP, **changed: Any) -> bytes:
    """The reply of a provider whose program printed this line, or one with other members."""
    message, proof = line | changed, ecvrf.prove(VRF, name.encode())
    return b"\1" + bytes.fromhex(message["entry"]) + len(proof).to_bytes(2, "big") + proof + coniks.proof_bytes(message["proof"])


def signed(body: bytes, key: bytes = SIGNER) -> bytes:
    return body + SigningKey(key).sign(body).signature


def signed_again(body: bytes) -> bytes:
    """The body with another valid signature of its signer, who took another nonce (RFC 8032, section 5.1.6)."""
    r = int.from_bytes(hashlib.sha512(b"another nonce" + body).digest(), "little") % ecvrf.ORDER
    point = sodium.crypto_scalarmult_ed25519_base_noclamp(r.to_bytes(32, "little"))
    k = int.from_bytes(hashlib.sha512(point + KEYS.signing + body).digest(), "little")
    clamped = int.from_bytes(hashlib.sha512(SIGNER).digest()[:32], "little") % 2**254 & ~7 | 2**254
    return body + point + ((r + k * clamped) % ecvrf.ORDER).to_bytes(32, "little")


def raised(call: Callable[..., object], *arguments: object) -> object:
    """The cause of a refusal, None if there is none."""
    try:
        call(*arguments)
    except Refusal as error:
        return error.cause
    return None


def try_client(count: Count) -> None:
    entry, bob = bytes.fromhex(LOOKUP["entry"]), opened(KEYS, b"".join(ENTRIES))
    count.tell("alice has a key", look_up(bob, "alice", 1, reply()) == b"key of alice")
    count.tell("dave has none", look_up(bob, "dave", 2, reply("dave", ABSENT)) is None)
    proof = {"end": {"kind": "empty"}, "siblings": LOOKUP["proof"]["siblings"]}
    refused: list[tuple[str, Cause, str, int, bytes]] = [
        ("another epoch", Cause.OTHER_EPOCH, "alice", 2, reply()),
        ("an epoch that is not there", Cause.UNKNOWN_EPOCH, "alice", 4, reply()),
        ("the proof of another name", Cause.VRF_PROOF, "alice", 1, reply("bob")),
        ("another name", Cause.WRONG_NAME, "dave", 1, reply("dave")),
        ("an absence", Cause.ROOT_MISMATCH, "alice", 1, reply(proof=proof)),
        ("no entry", Cause.CUT_IN_ENTRY, "alice", 1, reply(entry="")[:200]),
        (
            "another directory's entry",
            Cause.EQUIVOCATION,
            "alice",
            1,
            reply(entry=signed(flipped(entry[: coniks.BODY_LENGTH], 20)).hex()),
        ),
    ]
    for place in range(len(entry)):
        refused.append((f"byte {place} changed", Cause.SIGNATURE, "alice", 1, reply(entry=flipped(entry, place).hex())))
    for what, wanted, *arguments in refused:
        found = raised(look_up, bob, *arguments)
        count.tell(f"client, {what}: {found}", found is wanted)
    for what, wanted, keys in [
        ("another signing key", Cause.SIGNATURE, PublicKeys(KEYS.vrf, KEYS.vrf)),
        ("another VRF key, so another policy", Cause.OTHER_POLICY, PublicKeys(KEYS.signing, ecvrf.public_key(SIGNER))),
    ]:
        found = raised(opened, keys, b"".join(ENTRIES))
        count.tell(f"client, {what}: {found}", found is wanted)


def watched(key: bytes, epochs: Sequence[int], **changed: Any) -> list[Optional[Watched]]:
    """What the owner of alice's name sees who expects a key."""
    lines = {it["epoch"]: it for it in LINES if it["ok"] == "lookup" and it["name"] == "alice"}
    alice = opened(KEYS, b"".join(ENTRIES))
    return watch(alice, "alice", key, [(it, reply(line=lines[it], **changed)) for it in epochs])


def try_watch(count: Count) -> None:
    same, changed = Watched.SAME, Watched.CHANGED
    count.tell("watch, the first key", watched(b"key of alice", (1, 2, 3)) == [same, same, changed])
    count.tell("watch, the second key", watched(b"key of mallory", (1, 2, 3)) == [changed, changed, same])
    refused: list[tuple[str, Cause, int, dict[str, Any]]] = [
        ("a changed signature", Cause.SIGNATURE, 1, {"entry": flipped(ENTRIES[0], 160).hex()}),
        ("the entry of another epoch", Cause.OTHER_EPOCH, 3, {"entry": ENTRIES[0].hex()}),
        ("the proof of another name", Cause.WRONG_NAME, 1, {"proof": named(LOOKUP["proof"], "bob")}),
    ]
    for what, wanted, epoch, other in refused:
        found = raised(lambda: watched(b"key of alice", [epoch], **other))
        count.tell(f"watch, {what}: {found}", found is wanted)


def named(proof: dict[str, Any], name: str) -> dict[str, Any]:
    return proof | {"end": proof["end"] | {"name": name}}


def try_auditor(count: Count) -> None:
    count.tell("the chain is accepted", [it.epoch for it in audit(KEYS, ENTRIES)] == [1, 2, 3])
    forged = signed(ENTRIES[1][: coniks.BODY_LENGTH], VRF)
    for what, wanted, entries in [
        ("a signature under another key", Cause.SIGNATURE, [ENTRIES[0], forged]),
        ("an entry twice", Cause.NOT_LATER, [ENTRIES[0], ENTRIES[0]]),
        ("an entry left out", Cause.PREVIOUS_EPOCH, [ENTRIES[0], ENTRIES[2]]),
        ("an entry that is not the first", Cause.PREVIOUS_EPOCH, [ENTRIES[1]]),
        ("two first entries", Cause.EQUIVOCATION, [ENTRIES[0], signed(flipped(ENTRIES[0][: coniks.BODY_LENGTH], 20))]),
    ]:
        found = raised(audit, KEYS, entries)
        count.tell(f"auditor, {what}: {found}", found is wanted)


def with_number(body: bytes, place: int, number: int) -> bytes:
    """The body with another epoch, at place 1, or another epoch before, at place 9."""
    return body[:place] + number.to_bytes(8, "big") + body[place + 8 :]


def try_evidence(count: Count) -> None:
    body, third = ENTRIES[2][: coniks.BODY_LENGTH], ENTRIES[2]
    other, later = signed(flipped(body, 20)), with_number(with_number(body, 1, 9), 9, 8)
    again = signed_again(body)
    count.tell("one body has two signatures", again != third and is_signed(KEYS.signing, again))
    for what, another, kind in [
        ("two bodies of one epoch", other, coniks.EvidenceKind.OVERLAP),
        ("two epochs after one entry", signed(with_number(body, 1, 4)), coniks.EvidenceKind.OVERLAP),
        ("an epoch after two entries", signed(with_number(body, 9, 1)), coniks.EvidenceKind.OVERLAP),
        ("another policy at a later epoch", signed(flipped(later, 120)), coniks.EvidenceKind.OTHER_POLICY),
        ("another version at a later epoch", signed(b"\7" + later[1:]), coniks.EvidenceKind.MALFORMED),
    ]:
        found = convicts(KEYS.signing, third, another), convicts(KEYS.signing, another, third)
        count.tell(f"evidence: {what}", found == (kind, kind))
    for what, one, another in [
        ("one entry twice", third, third),
        ("two signatures of one body", third, again),
        ("two epochs", ENTRIES[1], third),
        ("a later epoch with another link", third, signed(flipped(later, 60))),
        ("another signer", third, signed(flipped(body, 20), VRF)),
        ("a changed signature of one body", third, flipped(third, 150)),
        ("a changed body", third, flipped(third, 20)),
        ("a cut entry", third, other[:208]),
        ("a longer entry", third, other + b"\0"),
    ]:
        count.tell(f"no evidence: {what}", not convicts(KEYS.signing, one, another) and not convicts(KEYS.signing, another, one))
    count.tell("no evidence under another key", not convicts(KEYS.vrf, third, other))
    try_chains(count, [*ENTRIES[:2], signed(with_number(ENTRIES[2][: coniks.BODY_LENGTH], 1, 4))])


def try_chains(count: Count, forked: list[bytes]) -> None:
    """Chains that part after the second entry, without an epoch in common after it."""
    compared: list[tuple[str, list[bytes], object]] = [
        ("that part", forked, Evidence(ENTRIES[2], forked[2], coniks.EvidenceKind.OVERLAP)),
        ("of which one begins the other", forked[:2], None),
        ("that are one", ENTRIES, None),
        ("of which one is empty", [], None),
        ("with two signatures of a body", [*ENTRIES[:2], signed_again(ENTRIES[2][: coniks.BODY_LENGTH])], None),
    ]
    for what, theirs, wanted in compared:
        count.tell(f"chains {what}", find_evidence(KEYS.signing, ENTRIES, theirs) == wanted)


def main() -> int:
    count = Count()
    try_client(count)
    try_watch(count)
    try_auditor(count)
    try_evidence(count)
    print(f"{count.passed} passed, {count.failed} failed")
    return 1 if count.failed else 0


if __name__ == "__main__":
    sys.exit(main())
