"""Cases of clients that are given other keys, entries, signatures and replies than the directory's."""

from __future__ import annotations

from hashlib import sha512
from typing import Any, Iterator, Optional

import curve
from bytelists import number, sha256
from client import Answer
from client_world import BATCHES, POLICY, SIGNING, SIGNING_KEY, VRF, VRF_KEY, World, digest, hour, index, policy_text, signed
from client_world import vrf_proof
from replies import reply

WORLD = World(BATCHES, 6)
# The same directory until epoch 2, and another one after it.
OTHER = World([*BATCHES[:2], (3, {"alice": b"key of mallory"}), (4, {})])

# The points of small order by their encodings, and the encodings of theirs whose number is not reduced.
SMALL = {
    "the identity": "01" + "00" * 31,
    "the point of order 2": "ec" + "ff" * 30 + "7f",
    "a point of order 4": "00" * 32,
    "the other point of order 4": "00" * 31 + "80",
    "a point of order 8": "26e8958fc2b227b045c3f489f2ef98f0d5dfac05d3c63339b13802886d53fc05",
    "its negative": "26e8958fc2b227b045c3f489f2ef98f0d5dfac05d3c63339b13802886d53fc85",
    "another point of order 8": "c7176a703d4dd84fba3c0b760d10670f2a2053fa2c39ccc64ec7fd7792ac037a",
    "that one's negative": "c7176a703d4dd84fba3c0b760d10670f2a2053fa2c39ccc64ec7fd7792ac03fa",
    "the identity, not reduced": "ee" + "ff" * 30 + "7f",
    "the identity with a sign": "01" + "00" * 30 + "80",
    "order 4, not reduced": "ed" + "ff" * 30 + "7f",
    "order 2 with a sign": "ec" + "ff" * 31,
}
NOT_POINTS = {
    "no point": "02" + "00" * 31,
    "the greatest number": "ff" * 32,
    "a point whose y is not reduced": "f0" + "ff" * 30 + "7f",
}
TORSION = curve.decode(bytes.fromhex(SMALL["a point of order 8"]))


def mixed(key: bytes) -> bytes:
    """A point of mixed order: a key plus a point of order 8."""
    point = curve.decode(key)
    assert point and TORSION
    return curve.encode(curve.add(point, TORSION))


def case(name: str, steps: list[Answer], *wanted: str, now: Optional[int] = None, **more: Any) -> Answer:
    """A case, with its verdicts in words: one for each step, or the one with which the client can't begin."""
    keys = {"signing_key": SIGNING_KEY.hex(), "vrf_key": VRF_KEY.hex(), "policy": POLICY}
    return {**keys, "name": name, "now": now or hour(3), "steps": steps, "wanted": list(wanted), **more}


def feed(*entries: bytes) -> Answer:
    return {"do": "feed", "entries": [it.hex() for it in entries]}


def lookup(name: str, replied: bytes, epoch: Optional[int] = None) -> Answer:
    return {"do": "lookup", "name": name.encode().hex(), "reply": replied.hex(), "epoch": epoch}


THREE = feed(*WORLD.entries(1, 2, 3))
FED = "fed 1 2 3"


def keys() -> Iterator[Answer]:
    others = {**SMALL, **NOT_POINTS, "a point of mixed order": mixed(SIGNING_KEY).hex()}
    for what, text in others.items():
        policy = policy_text(bytes.fromhex(text))
        yield case(f"signing key: {what}", [], "SigningKey", signing_key=text, policy=policy)
    for what, text in {**others, "a point of mixed order": mixed(VRF_KEY).hex()}.items():
        policy = policy_text(vrf=bytes.fromhex(text))
        yield case(f"VRF key: {what}", [], "VrfKey", vrf_key=text, policy=policy)
    yield case("signing key: not the policy's", [], "PolicyKeys", signing_key=VRF_KEY.hex())
    yield case("VRF key: not the policy's", [], "PolicyKeys", vrf_key=SIGNING_KEY.hex())
    yield case("VRF key: none, though the policy has one", [], "PolicyKeys", vrf_key=None)
    yield case("VRF key: one, though the policy has none", [], "PolicyKeys", policy=policy_text(vrf=None))
    yield case("the directory's keys", [THREE, lookup("alice", WORLD.reply("alice", 3))], FED, "second key of alice")
    swapped: dict[str, Any] = {"signing_key": VRF_KEY.hex(), "vrf_key": SIGNING_KEY.hex()}
    yield case("keys of another directory", [THREE], "Signature", policy=policy_text(VRF_KEY, SIGNING_KEY), **swapped)


def edited(whole: bytes, place: int, text: bytes) -> bytes:
    return whole[:place] + text + whole[place + len(text) :]


def flipped(whole: bytes, place: int) -> bytes:
    place %= len(whole)
    return edited(whole, place, bytes([whole[place] ^ 1 << place % 8]))


def resigned(whole: bytes, place: int, text: bytes, key: bytes = SIGNING) -> bytes:
    """An entry with other bytes in its body, signed again."""
    return signed(edited(whole[:145], place, text), key)


FIELDS = {"version": 0, "epoch": 8, "epoch before": 16, "root": 30, "link": 60, "nonce": 90, "policy": 130, "R": 150, "S": 190}


def entries() -> Iterator[Answer]:
    first, second, third = WORLD.entries(1, 2, 3)
    two, good = feed(first, second), feed(third)
    fed, went_on = "fed 1 2", "fed 3"
    for what, place in FIELDS.items():
        yield case(f"feed: {what} changed", [two, feed(flipped(third, place)), good], fed, "Signature", went_on)
    signer: list[tuple[str, bytes, str]] = [
        ("version 0", resigned(third, 0, b"\0"), "Malformed malformed 1"),
        ("version 3", resigned(third, 0, b"\3"), "Malformed malformed 1"),
        ("an epoch like the one before", resigned(third, 1, number(2, 8)), "Malformed malformed 1"),
        ("epoch 0", resigned(third, 1, number(0, 8)), "Malformed malformed 1"),
        ("a first entry with a link", resigned(third, 9, number(0, 8)), "Malformed overlap 1"),
        ("another policy", resigned(third, 113, sha256(b"policy")), "OtherPolicy other policy 1"),
        ("another policy and version 3", resigned(edited(third, 0, b"\3"), 113, sha256(b"policy")), "OtherPolicy other policy 1"),
        ("another policy at an epoch of the chain", resigned(second, 113, sha256(b"policy")), "OtherPolicy other policy 1"),
        ("another link", resigned(third, 49, sha256(b"link")), "PreviousLink"),
        ("a zero link", resigned(third, 49, bytes(32)), "PreviousLink"),
        ("another nonce in version 1", resigned(third, 81, sha256(b"nonce of the provider")), "NonceChanged"),
        ("a skipped epoch", WORLD[5], "PreviousEpoch"),
        ("a later epoch after none of the chain", resigned(third, 9, number(1, 8)), "Equivocation overlap 2"),
        ("the last epoch again", second, "NotLater"),
        ("the first epoch again", first, "NotLater"),
        ("another root at the last epoch", resigned(second, 17, sha256(b"root")), "Equivocation overlap 2"),
        ("another root at the first epoch", resigned(first, 17, sha256(b"root")), "Equivocation overlap 1"),
        ("a first entry of all epochs", resigned(first, 1, number(9, 8)), "Equivocation overlap 1"),
        ("another link at the last epoch", resigned(second, 49, sha256(b"link")), "Equivocation overlap 2"),
    ]
    for what, entry, wanted in signer:
        yield case(f"feed: {what}, signed", [two, feed(entry), good], fed, wanted, went_on)
        unsigned = entry[:145] + bytes(64)
        yield case(f"feed: {what}, not signed", [two, feed(unsigned), good], fed, "Signature", went_on)
    again = [two, feed(signed(second[:145], nonce=7)), good]
    yield case("feed: the last body with another signature, signed", again, fed, "fed 2", "PreviousLink")
    forged = [two, feed(second[:145] + bytes(64)), good]
    yield case("feed: the last body with another signature, not signed", forged, fed, "Signature", went_on)
    yield from sizes(first, second, third)
    rotated = WORLD[6]
    all_of_them = feed(*WORLD.entries())
    back = signed(b"\1" + number(7, 8) + number(6, 8) + third[17:49] + WORLD_LINK + rotated[81:113] + digest())
    yield case("feed: version 1 after version 2", [all_of_them, feed(back)], "fed 1 2 3 5 6", "VersionBack", now=hour(6))
    yield case("feed: an entry that is not the first", [feed(second)], "PreviousEpoch")
    yield case("feed: a first entry of version 3", [feed(resigned(first, 0, b"\3"))], "Malformed malformed")
    yield case("feed: a first entry of epoch 0", [feed(resigned(first, 1, number(0, 8)))], "Malformed malformed")
    yield case("feed: a first entry with a link", [feed(resigned(first, 49, sha256(b"link")))], "Malformed malformed")
    yield case("feed: a first entry of another policy", [feed(resigned(first, 113, sha256(b"policy")))], "OtherPolicy")
    both = resigned(edited(first, 0, b"\3"), 113, sha256(b"policy"))
    yield case("feed: a first entry of another policy and of version 3", [feed(both)], "OtherPolicy malformed")
    yield case("feed: what comes before a refused entry is kept", [feed(first, second, first, third), good], "NotLater", went_on)
    yield case("feed: nothing after a refused entry is looked at", [feed(second, first), feed(first)], "PreviousEpoch", "fed 1")
    fork = [THREE, feed(OTHER[3]), feed(OTHER[4])]
    yield case("feed: the chain parts", fork, FED, "Equivocation overlap 3", "PreviousLink")
    later = [feed(*WORLD.entries(1, 2, 3, 5)), feed(OTHER[4])]
    yield case("feed: the chain parts, and has another number", later, "fed 1 2 3 5", "Equivocation overlap 5", now=hour(5))


WORLD_LINK = WORLD.link(6)


def sizes(first: bytes, second: bytes, third: bytes) -> Iterator[Answer]:
    for what, entry in [("no byte", b""), ("208 bytes", third[:208]), ("210 bytes", third + b"\0"), ("a body alone", third[:145])]:
        yield case(f"feed: {what}", [feed(first, second), feed(entry)], "fed 1 2", "EntryLength")
    whole = first + second + third
    for what, text, wanted in [
        ("the whole chain", whole, FED),
        ("nothing", b"", "fed"),
        ("one byte less", whole[:-1], "CatchUpLength"),
        ("one byte more", whole + b"\0", "CatchUpLength"),
        ("an entry twice", first + first, "NotLater"),
        ("two entries the wrong way round", second + first, "PreviousEpoch"),
    ]:
        yield case(f"catch-up: {what}", [{"do": "catch up", "bytes": text.hex()}], wanted)


def signatures() -> Iterator[Answer]:
    """Signatures that some verifiers take."""
    entry = WORLD[1]
    r, s = entry[145:177], int.from_bytes(entry[177:], "little")
    zero_nonce = signed(entry[:145], nonce=0)
    yield case("signature: by another nonce", [feed(signed(entry[:145], nonce=5))], "fed 1")
    yield case("signature: R is the identity", [feed(zero_nonce)], "Signature")
    yield case(
        "signature: R is the identity, not reduced", [feed(edited(zero_nonce, 145, bytes.fromhex(NOT_REDUCED)))], "Signature"
    )
    for times in (1, 2, 15):
        more = (s + times * curve.ORDER).to_bytes(33, "little")
        if more[32] == 0:
            yield case(f"signature: S and {times} times the order", [feed(entry[:145] + r + more[:32])], "Signature")
    yield case("signature: S is the order", [feed(entry[:145] + r + number_of(curve.ORDER))], "Signature")
    yield case("signature: S is 0", [feed(entry[:145] + r + bytes(32))], "Signature")
    yield case("signature: all zero", [feed(entry[:145] + bytes(64))], "Signature")
    yield case("signature: of another message", [feed(entry[:145] + WORLD[2][145:])], "Signature")
    yield case("signature: by the VRF's key", [feed(signed(entry[:145], VRF))], "Signature")
    yield case("signature: of the whole entry", [feed(entry[:145] + curve.sign(SIGNING, entry))], "Signature")
    yield case("signature: of the hash of the body", [feed(entry[:145] + curve.sign(SIGNING, sha256(entry[:145])))], "Signature")
    yield case("signature: R with a point of order 8 more", [feed(with_torsion(entry[:145]))], "Signature")
    for what, text in {**SMALL, **NOT_POINTS}.items():
        yield case(f"signature: R is {what}, S is kept", [feed(edited(entry, 145, bytes.fromhex(text)))], "Signature")


NOT_REDUCED = SMALL["the identity, not reduced"]


def number_of(value: int) -> bytes:
    return value.to_bytes(32, "little")


def with_torsion(body: bytes) -> bytes:
    """A signature that only the equation with the cofactor takes."""
    assert TORSION
    r = curve.encode(curve.add(curve.times(5, curve.BASE), TORSION))
    k = int.from_bytes(sha512(r + SIGNING_KEY + body).digest(), "little")
    return body + r + number_of((5 + k * curve.secret_scalar(SIGNING)) % curve.ORDER)


def replies() -> Iterator[Answer]:
    good, key = WORLD.reply("alice", 3), "second key of alice"
    yield case("reply: a key", [THREE, lookup("alice", good)], FED, key)
    yield case("reply: an absence", [THREE, lookup("dave", WORLD.reply("dave", 3))], FED, "none")
    yield case("reply: an older epoch", [THREE, lookup("alice", WORLD.reply("alice", 1), 1)], FED, "key of alice")
    again = signed(WORLD[3][:145], nonce=9)
    yield case("reply: another signature of the body", [THREE, lookup("alice", WORLD.reply("alice", 3, entry=again))], FED, key)
    for what, replied, wanted in [*altered(good), *crossed()]:
        yield case(f"reply: {what}", [THREE, lookup("alice", replied), lookup("alice", good)], FED, wanted, key)
    for what, name, replied, wanted in [
        ("another name in the same case", "Alice", good, "VrfProof"),
        ("a name with a zero byte", "alice\0", good, "VrfProof"),
        ("no name", "", WORLD.reply("", 3), "NameLength"),
        ("a name of 256 bytes", "a" * 256, WORLD.reply("a" * 256, 3), "NameLength"),
        ("a name of 255 bytes", "a" * 255, WORLD.reply("a" * 255, 3), "none"),
        ("the key of bob for carol", "carol", WORLD.reply("bob", 3), "VrfProof"),
        ("the path of bob for carol", "carol", WORLD.reply("carol", 3, proof=WORLD.proof("bob", 3)), "WrongName"),
    ]:
        yield case(f"reply: {what}", [THREE, lookup(name, replied)], FED, wanted)
    yield case("reply: before the first entry", [lookup("alice", good)], "UnknownEpoch")
    yield case("reply: an epoch before the first entry", [lookup("alice", good, 3)], "UnknownEpoch")
    yield case("reply: garbage before the first entry", [lookup("alice", flipped(good, 40))], "Signature")
    requested: list[tuple[str, int, Optional[int], str]] = [
        ("an old reply as the latest", 2, None, "OtherEpoch"),
        ("an old reply for a later epoch", 2, 3, "OtherEpoch"),
        ("a later reply for an old epoch", 3, 1, "OtherEpoch"),
        ("an epoch that was not fed", 5, 5, "UnknownEpoch"),
        ("the latest, which was not fed", 5, None, "OtherEpoch"),
        ("a number without an epoch", 5, 4, "UnknownEpoch"),
        ("epoch 0", 1, 0, "UnknownEpoch"),
    ]
    for what, epoch, number_requested, wanted in requested:
        yield case(f"reply: {what}", [THREE, lookup("alice", WORLD.reply("alice", epoch), number_requested)], FED, wanted)
    parted = WORLD.reply("alice", 3, entry=resigned(WORLD[3], 17, sha256(b"root")))
    for what, number_requested in [("an epoch that was not fed", 5), ("an older epoch", 1)]:
        convicting = [THREE, lookup("alice", parted, number_requested)]
        yield case(f"reply: what convicts, asked for {what}", convicting, FED, "Equivocation overlap 3")


def absences() -> Iterator[Answer]:
    """Names that are absent, by each kind of end, and such replies with other bytes."""
    names = [f"absent{it}" for it in range(40)]
    empty, other = (next(it for it in names if WORLD.proof(it, 3)[0] == kind) for kind in (0, 1))
    for what, name, replied, wanted in [
        ("an absence by an empty node", empty, WORLD.reply(empty, 3), "none"),
        ("an absence by another leaf", other, WORLD.reply(other, 3), "none"),
        ("cut in the other leaf's index", other, WORLD.reply(other, 3)[:-33], "CutInOther"),
        ("cut in the other leaf's commitment", other, WORLD.reply(other, 3)[:-1], "CutInOther"),
        ("the other leaf's index changed", other, flipped(WORLD.reply(other, 3), -33), "RootMismatch"),
        ("the other leaf's commitment changed", other, flipped(WORLD.reply(other, 3), -1), "RootMismatch"),
        ("bytes after an empty node", empty, WORLD.reply(empty, 3) + bytes(64), "BytesFollow"),
        ("a name that is registered later", "carol", WORLD.reply("carol", 1), "OtherEpoch"),
    ]:
        yield case(f"absence: {what}", [THREE, lookup(name, replied)], FED, wanted)


def altered(good: bytes) -> Iterator[tuple[str, bytes, str]]:
    """A reply with one part changed, or cut."""
    for what, place in FIELDS.items():
        yield f"{what} changed", flipped(good, 1 + place), "Signature"
    for place in [*range(0, 32, 8), *range(32, 48, 4), *range(48, 80, 8)]:
        yield f"byte {place} of the VRF proof changed", flipped(good, 212 + place), "VrfProof"
    proof = WORLD.proof("alice", 3)
    count = proof[2]
    ends = {"opening": 3 + 32 * count, "name": 3 + 32 * count + 34, "key": 3 + 32 * count + 43}
    for what, place in {**{f"sibling {it}": 3 + 32 * it + 7 for it in range(count)}, **ends}.items():
        wanted = "WrongName" if what == "name" else "RootMismatch"
        yield f"{what} changed", flipped(good, 292 + place), wanted
    yield "version 0", edited(good, 0, b"\0"), "ReplyVersion"
    yield "version 2", edited(good, 0, b"\2"), "ReplyVersion"
    for what, size, wanted in [
        ("no byte", 0, "NoReply"),
        ("a version alone", 1, "CutInEntry"),
        ("cut in the entry", 209, "CutInEntry"),
        ("an entry alone", 210, "CutInVrf"),
        ("cut in the length of the VRF proof", 211, "CutInVrf"),
        ("cut in the VRF proof", 291, "CutInVrf"),
        ("no proof", 292, "NoBytes"),
        ("cut in the number of siblings", 294, "CutInCount"),
        ("cut in a sibling", 292 + 3 + 32 * count - 1, "CutInSiblings"),
        ("cut in the opening", 292 + ends["opening"] + 31, "CutInOpening"),
        ("cut in the name", 292 + ends["name"] + 4, "CutInName"),
        ("cut in the key", len(good) - 1, "CutInKey"),
    ]:
        yield what, good[:size], wanted
    yield "one byte more", good + b"\0", "BytesFollow"
    yield "an unknown kind of end", edited(good, 292, b"\3"), "UnknownKind"
    yield "a longer VRF proof than there is", edited(good, 210, b"\xff\xff"), "CutInVrf"


def crossed() -> Iterator[tuple[str, bytes, str]]:
    """Replies for alice that are put together from parts of others."""
    proof, vrf = WORLD.proof("alice", 3), vrf_proof("alice")
    count, siblings = proof[2], proof[3 : 3 + 32 * proof[2]]
    c, s = int.from_bytes(vrf[32:48], "little"), int.from_bytes(vrf[48:], "little")
    vrfs: list[tuple[str, bytes]] = [
        ("the VRF proof of bob", vrf_proof("bob")),
        ("no VRF proof", b""),
        ("a VRF proof of 79 bytes", vrf[:79]),
        ("a VRF proof of 81 bytes", vrf + b"\0"),
        ("a VRF proof of the signing key", curve.prove(SIGNING, b"alice")),
        ("the number of the VRF proof and the order", vrf[:48] + number_of(s + curve.ORDER)),
        ("a VRF proof of zeros", bytes(80)),
        ("the challenge 0", vrf[:32] + bytes(16) + vrf[48:]),
        ("the number 0", vrf[:48] + bytes(32)),
        ("gamma of mixed order", mixed(vrf[:32]) + vrf[32:]),
        ("gamma of mixed order, and a proof for it", mixed_proof()),
        ("the negative challenge", vrf[:32] + (-c % 2**128).to_bytes(16, "little") + vrf[48:]),
    ]
    vrfs += [(f"gamma is {what}", bytes.fromhex(text) + vrf[32:]) for what, text in {**SMALL, **NOT_POINTS}.items()]
    for what, text in vrfs:
        yield what, WORLD.reply("alice", 3, vrf=text), "VrfProof"
    bob = WORLD.proof("bob", 3)
    paths: list[tuple[str, bytes, str]] = [
        ("the path of bob", bob, "WrongName"),
        ("the path of dave", WORLD.proof("dave", 3), ""),
        ("an absence by an empty node", b"\0" + proof[1:3] + siblings, "RootMismatch"),
        ("an absence by an empty node at the root", b"\0\0\0", "RootMismatch"),
        ("an absence by her own leaf", b"\1" + proof[1:3] + siblings + index("alice") + bytes(32), "OtherIsSame"),
        ("an absence by a leaf elsewhere", b"\1" + proof[1:3] + siblings + index("bob") + bytes(32), "OtherOffPath"),
        ("a path that is too deep", b"\0" + number(257, 2) + bytes(32 * 257), "TooDeep"),
        ("an empty key", proof[: 3 + 32 * count + 34] + b"alice" + bytes(4), "KeyLength"),
        ("a long key", proof[: 3 + 32 * count + 34] + b"alice" + number(16385, 4) + bytes(16385), "KeyLength"),
        ("the path of an earlier epoch", WORLD.proof("alice", 2), "RootMismatch"),
        ("a path with a sibling less", proof[:1] + number(count - 1, 2) + proof[35:], "RootMismatch"),
        ("a path with a sibling more", proof[:1] + number(count + 1, 2) + bytes(32) + proof[3:], "RootMismatch"),
    ]
    for what, text, wanted in paths:
        yield what, WORLD.reply("alice", 3, proof=text), wanted or absence_of_dave()
    entry = WORLD[3]
    whole: list[tuple[str, bytes, str]] = [
        ("the entry of an earlier epoch", WORLD.reply("alice", 3, entry=WORLD[2]), "OtherEpoch"),
        (
            "an entry of another policy",
            WORLD.reply("alice", 3, entry=resigned(entry, 113, bytes(32))),
            "OtherPolicy other policy 1",
        ),
        ("an entry of version 3", WORLD.reply("alice", 3, entry=resigned(entry, 0, b"\3")), MALFORMED),
        ("an entry whose epoch is the one before", WORLD.reply("alice", 3, entry=resigned(entry, 9, number(3, 8))), MALFORMED),
        ("an entry with a gap", WORLD.reply("alice", 3, entry=resigned(entry, 9, number(1, 8))), "Equivocation overlap 2"),
        ("a later entry after none of the chain", WORLD.reply("alice", 3, entry=resigned(WORLD[5], 9, number(2, 8))), OVERLAP),
        ("the entry of another chain", OTHER.reply("alice", 3), OVERLAP),
        ("a later entry of another chain", OTHER.reply("alice", 4), "OtherEpoch"),
        ("two replies", WORLD.reply("alice", 3) + WORLD.reply("alice", 3), "BytesFollow"),
        ("a reply for another directory", signed_by_another(), "Signature"),
    ]
    yield from whole


MALFORMED, OVERLAP = "Malformed malformed 1", "Equivocation overlap 3"


def absence_of_dave() -> str:
    """Dave's path can't show that alice is absent: it ends elsewhere, or hashes to another root."""
    return "OtherOffPath" if WORLD.proof("dave", 3)[0] == 1 else "RootMismatch"


def mixed_proof() -> bytes:
    """A VRF proof that RFC 9381 takes for a small part of all challenges, since the cofactor clears what was added to gamma."""
    x, hashed = curve.secret_scalar(VRF), curve.hashed_to_curve(VRF_KEY, b"alice")
    assert TORSION
    gamma = curve.encode(curve.add(curve.times(x, hashed), TORSION))
    for k in range(1, 200):
        points = [
            VRF_KEY,
            curve.encode(hashed),
            gamma,
            curve.encode(curve.times(k, curve.BASE)),
            curve.encode(curve.times(k, hashed)),
        ]
        c = curve.challenge(*points)
        if c[0] % 8 == 0:
            return gamma + c + number_of((k + int.from_bytes(c, "little") * x) % curve.ORDER)
    raise AssertionError


def signed_by_another() -> bytes:
    return reply(signed(WORLD[3][:145], VRF), vrf_proof("alice"), WORLD.proof("alice", 3))
