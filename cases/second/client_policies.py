"""Cases of clients: policy documents with the lines `records vouched` and `successor-key`, and texts that are none."""

from __future__ import annotations

from typing import Any, Iterator

import curve
from bytelists import sha256
from client import Answer
from client_attacks import SMALL, case, feed, lookup
from client_world import BATCHES, POLICY, SIGNING_KEY, VRF_KEY, World, digest, policy_text

LINE, EVIDENCE, STORED = "records vouched\n", "evidence one-chain\n", "proofs-kept forever\n"
VOUCHED = policy_text(records_vouched=True)
SUCCESSOR = curve.public_key(sha256(b"successor key"))
KEPT = policy_text(successor=SUCCESSOR)
KEY_LINE, NONE_LINE = f"successor-key {SUCCESSOR.hex()}\n", "successor-key none\n"
FED = "fed 1 2 3"


def followed(name: str, text: str, **more: Any) -> Answer:
    """A client takes the chain of a directory under a policy, and looks a name up."""
    world = World(BATCHES[:3], policy=digest(text))
    steps = [feed(*world.entries()), lookup("alice", world.reply("alice", 3))]
    return case(f"policy: {name}", steps, FED, "second key of alice", policy=text, **more)


def policies() -> Iterator[Answer]:
    yield followed("records vouched", VOUCHED)
    yield followed("records vouched, without a clock", policy_text(has_clock=False, records_vouched=True))
    yield followed("records vouched, and an end of proofs", policy_text(stored=86400, records_vouched=True))
    entries = feed(*World(BATCHES[:3]).entries())
    yield case("policy: the entries of a policy without the line", [entries], "OtherPolicy", policy=VOUCHED)
    yield from successors()
    for what, text in [*no_policies(), *no_successors()]:
        yield case(f"policy: {what}", [], "misuse", policy=text)


def no_policies() -> Iterator[tuple[str, str]]:
    """Texts with the line that are no policy document."""
    yield "the line twice", VOUCHED.replace(LINE, LINE + LINE)
    yield "the line before evidence", POLICY.replace(EVIDENCE, LINE + EVIDENCE)
    yield "the line after proofs-kept", POLICY + LINE
    yield "the line before epoch-start", POLICY.replace("epoch-start", f"{LINE}epoch-start")
    yield "the line before and after proofs-kept", VOUCHED + LINE
    yield "the line in place of evidence", POLICY.replace(EVIDENCE, LINE)
    yield "the line in place of proofs-kept", POLICY.replace(STORED, LINE)
    yield "the line alone", LINE
    for value in ["free", "vouch", "voucher", "vouched1", "Vouched", "vouched ", " vouched", "vouched\r", "vouched 1", ""]:
        yield f"records with the value {value!r}", VOUCHED.replace(LINE, f"records {value}\n")
    for name in ["Records", "record", "records-", " records", "\trecords"]:
        yield f"the line with the name {name!r}", VOUCHED.replace(LINE, f"{name} vouched\n")
    yield "records without a space", VOUCHED.replace(LINE, "recordsvouched\n")
    yield "records with a tab", VOUCHED.replace(LINE, "records\tvouched\n")
    yield "records without a value", VOUCHED.replace(LINE, "records\n")
    yield "an empty line after records", VOUCHED.replace(LINE, f"{LINE}\n")
    yield "records and proofs-kept in one line", VOUCHED.replace(LINE, "records vouched ")
    yield "cut after records", VOUCHED[: VOUCHED.index(LINE) + len(LINE)]
    yield "cut in records", VOUCHED[: VOUCHED.index(LINE) + len(LINE) - 1]


def successors() -> Iterator[Answer]:
    yield followed("a successor key", KEPT)
    yield followed("no successor key", policy_text(successor=b""))
    yield followed("a successor key, without a clock", policy_text(has_clock=False, successor=SUCCESSOR))
    yield followed("a successor key, and records vouched", policy_text(records_vouched=True, successor=SUCCESSOR))
    yield followed(
        "a successor key, records vouched and an end of proofs", policy_text(stored=9, records_vouched=True, successor=SUCCESSOR)
    )
    yield followed("a successor key that is the VRF key", policy_text(successor=VRF_KEY))
    yield followed("a successor key of small order", policy_text(successor=bytes.fromhex(SMALL["the identity"])))
    entries = feed(*World(BATCHES[:3]).entries())
    for what, policy in [("a successor key", KEPT), ("no successor key", policy_text(successor=b""))]:
        yield case(f"policy: {what}, and the entries of a policy without the line", [entries], "OtherPolicy", policy=policy)


def no_successors() -> Iterator[tuple[str, str]]:
    """Texts with the line of a successor key that are no policy document."""
    yield "the signing key as the successor key", policy_text(successor=SIGNING_KEY)
    yield "the successor key twice", KEPT.replace(KEY_LINE, KEY_LINE + KEY_LINE)
    yield "a successor key and none", KEPT.replace(KEY_LINE, KEY_LINE + NONE_LINE)
    yield "no successor key, twice", KEPT.replace(KEY_LINE, NONE_LINE + NONE_LINE)
    yield "the successor key before evidence", POLICY.replace(EVIDENCE, KEY_LINE + EVIDENCE)
    yield "the successor key before records vouched", VOUCHED.replace(LINE, KEY_LINE + LINE)
    yield "the successor key after proofs-kept", POLICY + KEY_LINE
    yield "the successor key after the signing key", POLICY.replace("vrf ", f"{KEY_LINE}vrf ", 1)
    yield "the successor key in place of proofs-kept", POLICY.replace(STORED, KEY_LINE)
    digits = SUCCESSOR.hex()
    others = [
        "",
        "None",
        "NONE",
        "none ",
        " none",
        "forever",
        digits[:63],
        digits[:62],
        f"{digits}0",
        f"{digits}00",
        digits.upper(),
    ]
    for value in [*others, f"{digits} ", f" {digits}", f"{digits}\r", f"{digits[:63]}g", f"{digits} {digits}", f"0x{digits[:62]}"]:
        yield f"successor-key with the value {value!r}", KEPT.replace(KEY_LINE, f"successor-key {value}\n")
    for name in ["Successor-key", "successor", "successor-keys", "successor_key", " successor-key"]:
        yield f"the successor key with the name {name!r}", KEPT.replace("successor-key", name)
    yield "successor-key without a value", KEPT.replace(KEY_LINE, "successor-key\n")
    yield "successor-key with a tab", KEPT.replace("successor-key ", "successor-key\t")
    yield "an empty line after the successor key", KEPT.replace(KEY_LINE, f"{KEY_LINE}\n")
    yield "cut after the successor key", KEPT[: KEPT.index(KEY_LINE) + len(KEY_LINE)]
    yield "cut in the successor key", KEPT[: KEPT.index(KEY_LINE) + len(KEY_LINE) - 1]
