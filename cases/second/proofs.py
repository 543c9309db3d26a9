"""`keydir check`: the proof of a line, and its faults."""

from __future__ import annotations

import base64
from typing import Optional

from bytelists import LONGEST_KEY, LONGEST_NAME, bit
from members import Fault, Wrong, array, b64, h32, member, object_in, read_object, text, texts_bytes
from strict_json import Json
from tree import climb


class Proof:
    """A proof: its siblings, the kind of its end, and the members of such an end."""

    def __init__(self, value: Json) -> None:
        members = object_in(value)
        end = object_in(members.get("end"))
        self.kind = text(end.get("kind"))
        if self.kind == "other":
            self.commitment = h32(end.get("commitment"))
            self.index = h32(end.get("index"))
        elif self.kind == "here":
            self.key = b64(end.get("key"))
            self.name = texts_bytes(end.get("name"))
            self.opening = h32(end.get("opening"))
        elif self.kind != "empty":
            raise Wrong
        self.siblings = [h32(sibling) for sibling in array(members.get("siblings"))]


def agree(one: bytes, other: bytes, bits: int) -> bool:
    return all(bit(one, k) == bit(other, k) for k in range(bits))


def judge(proof: Proof, index: bytes, name: bytes, nonce: bytes, root: bytes) -> Optional[bytes]:
    """The key that an accepted proof shows, or None if it shows absence."""
    if len(proof.siblings) > 256:
        raise Fault("TooDeep")
    if not 1 <= len(name) <= LONGEST_NAME:
        raise Fault("NameLength")
    if proof.kind == "here" and not 1 <= len(proof.key) <= LONGEST_KEY:
        raise Fault("KeyLength")
    if proof.kind == "here" and proof.name != name:
        raise Fault("WrongName")
    if proof.kind == "other" and proof.index == index:
        raise Fault("OtherIsSame")
    if proof.kind == "other" and not agree(proof.index, index, len(proof.siblings)):
        raise Fault("OtherOffPath")
    if climb(nonce, index, name, proof) != root:
        raise Fault("RootMismatch")
    return proof.key if proof.kind == "here" else None


class Checker:
    def answer(self, line: bytes) -> dict[str, object]:
        members = read_object(line)
        index = member(members, "index", h32)
        name = member(members, "name", texts_bytes)
        nonce = member(members, "nonce", h32)
        root = member(members, "root", h32)
        key = judge(member(members, "proof", Proof), index, name, nonce, root)
        if key is None:
            return {"answer": "absent", "ok": "check"}
        return {"answer": "key", "key": base64.b64encode(key).decode(), "ok": "check"}
