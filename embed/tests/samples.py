"""Lookups, and proofs that are changed in one place or another, for the tests of the library for C and of the page."""

from __future__ import annotations

import base64
import hashlib
import json
import re
import runpy
import subprocess
import tempfile
from pathlib import Path
from random import Random
from typing import Any, Callable, Optional, Sequence, Union

from proof_bytes import bytes_of

TOP = Path(__file__).resolve().parents[2]
HEADER = (TOP / "include/coniks.h").read_text("utf-8")


# A line of `keydir run`, and a question: the nonce, the root and the index by their names, the name, and the bytes of the proof.
Line = dict[str, Any]
Question = tuple[dict[str, bytes], bytes, bytes]


def run(*words: Union[str, Path], **more: Any) -> subprocess.CompletedProcess[bytes]:
    return subprocess.run([str(it) for it in words], capture_output=True, timeout=3000, **more)


def statuses() -> dict[str, int]:
    """The numbers of `enum coniks_status`, by their names, those of errors without their `E_`."""
    body = re.search(r"enum coniks_status \{(.*?)\};", HEADER, re.S)
    assert body
    return {name: int(number) for name, number in re.findall(r"CONIKS_(?:E_)?([A-Z_]+) = (\d+)", body[1])}


def texts() -> dict[str, str]:
    """The texts of the library's errors, by their names in `enum coniks_status` without `E_`."""
    tables = runpy.run_path(str(TOP / "scripts/tables"))
    return {it.upper: it.text for it in tables["all_rows"](tables["read_table"]().statuses)}


def lines_of(program: str, script: Union[str, Path]) -> list[Line]:
    ran = run(program, "run", stdin=open(script, "rb"))
    return [json.loads(it) for it in ran.stdout.splitlines()]


def lookups(program: str) -> list[Line]:
    """Lookups with their lines: of the examples, and of a directory of 300 names, some for absent names."""
    found = [it for script in ["lookups", "tour", "renewed"] for it in lines_of(program, TOP / f"examples/{script}.jsonl")]
    with tempfile.NamedTemporaryFile("w", suffix=".jsonl") as script:
        print(json.dumps({"cmd": "open", "key": "5a" * 32, "nonce": "11" * 32, "policy": "33" * 32}), file=script)
        key: Callable[[int], str] = lambda it: base64.b64encode(hashlib.sha256(b"%d" % it).digest() * (1 + it % 40)).decode()
        ops = [{"key": key(it), "name": f"user-{it}", "op": "register", "opening": f"{it:064x}"} for it in range(300)]
        print(json.dumps({"cmd": "batch", "epoch": 1, "ops": ops}), file=script)
        for it in range(0, 400, 3):
            print(json.dumps({"cmd": "lookup", "epoch": 1, "name": f"user-{it}"}), file=script)
        script.flush()
        found += lines_of(program, script.name)
    return [it for it in found if it.get("ok") == "lookup"]


def wire_status(proof: bytes) -> Optional[int]:
    """The status of bytes that are no proof's, None of a proof's: read here once more, by docs/FORMATS.md."""
    if not proof:
        return 17
    if proof[0] > 2:
        return 18
    if len(proof) < 3:
        return 19
    at = 3 + 32 * int.from_bytes(proof[1:3], "big")
    if len(proof) < at:
        return 20
    if proof[0] == 1:
        at += 64
        if len(proof) < at:
            return 21
    if proof[0] == 2:
        at += 32
        if len(proof) < at:
            return 22
        for size, fault in [(2, 23), (4, 24)]:
            at += size + int.from_bytes(proof[at : at + size], "big")
            if len(proof) < at:
                return fault
    return 25 if len(proof) > at else None


def object_of(proof: bytes) -> Optional[dict[str, Any]]:
    """The object of a proof's bytes; None if the name is not text, which no line can contain."""
    count = int.from_bytes(proof[1:3], "big")
    siblings = [proof[3 + 32 * it : 35 + 32 * it].hex() for it in range(count)]
    rest = proof[3 + 32 * count :]
    if proof[0] == 0:
        end = {"kind": "empty"}
    elif proof[0] == 1:
        end = {"kind": "other", "index": rest[:32].hex(), "commitment": rest[32:].hex()}
    else:
        size = int.from_bytes(rest[32:34], "big")
        try:
            name = rest[34 : 34 + size].decode()
        except UnicodeDecodeError:
            return None
        end = {"kind": "here", "opening": rest[:32].hex(), "name": name, "key": base64.b64encode(rest[38 + size :]).decode()}
    return {"end": end, "siblings": siblings}


def mutated(chance: Random, line: Line) -> Question:
    """A question, mostly changed in one place or another, with its proof's bytes."""
    given = {it: bytes.fromhex(line[it]) for it in ("nonce", "root", "index")}
    name, proof = line["name"].encode(), bytearray(bytes_of(line["proof"]))
    how = chance.randrange(12)
    if how == 0:
        part = chance.choice(list(given))
        given[part] = bytes(it ^ (chance.randrange(32) == 0) for it in given[part])
    elif how == 1:
        name = chance.choice([b"", b"x" * 255, b"x" * 256, name + b"x", name[:-1]])
    elif how == 2:
        del proof[chance.randrange(chance.choice([3, len(proof)])) :]
    elif how == 3:
        proof += chance.randbytes(chance.randrange(1, 40))
    elif how == 4:
        proof[chance.randrange(min(3, len(proof)))] = chance.choice([0, 1, 2, 3, 255])
    elif how == 5:
        extra = chance.choice([1, 255, 256, 257, 300])
        count = int.from_bytes(proof[1:3], "big")
        proof[1:3] = (count + extra).to_bytes(2, "big")
        proof[3:3] = chance.randbytes(32 * extra)
    elif how == 6:
        proof = bytearray(chance.randbytes(chance.randrange(120)))
    elif how == 7:
        proof[:] = proof[:3] + chance.randbytes(64) if len(proof) >= 3 else proof
        proof[:3] = b"\x01\0\0"
        if chance.randrange(2):
            proof[3:35] = given["index"]
    elif how == 8 and line["proof"]["end"]["kind"] == "here":
        key = chance.choice([b"", b"k", bytes(16384), bytes(16385)])
        del proof[-len(base64.b64decode(line["proof"]["end"]["key"])) - 4 :]
        proof += len(key).to_bytes(4, "big") + key
    elif how < 11:
        for _ in range(chance.randrange(1, 4)):
            proof[chance.randrange(len(proof))] ^= 1 << chance.randrange(8)
    return given, name, bytes(proof)


def printed_by_program(program: str, questions: Sequence[Question]) -> list[Optional[str]]:
    """The result of `keydir check` for those whose bytes are proofs, as (status, key); None for the others."""
    lines, places = [], []
    for place, (given, name, proof) in enumerate(questions):
        if wire_status(proof) is None:
            it = object_of(proof)
            try:
                text = name.decode()
            except UnicodeDecodeError:
                it = None
            if it is not None:
                lines.append(json.dumps({"name": text, "proof": it} | {part: value.hex() for part, value in given.items()}))
                places.append(place)
    answers = run(program, "check", input="".join(f"{it}\n" for it in lines).encode()).stdout.splitlines()
    numbers = {name.replace("_", "").lower(): it for name, it in statuses().items()}
    printed: list[Optional[str]] = [None] * len(questions)
    for place, answer in zip(places, map(json.loads, answers), strict=True):
        if "fault" in answer:
            printed[place] = str(numbers[answer["fault"].lower()])
        else:
            printed[place] = "1" if answer["answer"] == "absent" else f"0 {base64.b64decode(answer['key']).hex()}"
    return printed
