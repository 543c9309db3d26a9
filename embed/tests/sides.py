"""What the sides of the library for C in Python, Go, Rust and JavaScript are asked.

Each side has a program that replies to requests, one on each line. The expected reply is what `keydir check`, `keydir audit` and
`keydir monitor` print, what hashlib computes, and what the header and formats.toml say.
"""

from __future__ import annotations

import base64
import hashlib
import json
import os
import random
import sys
from pathlib import Path
from typing import Any, Callable, Iterator, Optional, Sequence, Union

import evidence
import samples
from proof_bytes import bytes_of
from running import EMBED, TOP, run

EVIDENCE = TOP / "cases/evidence.jsonl"
SIGNED, TRANSCRIPT = (TOP / "examples/provider" / it for it in ("lines.jsonl", "transcript.txt"))
KEY = bytes(32)
SEED = 20261126
COUNT = 1000
FAULTS = ["Version", "VersionBack", "FirstEpoch", "NotLater", "PreviousEpoch", "PreviousLink", "NonceChanged", "Verdict"]


# A request with its expected reply, and the arguments of an example with the lines that it must print.
Request = tuple[str, str]
Example = tuple[list[str], list[str]]


def digest(*parts: bytes) -> bytes:
    return hashlib.sha256(b"".join(parts)).digest()


def seal(body: bytes) -> bytes:
    """The demonstration seal, by docs/FORMATS.md."""
    return digest(b"\x41", KEY, body) + digest(b"\x42", KEY, body)


def link(entry: bytes) -> bytes:
    return digest(b"\x53", entry)


def entry_of(version: int, epoch: int, before: int, root: bytes, previous: bytes, nonce: bytes, policy: bytes = bytes(32)) -> bytes:
    body = bytes([version]) + epoch.to_bytes(8, "big") + before.to_bytes(8, "big") + root + previous + nonce + policy
    return body + seal(body)


def verdict(entry: bytes) -> int:
    return int(entry[145:] == seal(entry[:145]))


def word(value: bytes) -> str:
    return value.hex() or "-"


def changed(chance: random.Random, entry: bytes) -> bytes:
    """An entry that is changed in one field or bit; mostly with its seal, so that the fields are checked."""
    at, size = chance.choice([(0, 1), (1, 8), (9, 8), (17, 32), (49, 32), (81, 32), (113, 32)])
    value = chance.choice([bytes(size), bytes([0] * (size - 1) + [2]), bytes([255] * size), chance.randbytes(size)])
    body = entry[:at] + value + entry[at + size : 145]
    return chance.choice([body + seal(body), body + seal(body), body + entry[145:], entry[: chance.randrange(209)], entry + b"\0"])


def chain(chance: random.Random, length: int) -> Iterator[bytes]:
    """The entries of a chain, by docs/FORMATS.md."""
    version, epoch, before, previous, nonce = 1, chance.randrange(1, 9), 0, bytes(32), chance.randbytes(32)
    for _ in range(length):
        entry = entry_of(version, epoch, before, chance.randbytes(32), previous, nonce)
        yield entry
        before, previous = epoch, link(entry)
        epoch += chance.choice([1, 1, 7, 1 << 40])
        version = max(version, chance.choice([1, 1, 1, 2]))
        nonce = chance.randbytes(32) if version == 2 else nonce


def number_of(answer: dict[str, Any]) -> int:
    """The status of a fault that the program prints."""
    fault: str = answer["fault"]
    if fault == "Member":
        return 48
    if fault in FAULTS:
        return 33 + FAULTS.index(fault)
    return {name.replace("_", "").lower(): it for name, it in samples.statuses().items()}[fault.lower()]


def of_check(chance: random.Random, program: str, lines: Sequence[samples.Line]) -> Iterator[Request]:
    """Requests to check proofs, with the program's result, or that of docs/FORMATS.md for other bytes."""
    questions = [samples.mutated(chance, chance.choice(lines)) for _ in range(COUNT)]
    for question, theirs in zip(questions, samples.printed_by_program(program, questions), strict=True):
        given, name, proof = question
        printed = str(samples.wire_status(proof) or theirs or "")
        if printed:
            wanted = {"0": f"key {printed[2:]}", "1": "absent"}.get(printed.split()[0], f"refused {printed}")
            yield " ".join(["check", *(given[it].hex() for it in ("nonce", "root", "index")), word(name), word(proof)]), wanted
    # More bytes than the memory with which the module for JavaScript begins.
    line = lines[0]
    given_words = [line[it] for it in ("nonce", "root", "index")] + [word(line["name"].encode())]
    for size in (70_000, 300_000):
        yield " ".join(["check", *given_words, word(bytes_of(line["proof"]) + bytes(size))]), "refused 25"


def state_of(entry: Optional[bytes]) -> str:
    """The state of an auditor after an entry, by docs/FORMATS.md."""
    if entry is None:
        return bytes(80).hex()
    epoch = int.from_bytes(entry[1:9], "big").to_bytes(8, sys.byteorder)
    return (epoch + link(entry) + entry[81:113] + entry[:1] + bytes(7)).hex()


def of_audit(chance: random.Random, program: str) -> Iterator[Request]:
    """Chains with entries that don't follow between those that do."""
    for _ in range(COUNT // 25):
        entries: list[bytes] = []
        for entry in chain(chance, 12):
            entries += [changed(chance, entry) for _ in range(chance.randrange(4))] + [entry]
        given = "".join(json.dumps({"entry": it.hex()}) + "\n" for it in entries).encode()
        printed = map(json.loads, run(program, "audit", "--key", KEY.hex(), input=given).stdout.splitlines())
        yield "begin", state_of(None)
        yield "head", "refused 49"
        last = None
        for entry, answer in zip(entries, printed, strict=True):
            follows = answer.get("ok") == "audit"
            yield f"feed {word(entry)} {verdict(entry)}", "follows" if follows else f"refused {number_of(answer)}"
            if follows:
                last = entry
                yield "head", f"{answer['epoch']} {answer['link']}"
            yield "resume", state_of(last)


def watched_lines(program: str) -> list[samples.Line]:
    """Lookups of two names at 12 epochs. One is bound later, and the other changes its key."""
    op: Callable[[str, str, bytes], dict[str, str]] = lambda kind, name, key: {
        "op": kind,
        "name": name,
        "key": base64.b64encode(key).decode(),
        "opening": "ab" * 32,
    }
    script: list[dict[str, Any]] = [{"cmd": "open", "key": KEY.hex(), "nonce": "11" * 32, "policy": "33" * 32}]
    for epoch in range(1, 13):
        ops = [op("register" if epoch == 1 else "change", "early", b"key-%d" % (epoch // 4))] if epoch % 4 in (0, 1) else []
        ops += [op("register", "late", b"late")] if epoch == 6 else []
        script.append({"cmd": "batch", "epoch": epoch, "ops": ops} | ({"nonce": "22" * 32} if epoch == 9 else {}))
        script += [{"cmd": "lookup", "epoch": epoch, "name": it} for it in ("early", "late")]
    printed = run(program, "run", input="".join(json.dumps(it) + "\n" for it in script).encode()).stdout.splitlines()
    return [it for it in map(json.loads, printed) if it.get("ok") == "lookup"]


def of_monitor(chance: random.Random, program: str) -> Iterator[Request]:
    """Lookups of a name, some with another entry or proof, and expectations between them."""
    looked = watched_lines(program)
    for turn in range(COUNT // 25):
        mine = [it for it in looked if it["name"] == ["early", "late"][turn % 2]]
        yield f"watch {word(mine[0]['name'].encode())} {mine[0]['index']}", "watched"
        yield "expect -", "expected"
        given: list[dict[str, Any]] = []
        requests: list[tuple[str, Optional[int]]] = []
        for line in mine:
            for is_changed in [True] * chance.randrange(4) + [False]:
                entry, proof = bytes.fromhex(line["entry"]), bytes_of(line["proof"])
                if chance.randrange(4) == 0:
                    key = chance.choice([b"", b"late", b"key-0", b"key-1", b"key-2"])
                    given.append({"cmd": "expect", "key": base64.b64encode(key).decode() if key else None})
                    requests.append((f"expect {word(key)}", 0))
                if is_changed and chance.randrange(2):
                    entry = changed(chance, entry)
                elif is_changed:
                    proof = samples.mutated(chance, line)[2]
                status = samples.wire_status(proof)
                reported = {"entry": entry.hex(), "proof": line["proof"] if status else samples.object_of(proof)}
                if reported["proof"] is not None:
                    given.append(reported if status is None else {"entry": entry.hex()})
                    requests.append((f"step {word(entry)} {verdict(entry)} {word(proof)}", status))
        printed = run(
            program,
            "monitor",
            "--key",
            KEY.hex(),
            "--name",
            mine[0]["name"],
            input="".join(json.dumps(it) + "\n" for it in given).encode(),
        )
        for (request, status), answer in zip(requests, map(json.loads, printed.stdout.splitlines()), strict=True):
            if answer.get("ok") == "expect":
                yield request, "expected"
            elif answer.get("ok") == "monitor":
                yield request, answer["seen"]
            else:
                yield request, f"refused {status if answer.get('member') == 'proof' else number_of(answer)}"


def of_evidence(chance: random.Random) -> Iterator[Request]:
    """Pairs of entries, those of the cases among them."""
    pairs = [(it["a"], it["b"], it["kind"]) for it in map(json.loads, EVIDENCE.read_text("utf-8").splitlines())]
    entries = [it for _ in range(40) for it in chain(chance, 3)]
    entries += [it for it in (changed(chance, it) for it in entries) if len(it) == len(entries[0])]
    chosen = [(chance.choice(entries), chance.choice(entries)) for _ in range(COUNT)]
    pairs += [(a.hex(), b.hex(), evidence.kind(a, b)) for a, b in chosen]
    for a, b, kind in pairs:
        yield f"convicts {a} {b}", str(1 + evidence.KINDS.index(kind) if kind else 0)
        yield f"convicts {a[2:]} {b}", "refused 48"
        yield f"convicts {a} {b}00", "refused 48"


def of_entries(chance: random.Random) -> Iterator[Request]:
    """Bodies, links, texts and the version."""
    for entry in chain(chance, 100):
        number_at: Callable[[int], int] = lambda at: int.from_bytes(entry[at : at + 8], "big")
        parts = " ".join(entry[at : at + 32].hex() for at in (17, 49, 81, 113))
        yield f"body {entry.hex()}", f"{entry[0]} {number_at(1)} {number_at(9)} {parts} {entry[:145].hex()}"
        yield f"link {entry.hex()}", link(entry).hex()
        cut = entry[: chance.randrange(209)]
        yield f"body {word(cut)}", "refused 48"
        yield f"link {word(cut)}", "refused 48"
    texts = samples.texts()
    numbers = {it: name for name, it in samples.statuses().items()}
    for number in range(70):
        yield f"text {number}", texts.get(numbers.get(number, ""), "")
    yield "version", header_version()


def header_version() -> str:
    return samples.HEADER.split('#define CONIKS_VERSION "')[1].split('"')[0]


def requests_of(program: str, lines: Sequence[samples.Line]) -> list[Request]:
    chance = random.Random(SEED)
    of_chains = [*of_audit(chance, program), *of_monitor(chance, program)]
    return [*of_check(chance, program, lines), *of_chains, *of_evidence(chance), *of_entries(chance)]


def check_requests(words: Sequence[Union[str, Path]], requests: Sequence[Request], **more: Any) -> None:
    """One side's replies to all requests."""
    ran = run(*words, input="".join(f"{it}\n" for it, _ in requests).encode(), **more)
    printed = ran.stdout.decode().splitlines()
    wrong = [(*it, mine) for it, mine in zip(requests, printed) if mine != it[1]]
    assert len(printed) == len(requests) and not wrong, (wrong[:2], ran.stderr.decode()[-500:])


def check_example(program: Path, words: Sequence[str], wanted: Sequence[str]) -> None:
    """The example accepts an entry under its key, and no entry under another one."""
    assert run(program, *words).stdout.decode().splitlines() == wanted
    ran = run(program, "11" * 32, *words[1:])
    assert ran.returncode == 1 and not any(it.startswith("epoch ") for it in ran.stdout.decode().splitlines()), "under another key"


def go_environment(here: Path) -> dict[str, str]:
    """The environment of a command of Go in a copy of the checkout: nothing is fetched."""
    stored = {it: value for it, value in os.environ.items() if not it.startswith("CGO_")}
    return stored | {"GOCACHE": str(here / "cache"), "GOFLAGS": "", "GOPROXY": "off"}


def example_of(lines: Sequence[samples.Line]) -> Example:
    """The arguments of the example in Rust, over one lookup with its entry and the seal's key, and what it must print."""
    import coniks

    line = next(
        it
        for it in lines
        if it["proof"]["end"]["kind"] == "here" and coniks.Body.of_entry(bytes.fromhex(it["entry"])).previous_epoch == 0
    )
    return example_words(KEY, line), example_lines(line)


def signed_example() -> Example:
    """The arguments of the example in Go, over a provider's lookup and its Ed25519 key, and what it must print."""
    key = TRANSCRIPT.read_text("utf-8").split("Ed25519")[1].split()[0]
    line = next(it for it in map(json.loads, SIGNED.read_text("utf-8").splitlines()) if it["ok"] == "lookup")
    return example_words(bytes.fromhex(key), line), example_lines(line)


def example_words(key: bytes, line: samples.Line) -> list[str]:
    parts = [line[it] for it in ("nonce", "root", "index", "name")]
    return [key.hex(), *parts, bytes_of(line["proof"]).hex(), line["entry"]]


def example_lines(line: samples.Line) -> list[str]:
    return [
        base64.b64decode(line["proof"]["end"]["key"]).decode(),
        "the root computed from the proof isn't the expected root",
        "the signature isn't valid for this body",
        "as it was: true",
        f"epoch {line['epoch']}",
    ]
