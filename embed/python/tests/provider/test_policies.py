"""The policy document: its worked example, texts that are none, wrong fields, and the clock."""

from __future__ import annotations

import dataclasses
import hashlib
import itertools
import pickle
import re
from typing import Any, Callable, Iterator, Optional

import pytest

from worked_examples import page_of, worked_example
from raising import raises
import coniks
from coniks import Policy


FIRST = bytes.fromhex("d75a980182b10ab7d54bfed3c964073a0ee172f3daa62325af021a68f707511a")
SECOND = bytes.fromhex("3d4017c3e843895a92b70aa74d1b7ebc9c982ccf2ec4968cc0cd55f12af4660c")
WHOLE = Policy("keys.example.com/directory", FIRST, SECOND, 1767225600, 3600)
VOUCHED = dataclasses.replace(WHOLE, records_vouched=True)
THIRD = bytes.fromhex("fc51cd8e6218a1a38da47ed00230f0580816ed13ba3303ac5deb911548908025")
FIFTH = bytes.fromhex("ec172b93ad5e563bf4932c70e1245034c35467ef2efd4d64ebf819683467e2bf")
ENDING = dataclasses.replace(WHOLE, successor_key=FIFTH)
GOES_ON = dataclasses.replace(WHOLE, origin="keys.example.net/directory", signing_key=THIRD, successor_key=b"")
FULL = dataclasses.replace(VOUCHED, successor_key=FIFTH)


def test_examples() -> None:
    """The worked examples of docs/FORMATS.md, whose SHA-256 `sha256sum` has computed."""
    digests = re.findall("`([0-9a-f]{64})`", page_of("The policy document"))
    assert digests == [
        "9b7c1ee453e0628965915c3a88e82924b3e90fe53ba30531b2b3ff12be6f7fef",
        "5f75a068225cfe181d7149be0081df3d59afc095aeff7f9e3c1fdaca09965a10",
        "10e0c3b4619775e022176f133a386f1e8394d83967c5d5317f8de39bebb7ea2e",
        "2f22eac2f440501cf52db47975a756ef23e382500330f709f5fa82face5862c4",
    ]
    for number, policy in enumerate([WHOLE, VOUCHED, ENDING, GOES_ON]):
        text = worked_example("The policy document", number)
        assert bytes(policy).decode() == text and Policy.read(text.encode()) == policy, f"policy: the worked example {number}"
        assert policy.digest.hex() == digests[number], f"policy: its digest {number}"
        assert len({policy, Policy.read(bytes(policy)), pickle.loads(pickle.dumps(policy))}) == 1, "policy: it is a value"
    assert not WHOLE.records_vouched and Policy.read(bytes(VOUCHED)).records_vouched, "policy: what it promises of records"
    assert coniks.Policy is Policy and "Policy" in coniks.__all__, "policy: it is exported"


def test_example_of_a_succession() -> None:
    """The worked example, which the second implementation signed by the fifth key of RFC 8032, section 7.1."""
    signing = pytest.importorskip("nacl.signing")
    succession = pytest.importorskip("coniks.succession")
    text = worked_example("The policy document", 4).encode()
    it = succession.Succession.read(text)
    assert (
        bytes(it) == text and it == succession.Succession.read(bytearray(text)) and it.signed == text[: text.index(b"signature ")]
    )
    assert (it.policy, it.next_policy) == (ENDING.digest, GOES_ON.digest)
    assert (it.last.epoch, it.first.epoch) == (2, 2) and it.is_signed(FIFTH)
    secret = signing.SigningKey(bytes.fromhex("833fe62409237b9d62ec77587520911e9a759cec1d19755b7da901b96dca3d42"))
    assert succession.Succession.unsigned(it.signed).sign(secret) == it


def test_fields() -> None:
    """Each combination of fields has one document, and each document its policy."""
    clocks: list[tuple[Optional[int], Optional[int]]] = [(None, None), (0, 1), (2**64 - 1, 2**64 - 1)]
    policies = [
        Policy(origin, FIRST, vrf, clock[0], clock[1], stored, records_vouched=records, successor_key=successor)
        for origin, vrf, clock in itertools.product(["a", "!" * 255, "~"], [None, SECOND], clocks)
        for stored, records, successor in itertools.product([None, 0, 2**64 - 1], [False, True], [None, b"", FIFTH])
    ]
    texts = {bytes(it): it for it in policies}
    assert len(texts) == 3 * 2 * 3 * 3 * 2 * 3, "policy: each has a document of its own"
    assert all(Policy.read(it) == policy for it, policy in texts.items()), "policy: each document is read"
    assert all(it.digest == hashlib.sha256(text).digest() for text, it in texts.items()), "policy: its digest is its SHA-256"
    change: Callable[..., object] = dataclasses.replace
    wrong: list[tuple[type[Exception], list[dict[str, Any]]]] = [
        (ValueError, [{"origin": it} for it in ("", "a b", "a" * 256, "a\n", "\u00e4", "\x7f", "\0")]),
        (TypeError, [{"origin": b"a"}, {"origin": None}, {"signing_key": None}, {"signing_key": FIRST.hex()}]),
        (TypeError, [{"signing_key": bytearray(32)}, {"vrf_key": SECOND.hex()}, {"epoch_start": 1.5}, {"epoch_period": "1"}]),
        (TypeError, [{"epoch_start": True}, {"epoch_period": True}, {"proofs_kept": 1.0}, {"proofs_kept": False}]),
        (TypeError, [{"records_vouched": it} for it in (None, 1, "vouched", b"")]),
        (TypeError, [{"successor_key": it} for it in (FIFTH.hex(), bytearray(32), "", "none", 0, False)]),
        (ValueError, [{"successor_key": it} for it in (FIRST, FIFTH[1:], FIFTH * 2, b"\0")]),
        (ValueError, [{"signing_key": FIRST[1:]}, {"signing_key": b""}, {"vrf_key": SECOND * 2}, {"vrf_key": b""}]),
        (ValueError, [{"epoch_start": None}, {"epoch_period": None}, {"epoch_period": 0}, {"epoch_start": -1}]),
        (ValueError, [{"epoch_start": 2**64}, {"epoch_period": 2**64}, {"proofs_kept": -1}, {"proofs_kept": 2**64}]),
    ]
    for error, changed in wrong:
        for it in changed:
            raises(f"policy: the fields {it}", error, lambda: change(WHOLE, **it))


def no_policies(text: str) -> Iterator[tuple[str, str]]:
    """Texts that are no policy document, from one with all lines."""
    parts = text.splitlines(keepends=True)
    for number, line in enumerate(parts):
        name, value = line[:-1].split(" ")
        rest = parts[:number], parts[number + 1 :]
        put: Callable[..., str] = lambda *new: "".join([*rest[0], *new, *rest[1]])
        # The lines that may be left out.
        if name not in ("records", "successor-key"):
            yield f"{name} missing", put()
        yield f"{name} twice", put(line, line)
        yield f"{name} of no value", put(f"{name}\n")
        yield f"{name} with two spaces", put(f"{name}  {value}\n")
        yield f"{name} with a tab", put(f"{name}\t{value}\n")
        yield f"{name} with a space in front", put(f" {line}")
        yield f"{name} with a space at the end", put(f"{name} {value} \n")
        yield f"{name} with CR LF", put(f"{name} {value}\r\n")
        yield f"{name} with CR", put(f"{name} {value}\r")
        yield f"{name} in upper case", put(line.replace(name, name.upper()))
        yield f"{name} with an empty line", put(line, "\n")
        yield f"{name} with another line", put(line, "note 1\n")
        for other in range(number + 1, len(parts)):
            changed = [*parts]
            changed[number], changed[other] = changed[other], line
            yield f"{name} exchanged with line {other}", "".join(changed)
        if name not in ("policy", "origin"):
            for wrong in {value.upper(), value.swapcase(), f"0{value}", f"+{value}", f"{value}0x", f"{value}.", f'"{value}"'} - {
                value
            }:
                yield f"{name} {wrong}", put(f"{name} {wrong}\n")
    yield from ((f"cut after {it} bytes", text[:it]) for it in range(len(text)))
    for pattern, wrong in [
        ("coniks-1", "coniks-2"), ("Ed25519", "Ed448"), ("one-chain", "none"), ("records .*", "records any"),
        ("vrf ECVRF-EDWARDS25519-SHA512-TAI", "vrf none"),
        ("vrf ECVRF.*\nvrf-key .*\n", "vrf ECVRF-EDWARDS25519-SHA512-TAI\n"), ("origin .*", "origin a b"), ("origin .*", "origin "),
        ("origin .*", "origin " + "a" * 256), ("origin .*", "origin \u00e4"), ("origin .*", "origin a\x7f"), ("3600", "0"),
        ("epoch-period .*", "epoch-period 18446744073709551616"), ("epoch-start .*", "epoch-start 99999999999999999999"),
        ("epoch-start .*", "epoch-start 1e9"), ("epoch-start .*", "epoch-start -1"), ("epoch-start .*", "epoch-start 1.5"),
        ("epoch-start .*", "epoch-start \u0661"), ("forever", "00"), ("forever", "never"), ("forever", "-1"), ("forever", "none"),
        ("forever", "18446744073709551616"), ("signing-key .", "signing-key "), ("vrf-key ", "vrf-key 0"), ("key d", "key \u0664"),
        ("successor-key .*", "successor-key " + FIRST.hex()), ("successor-key .*", "successor-key nothing"), ("\\A", "\ufeff"), ("\\Z", "\0"), ("\\Z", "\n"), ("\\Z", " "), ("\n", ""), ("\n", "\r\n"),
    ]:  # fmt: skip
        yield f"{wrong!r} for {pattern!r}", re.sub(pattern, wrong, text)


def test_texts() -> None:
    """Texts that are no policy document, in three encodings."""
    passed, whole = [], bytes(FULL)
    for what, text in no_policies(whole.decode()):
        for encoding in ("utf-8", "latin-1", "utf-16"):
            try:
                coded = text.encode(encoding)
                if coded == whole:
                    passed.append(f"{what} changes nothing")
                passed.append(f"{what}: {Policy.read(coded)}")
            except ValueError:
                pass
    assert not passed, f"policy: what is no document is refused: {passed[:5]}"
    for wrong in (whole.decode(), None, 7):
        argument: Any = wrong
        raises(f"policy: a document of {type(wrong).__name__}", TypeError, lambda: Policy.read(argument))
    assert Policy.read(bytearray(whole)) == Policy.read(memoryview(whole)) == FULL, "policy: a document of other bytes"


def test_clock() -> None:
    start, slow = 1767225600, Policy("a", FIRST, None, 7, 2**63)
    for seconds, epoch in [
        (start, 1), (start + 0.0, 1), (start + 3599, 1), (start + 3599.999, 1), (start + 3600, 2), (start + 3600.5, 2),
        (start + 7199, 2), (start + 7200, 3), (start + 3600 * 10**6 - 1, 10**6), (start + 3600 * (2**64 - 1) - 1, 2**64 - 1),
    ]:  # fmt: skip
        assert WHOLE.epoch_at(seconds) == epoch, f"clock: {seconds}: {WHOLE.epoch_at(seconds)}"
    assert [slow.epoch_at(it) for it in (7, 2**63, 2**63 + 6, 2**63 + 7, 2**65 + 7)] == [
        1,
        1,
        1,
        2,
        5,
    ], "clock: long epochs"
    infinite = float("inf")
    for wrong in (start - 1, start - 0.001, 0, -1, infinite, -infinite, float("nan"), start + 3600 * (2**64 - 1), 10**400):
        raises(
            f"clock: {wrong:.9}" if isinstance(wrong, float) else f"clock: {wrong}"[:40],
            ValueError,
            lambda: WHOLE.epoch_at(wrong),
        )
    raises("clock: none", ValueError, lambda: Policy("a", FIRST).epoch_at(start))
    text: Any = "1767225600"
    raises("clock: a text", TypeError, lambda: WHOLE.epoch_at(text))
