"""The examples of docs/FORMATS.md and docs/STORED.md: a reply, a history, clients' states and a succession of a small directory, under
the keys of its policy; and the records of a name that is reset."""

from __future__ import annotations

from typing import Iterator

import curve
from bytelists import commitment, number, sha256
from chain import Entry, body_after
from client import Client, Trust
from client_world import START, policy_text
from replies import history, reply
from successions import signed, text_of
from tree import node, path
from vouched import Fields, made, noticed

# The first two keys of RFC 8032, section 7.1.
SIGNING = bytes.fromhex("9d61b19deffd5a60ba844af492ec2cc44449c5697b326919703bac031cae7f60")
VRF = bytes.fromhex("4ccd089b28ff96da9db6c346ec114e0f5b8a319f35aba624da8cf6ed4fb8a6fb")
POLICY = policy_text(curve.public_key(SIGNING), curve.public_key(VRF)).replace(".com\n", ".com/directory\n")
# The third and the fifth one: of the directory that goes on, and of the successor key.
NEXT_SIGNING = bytes.fromhex("c5aa8df43f9f837bedb7442f31dcb7b166d38535076f094b85ce3a2e0b4458f7")
SUCCESSOR = bytes.fromhex("833fe62409237b9d62ec77587520911e9a759cec1d19755b7da901b96dca3d42")
# The fourth one: of alice. The fifth one is also hers after the reset. The policy with the line `records vouched`.
ALICE, NEXT = bytes.fromhex("f5e5767cf153319517630f226876b86c8160cc583bc013744c6bf255f5cc0ee5"), SUCCESSOR
VOUCHED = bytes.fromhex("5f75a068225cfe181d7149be0081df3d59afc095aeff7f9e3c1fdaca09965a10")
NONCE, OPENING = b"\x33" * 32, b"\xdd" * 32


def index(name: bytes) -> bytes:
    output = curve.vrf_output(curve.public_key(VRF), name, curve.prove(VRF, name))
    assert output
    return output[:32]


def entries(epochs: list[list[bytes]], policy: bytes, secret: bytes = SIGNING) -> Iterator[tuple[bytes, bytes]]:
    """For each epoch, whose names have the key `k`, its entry and the proof of alice."""
    before = None
    for epoch, names in enumerate(epochs, 1):
        leaves = sorted((index(it), commitment(OPENING, it, b"k")) for it in names)
        body = body_after(before, 1, epoch, node(NONCE, (), leaves), NONCE, policy)
        before = Entry(body + curve.sign(secret, body))
        siblings, _ = path(NONCE, (), leaves, index(b"alice"))
        end = OPENING + number(5, 2) + b"alice" + number(1, 4) + b"k"
        yield before.whole, b"\2" + number(len(siblings), 2) + b"".join(siblings) + end


# The two auditors of the trust document, of which none may be faulty.
TRUST = Trust.of(bytes.fromhex("ad32de92b1381c0caed8b03c790600c99592e192cc8f8fc605e7f6dc6eeb8650"), 2, 0)


def with_alarm() -> bytes:
    """The state of a client that watches alice for another key, and that dropped epoch 1."""
    client = Client(curve.public_key(SIGNING), curve.public_key(VRF), POLICY.encode(), trust=TRUST)
    (first, one), (second, two) = entries([[b"alice"], [b"alice", b"bob"]], client.policy.digest)
    client.watch(b"alice", b"l", 1)
    client.feed([first], START + 60)
    client.feed([second], START + 3660)
    client.history(b"alice", history(curve.prove(VRF, b"alice"), [(1, one), (2, two)]), START + 3660)
    for auditor in range(2):
        client.mark(auditor, 2, Entry(second).link)
    client.drop(START + 3660)
    return client.state


def policies() -> tuple[str, str]:
    """The policy that ends, which has a successor key, and the one that goes on."""
    keys = [(SIGNING, curve.public_key(SUCCESSOR), "keys.example.com/directory"), (NEXT_SIGNING, b"", "keys.example.net/directory")]
    ends, goes_on = (policy_text(curve.public_key(it), curve.public_key(VRF), successor=key, origin=name) for it, key, name in keys)
    return ends, goes_on


def succession() -> str:
    """Both chains have two epochs, and the names of the examples. The second epoch of each is the last one, and the first that counts."""
    digests = [sha256(it.encode()) for it in policies()]
    pairs = [[*entries([[b"alice"], [b"alice", b"bob"]], it, key)] for it, key in zip(digests, (SIGNING, NEXT_SIGNING))]
    (last, first), (policy, next_policy) = ((2, Entry(it[1][0]).link) for it in pairs), digests
    return signed(text_of(policy, last, next_policy, first), SUCCESSOR).decode()


def texts() -> Iterator[str]:
    """What the page has as text: both policies, their digests, and the succession."""
    for text in policies():
        yield "\n".join(f"    {it}" for it in text.splitlines())
        yield f"`{sha256(text.encode()).hex()}`"
    yield "\n".join(f"    {it}" for it in succession().splitlines())


def records() -> dict[str, bytes]:
    """Alice registers `k`, changes to `l`, and loses her secret key. Her name is reset from epoch 200 on, with `m`."""
    first = made(VOUCHED, b"alice", ALICE, Fields(b"k", 168))
    second = made(VOUCHED, b"alice", ALICE, Fields(b"l", 168), first)
    notice = noticed(second, (curve.public_key(NEXT), 200))
    return {
        "first record": first,
        "next record": second,
        "notice": notice,
        "reset": made(VOUCHED, b"alice", NEXT, Fields(b"m", 168, 200), notice),
    }


def examples() -> dict[str, bytes]:
    """Alice is registered at epoch 1, and bob at epoch 2. A client watches alice, and got a reply for epoch 2. Then it expects
    another key; of that state there is the end."""
    keys = curve.public_key(SIGNING), curve.public_key(VRF)
    client, vrf = Client(*keys, POLICY.encode()), curve.prove(VRF, b"alice")
    (first, one), (second, two) = entries([[b"alice"], [b"alice", b"bob"]], client.policy.digest)
    client.watch(b"alice", b"k", None)
    client.feed([first], START + 60)
    client.feed([second], START + 3660)
    replied = reply(second, vrf, two)
    client.lookup(b"alice", replied, None, START + 3660)
    state = client.state
    client.expect(b"n", 5)
    watched = client.state[77 + 2 * 218 :]
    return {
        "reply": replied,
        "history": history(vrf, [(1, one), (2, two)]),
        "state": state,
        "watch": watched,
        "alarm": with_alarm(),
        **records(),
    }


# The lengths of the parts that have a line of their own.
RECORD = [8, 8, 32, 32, 8, 8, 64, 1]
PARTS = {
    "reply": [1, 209, 2, 80, 3, 32, 32, 7, 5],
    "history": [1, 2, 80, 11, 32, 7, 5, 12, 32],
    "state": [1, 32, 4, 209, 8, 1, 209, 8, 1, 4, 32, 4, 7, 8, 5, 4, 32],
    "watch": [7, 8, 5, 4, 8, 8, 5, 32],
    "alarm": [1, 32, 4, 209, 8, 1, 4, 8, 1, 32, 4, 8, 8, 7, 8, 5, 4, 32],
    "first record": RECORD,
    "next record": RECORD,
    "notice": [8, 32, 8, *RECORD],
    "reset": RECORD,
}


def lines(what: str) -> Iterator[str]:
    """The lines of an example in the document, one for each part."""
    whole, at = examples()[what], 0
    for size in PARTS[what]:
        yield f"    {whole[at : at + size].hex()}"
        at += size
