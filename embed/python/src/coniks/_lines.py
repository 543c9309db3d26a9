"""The lines of the program `provider`: what is asked, and what it answers. docs/LINES.md defines them."""

from __future__ import annotations

import json
import secrets
from binascii import b2a_base64, hexlify
from dataclasses import dataclass, field
from typing import Any, Callable, Iterable, Iterator, Mapping, Optional, Union

from . import BODY_LENGTH, ENTRY_LENGTH, _bytes, faults
from ._formats import MAX_NAME, SIGNATURE_LENGTH
from ._threads import Turn
from .faults import LogFailed, NotText, ProgramFailed, ProviderError

_TOO_LONG = "a" * (MAX_NAME + 1)


def _opening() -> bytes:
    return secrets.token_bytes(32)


@dataclass(frozen=True)
class Register:
    """Binds a name that isn't registered to a key. The opening blinds the commitment: 32 random bytes, never used twice."""

    name: str
    key: bytes
    opening: bytes = field(default_factory=_opening, repr=False)


@dataclass(frozen=True)
class Change:
    """Binds a registered name to another key."""

    name: str
    key: bytes
    opening: bytes = field(default_factory=_opening, repr=False)


Operation = Union[Register, Change]
Index = Callable[[str], bytes]


@dataclass(frozen=True)
class Epoch:
    """An installed epoch: its number, its root, its entry in the chain (209 bytes) and that entry's link."""

    epoch: int
    root: bytes
    link: bytes
    entry: bytes


@dataclass(frozen=True)
class Pending:
    """An update that isn't installed. The signer was or will be asked to sign its body, or has abandoned it."""

    epoch: int
    root: bytes
    body: bytes


@dataclass(frozen=True)
class Latest:
    """The latest epoch, its entry's link, the number of registered names, and the number of nodes in the node table. Before
    the first epoch: 0, 32 zero bytes, 0, 0."""

    epoch: int
    link: bytes
    names: int
    nodes: int


@dataclass(frozen=True)
class Lookup:
    """A name's proof at an epoch. `coniks.proof_bytes(lookup.proof)` is the proof in bytes, `line` the program's line, which
    `keydir check` reads."""

    name: str
    epoch: int
    index: bytes
    nonce: bytes
    root: bytes
    entry: bytes
    proof: Mapping[str, Any]
    line: bytes


# What is before the line for the log, the last member of a reply. No text of JSON contains it.
_STORE = b',"store":'

_ENCODER = json.JSONEncoder(ensure_ascii=False, separators=(",", ":"))


def encoded(members: Mapping[str, Any]) -> bytes:
    return _ENCODER.encode(members).encode()


def with_first(line: bytes, member: str, value: bytes) -> bytes:
    """A line with one more member before the others, of hexadecimal digits."""
    return b"".join([f'{{"{member}":"{value.hex()}",'.encode(), memoryview(line)[1:]])


def lookup_line(name: str, index: bytes, epoch: int) -> bytes:
    """The line of a lookup, for which the pipe to the child has room: in the place of a name that is too long another one is refused."""
    sent = name if len(name.encode()) < len(_TOO_LONG) else _TOO_LONG
    return f'{{"cmd":"lookup","epoch":{epoch},"index":"{index.hex()}","name":{json.dumps(sent)}}}\n'.encode()


def install_line(signature: bytes) -> bytes:
    return b'{"cmd":"install","signature":"%s"}' % signature.hex().encode()


def prepare_line(epoch: int, operations: Iterable[Operation], nonce: Optional[bytes], index_of: Index) -> bytes:
    listed, turn = bytearray(), Turn()
    for it in operations:
        if not isinstance(it, (Register, Change)):
            raise TypeError(f"an operation is Register or Change, not {type(it).__name__}")
        listed += b"," if listed else b""
        listed += _operation(it, index_of(it.name))
        turn.pause()
    new_nonce = "" if nonce is None else f',"nonce":"{sized(nonce, 32, "the nonce").hex()}"'
    head = f'{{"cmd":"prepare","epoch":{whole(epoch)}{new_nonce},"ops":['
    return b"".join([head.encode(), listed, b"]}"])


def _operation(it: Operation, index: bytes) -> bytes:
    """An operation in a line. Each is encoded by itself: one call for all would keep other threads waiting until it returns."""
    kind = b"register" if isinstance(it, Register) else b"change"
    key, opening = b2a_base64(_bytes(it.key, "a key"), newline=False), hexlify(sized(it.opening, 32, "an opening"))
    return b'{"op":"%s","name":%s,"index":"%s","key":"%s","opening":"%s"}' % (
        kind,
        _ENCODER.encode(it.name).encode(),
        hexlify(index),
        key,
        opening,
    )


def members_of(line: bytes, error: type[ProviderError], what: str) -> Any:
    """The members of a line. The error's text has no byte of it, since a line may have keys."""
    try:
        members = json.loads(line.decode())
    except (ValueError, RecursionError):
        members = None
    if not isinstance(members, dict):
        raise error(f"{what} is no JSON object: look what wrote it")
    return members


def digits(members: Mapping[str, Any], name: str, size: int, error: type[ProviderError] = ProgramFailed) -> bytes:
    """The bytes of a member of hexadecimal digits."""
    try:
        value = bytes.fromhex(members[name])
    except (KeyError, TypeError, ValueError):
        value = b""
    if len(value) != size:
        raise error(f"the member {name} isn't {2 * size} hexadecimal digits")
    return value


def has_digits(members: Mapping[str, Any], name: str, value: bytes) -> bool:
    """Whether a member has the hexadecimal digits of a value, of either case."""
    found = members.get(name)
    return isinstance(found, str) and found.lower() == value.hex()


def number(members: Mapping[str, Any], name: str, error: type[ProviderError] = ProgramFailed) -> int:
    value = members.get(name)
    if not isinstance(value, int):
        raise error(f"the member {name} isn't a number")
    return value


def answer(line: bytes) -> Mapping[str, Any]:
    """What the program printed, if it accepted a line; else raises the fault. Its `store`, if there is one, is bytes."""
    at = line.find(_STORE)
    reply = line if at < 0 else line[:at] + b"}"
    members: dict[str, Any] = members_of(reply, ProgramFailed, "what the program printed")
    if "ok" in members:
        if at >= 0:
            members["store"] = line[at + len(_STORE) : -1]
        return members
    kind = faults.BY_NAME.get(str(members.get("fault")))
    if kind is None:
        raise ProgramFailed("the program printed neither an answer nor a fault of docs/FORMATS.md: look which program it is")
    raise kind(members.get("position"), members.get("latest"), members.get("member"))


def lookup_of(line: bytes) -> Lookup:
    it = answer(line)
    name, proof = it.get("name"), it.get("proof")
    if not isinstance(name, str) or not isinstance(proof, dict):
        raise ProgramFailed("the program printed a lookup without name or proof: look which program it is")
    index, nonce, root = (digits(it, member, 32) for member in ("index", "nonce", "root"))
    return Lookup(name, number(it, "epoch"), index, nonce, root, digits(it, "entry", ENTRY_LENGTH), proof, line)


def latest_of(members: Mapping[str, Any]) -> Latest:
    epoch, names, nodes = (number(members, it) for it in ("epoch", "names", "nodes"))
    return Latest(epoch, digits(members, "link", 32), names, nodes)


def entries_of(lines: Iterable[bytes]) -> Iterator[bytes]:
    """The entries of the epochs that are installed by these lines."""
    body = b""
    for line in lines:
        reply = members_of(line, LogFailed, "a line of the log")
        if reply.get("cmd") == "prepare":
            body = digits(reply, "body", BODY_LENGTH, LogFailed)
        elif reply.get("cmd") == "install":
            yield body + digits(reply, "signature", SIGNATURE_LENGTH, LogFailed)


def grouped(lines: Iterable[bytes], size: int) -> Iterator[list[bytes]]:
    """The lines in groups of at most `size` bytes, or of one line."""
    group: list[bytes] = []
    room = size
    for line in lines:
        if group and len(line) > room:
            yield group
            group, room = [], size
        group.append(line)
        room -= len(line)
    if group:
        yield group


def whole(epoch: Any) -> int:
    """A number of an epoch. Whether there can be one is the program's to say."""
    if not isinstance(epoch, int) or isinstance(epoch, bool):
        raise TypeError(f"an epoch is a whole number, not {type(epoch).__name__}")
    return epoch


def sized(value: Any, size: int, what: str) -> bytes:
    found: bytes = value if type(value) is bytes else _bytes(value, what)
    if len(found) != size:
        raise ValueError(f"{what} has {size} bytes, not {len(found)}")
    return found


def text(name: Any) -> str:
    if not isinstance(name, str):
        raise TypeError(f"a name is text, not {type(name).__name__}")
    try:
        name.encode()
    except UnicodeEncodeError:
        raise NotText("a name has a lone surrogate: decode it as UTF-8 before it is used") from None
    return name
