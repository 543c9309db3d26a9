"""A state of `coniks-client` under a passphrase, from docs/STORED.md. It uses no code of the package, and no library of its own but
libargon2, for much memory, if the machine has it."""

from __future__ import annotations

import ctypes
import ctypes.util
from typing import Optional
from unicodedata import normalize

from argon2id import Cost, argon2id
from bytelists import sha256
from members import Fault
from secretbox import opened, sealed

FORMAT, VERSION, STATE, STATE_VERSION = "coniks-client-export", "1", "coniks-client", "3"
MOST_PASSES, LEAST_KIB, MOST_KIB, MOST = 8, 8, 1 << 20, 1 << 30
# More blocks than these take minutes here.
SLOW = 1 << 16


def derived(passphrase: str, salt: bytes, cost: Cost) -> bytes:
    """The key of a passphrase."""
    text, name = normalize("NFC", passphrase).encode(), ctypes.util.find_library("argon2")
    if cost.passes * cost.kib <= SLOW or name is None:
        return argon2id(text, salt, cost)
    found, sizes = ctypes.create_string_buffer(32), [ctypes.c_size_t(it) for it in (len(text), len(salt), 32)]
    numbers = [ctypes.c_uint32(it) for it in cost]
    status = ctypes.CDLL(name).argon2id_hash_raw(*numbers, text, sizes[0], salt, sizes[1], found, sizes[2])
    if status:
        raise MemoryError(f"libargon2 has the status {status}")
    return found.raw


def number(text: str) -> int:
    """A number from 1 on in at most ten digits."""
    if not text.isdecimal() or not text.isascii() or text[0] == "0" or len(text) > 10:
        raise Fault("NoExport")
    return int(text)


def salt_of(text: str) -> bytes:
    if len(text) != 32 or set(text) - set("0123456789abcdef"):
        raise Fault("NoExport")
    return bytes.fromhex(text)


def state_of(whole: bytes, passphrase: str) -> bytes:
    """The JSON text of the state that a file has. Raises `Fault`."""
    front, ended, rest = whole.partition(b"\n")
    words = front.decode("latin-1").split(" ")
    if words[0] != FORMAT or len(words) < 2:
        raise Fault("NoExport")
    if words[1] != VERSION:
        raise Fault("ExportVersion")
    if len(words) != 5 or not ended or len(rest) < 40:
        raise Fault("NoExport")
    passes, kib, salt = number(words[2]), number(words[3]), salt_of(words[4])
    if passes > MOST_PASSES or not LEAST_KIB <= kib <= MOST_KIB or len(whole) > MOST:
        raise Fault("ExportLimits")
    text = opened(derived(passphrase, salt, Cost(passes, kib)), rest[:24], rest[24:])
    if text is None:
        raise Fault("ExportClosed")
    return json_of(text)


def json_of(file: bytes) -> bytes:
    """The JSON text of a state's file. Raises `Fault`."""
    front, _, text = file.partition(b"\n")
    words = front.decode("latin-1").split(" ")
    if len(words) != 3 or words[0] != STATE or words[2] != sha256(text).hex():
        raise Fault("NoState")
    if words[1] != STATE_VERSION:
        raise Fault("StateVersion")
    return text


def file_of(text: bytes, version: str = STATE_VERSION, digest: Optional[bytes] = None) -> bytes:
    """A state's file."""
    return f"{STATE} {version} {(digest or sha256(text)).hex()}\n".encode() + text


def exported(file: bytes, passphrase: str, passes: int = 1, kib: int = 8) -> bytes:
    """A state's file under a passphrase, with a fixed salt and nonce."""
    salt, nonce = sha256(b"salt")[:16], sha256(b"nonce")[:24]
    front = f"{FORMAT} {VERSION} {passes} {kib} {salt.hex()}\n".encode()
    return front + nonce + sealed(derived(passphrase, salt, Cost(passes, kib)), nonce, file)
