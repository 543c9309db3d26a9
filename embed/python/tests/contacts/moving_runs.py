"""A run of `coniks-client export` or `import` for each of its verdicts, as in `verdict_runs`."""

from __future__ import annotations

import getpass
from typing import Any, Callable

import client_world
from nacl.exceptions import CryptoError
from rooms import Room, Run, after
from coniks import _moving

PHRASE = ["--passphrase", "ROOM/phrase"]
EXPORT = ["export", "ROOM/file", *PHRASE]
IMPORT = ["import", "ROOM/file", "--state", "ROOM/other", *PHRASE]


def phrase(room: Room, text: str = "correct horse battery staple\n", mode: int = 0o600) -> None:
    """The passphrase is in a file, and takes little memory."""
    for name, value in {"PASSES": 1, "KIB": 8}.items():
        room.patch.setattr(_moving, name, value)
    path = room.person.room / "phrase"
    path.write_text(text)
    path.chmod(mode)


def exported(room: Room) -> None:
    phrase(room)
    status, lines = room.person.run("export", str(room.person.room / "file"), "--passphrase", str(room.person.room / "phrase"))
    assert status == 0, lines


def written(data: bytes) -> Callable[[Room], object]:
    return lambda room: (room.person.room / "file").write_bytes(data)


def replaced(old: bytes, new: bytes) -> Callable[[Room], object]:
    """Other bytes in the exported file."""

    def replace(room: Room) -> None:
        path = room.person.room / "file"
        assert old in path.read_bytes()
        path.write_bytes(path.read_bytes().replace(old, new))

    return replace


def typed(*texts: str) -> Callable[[Room], object]:
    """What is typed at the terminal, time after time."""
    return lambda room: room.patch.setattr(getpass, "getpass", lambda _, left=[*texts, *texts]: left.pop(0))


def without_terminal(room: Room) -> None:
    def warned(_: str) -> str:
        raise getpass.GetPassWarning

    room.patch.setattr(getpass, "getpass", warned)


def without_memory(room: Room) -> None:
    def failing(*_: Any) -> bytes:
        raise CryptoError

    room.patch.setattr("nacl.pwhash.argon2id.kdf", failing)
    room.patch.setattr(_moving, "KIB", 1 << 18)


RUNS = {
    "EXPORTED": Run(
        0,
        "ROOM/file has your whole state with its secret keys: import it on another device, and from then on change keys on one device "
        "only",
        {"file": "ROOM/file"},
        EXPORT,
        after(phrase),
    ),
    "IMPORTED": Run(
        0,
        "ROOM/other has the state up to epoch 2, first seen 0 minutes ago: change keys on this device only, not on the one it comes from",
        {"epoch": 2, "seen": client_world.hour(3)},
        IMPORT,
        after(exported),
    ),
    "EXPORT_THERE": Run(
        3, "ROOM/file is there already, and is left as it is: give another file", {}, EXPORT, after(phrase, written(b"x"))
    ),
    "IMPORT_NONE": Run(
        3,
        "ROOM/file is no exported state, or was cut: take the file that coniks-client export wrote",
        {},
        IMPORT,
        after(phrase, written(b"coniks-client-export 1 1 8 x\n")),
    ),
    "IMPORT_VERSION": Run(
        3,
        "ROOM/file was exported by another version of coniks-client: use that version",
        {},
        IMPORT,
        after(exported, replaced(b"export 1 ", b"export 2 ")),
    ),
    "IMPORT_LIMITS": Run(
        3,
        "ROOM/file asks for more than an exported state takes: take the file that coniks-client export wrote",
        {},
        IMPORT,
        after(exported, replaced(b" 1 8 ", b" 9 8 ")),
    ),
    "IMPORT_CLOSED": Run(
        3,
        "the passphrase is wrong, or ROOM/file was changed: nobody can tell which of both",
        {},
        IMPORT,
        after(exported, lambda room: phrase(room, "another")),
    ),
    "PASSPHRASE_NONE": Run(
        3, "the passphrase is empty: choose one that nobody can guess", {}, EXPORT, after(lambda room: phrase(room, "\n"))
    ),
    "PASSPHRASE_DIFFERS": Run(
        3, "you have typed two passphrases: run the command again", {}, EXPORT[:2], after(phrase, typed("one", "two"))
    ),
    "PASSPHRASE_UNASKED": Run(
        3,
        "no terminal asks for a passphrase: give --passphrase with a file that has it",
        {},
        EXPORT[:2],
        after(phrase, without_terminal),
    ),
    "PASSPHRASE_SHARED": Run(
        3,
        "others can read ROOM/phrase, which has a passphrase: chmod 600, and change it if they have",
        {},
        EXPORT,
        after(lambda room: phrase(room, mode=0o640)),
    ),
    "PASSPHRASE_MEMORY": Run(
        3,
        "there is too little memory for the passphrase, which takes 256 MiB: close other programs",
        {},
        EXPORT,
        after(phrase, without_memory),
    ),
}
