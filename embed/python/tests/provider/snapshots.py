"""A directory in a file whose snapshots are tested."""

from __future__ import annotations

from pathlib import Path
from typing import Any, Callable, ContextManager, Sequence, Union

import pytest

from stand_ins import Salted, Signer, guarded, in_room, opened
from coniks import provider
from coniks.provider import Change, FileLog, Provider, Register


ODD = 'ö "\\ 😀\0\u2028'


class Stage:
    """A directory in a file, which is closed and opened again."""

    def __init__(self, room: Union[str, Path], program: Any, **more: Any) -> None:
        self.room, self.path, self.program, self.more = Path(room), Path(room) / "log", program, more
        self.snapshot = self.room / "log.snapshot"
        self.signer = Signer(room, Salted())
        self.log = FileLog.create(self.path)
        self.own = self.start()

    def start(self, **more: Any) -> Provider:
        self.own = opened(self.program, self.log, self.signer, guarded(self.signer), **{**self.more, **more})
        return self.own

    def again(self, **more: Any) -> Provider:
        """Opens the directory again."""
        self.close()
        self.log = FileLog(self.path)
        return self.start(**more)

    def close(self) -> None:
        self.own.close()
        self.log.close()

    def lines(self) -> list[bytes]:
        """The lines of the stored snapshot."""
        return self.snapshot.read_bytes().split(b"\n")[:-1]

    def write(self, lines: Sequence[bytes]) -> None:
        self.snapshot.write_bytes(b"".join(it + b"\n" for it in lines))


def staged(program: Any, **more: Any) -> ContextManager[Stage]:
    return in_room(lambda room: Stage(room, program, **more))


Kinds = Union[type[BaseException], tuple[type[BaseException], ...]]


def refused(what: str, kinds: Kinds, call: Callable[[], object]) -> str:
    """Checks that a call raises one of these errors, whose text says what to do, and returns the text."""
    try:
        returned = call()
    except Exception as raised:
        kinds = kinds if isinstance(kinds, tuple) else (kinds,)
        assert type(raised) in kinds and ": " in str(raised), f"{what}: {raised!r}"
        return str(raised)
    pytest.fail(f"{what}: returned {returned!r}")


def fill(own: Provider, epochs: Sequence[int], size: int = 5) -> None:
    """Commits epochs that register names, change some, and rotate the nonce at each third one. One has odd names."""
    for number, epoch in enumerate(epochs):
        made: list[provider.Operation] = [Register(f"user-{epoch}-{it}", b"key %d" % it) for it in range(size)]
        made += [Change(f"user-{epochs[number - 1]}-0", b"key of %d" % epoch)] if number else []
        made += [Register(ODD, b"\0" * 99)] if epoch == 1 else []
        own.commit(epoch, made, bytes([epoch]) * 32 if number % 3 == 2 else None)


def seen(own: Provider, epochs: Sequence[int]) -> list[bytes]:
    """The lookups of some names at these epochs, in bytes."""
    names = ["user-1-0", "user-1-1", "user-4-2", ODD, "nobody"]
    return [own.lookup(name, epoch).line for epoch in epochs for name in names]
