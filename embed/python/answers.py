"""Replies to the requests of embed/tests/sides.py, one on each line."""

from __future__ import annotations

import sys
from typing import Optional

import coniks


def data(word: str) -> bytes:
    return bytes.fromhex(word.removeprefix("-"))


class Session:
    """An auditor and a monitor."""

    def __init__(self) -> None:
        self.auditor = coniks.Auditor()
        self.monitor: Optional[coniks.Monitor] = None

    def check(self, nonce: str, root: str, index: str, name: str, proof: str) -> str:
        key = coniks.check(data(nonce), data(root), data(index), data(name), data(proof))
        return "absent" if key is None else f"key {key.hex()}"

    def begin(self) -> str:
        self.auditor = coniks.Auditor()
        return self.auditor.state.hex()

    def feed(self, entry: str, verdict: str) -> str:
        self.auditor.feed(data(entry), verdict == "1")
        return "follows"

    def head(self) -> str:
        head = self.auditor.head
        return f"{head.epoch} {head.link.hex()}" if head else f"refused {coniks.Status.NO_ENTRY.value}"

    def resume(self) -> str:
        self.auditor = coniks.Auditor(self.auditor.state)
        return self.auditor.state.hex()

    def watch(self, name: str, index: str) -> str:
        self.monitor = coniks.Monitor(data(name), data(index), None)
        return "watched"

    def expect(self, key: str) -> str:
        assert self.monitor
        self.monitor.expected = data(key) or None
        return "expected"

    def step(self, entry: str, verdict: str, proof: str) -> str:
        assert self.monitor
        return self.monitor.step(data(entry), verdict == "1", data(proof)).name.lower()

    def convicts(self, a: str, b: str) -> str:
        return str(int(coniks.convicts(data(a), data(b)) or 0))

    def link(self, entry: str) -> str:
        return coniks.link(data(entry)).hex()

    def body(self, entry: str) -> str:
        it = coniks.Body.of_entry(data(entry))
        parts = " ".join(part.hex() for part in (it.root, it.previous_link, it.nonce, it.policy))
        return f"{it.version} {it.epoch} {it.previous_epoch} {parts} {bytes(it).hex()}"

    def text(self, number: str) -> str:
        return coniks.text(int(number))

    def version(self) -> str:
        return coniks.library_version()


def main() -> None:
    session = Session()
    for line in sys.stdin:
        word, *words = line.split()
        try:
            print(getattr(session, word)(*words))
        except coniks.Refused as fault:
            print(f"refused {fault.status.value}")


main()
