"""What the replies of a service say, which no other reply may contradict."""

from __future__ import annotations

import json
from typing import Union
from urllib.parse import parse_qsl

from replies import History, Reply, entries_of


def epoch_of(entry: bytes) -> int:
    return int.from_bytes(entry[1:9], "big")


class Facts:
    """What was said first of each subject. Several threads may add to it."""

    def __init__(self) -> None:
        self._printed: dict[tuple[Union[str, int], ...], bytes] = {}
        self.latest, self.epochs = 0, set[int]()

    def __len__(self) -> int:
        return len(self._printed)

    def add(self, value: bytes, *subject: Union[str, int]) -> None:
        printed = self._printed.setdefault(subject, value)
        assert printed == value, (subject, printed, value)

    def take(self, target: str, body: bytes, latest: int) -> None:
        """Takes what a GET of a target returned with status 200. `latest` is the latest epoch that was known when it was sent."""
        path, _, query = target.partition("?")
        given = dict(parse_qsl(query, keep_blank_values=True))
        if path == "/v1/policy":
            self.add(body, "policy")
        elif path == "/v1/head":
            self._take_entry(bytes.fromhex(json.loads(body)["entry"]), latest)
        elif path == "/v1/entries":
            for entry in entries_of(body):
                self._take_entry(entry)
        elif path == "/v1/lookup":
            reply = Reply(body)
            epoch = epoch_of(reply.entry)
            assert given.get("epoch") in (None, str(epoch)), (target, epoch)
            self._take_entry(reply.entry, epoch if "epoch" in given else latest)
            self._take_proof(given["name"], epoch, reply.vrf, reply.proof)
        elif path == "/v1/history":
            history = History(body)
            for epoch, proof in history.steps:
                self._take_proof(given["name"], epoch, history.vrf, proof)
        elif path.startswith("/v1/operations/") and (reported := json.loads(body))["state"] == "stored":
            self.add(body, path)
            self._take_entry(bytes.fromhex(reported["entry"]))

    def _take_entry(self, entry: bytes, least: int = 0) -> None:
        epoch = epoch_of(entry)
        assert epoch >= least, f"epoch {epoch} after epoch {least}"
        self.add(entry, "entry", epoch)
        self.epochs.add(epoch)
        self.latest = max(self.latest, epoch)

    def _take_proof(self, name: str, epoch: int, vrf: bytes, proof: bytes) -> None:
        self.add(vrf, "vrf", name)
        self.add(proof, "proof", name, epoch)
