"""Makes the directory that goes on with the names of another one, which ends (docs/FORMATS.md, "A succession")."""

from __future__ import annotations

import base64
import json
import os
import time
from contextlib import closing
from dataclasses import dataclass, replace
from functools import cached_property
from itertools import islice
from pathlib import Path
from typing import Any, Callable, Iterable, Iterator, Mapping, NamedTuple, Optional

from coniks import Head, Policy, link
from coniks._engine import Engine, Settings
from coniks._layout import body_of, epoch_of, nonce_of, root_of, signature_of
from coniks._snapshot_lines import pages
from coniks.provider import Provider, Register
from coniks.succession import Succession
from holding import Holder, Keys, Places, Sources, Terms, kept_of, make_keys, secret_of
from keys import is_signed
from past import BEFORE, Past, ended_of, store, write

# The most operations of a batch.
_MOST = 4096


class NotTheSame(ValueError):
    """The directory that goes on has other bindings than the one that ends."""


class Binding(NamedTuple):
    """A name with its key, and the opening of its commitment."""

    name: str
    key: bytes
    opening: bytes

    @classmethod
    def read(cls, members: Mapping[str, Any]) -> Binding:
        return cls(members["name"], base64.b64decode(members["key"]), bytes.fromhex(members["opening"]))


class Reading:
    """The chain of a directory up to an epoch, the latest if none is given, and the bindings there. Nothing is signed. Raises ValueError
    for an epoch whose bindings the log has no more, and for an entry that the policy's key didn't sign."""

    def __init__(self, policy: Policy, log: Any, program: str, last: Optional[int] = None):
        def verify(body: bytes, signature: bytes) -> bool:
            return is_signed(policy.signing_key, body + signature)

        settings = Settings(program, lambda _: b"", policy, vrf_public_key=policy.vrf_key, verify=verify, timeout=30)
        self._engine = Engine(settings, log)
        self.close: Callable[[], None] = self._engine.children.end
        try:
            self._engine.replay()
            self._point = self._engine.point_of(last)
        except BaseException:
            self.close()
            raise
        self.chain = [it for it in self._engine.chain if epoch_of(it) <= self._point.epoch]
        if not all(verify(body_of(it), signature_of(it)) for it in self.chain):
            self.close()
            raise ValueError(f"{log} has an entry that the policy's key didn't sign: restore it")

    @property
    def count(self) -> int:
        """The number of names."""
        return self._point.names

    @property
    def nonce(self) -> bytes:
        return nonce_of(self.chain[-1])

    @property
    def head(self) -> Head:
        return Head(self._point.epoch, link(self.chain[-1]))

    def bindings(self) -> Iterator[Binding]:
        for line in pages(self._engine.ask, self._point.epoch):
            yield from map(Binding.read, json.loads(line)["bindings"])


def batches(bindings: Iterable[Binding]) -> Iterator[list[Register]]:
    """The operations that register bindings, in batches, of which there is at least one."""
    rest = iter(bindings)
    batch = list(islice(rest, _MOST))
    yield [Register(*it) for it in batch]
    while batch := list(islice(rest, _MOST)):
        yield [Register(*it) for it in batch]


def periods_of(count: int) -> int:
    """How many epochs register so many names."""
    return max(1, -(-count // _MOST))


def register_all(directory: Provider, first: int, bindings: Iterable[Binding]) -> None:
    """Registers bindings in epochs from a first one on."""
    for epoch, batch in enumerate(batches(bindings), first):
        directory.commit(epoch, batch, far=True, force=True)


def compare(old: Iterable[Binding], new: Iterable[Binding], are_openings_kept: bool) -> None:
    """Compares each name's key, and with the openings also these. Raises `NotTheSame`."""

    def part(it: Binding) -> object:
        return (it.key, it.opening) if are_openings_kept else it.key

    rest = {it.name: part(it) for it in old}
    for it in new:
        if rest.pop(it.name, None) != part(it):
            raise NotTheSame(
                f"{it.name!r} has another key in the new directory, or none in the old one: remove the new one's files"
            )
    if rest:
        raise NotTheSame(f"{next(iter(rest))!r} has no key in the new directory: remove its files, and begin again")


def settled(it: Binding) -> Binding:
    """A binding without the notice of a reset."""
    return it._replace(key=it.key[48:]) if it.key.startswith(b"notice-1") else it


def fresh(it: Binding) -> Binding:
    """A binding with another opening: the same commitment under two VRF keys would connect both indices of a name."""
    return it._replace(opening=os.urandom(32))


@dataclass(frozen=True)
class Ending:
    """The directory that ends: the folder of its policy, where its log is, its last epoch that counts, None for the latest one, and the folder
    of those before it."""

    folder: Path
    log: str
    last: Optional[int] = None
    past: Optional[Path] = None

    @property
    def policy(self) -> Policy:
        """Its policy. Raises ValueError if no client would take a succession of it."""
        policy = Policy.read((self.folder / "policy").read_bytes())
        if not policy.successor_key:
            raise ValueError(
                f"the policy in {self.folder} names no successor key, so no client takes a succession: make a new directory"
            )
        return policy


@dataclass(frozen=True)
class Wanted:
    """What the directory that goes on has otherwise than the one that ends; None for the same."""

    origin: Optional[str] = None
    period: Optional[int] = None
    kept: Optional[int] = None
    successor_key: Optional[bytes] = None
    is_vrf_kept: bool = False


def terms_of(wanted: Wanted, old: Policy, count: int) -> tuple[Terms, int]:
    """What the policy of the directory that goes on says, and the first of the epochs that register so many names. The last of these is the
    one of now. With the same period the numbers of epochs go on."""
    assert old.epoch_start is not None and old.epoch_period is not None
    period, epochs, now = wanted.period or old.epoch_period, periods_of(count), int(time.time())
    start = old.epoch_start
    if period != old.epoch_period or old.epoch_at(now) < epochs:
        start = now // period * period - (epochs - 1) * period
    kept = old.proofs_kept if wanted.kept is None else wanted.kept
    stored = None if kept is None else kept_of(period, kept)
    key = old.successor_key if wanted.successor_key is None else wanted.successor_key
    return Terms(wanted.origin or old.origin, start, period, stored, old.records_vouched, key), 2 + (now - start) // period - epochs


def check_keys(old: Policy, new: Policy, is_vrf_kept: bool) -> None:
    """Checks the keys of a directory that goes on. Raises ValueError."""
    if new.signing_key == old.signing_key:
        raise ValueError(
            "the signing key is that of the directory that ends: entries of two policies under one key convict its owner"
        )
    if (new.vrf_key == old.vrf_key) is not is_vrf_kept:
        raise ValueError("give --keep-vrf exactly if the VRF key stays: then the root stays, and auditors compare it")


@dataclass(frozen=True)
class Taking:
    """What is taken over of a directory that ends: all names with their keys. With another clock the notices of resets are left out, since
    their effects are numbers of epochs. With the same VRF key the openings stay, and the nonce unless notices are left out: then the
    root is the same, and auditors compare it."""

    old: Reading
    is_vrf_kept: bool
    are_notices_kept: bool

    def bindings(self) -> Iterator[Binding]:
        """The bindings that the new directory has, with their openings in the old one."""
        return self.old.bindings() if self.are_notices_kept else map(settled, self.old.bindings())

    def registered(self) -> Iterator[Binding]:
        """The bindings to register."""
        return self.bindings() if self.is_vrf_kept else map(fresh, self.bindings())

    @cached_property
    def nonce(self) -> Optional[bytes]:
        """The nonce of the old directory if it stays, None for a new one."""
        has_all = self.are_notices_kept or all(settled(it) == it for it in self.old.bindings())
        return self.old.nonce if self.is_vrf_kept and has_all else None


@dataclass(frozen=True)
class Going:
    """Where the directory that goes on is: its folder of keys, its log and guard, and the processes that have its keys."""

    folder: Path
    places: Places
    sources: Sources

    def make(self, ending: Ending, wanted: Wanted) -> Succession:
        """Makes it with all names of the directory that ends, compares both, and stores the succession that is to be signed."""
        policy, is_kept = ending.policy, wanted.is_vrf_kept
        with closing(replace(self.places, log=ending.log).open_log()) as log, closing(self._read(policy, log, ending.last)) as old:
            terms, first = terms_of(wanted, policy, old.count)
            vrf = secret_of(ending.folder / "vrf.key") if is_kept and not self.sources.prover else None
            new = make_keys(self.folder, terms, self.sources, vrf)
            check_keys(policy, new, is_kept)
            has_clock = (new.epoch_start, new.epoch_period) == (policy.epoch_start, policy.epoch_period)
            taking = Taking(old, is_kept, has_clock or not policy.records_vouched)
            self._register(taking, first)
            made = Succession(policy.digest, old.head, new.digest, self._checked(taking, new))
            store(self.folder, bytes(made), Past(bytes(policy), old.chain, b""), ending.past or ending.folder / BEFORE)
            if not self.places.is_database:
                write(ended_of(ending.log), bytes(made))
        return made

    def _read(self, policy: Policy, log: Any, last: Optional[int] = None) -> Reading:
        return Reading(policy, log, self.places.program, last)

    def _register(self, taking: Taking, first: int) -> None:
        """Registers all names, in epochs from a first one on."""
        keys = Keys(self.folder, sources=self.sources)
        with closing(Holder(self.places, keys, create=True, nonce=taking.nonce)) as holder:
            assert holder.provider
            register_all(holder.provider, first, taking.registered())

    def _checked(self, taking: Taking, policy: Policy) -> Head:
        """Reads the new log as a start does, compares both directories, and returns the head of the new one."""
        with closing(self.places.open_log()) as log, closing(self._read(policy, log)) as new:
            compare(taking.bindings(), new.bindings(), taking.is_vrf_kept)
            if taking.nonce and root_of(new.chain[-1]) != root_of(taking.old.chain[-1]):
                raise NotTheSame("the new directory has another root: remove its files, and begin again")
            return new.head
