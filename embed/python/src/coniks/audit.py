"""Audits a key directory: follows its service, verifies each entry, and cosigns heads.

    coniks-audit --new-key audit.key --name audit.example.org
    coniks-audit --policy policy --service https://keys.example.com --folder audit --key audit.key --name audit.example.org

    coniks-audit --folder audit --listen 127.0.0.1:8081            serves what another process keeps in the folder

The folder has `entries`, all entries that were accepted, `note`, the latest head with this auditor's cosignature, `metrics`, and
`alarm`, once there is cause for one. An entry that was signed again comes after the one whose place it takes. The latest head that was
cosigned is beside the key too, in `KEY.head`: a folder that lacks it is refused. Restore neither file from an old backup: the auditor
would cosign heads that overlap those that it has cosigned. Status 0: all is well; 1: an alarm; 2: a wrong command line; 3: the service or
the folder can't be used, or the service is late.

A directory whose policy has a successor key ends with a succession (`coniks.succession`): the auditor stores the first one that it is
shown, cosigns it once it has the last entry, and then takes no later one. With `--before` it goes on in the next directory.
"""

from __future__ import annotations

import argparse
import hashlib
import json
import os
import re
import signal
import sys
import threading
import time
from contextlib import suppress
from functools import partial
from http.server import BaseHTTPRequestHandler, ThreadingHTTPServer
from pathlib import Path
from typing import Any, Optional, Sequence

from nacl.signing import SigningKey

from . import ENTRY_LENGTH, Head, Policy, __version__, link
from ._ending import Before, Ending, stored_at, succession_at
from ._files import lock, rewrite
from ._http import PAGE, answered, check_time, fetched, has_other_signature, is_signed_again, new_entries
from ._layout import epoch_before, epoch_of, policy_of
from ._telling import WELL, Notice, Unusable, Verdict, event_of, worst
from .client import Cause, Client, Comparison, Refusal, entries_of
from .notes import Auditor, BadNote, Note, cosign, read_note, text_of

__all__ = ["Alarm", "Audit", "Unusable", "main"]

# How many epochs behind the policy's clock are late.
_LATE = 2
# The most bytes of a succession with its cosignatures.
_LONGEST = 1 << 16
# The verdict on a folder with the file of an alarm, and the verdicts on alarms whose cause has a sentence of its own.
_FILES = {"alarm": Verdict.AUDIT_ALARM, "alarm.peer": Verdict.AUDIT_PEER_ALARM}
_ALARMS = {
    "HEAD_DIFFERS": Verdict.AUDIT_PEER_ALARM,
    "SUCCESSIONS": Verdict.AUDIT_SUCCESSIONS,
    "VOID": Verdict.AUDIT_VOID,
    "CHAIN_DIFFERS": Verdict.AUDIT_END_DIFFERS,
    "OTHER_START": Verdict.AUDIT_START_DIFFERS,
    "ROOTS_DIFFER": Verdict.AUDIT_ROOTS_DIFFER,
}
# What the evidence of an alarm is for `cases/second/convicts`, if two parts of it convict the directory.
_KINDS = {"EQUIVOCATION": "entries", "OTHER_POLICY": "entries", "MALFORMED": "entries", "SUCCESSIONS": "successions"}
# What anyone on the way can make a reply to be, who leaves out an entry for example, so that it is no alarm.
_HARMLESS = (Cause.SIGNATURE, Cause.ENTRY_LENGTH, Cause.CATCH_UP_LENGTH, Cause.PREVIOUS_EPOCH)


class Alarm(Notice):
    """What an auditor must tell. `members` are those of the file: `evidence` has the two entries that convict the directory, or the
    one that doesn't follow, or a succession with the other one or the entries that it doesn't go with. `note` is that of another auditor
    which its entries don't have: that one lied, not the directory."""

    def __init__(self, source: str, why: str, evidence: Sequence[bytes] = (), note: str = ""):
        kind = _KINDS.get(why, "") if len(evidence) == 2 else ""
        self.members = {"source": source, "why": why, "kind": kind, "evidence": [it.hex() for it in evidence], "note": note}
        self.file = "alarm.peer" if note else "alarm"
        super().__init__(_ALARMS.get(why, Verdict.AUDIT_ALARM), source=source, why=why)


class Shelf:
    """What an auditor has in its folder, for those who ask."""

    def __init__(self, folder: Path):
        self.folder = folder

    def read(self, file: str) -> bytes:
        """What a file of the folder has, nothing if it isn't there."""
        return stored_at(self.folder / file)

    def entries(self, after: int) -> bytes:
        """At most a page of the entries after an epoch. One that was signed again is sent in the place of the one before it."""
        with suppress(FileNotFoundError), open(self.folder / "entries", "rb") as file:
            low, high = 0, os.fstat(file.fileno()).st_size // ENTRY_LENGTH
            end = high * ENTRY_LENGTH
            while low < high:
                middle = (low + high) // 2
                is_before = int.from_bytes(os.pread(file.fileno(), 8, middle * ENTRY_LENGTH + 1), "big") <= after
                low, high = (middle + 1, high) if is_before else (low, middle)
            # One entry more than a page shows whether the last one was signed again.
            page = entries_of(os.pread(file.fileno(), min(PAGE + ENTRY_LENGTH, end - low * ENTRY_LENGTH), low * ENTRY_LENGTH))
            saved = zip(page[: PAGE // ENTRY_LENGTH], [*page[1:], b""])
            return b"".join(it for it, after in saved if not is_signed_again(after, it))
        return b""

    def page(self, target: str) -> Optional[bytes]:
        """What is served under a target, None if there is nothing."""
        if found := re.fullmatch(r"/v1/entries\?after=(0|[1-9][0-9]{0,18})(?:&policy=([0-9a-f]{64}))?", target):
            is_own = found[2] in (None, hashlib.sha256(self.read("policy")).hexdigest())
            return self.entries(int(found[1])) if is_own else None
        if found := re.fullmatch(r"/v1/succession\?policy=([0-9a-f]{64})", target):
            return succession_at(self.folder, found[1]) or None
        file = {"/v1/note": "note", "/alarm": "alarm", "/metrics": "metrics"}.get(target)
        return self.read(file) or None if file else None


class Audit:
    """An auditor with its folder, which no other process audits in."""

    def __init__(self, folder: Path, policy: Policy, name: str, key: SigningKey, cosigned: Path):
        self._folder, self._policy, self._name, self._key, self._cosigned = folder, policy, name, key, cosigned
        self.read, self._before = Shelf(folder).read, list[Before]()
        self._client = Client(policy.signing_key, policy.vrf_key, policy)
        self._file = open(folder / "entries", "a+b")
        try:
            lock(self._file.fileno())
        except BlockingIOError:
            raise Unusable(Verdict.AUDIT_TAKEN, folder=folder) from None
        self._resume()

    def _resume(self) -> None:
        """Verifies what is stored again. An entry that a crash has cut was never signed for."""
        self._file.seek(0)
        stored = self._file.read()
        whole = stored[: len(stored) - len(stored) % ENTRY_LENGTH]
        self._file.truncate(len(whole))
        notes = [self.read("note"), self._cosigned.read_bytes() if self._cosigned.exists() else b""]
        try:
            self._client.feed(whole)
            heads = [read_note(it).head(self._policy) for it in notes if it]
        except (Refusal, BadNote) as error:
            raise Unusable(Verdict.AUDIT_CHANGED, folder=self._folder, reason=error) from error
        # Also those of entries that were signed again after the head was cosigned.
        if not {it.link for it in heads} <= {link(it) for it in entries_of(whole)}:
            raise Unusable(Verdict.AUDIT_LACKS, folder=self._folder)
        self._last = max(heads, key=lambda it: it.epoch, default=None)
        self._ending = Ending(self._folder, self._policy, self._cosigned.with_name(f"{self._cosigned.name}.succession"))
        if self._ending.is_cosigned and not self._has_last():
            raise Unusable(Verdict.AUDIT_LACKS, folder=self._folder)
        self._ending.publish()

    def go_on_from(self, folder: Path) -> None:
        """Goes on from the directory that is audited in another folder, whose succession names this one. Raises `Unusable`."""
        before = Before(folder, self._policy, Auditor(self._name, bytes(self._key.verify_key)))
        before.keep(self._folder)
        self._before = [before]

    def follow(self, source: str, is_whole: bool = False) -> None:
        """Takes the entries that a service or another auditor has, and stores those that are new. Raises `Alarm` for one that is signed
        and isn't of this chain."""
        taken, entry = list[bytes](), b""
        try:
            for entry in new_entries(self._client, source, is_whole, query=self._query):
                self._check_end(entry, source)
                check_time(self._client, self._policy, entry, source)
                self._take(entry, source, taken)
        except Refusal as error:
            if error.cause in _HARMLESS:
                raise Unusable(Verdict.AUDIT_REFUSED, source=source, reason=error) from error
            found = error.evidence
            raise Alarm(source, error.cause.name, (found.mine, found.other) if found else (entry,)) from error
        finally:
            self._append(taken)

    @property
    def _query(self) -> str:
        """What names this directory among those of a service, once another one goes on there."""
        return f"&policy={self._policy.digest.hex()}" if self._ending.succession else ""

    def _append(self, taken: Sequence[bytes]) -> None:
        self._file.write(b"".join(taken))
        self._file.flush()
        os.fsync(self._file.fileno())

    def _take(self, entry: bytes, source: str, taken: list[bytes]) -> None:
        """Takes an entry that continues the chain, and adds it to those that were taken. If it follows another signature of the latest
        one, that is taken first."""
        try:
            self._client.feed([entry])
        except Refusal as error:
            again = self._signed_again(source) if error.cause is Cause.PREVIOUS_LINK else None
            if again is None:
                raise
            self._take_again(again, taken)
            self._client.feed([entry])
        taken.append(entry)

    def _take_again(self, again: bytes, taken: list[bytes]) -> None:
        """Takes the latest entry with another signature. The note's head is of the first one, which is served no more."""
        self._client.feed([again])
        taken.append(again)
        (self._folder / "note").unlink(missing_ok=True)

    def _signed_again(self, source: str) -> Optional[bytes]:
        """The latest entry as a source has it, if that has another signature."""
        latest = self._client.entries[-1:]
        entries = new_entries(self._client, source, again=True, query=self._query)
        return next((it for it in entries if is_signed_again(it, *latest)), None)

    def compare(self, peer: str, auditor: Auditor) -> None:
        """Compares the head of another auditor with this chain. What that one has seen beyond is taken. Raises `Alarm`."""
        try:
            note = read_note(fetched(f"{peer}/v1/note"))
            head, about = note.head(self._policy), {"source": peer, "auditor": auditor.name}
        except BadNote as error:
            raise Unusable(Verdict.AUDIT_REFUSED, source=peer, reason=error) from error
        if not note.times([auditor]):
            raise Unusable(Verdict.AUDIT_NOT_COSIGNED, **about)
        for is_whole in (False, True):
            if self._client.compare(head) is not Comparison.EQUAL:
                self.follow(peer, is_whole)
        found = self._client.compare(head)
        if found is Comparison.UNKNOWN:
            raise Unusable(Verdict.AUDIT_WITHHELD, epoch=head.epoch, **about)
        if found is Comparison.DIFFERS and has_other_signature(self._client, peer, head):
            raise Unusable(Verdict.AUDIT_TWICE, epoch=head.epoch, **about)
        if found is Comparison.DIFFERS:
            raise Alarm(peer, "HEAD_DIFFERS", note=bytes(note).decode())

    # The succession.

    def learn(self, source: str) -> None:
        """Asks a service or another auditor for the succession of this directory, and stores the first one. Raises `Alarm` for another
        one."""
        url = f"{source}/v1/succession?policy={self._policy.digest.hex()}"
        found = answered(url, _LONGEST)
        if found.status not in (200, 404):
            raise Unusable(Verdict.BAD_STATUS, url=url, status=found.status)
        evidence = self._ending.take(found.body, source) if found.status == 200 else []
        if evidence:
            raise Alarm(source, "SUCCESSIONS", evidence)

    def _check_end(self, entry: bytes, source: str) -> None:
        """Raises `Alarm` for a signed entry after the last epoch, and `Refusal` for one that isn't signed."""
        end = self._ending.succession
        if end is None or epoch_of(entry) <= end.last.epoch or policy_of(entry) != self._policy.digest:
            return
        if found := self._client.evidence(entry):
            cause = Cause.MALFORMED if found.mine == found.other else Cause.EQUIVOCATION
            raise Alarm(source, cause.name, (found.mine, found.other))
        is_last = epoch_before(entry) < end.last.epoch
        raise Alarm(source, Cause.CHAIN_DIFFERS.name if is_last else "VOID", (bytes(end), entry))

    def _has_last(self) -> bool:
        """Whether the chain has the last entry that the succession names."""
        end = self._ending.succession
        return end is not None and (self._client.compare(end.last) is Comparison.EQUAL or self._was_fed(end.last))

    def _was_fed(self, head: Head) -> bool:
        """Whether the entry of a head was accepted. If the chain has another one in its place, that has the same body."""
        return any(Head(epoch_of(it), link(it)) == head for it in entries_of(self.read("entries")))

    def _compared(self, head: Head, service: str) -> Comparison:
        """Compares a head that a succession names. Another signature of its entry makes no difference if it was accepted before, or if it
        is one of the latest entry: that is taken then."""
        found, latest = self._client.compare(head), self._client.head()
        if found is not Comparison.DIFFERS or self._was_fed(head):
            return Comparison.EQUAL if found is Comparison.DIFFERS else found
        again = self._signed_again(service) if latest and latest.epoch == head.epoch else None
        if again is None or link(again) != head.link:
            return found
        taken = list[bytes]()
        self._take_again(again, taken)
        self._append(taken)
        return Comparison.EQUAL

    def _covering(self, epoch: int) -> bytes:
        """The entry of the chain that covers an epoch."""
        return next(it for it in self._client.entries if epoch_before(it) < epoch <= epoch_of(it))

    def end(self, service: str) -> None:
        """Compares the chain with the end that the succession names, cosigns that, and looks for entries after it. Raises `Alarm`."""
        end = self._ending.succession
        if end is None:
            return
        found = self._compared(end.last, service)
        if found is Comparison.UNKNOWN:
            raise Unusable(Verdict.AUDIT_UNENDED, source=service, epoch=end.last.epoch)
        if found is Comparison.DIFFERS:
            raise Alarm(service, Cause.CHAIN_DIFFERS.name, (bytes(end), self._covering(end.last.epoch)))
        if not self._ending.is_cosigned and not self._is_stopped():
            self._ending.cosign(cosign(self._name, self._key, bytes(end).decode(), int(time.time())))
            tell(Verdict.AUDIT_SUCCEEDED, epoch=end.last.epoch, policy=end.next_policy.hex(), folder=self._folder)
        if void := next((it for it in self._client.entries if epoch_of(it) > end.last.epoch), b""):
            raise Alarm(service, "VOID", (bytes(end), void))

    def start(self, service: str) -> None:
        """Compares the first entry that counts with the succession of the directory before, once the chain has it. Raises `Alarm`."""
        for before in self._before:
            named = before.succession
            found = self._compared(named.first, service)
            if found is Comparison.UNKNOWN:
                return
            first = self._covering(named.first.epoch)
            if found is Comparison.DIFFERS:
                raise Alarm(service, Cause.OTHER_START.name, (bytes(named), first))
            has_root = before.has_root_of(self._policy, first)
            if has_root is False:
                raise Alarm(service, "ROOTS_DIFFER", (bytes(named), before.last, first))
            if has_root is None:
                tell(Verdict.AUDIT_UNCOMPARED, epoch=named.first.epoch)
        self._before = []

    def _is_stopped(self) -> bool:
        """Whether there is another alarm than that of void entries, with which a succession is cosigned all the same."""
        return bool(self.read("alarm")) and self._why() != "VOID"

    def _why(self) -> str:
        """The cause of the alarm that is stored."""
        with suppress(ValueError, KeyError, TypeError):
            return str(json.loads(self.read("alarm"))["why"])
        return ""

    # A round.

    def sign(self) -> None:
        """Cosigns the latest head, all entries up to which are stored. Of an epoch it cosigns one head, also if that is signed again, and
        none after the last epoch."""
        head, last, end = self._client.head(), self._last, self._ending.succession
        if head is None or self.read("alarm") or (end and head.epoch > end.last.epoch):
            return
        if last is None or last == head or last.epoch < head.epoch:
            self._last = head
            text = text_of(self._policy, head)
            note = bytes(Note(text, (cosign(self._name, self._key, text, int(time.time())),)))
            # First beside the key: what was published must be there, whatever becomes of the folder.
            for file in (self._cosigned, self._folder / "note"):
                rewrite(file, note)

    def behind(self) -> int:
        """How many epochs of the policy's clock the latest entry is behind, 0 without a clock, and once the directory has ended."""
        head, now = self._client.head(), self._policy.epoch_at(time.time()) if self._policy.epoch_period else 0
        return 0 if self._ending.is_cosigned else max(0, now - (head.epoch if head else 0))

    def round(self, service: str, peers: Sequence[tuple[str, Auditor]]) -> int:
        """Follows the service, compares heads with the peers, and cosigns. Returns the status, which is that of an alarm as long as one is
        stored."""
        verdicts, sources = [Verdict.AUDITED], [service, *(url for url, _ in peers)] if self._policy.successor_key else []
        steps = [*(partial(self.learn, it) for it in sources), partial(self.follow, service)]
        steps += [partial(self.compare, *it) for it in peers]
        for step in [*steps, partial(self.start, service), partial(self.end, service)]:
            try:
                step()
            except Notice as reported:
                verdicts.append(tell(reported.verdict, **reported.values))
                if isinstance(reported, Alarm):
                    self._store(reported)
        self.sign()
        rewrite(self._folder / "metrics", self.metrics())
        if self.behind() >= _LATE:
            verdicts.append(tell(Verdict.AUDIT_LATE, behind=self.behind()))
        return worst(it.status for it in [*verdicts, *(it for file, it in _FILES.items() if self.read(file))])

    def _store(self, alarm: Alarm) -> None:
        """Stores an alarm, unless there is one: the first one tells most. That of void entries, which a theft explains, gives place."""
        is_replaced = alarm.file == "alarm" and self._why() == "VOID" != alarm.members["why"]
        if is_replaced or not self.read(alarm.file):
            rewrite(self._folder / alarm.file, json.dumps({"time": int(time.time()), **alarm.members}).encode() + b"\n")

    def metrics(self) -> bytes:
        """The metrics, in Prometheus's text format."""
        head = self._client.head()
        rows = {
            "epoch": head.epoch if head else 0,
            "epochs_behind": self.behind(),
            "alarm": int(bool(self.read("alarm"))),
            "peer_alarm": int(bool(self.read("alarm.peer"))),
            "succession": int(self._ending.is_cosigned),
        }
        return "".join(f"coniks_audit_{name} {value}\n" for name, value in rows.items()).encode()


def tell(verdict: Verdict, **values: Any) -> Verdict:
    """Prints a verdict as a line of JSON, and returns it."""
    line = {"time": int(time.time()), "event": event_of(verdict), "text": verdict.sentence(values)}
    print(json.dumps(line), file=sys.stderr, flush=True)
    return verdict


def serve(shelf: Shelf, host: str, port: int) -> None:
    """Serves what an auditor has, in threads that end with the process. A proxy before it limits who asks."""

    class Handler(BaseHTTPRequestHandler):
        timeout = 10

        def do_GET(self) -> None:
            body = shelf.page(self.path)
            self.send_response(404 if body is None else 200)
            self.send_header("Content-Type", "application/octet-stream" if "entries" in self.path else "text/plain; charset=utf-8")
            self.send_header("Content-Length", str(len(body or b"")))
            self.end_headers()
            self.wfile.write(body or b"")

        def log_message(self, *_: object) -> None:
            """Requests are not logged."""

    server = ThreadingHTTPServer((host, port), Handler)
    threading.Thread(target=server.serve_forever, daemon=True).start()


def address_of(text: str) -> tuple[str, int]:
    """The host and the port of a command line."""
    host, _, port = text.rpartition(":")
    if not host or not re.fullmatch("[0-9]{1,5}", port) or int(port) > 65535:
        raise argparse.ArgumentTypeError("expected HOST:PORT, for example 127.0.0.1:8081")
    return host, int(port)


def parsed(words: Optional[Sequence[str]]) -> argparse.Namespace:
    parser = argparse.ArgumentParser(prog="coniks-audit", description="Audits a key directory, and cosigns its heads.")
    parser.add_argument("--version", action="version", version=f"coniks-audit {__version__}", help="print the version")
    parser.add_argument("--new-key", type=Path, metavar="FILE", help="draw a key, print its verifier key, and do nothing else")
    parser.add_argument("--name", help="this auditor's name, for example audit.example.org")
    parser.add_argument("--policy", type=Path, metavar="FILE", help="the policy document, not from the service itself")
    parser.add_argument("--service", metavar="URL", help="the directory's service")
    parser.add_argument("--folder", type=Path, metavar="DIR", help="where the entries are, the note, the metrics and the alarm")
    parser.add_argument("--key", type=Path, metavar="FILE", help="the key that cosigns")
    parser.add_argument(
        "--head",
        type=Path,
        metavar="FILE",
        help="where the latest head is that the key cosigned (default: KEY.head, or KEY.DIGEST.head after another directory)",
    )
    parser.add_argument("--before", type=Path, metavar="DIR", help="the folder of the directory that this one goes on from")
    parser.add_argument("--peer", nargs=2, action="append", default=[], metavar=("URL", "KEY"), help="another auditor")
    parser.add_argument("--interval", type=float, default=30, metavar="N", help="seconds between rounds (default: %(default)s)")
    parser.add_argument("--once", action="store_true", help="make one round, and end")
    parser.add_argument(
        "--listen", type=address_of, metavar="HOST:PORT", help="serve what is in the folder; alone it does nothing else"
    )
    given = parser.parse_args(words)
    audits = [given.name, given.policy, given.service, given.folder, given.key]
    if (
        given.new_key
        and given.name
        or given.folder
        and given.listen
        and not any((given.name, given.policy, given.service, given.key, given.before))
    ):
        return given
    if given.new_key or None in audits:
        parser.error(
            "--name, --policy, --service, --folder and --key are expected, or --name and --new-key, or --folder and --listen"
        )
    return given


def new_key(path: Path, name: str) -> int:
    """Draws a key, and prints its verifier key."""
    key = SigningKey.generate()
    with open(path, "xb", opener=lambda it, flags: os.open(it, flags, 0o600)) as file:
        file.write(bytes(key))
    print(Auditor(name, bytes(key.verify_key)))
    return WELL


def head_of(key: Path, policy: Policy, before: Optional[Path]) -> Path:
    """Where the latest head is that a key cosigned. After another directory it is a file of this one's own."""
    return key.with_name(f"{key.name}.{policy.digest.hex()[:8]}.head" if before else f"{key.name}.head")


def run(given: argparse.Namespace) -> int:
    """Audits until SIGTERM, an alarm, or the end of one round, or serves until SIGTERM."""
    end = threading.Event()
    for number in (signal.SIGTERM, signal.SIGINT):
        signal.signal(number, lambda *_: end.set())
    if given.listen:
        serve(Shelf(given.folder), *given.listen)
    if not given.service:
        end.wait()
        return WELL
    policy, key = Policy.read(given.policy.read_bytes()), SigningKey(given.key.read_bytes())
    audit = Audit(given.folder, policy, given.name, key, given.head or head_of(given.key, policy, given.before))
    if given.before:
        audit.go_on_from(given.before)
    peers = [(url, Auditor.read(text)) for url, text in given.peer]
    status = audit.round(given.service, peers)
    while not (given.once or audit.read("alarm") or end.wait(given.interval)):
        status = audit.round(given.service, peers)
    return status


def main(words: Optional[Sequence[str]] = None) -> int:
    """Runs the command."""
    given = parsed(words)
    try:
        return new_key(given.new_key, given.name) if given.new_key else run(given)
    except Exception as error:
        return tell(Verdict.AUDIT_ENDED, kind=type(error).__name__, reason=error).status


if __name__ == "__main__":
    sys.exit(main())
