"""What a run of `coniks-client` has: the state, the service, and the chain."""

from __future__ import annotations

import base64
import hashlib
import json
from contextlib import suppress
from typing import Any, Callable, Collection, Mapping, Optional
from urllib.parse import quote

from . import Body, Policy
from ._client_state import StateFile
from ._http import Answer, answered, check_time, check_token, new_entries
from ._messages import Reply
from ._telling import Notice, Telling, Unusable, Verdict
from .client import Client, Found, Refusal
from .notes import Auditor, BadNote
from .trust import Trust
from .vouching import Change, Place, Span, Value, convicts, judged

# The statuses by which a service asks who someone is.
_WHO = (401, 403)
# The most bytes of a reply, and the most requests for one while epochs pass.
REPLY, TRIES = 1 << 15, 5


class Alarm(Notice):
    """Something that the user must see, with what is kept of it: its kind and its parts."""

    def __init__(self, verdict: Verdict, kind: str, *parts: bytes, **values: Any):
        self.kind, self.parts = kind, parts
        super().__init__(verdict, **values)


class Person:
    """The members of a state, and a client of the library for the chain. `trust` has its auditors, None if there are none."""

    def __init__(self, file: StateFile, members: dict[str, Any], tell: Telling):
        self._file, self.tell = file, tell
        beside = {"past": {}, "dropped": [], "alone": False, "goes_on": False, "before": []}
        self.state: dict[str, Any] = {**beside, **members}
        try:
            self.policy = Policy.read(members["policy"].encode())
            tell.origin = self.policy.origin
            self.auditors = {url: Auditor.read(key) for url, key in members["auditors"]}
            self.trust = trust_of(self.auditors.values(), self.state, self.policy)
            self.chain = self.opened(members["chain"])
        except (KeyError, TypeError, ValueError, AttributeError, Refusal) as error:
            raise self.changed(error) from error

    def changed(self, error: Exception) -> Unusable:
        """What an error in the members of the state means."""
        return Unusable(Verdict.STATE_CHANGED, path=self._file.path, reason=error)

    def opened(self, state: str = "") -> Client:
        """A client of a state in hexadecimal digits. The marks of other auditors than those of now are left."""
        keys, trust = (self.policy.signing_key, self.policy.vrf_key), self.trust.of_client if self.trust else None
        return Client(*keys, self.policy, bytes.fromhex(state) if state else None, trust=trust)

    def place(self, name: str) -> Place:
        return Place.of(self.policy, name)

    def time_of(self, epoch: int) -> Optional[int]:
        """When an epoch begins, in Unix seconds, None without a clock."""
        start, period = self.policy.epoch_start, self.policy.epoch_period
        return None if start is None or period is None else start + (epoch - 1) * period

    @property
    def week(self) -> int:
        """As many epochs as are 7 days, 0 without a clock."""
        period = self.policy.epoch_period
        return 0 if period is None else max(1, -(-7 * 86400 // period))

    def save(self) -> None:
        """Stores the state, once it has an entry: a directory that was never reached leaves none."""
        self.state["chain"] = self.chain.state.hex()
        if self.chain.head():
            self._file.write(self.state)

    def keep(self, kind: str, *parts: bytes, **members: str) -> None:
        """Keeps what convicts the directory, or what the user must see: the first of each kind, and for each name."""
        if not any((it["kind"], it.get("name")) == (kind, members.get("name")) for it in self.state["found"]):
            self.state["found"].append({"kind": kind, "evidence": [it.hex() for it in parts], **members})
        self.save()

    def tried(self, call: Callable[[], None], is_beside: bool = False) -> bool:
        """Makes a call, and tells what ends it. What is beside something else counts only if it is an alarm. Returns whether nothing
        ended it."""
        try:
            call()
        except Refusal as error:
            if error.evidence:
                self.keep("entries", error.evidence.mine, error.evidence.other, why=error.evidence.kind.name.lower())
            verdict = Verdict.CONVICTED if error.evidence else Verdict.REFUSED
            self.tell(verdict, is_beside, reason=error, cause=error.cause.name)
        except Notice as error:
            if isinstance(error, Alarm):
                self.keep(error.kind, *error.parts)
            self.tell(error.verdict, is_beside, **error.values)
        except BadNote as error:
            self.tell(Verdict.UNUSABLE, is_beside, reason=error)
        else:
            return True
        return False

    # The service.

    def ask(self, target: str, most: int, operation: Optional[bytes] = None) -> Answer:
        """The reply to a request. The token goes with operations, and with what is refused without it, such as an old epoch."""
        url, token = self.state["service"], self.state["token"]
        headers = {"Content-Type": "application/json", "Prefer": "wait=20"} if operation else {}
        found = None if operation else answered(url + target, most)
        if found is None or (found.status in _WHO and token):
            check_token(url, token)
            headers |= {"Authorization": f"Bearer {token}"} if token else {}
            found = answered(url + target, most, operation, headers)
        return found

    def got(self, target: str, most: int) -> bytes:
        found = self.ask(target, most)
        if found.status != 200:
            raise Unusable(Verdict.SERVICE_REFUSES, target=target.partition("?")[0], detail=detail(found))
        return found.body

    def follow(self) -> None:
        """Takes all entries that the service has, also a latest one that was signed again: the next one may link to it."""
        try:
            for entry in new_entries(self.chain, self.state["service"], again=True):
                check_time(self.chain, self.policy, entry, "the service")
                self.chain.feed([entry])
        finally:
            self.save()

    def look(self, name: str, epoch: Optional[int] = None) -> tuple[Found, bytes]:
        """What an epoch shows of a name, by default the latest one, with the reply. An epoch that begins meanwhile is taken first."""
        target = f"/v1/lookup?name={quote(name, safe='')}" + ("" if epoch is None else f"&epoch={epoch}")
        for _ in range(TRIES):
            reply = self.got(target, REPLY)
            with suppress(Refusal):
                return self.chain.lookup(name, reply, epoch), reply
            self.follow()
        return self.chain.lookup(name, reply, epoch), reply

    # The keys that were seen.

    def judge(self, name: str, value: Optional[bytes], reply: bytes) -> Optional[Change]:
        """What a reply shows to those who have accepted an earlier one, None if this client has accepted none. Keeps what convicts."""
        seen = self.state["seen"].get(name)
        if seen is None:
            return None
        span = span_of(bytes.fromhex(seen["reply"]), reply)
        # What an epoch before a succession showed may have been signed under that policy.
        earlier = [] if span else [hashlib.sha256(it["policy"].encode()).digest() for it in self.state["before"]]
        change = judged(Place.of(self.policy, name, earlier), bytes.fromhex(seen["value"]), value, span)
        if change is Change.UNVOUCHED and convicts(self.policy, name, bytes.fromhex(seen["reply"]), reply):
            self.keep("unvouched", bytes.fromhex(seen["reply"]), reply, name=name)
        return change

    def accept(self, name: str, value: bytes, reply: bytes, is_verified: bool) -> None:
        self.state["seen"][name] = {"value": value.hex(), "reply": reply.hex(), "verified": is_verified}
        self.save()


def trust_of(auditors: Collection[Auditor], state: Mapping[str, Any], policy: Policy) -> Optional[Trust]:
    """The auditors of a state under a policy, None if there are none."""
    successor = policy.successor_key if state["goes_on"] else None
    return Trust(policy.digest, tuple(auditors), state["faulty"], successor or None) if auditors else None


def span_of(before: bytes, now: bytes) -> Optional[Span]:
    """The epochs of two replies, None if they are of different policies."""
    earlier, later = (Body.of_entry(Reply.read(it).entry) for it in (before, now))
    return Span(earlier.epoch, later.previous_epoch, later.epoch) if earlier.policy == later.policy else None


def bare(value: bytes) -> bytes:
    """The owner's key in a name's bytes, of no byte if its owner has closed the name."""
    found = Value.read(value)
    return found.record.key if found else value


def key_text(value: bytes) -> str:
    """The owner's key in a name's bytes, as text if that is printable ASCII without quotation marks, else in base64."""
    key, text = bare(value), bare(value).decode("latin-1")
    is_text = text.isascii() and text.isprintable() and not set(text) & {'"', "\\"} and not text.startswith("base64:")
    return text if is_text else f"base64:{base64.b64encode(key).decode()}"


def detail(found: Answer) -> str:
    """What a service says of an error."""
    with suppress(ValueError, TypeError, KeyError, RecursionError):
        return str(json.loads(found.body)["detail"])[:200]
    return f"status {found.status}"
