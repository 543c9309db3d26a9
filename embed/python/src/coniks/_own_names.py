"""A user's own names: they are registered, changed, and verified at each epoch."""

from __future__ import annotations

import base64
import json
import time
from dataclasses import dataclass, field, replace
from typing import Any, Mapping, Optional, Sequence
from urllib.parse import quote

from nacl.signing import SigningKey

from . import Body
from ._confirming import Agreement, settle
from ._messages import History, Reply
from ._person import REPLY, TRIES, Person, bare, detail, key_text
from ._telling import Unusable, Verdict
from .client import Client, Found, Refusal, Reported, Watched
from .vouching import Change, Notice, Place, Value, first, following, judged, reset

# The most bytes of a history, and the most epochs of one.
_HISTORY, _SPAN = 1 << 24, 1000


@dataclass
class Own:
    """A name of the user's: the secret key that signs its records, the record that each epoch must show, none before the first, and
    the one that is under way. Neither is ever signed anew, so that no two records have one number."""

    client: Client
    secret: SigningKey
    value: bytes = b""
    next: bytes = b""
    # Since when a promised proof is refused, in Unix seconds, and the epochs that can no longer be verified.
    refused: int = 0
    lost: list[int] = field(default_factory=list)
    # The record before, the present one after the notice that the latest epoch shows, and the notice that a first record resets.
    former: bytes = b""
    asked: bytes = b""
    base: bytes = b""
    # The greatest number of a record that another state has signed with this secret key, and the epoch that has shown the present one.
    used: int = 0
    since: int = 0

    @classmethod
    def read(cls, person: Person, name: str, it: Mapping[str, Any]) -> Own:
        secret, value, following = (bytes.fromhex(it[part]) for part in ("secret", "value", "next"))
        own = cls(person.opened(it["client"]), SigningKey(secret), value, following, it.get("refused", 0), it.get("lost", []))
        own.former, own.asked, own.base = (bytes.fromhex(it.get(part, "")) for part in ("former", "asked", "base"))
        own.used, own.since = it.get("used", 0), it.get("since", 0)
        if value:
            own.client.watch(name, own.present)
        return own

    def members(self) -> dict[str, Any]:
        """What the state has of it."""
        parts = {"secret": bytes(self.secret), "value": self.value, "next": self.next, "former": self.former}
        texts = {
            name: it.hex() for name, it in {"client": self.client.state, **parts, "asked": self.asked, "base": self.base}.items()
        }
        return {**texts, "refused": self.refused, "lost": self.lost, "used": self.used, "since": self.since}

    @property
    def present(self) -> bytes:
        """What the next epoch must show: the record, after the notice that the latest one shows."""
        return self.asked or self.value

    @property
    def notice(self) -> Optional[Notice]:
        """The notice over the record."""
        found = Value.read(self.asked)
        return found.notice if found else None

    @property
    def is_resetting(self) -> bool:
        """Whether the name is somebody's, and the user waits for its reset."""
        return not self.value and not (self.next and not self.base)

    def is_ours(self, key: Optional[bytes]) -> bool:
        """Whether bytes are the present record or the one that is under way, alone or after a notice."""
        return record_in(key) in {self.value, self.next} - {b""}

    def is_due(self, key: Optional[bytes], epoch: int) -> bool:
        """Whether an epoch may show bytes: before the present record was shown, also the record before, alone or after a notice."""
        return self.is_ours(key) or (bool(self.former) and epoch < self.since and record_in(key) == self.former)

    def is_twins(self, place: Place, key: Optional[bytes]) -> bool:
        """Whether bytes are a record that another state has signed with this secret key."""
        found = Value.read(key)
        if found is None or found.record.number < number_of(self.value) or self.is_ours(key):
            return False
        return found.record.voucher == bytes(self.secret.verify_key) and found.record.is_signed(place)

    @property
    def missing(self) -> list[int]:
        """The epochs of which a proof is promised and missing."""
        lost = set(self.client.lost)
        return [it for it in self.client.missing if it not in lost]

    @property
    def unverified(self) -> list[int]:
        """The epochs that can no longer be verified: those that were dropped, and stored ones."""
        return [it.epoch for it in self.client.alarms if it.seen is Watched.MISSING] + self.client.lost

    @property
    def alarmed(self) -> set[int]:
        """The epochs of another key or of none: all that were dropped, and the first one that is reported."""
        report, dropped = self.client.report(), {it.epoch for it in self.client.alarms if it.seen is not Watched.MISSING}
        return dropped | ({report.first} if report.what is Reported.CHANGED else set())

    def feed(self, entries: Sequence[bytes]) -> None:
        """Takes the entries of the chain that this name's client lacks, and its latest one if that was signed again."""
        head, latest = self.client.head(), self.client.entries[-1:]
        since = head.epoch if head else 0
        self.client.feed([it for it in entries if Body.of_entry(it).epoch >= since and it not in latest])


@dataclass(frozen=True)
class Shown:
    """What an epoch shows of a name, with the reply that shows it if it is another key."""

    found: Found
    reply: bytes


class OwnNames:
    """The names of the user's in a state."""

    def __init__(self, person: Person):
        self._person = person
        # Why the service refuses what was sent for a name in this run.
        self._refusals = dict[str, str]()
        # What was verified in this run, by the name and the epoch.
        self._shown = dict[str, dict[int, Shown]]()
        try:
            self.names = {name: Own.read(person, name, it) for name, it in person.state["own"].items()}
        except (KeyError, TypeError, ValueError, AttributeError, Refusal) as error:
            raise person.changed(error) from error

    @property
    def clients(self) -> list[Client]:
        return [it.client for it in self.names.values()]

    def save(self) -> None:
        self._person.state["own"] = {name: it.members() for name, it in self.names.items()}
        self._person.save()

    # Registering a key and changing it.

    def register(self, name: str, key: bytes, notice: Optional[int] = None) -> None:
        """Signs a record of a key and sends it, or sends the one that is under way. If something interrupts it, the same call goes on.
        A reset must be announced for as many epochs as `notice`; None leaves that as it is."""
        if name in self.names and self.names[name].is_resetting:
            return self.reset(name, key, notice)
        person, (found, reply) = self._person, self._person.look(name)
        if name not in self.names and name not in person.state["past"] and found.key is not None:
            return person.tell(Verdict.OWN_TAKEN, name=name, epoch=found.epoch, key=key_text(found.key))
        self.names[name] = self._taken_back(name, self._own(name), found, key)
        self._change(name, Shown(found, reply), key, notice)

    def keep_record(self, name: str) -> None:
        """Takes the notice of a reset back, by a next record with the same key."""
        own, shown = self._watched(name), Shown(*self._person.look(name))
        self._settle(name, own, shown.found)
        if not own.asked:
            return self._person.tell(Verdict.OWN_UNANNOUNCED, name=name)
        self._change(name, shown, bare(own.next or own.value), None, is_forced=True)

    def close(self, name: str) -> None:
        """Signs a record without a key, after which there never is one."""
        own = self._watched(name)
        if own.value:
            self._change(name, Shown(*self._person.look(name)), b"", None)

    def _watched(self, name: str) -> Own:
        own = self.names.get(name)
        if own is None:
            raise Unusable(Verdict.OWN_UNWATCHED, name=name)
        return own

    def _change(self, name: str, shown: Shown, key: bytes, notice: Optional[int], is_forced: bool = False) -> None:
        """Signs the next record unless the present one is the same or another one is under way, and sends what is signed."""
        own, found = self.names[name], shown.found
        self._settle(name, own, found)
        if own.next and bare(own.next) != key:
            raise Unusable(Verdict.OWN_UNDER_WAY, name=name, key=key_text(own.next))
        if own.value and key and not bare(own.value):
            raise Unusable(Verdict.OWN_CLOSED_EVER, name=name)
        is_present = found.key == (own.present or None)
        if is_present and not own.next and (is_forced or is_other(own.value, key, notice)):
            self._sign(name, shown, key, notice)
        self.save()
        if own.next and is_present:
            self._send(name, own)

    def _sign(self, name: str, shown: Shown, key: bytes, notice: Optional[int]) -> None:
        """Signs the record of a key, after what epochs show of the one before is verified."""
        place, own = self._person.place(name), self.names[name]
        if not own.value:
            own.next = first(place, own.secret, key, self._person.week if notice is None else notice)
            return
        self._take(name, own, shown.found, shown.reply)
        if own.missing:
            raise Unusable(Verdict.OWN_UNVERIFIED, name=name, missing=own.missing)
        following_one = following(place, own.secret, own.value, key, notice)
        if number_of(following_one) <= own.used:
            raise Unusable(Verdict.OWN_TWIN, name=name, epochs=[shown.found.epoch], key=key_text(own.value))
        own.next = following_one

    def _own(self, name: str) -> Own:
        """A name that is watched, that was, or that is new."""
        person = self._person
        if name in self.names:
            return self.names[name]
        past = person.state["past"].pop(name, None)
        if past is None:
            return self._drawn()
        own = Own.read(person, name, past)
        head, stored = own.client.head(), person.chain.entries[:1]
        is_behind = head and stored and head.epoch < Body.of_entry(stored[0]).epoch
        return self._anew(name, own) if is_behind else own

    def _drawn(self) -> Own:
        """A name with a new secret key."""
        return Own(self._person.opened(self._person.chain.state.hex()), SigningKey.generate())

    def _anew(self, name: str, own: Own) -> Own:
        """A name that is watched from the latest epoch on: what was before is in no chain of its client."""
        found = replace(own, client=self._person.opened(self._person.chain.state.hex()), refused=0, lost=[])
        if found.value:
            found.client.watch(name, found.present)
        return found

    def _taken_back(self, name: str, own: Own, found: Found, key: bytes) -> Own:
        """The name with a record that its secret key signed and the state lacks, as after a restore, if that has the key of the user."""
        is_lacking = own.value or own.next
        if not is_lacking or found.key is None or own.is_ours(found.key) or bare(found.key) != key:
            return own
        return self._adopted(name, own, found) or own

    def _adopted(self, name: str, own: Own, found: Found) -> Optional[Own]:
        """The name with a later record that its secret key signed elsewhere, None if what is shown is none. One that is under way has
        lost its number."""
        place, now, record = self._person.place(name), found.key, record_in(found.key)
        if not own.is_twins(place, now) or judged(place, own.value or own.next, record, None) is not Change.VOUCHED:
            return None
        asked = b"" if now == record else now or b""
        parts = {"value": record, "next": b"", "former": own.value, "asked": asked, "base": b""}
        return self._anew(name, replace(own, **parts, since=found.epoch))

    def adopt(self, name: str) -> None:
        """Goes on from a record that another state has signed with the secret key of a name."""
        own, (found, _) = self._watched(name), self._person.look(name)
        adopted = self._adopted(name, own, found)
        if adopted is None:
            raise Unusable(Verdict.OWN_NO_TWIN, name=name)
        self.names[name] = adopted
        self.save()
        self._person.tell(Verdict.OWN_ADOPTED, name=name, epoch=found.epoch, key=key_text(adopted.value))

    # Resets.

    def reset(self, name: str, key: bytes, notice: Optional[int] = None) -> None:
        """Takes part in the reset of a name whose secret key is lost: draws a new one, and signs and sends the record of the reset once
        that is in time. If something interrupts it, the same call goes on."""
        shown = Shown(*self._person.look(name))
        value = Value.read(shown.found.key)
        if shown.found.key is None:
            raise Unusable(Verdict.OWN_FREE, name=name)
        known = [it for it in (self.names.get(name), self._past(name)) if it and it.value]
        if any(value and value.record.voucher == bytes(it.secret.verify_key) for it in known):
            if name in self.names and bare(shown.found.key) == key:
                return
            raise Unusable(Verdict.OWN_KNOWN, name=name)
        if value is None or not value.record.notice:
            raise Unusable(Verdict.OWN_NEVER, name=name)
        own = self.names.get(name)
        is_over = own and own.next and own.base and shown.found.key not in (own.base, own.next)
        if own is None or not own.is_resetting or is_over:
            # No secret key is deleted.
            self._person.state["dropped"] += [[name, own.members()]] if own else []
            own = self.names[name] = self._drawn()
        if not own.next and self._is_ripe(own, value, shown.found.epoch):
            epochs = self._person.week if notice is None else notice
            # What was before is no epoch of the user's.
            own.client, own.base = self._person.opened(self._person.chain.state.hex()), shown.found.key
            own.next = reset(self._person.place(name), own.secret, own.base, key, epochs)
        self.save()
        if own.next and shown.found.key == own.base:
            self._send(name, own)

    def _past(self, name: str) -> Optional[Own]:
        past = self._person.state["past"].get(name)
        return past and Own.read(self._person, name, past)

    def _is_ripe(self, own: Own, value: Value, epoch: int) -> bool:
        """Whether the next epoch may show the record of the reset."""
        notice = value.notice
        return notice is not None and notice.voucher == bytes(own.secret.verify_key) and notice.effect <= epoch + 1

    def _tell_reset(self, name: str, own: Own, latest: Shown) -> None:
        """Tells how far the reset is that the user waits for."""
        value, voucher = Value.read(latest.found.key), bytes(own.secret.verify_key)
        if value and value.notice and value.notice.voucher == voucher:
            effect = value.notice.effect
            return self._person.tell(Verdict.OWN_RESET_WAITS, name=name, effect=effect, time=self._person.time_of(effect))
        self._person.tell(Verdict.OWN_VOUCHER, name=name, voucher=voucher.hex())

    def _send(self, name: str, own: Own) -> None:
        """Sends the operation that is under way, and waits for its epoch for a while."""
        key = base64.b64encode(own.next).decode()
        body = json.dumps({"op": "change" if own.value or own.base else "register", "name": name, "key": key}).encode()
        for _ in range(TRIES):
            found = self._person.ask("/v1/operations", REPLY, body)
            if found.status != 202:
                break
        if 400 <= found.status < 500 and found.status != 429:
            self._refusals[name] = detail(found)

    # Watching.

    def watch(self, agreement: Agreement) -> None:
        """Verifies that each name has its key at each epoch, and reports it."""
        if not self.names:
            self._person.tell(Verdict.OWN_NONE)
        for name, epochs in self._alarms_before():
            self._person.tell(Verdict.OWN_BEFORE_ALARM, name=name, epochs=epochs)
        for name, own in self.names.items():
            self._watch_one(name, own, agreement)

    def _alarms_before(self) -> list[tuple[str, list[int]]]:
        """The names with alarms in directories that have ended, until their owner takes note of them."""
        return [pair for it in self._person.state["before"] for pair in it["alarms"].items()]

    def _watch_one(self, name: str, own: Own, agreement: Agreement) -> None:
        latest = list[Shown]()
        is_shown = self._person.tried(lambda: latest.append(self._latest(name, own)))
        if own.value:
            settle(own.client, agreement.heads, agreement.is_enough)
            self._tell_lost(name, own)
            self._tell_shown(name, own, agreement)
        if latest and own.is_resetting and not own.next:
            self._tell_reset(name, own, latest[0])
        if own.next and latest:
            self._tell_waiting(name, own, latest[0])
        self._tell_refused(name, own, is_shown)
        self.save()

    def _latest(self, name: str, own: Own) -> Shown:
        """What the latest epoch shows, after all that is missing was asked for."""
        found, reply = self._person.look(name)
        self._settle(name, own, found)
        if own.value:
            self._take(name, own, found, reply)
        if own.value and found.key == own.present:
            self._person.accept(name, found.key, reply, True)
        return Shown(found, reply)

    def _settle(self, name: str, own: Own, found: Found) -> None:
        """Expects the record that is under way, once an epoch shows it, and a notice over the present record, or that it is gone."""
        record = record_in(found.key)
        is_next = bool(own.next) and record == own.next
        if not is_next and (not own.value or record != own.value or found.key == own.present):
            return
        head = own.client.head()
        if is_next and not own.value:
            own.client.watch(name, own.base or None, since=(head.epoch if head else 0) + 1)
        own.asked = (found.key or b"") if found.key != record else b""
        if is_next:
            own.former, own.value, own.next, own.base, own.since = own.value, own.next, b"", b"", found.epoch
        if head and head.epoch >= found.epoch:
            own.client = self._anew(name, own).client
        else:
            own.client.expect(own.present, by=found.epoch)

    def _take(self, name: str, own: Own, found: Found, reply: bytes) -> None:
        """Takes what epochs show. That of the latest one counts, whatever is refused of the others."""
        person, shown_at = self._person, self._shown.setdefault(name, {})
        own.feed(person.chain.entries)
        shown_at[found.epoch] = Shown(own.client.lookup(name, reply, found.epoch), reply)
        for epochs in spans(own):
            person.tried(lambda: shown_at.update(self._history(name, own, epochs)))
        self._note_twins(name, own)
        for it in self._wrong(name)[:1]:
            self.keep(name, it.found.key, it.reply)
        if self._is_excused(name, own):
            own.client = self._anew(name, own).client
            own.client.lookup(name, reply, found.epoch)

    def _note_twins(self, name: str, own: Own) -> None:
        """Notes which numbers another state has used."""
        own.used = max([own.used, *(number_of(it.found.key) for it in self._twins(name))])

    def _is_excused(self, name: str, own: Own) -> bool:
        """Whether nothing but notices that came and went is another key than the expected one: all of that is verified, so the client
        goes on from the latest epoch."""
        shown, others = self._verified(name), self._others(name)
        is_all = not own.missing and not own.client.alarms and shown[-1].found.key == own.present
        return bool(others) and is_all and len(self._excused(name)) == len(others)

    def _wrong(self, name: str) -> list[Shown]:
        """What was verified in this run, and is another key or none, which this secret key has not signed."""
        place, own, excused = self._person.place(name), self.names[name], self._excused(name)
        return [it for it in self._others(name) if it.found.epoch not in excused and not own.is_twins(place, it.found.key)]

    def _twins(self, name: str) -> list[Shown]:
        """What was verified in this run, and another state has signed with this secret key."""
        place, own = self._person.place(name), self.names[name]
        return [it for it in self._others(name) if own.is_twins(place, it.found.key)]

    def _others(self, name: str) -> list[Shown]:
        """What was verified in this run, and is another key than the expected one or none."""
        return [it for it in self._verified(name) if it.found.seen in (Watched.CHANGED, Watched.ABSENT)]

    def _excused(self, name: str) -> set[int]:
        """The epochs of other bytes than the expected ones, of which only a notice is another: their records are the user's, in the order
        in which they were signed."""
        own, found, last = self.names[name], set[int](), 0
        for it in self._verified(name):
            number = number_of(it.found.key)
            if own.is_due(it.found.key, it.found.epoch) and number >= last:
                found.add(it.found.epoch)
            last = max(last, number if own.is_due(it.found.key, it.found.epoch) else 0)
        return found & {it.found.epoch for it in self._others(name)}

    def _verified(self, name: str) -> list[Shown]:
        """What was verified in this run, in the order of the epochs."""
        return [it for _, it in sorted(self._shown.get(name, {}).items())]

    def _history(self, name: str, own: Own, epochs: Sequence[int]) -> dict[int, Shown]:
        """What the service shows at epochs."""
        target = f"/v1/history?name={quote(name, safe='')}&first={epochs[0]}&last={epochs[-1]}"
        history = self._person.got(target, _HISTORY)
        found, parts = own.client.history(name, history), History.read(history)
        entries = {Body.of_entry(it).epoch: it for it in own.client.entries}
        return {
            it.epoch: Shown(it, b"" if it.seen is Watched.SAME else bytes(Reply(entries[it.epoch], parts.vrf, step.proof)))
            for it, step in zip(found, parts.steps())
        }

    # What is printed.

    def _tell_shown(self, name: str, own: Own, agreement: Agreement) -> None:
        """Reports the keys with their epochs, first those that aren't the user's."""
        person, wrong, twins = self._person, self._wrong(name), self._twins(name)
        for verdict, them in ((Verdict.OWN_CHANGED, wrong), (Verdict.OWN_TWIN, twins)):
            for key, epochs in by_key(them).items():
                person.tell(verdict, name=name, epochs=epochs, key=key)
        self._tell_alarms(name, own, [it.found.epoch for it in [*wrong, *twins]])
        if notice := own.notice:
            values: dict[str, Any] = {
                "effect": notice.effect,
                "time": person.time_of(notice.effect),
                "voucher": notice.voucher.hex(),
            }
            person.tell(Verdict.OWN_ANNOUNCED, name=name, **values)
        excused = self._excused(name)
        right = by_key(
            [it for it in self._verified(name) if it.found.key and (it.found.seen is Watched.SAME or it.found.epoch in excused)]
        )
        if closed := right.pop("", None):
            person.tell(Verdict.OWN_CLOSED, name=name, epochs=closed)
        if right:
            epochs = [it for them in right.values() for it in them]
            keys = [(key, epochs, agreement.verdict) for key, epochs in right.items()]
            reported: dict[str, Any] = {"keys": keys, "key": list(right)[-1], "report": own.client.report().what.value}
            person.tell(Verdict.OWN_SHOWN, name=name, epochs=epochs, **reported)

    def _tell_alarms(self, name: str, own: Own, but: Sequence[int]) -> None:
        """Reports the epochs that were alarms in earlier runs, until their owner takes note of them."""
        epochs = sorted(own.alarmed - {*but})
        if epochs:
            self._person.tell(Verdict.OWN_ALARM, name=name, epochs=epochs)

    def keep(self, name: str, key: Optional[bytes], reply: bytes) -> None:
        """Keeps a reply that shows another key than the user's, as what convicts the directory if it does."""
        self._person.judge(name, key, reply)
        if not any((it["kind"], it.get("name")) == ("unvouched", name) for it in self._person.state["found"]):
            self._person.keep("changed", reply, name=name)

    def _tell_waiting(self, name: str, own: Own, latest: Shown) -> None:
        """Tells what became of the record that is under way."""
        tell, found = self._person.tell, latest.found
        if own.base and found.key != own.base:
            self._tell_reset(name, own, latest)
        elif not own.value and found.key is not None and found.key != own.base:
            self.keep(name, found.key, latest.reply)
            tell(Verdict.OWN_OTHER, name=name, key=key_text(found.key), epoch=found.epoch)
        elif name in self._refusals:
            tell(Verdict.OWN_REFUSED, name=name, key=key_text(own.next), detail=self._refusals[name])
        else:
            tell(Verdict.OWN_WAITING, name=name, key=key_text(own.next))

    def _tell_lost(self, name: str, own: Own) -> None:
        """Tells the epochs that can no longer be verified. It is status 3 once."""
        lost = own.unverified
        if lost:
            self._person.tell(Verdict.OWN_LOST if set(lost) - set(own.lost) else Verdict.OWN_LOST_BEFORE, name=name, lost=lost)
        own.lost = lost

    def _tell_refused(self, name: str, own: Own, is_shown: bool) -> None:
        """Tells the epochs of which a promised proof is missing. After a period of the policy's clock that is an alarm."""
        missing, now, period = own.missing, int(time.time()), self._person.policy.epoch_period
        if not own.value or (is_shown and not missing):
            own.refused = 0
            return
        own.refused = own.refused or now
        is_overdue = period is not None and now - own.refused > period
        if missing or is_overdue:
            verdict = Verdict.OWN_OVERDUE if is_overdue else Verdict.OWN_MISSING
            self._person.tell(verdict, name=name, missing=missing, period=period)

    def note(self, name: str) -> None:
        """Reports the alarms of a name, and takes note of them: they are reported no more."""
        own = self._watched(name)
        alarms, ended = own.client.alarms, [it["alarms"] for it in self._person.state["before"] if name in it["alarms"]]
        for it in ended:
            self._person.tell(Verdict.OWN_BEFORE_ALARM, name=name, epochs=it.pop(name))
        if not alarms:
            self.save()
            return None if ended else self._person.tell(Verdict.OWN_NOTHING, name=name)
        self._tell_lost(name, own)
        self._tell_alarms(name, own, [])
        own.client.note(alarms[-1].epoch)
        self.save()
        self._person.tell(Verdict.OWN_NOTED, name=name, epochs=[it.epoch for it in alarms])


def record_in(key: Optional[bytes]) -> bytes:
    """The record of a name's bytes without a notice, nothing if they are none."""
    found = Value.read(key)
    return bytes(found.record) if found else b""


def number_of(key: Optional[bytes]) -> int:
    found = Value.read(key)
    return found.record.number if found else 0


def is_other(value: bytes, key: bytes, notice: Optional[int]) -> bool:
    """Whether a record has another key or another notice than the user wants."""
    found = Value.read(value)
    return found is None or found.record.key != key or notice not in (None, found.record.notice)


def spans(own: Own) -> list[list[int]]:
    """The epochs from the first missing one to the last one, in parts that one history has."""
    missing = own.missing
    if not missing:
        return []
    epochs = [it for it in (Body.of_entry(entry).epoch for entry in own.client.entries) if missing[0] <= it <= missing[-1]]
    return [epochs[at : at + _SPAN] for at in range(0, len(epochs), _SPAN)]


def by_key(shown_at: Sequence[Shown]) -> dict[Optional[str], list[int]]:
    """The epochs of each key, in the order of the keys' first epochs."""
    found: dict[Optional[str], list[int]] = {}
    for it in shown_at:
        found.setdefault(None if it.found.key is None else key_text(it.found.key), []).append(it.found.epoch)
    return found
