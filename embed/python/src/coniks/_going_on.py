"""How a state of `coniks-client` goes on when its directory ends: by a succession, which the service and the auditors show."""

from __future__ import annotations

from contextlib import suppress
from dataclasses import dataclass
from typing import Any, Iterator, Optional, Sequence

from . import ENTRY_LENGTH, Body, client
from ._http import PAGE, fetched, new_entries
from ._layout import epoch_of
from ._messages import Refusal, Reply
from ._own_names import Own, OwnNames, record_in
from ._person import Alarm, Person, key_text, trust_of
from ._telling import Unusable, Verdict
from .client import Cause, Client, Succeeded
from .notes import Auditor, BadNote, read_succession
from .policy import Policy
from .succession import Succession
from .trust import Trust


@dataclass(frozen=True)
class Next:
    """The directory that a succession names: its policy, its first entry that counts, and the auditors of the state. `is_anew` is whether
    it is gone on to without the chain that ended."""

    succession: Succession
    policy: Policy
    entry: bytes
    trust: Optional[Trust]
    is_anew: bool

    def of(self, ended: Client) -> Succeeded:
        """A client of the directory that ended, in this one. Raises `Refusal`."""
        if self.is_anew:
            return Succeeded(self.begun, [it for it in ended.entries if epoch_of(it) > self.succession.last.epoch])
        return ended.succeed(self.succession, self.policy, self.entry, trust=self._named)

    @property
    def _named(self) -> Optional[client.Trust]:
        return self.trust.of_client if self.trust else None

    @property
    def begun(self) -> Client:
        """A client that begins with the first entry that counts."""
        policy, heads = self.policy, {"": self.succession.first}
        return Client.vouched(policy.signing_key, policy.vrf_key, policy, self.entry, heads, 1, trust=self._named)

    def has_clock_of(self, ended: Policy) -> bool:
        """Whether epochs have the same times as those of the directory that ended."""
        return (self.policy.epoch_start, self.policy.epoch_period) == (ended.epoch_start, ended.epoch_period)

    def watching(self, name: str, own: Own) -> Client:
        """The client of a name of the user's."""
        found = self.of(own.client).client
        if self.is_anew and own.value:
            found.watch(name, own.present)
        return found


# The most bytes of a succession with its cosignatures.
_MOST = 1 << 15


@dataclass(frozen=True)
class Shown:
    """A succession that is signed by the successor key, and the auditor that cosigned it, None for a service."""

    succession: Succession
    by: Optional[Auditor] = None


class GoingOn:
    """Looks for a succession of the state's directory, and goes on by it."""

    def __init__(self, person: Person, own: OwnNames):
        self._person, self._own = person, own

    def run(self, are_auditors_asked: bool = False) -> bool:
        """Goes on as long as a succession leads on. Returns whether the directory is another one now. Raises `Alarm` and `Unusable`."""
        has_gone_on = False
        while self._person.policy.successor_key and (found := self._found(are_auditors_asked)):
            self._check(found, self._person.state["goes_on"])
            self._go_on(found[0].succession)
            has_gone_on = True
        return has_gone_on

    def run_once(self, is_anew: bool) -> None:
        """Goes on by the user's word, `is_anew` also if the chain is another one than that of the succession."""
        if not self._person.policy.successor_key or not (found := self._found(True)):
            raise Unusable(Verdict.SUCCESSION_NONE)
        self._check(found, True)
        self._go_on(found[0].succession, is_anew)

    # What the service and the auditors show.

    def _found(self, are_auditors_asked: bool) -> list[Shown]:
        """The successions that they show. Auditors are asked if the service shows one."""
        found = [*self._shown_at(self._person.state["service"])]
        if found or are_auditors_asked:
            for url, auditor in self._person.auditors.items():
                found += self._shown_at(url, auditor)
        return found

    def _shown_at(self, url: str, auditor: Optional[Auditor] = None) -> Iterator[Shown]:
        """The succession that a service or an auditor shows. What is not signed by the successor key counts for nothing."""
        policy = self._person.policy
        with suppress(Unusable, BadNote):
            succession, note = read_succession(fetched(f"{url}/v1/succession?policy={policy.digest.hex()}", _MOST))
            if succession.policy == policy.digest and succession.is_signed(policy.successor_key):
                yield Shown(succession, auditor if auditor and note.times([auditor]) else None)

    def _check(self, found: list[Shown], is_decided: bool) -> None:
        """Raises what keeps the state from going on: another succession, too few auditors, or a user who hasn't decided it."""
        person, one = self._person, found[0].succession
        other = next((it.succession for it in found if it.succession.signed != one.signed), None)
        if other:
            raise Alarm(Verdict.SUCCESSIONS, "successions", bytes(one), bytes(other))
        agreeing, needed = len({it.by for it in found if it.by}), person.trust.needed if person.trust else 0
        if agreeing < needed:
            raise Unusable(Verdict.SUCCESSION_FEW, epoch=one.last.epoch, agreeing=agreeing, needed=needed)
        if not is_decided:
            raise Unusable(Verdict.SUCCESSION_NEW, epoch=one.last.epoch)

    # Going on.

    def _go_on(self, succession: Succession, is_anew: bool = False) -> None:
        """Goes on by a succession. The state is stored once all of it goes on."""
        person = self._person
        if not is_anew:
            self._complete(succession)
        self._tell_void(succession)
        next = self._next(succession, is_anew)
        try:
            succeeded = next.of(person.chain)
        except Refusal as error:
            raise self._refused(succession, error) from error
        before = self._before(succession, succeeded.void)
        names = {name: self._own_of(name, own, next) for name, own in self._own.names.items()}
        seen = self._still_seen(succession)
        past = {name: {**it, "client": next.begun.state.hex(), "next": ""} for name, it in person.state["past"].items()}
        # A name that no epoch shows any more is watched once it is registered again.
        lacking = [name for name, it in names.items() if not it.value and not self._own.names[name].is_resetting]
        past |= {name: names.pop(name).members() for name in lacking}
        before = {"before": [*person.state["before"], before]}
        person.state |= {**before, "policy": bytes(next.policy).decode(), "seen": seen, "past": past, "found": []}
        person.policy, person.trust, person.chain, self._own.names = next.policy, next.trust, succeeded.client, names
        self._own.save()
        person.tell(Verdict.SUCCEEDED, epoch=succession.last.epoch, origin=next.policy.origin, first=succession.first.epoch)

    def _complete(self, succession: Succession) -> None:
        """Takes the entries of the ended chain that the state lacks. The service that goes on has them."""
        person, head = self._person, self._person.chain.head()
        if head is None or head.epoch < succession.last.epoch:
            query = f"&policy={succession.policy.hex()}"
            for entry in new_entries(person.chain, person.state["service"], again=True, query=query):
                if epoch_of(entry) <= succession.last.epoch:
                    person.chain.feed([entry])
            person.save()

    def _tell_void(self, succession: Succession) -> None:
        """Tells the epochs of the chain after the last one."""
        if void := [it for it in map(epoch_of, self._person.chain.entries) if it > succession.last.epoch]:
            self._person.tell(Verdict.SUCCESSION_VOID, epochs=void, epoch=succession.last.epoch)

    def _next(self, succession: Succession, is_anew: bool) -> Next:
        """The directory that goes on, as the service has it. Raises `Unusable`."""
        person, digest = self._person, succession.next_policy.hex()
        with suppress(Unusable, ValueError):
            policy = Policy.read(person.got(f"/v1/policy?policy={digest}", _MOST))
            page = person.got(f"/v1/entries?after={succession.first.epoch - 1}&policy={digest}", PAGE)
            if policy.digest == succession.next_policy and page:
                trust = trust_of(person.auditors.values(), person.state, policy)
                return Next(succession, policy, page[:ENTRY_LENGTH], trust, is_anew)
        raise Unusable(Verdict.SUCCESSION_ELSEWHERE, epoch=succession.last.epoch)

    def _refused(self, succession: Succession, error: Refusal) -> Exception:
        """What a refused succession is to the user: an alarm, if an entry of the chain contradicts it."""
        entries = [it for it in self._person.chain.entries if epoch_of(it) >= succession.last.epoch]
        if error.cause in (Cause.CHAIN_DIFFERS, Cause.UNKNOWN_EPOCH) and entries:
            return Alarm(Verdict.SUCCESSION_DIFFERS, "void", bytes(succession), entries[0], epoch=succession.last.epoch)
        return error

    def _before(self, succession: Succession, void: Sequence[bytes]) -> dict[str, Any]:
        """What the state keeps of the directory that ended."""
        person, state, names = self._person, self._person.state, self._own.names
        alarms = {name: sorted(own.alarmed) for name, own in names.items() if own.value and own.alarmed}
        clients = {name: own.client.state.hex() for name, own in names.items()}
        found = [{"kind": "void", "evidence": [bytes(succession).hex(), it.hex()]} for it in void[:1]]
        texts = {"policy": state["policy"], "succession": bytes(succession).decode(), "chain": person.chain.state.hex()}
        return {**texts, "own": clients, "alarms": alarms, "found": [*state["found"], *found]}

    def _own_of(self, name: str, own: Own, next: Next) -> Own:
        """A name of the user's in the directory that goes on. What no epoch up to the last one shows is to be registered anew."""
        person, last = self._person, next.succession.last.epoch
        own.feed([it for it in person.chain.entries if epoch_of(it) <= last])
        watching = next.watching(name, own)
        shown, missing = watching.first_key or b"", [it for it in own.missing if it <= last]
        value = record_in(shown)
        if missing:
            person.tell(Verdict.OWN_BEFORE_MISSING, name=name, missing=missing)
        if own.next or own.value != value:
            person.tell(Verdict.OWN_NOT_TAKEN, name=name, key=key_text(own.next or own.value))
        if shown == value or next.has_clock_of(person.policy):
            return Own(watching if value else next.begun, own.secret, value, asked=shown if shown != value else b"")
        # The notice of a reset is left out.
        began = next.begun
        began.watch(name, value)
        return Own(began, own.secret, value)

    def _still_seen(self, succession: Succession) -> dict[str, Any]:
        """The keys of contacts that epochs up to the last one showed. Tells the others."""
        person, seen = self._person, dict[str, Any]()
        for name, it in person.state["seen"].items():
            epoch = epoch_of(Reply.read(bytes.fromhex(it["reply"])).entry)
            if epoch <= succession.last.epoch or person.policy.digest != policy_in(it["reply"]):
                seen[name] = it
            else:
                person.tell(Verdict.KEY_VOID, name=name, key=key_text(bytes.fromhex(it["value"])), epoch=epoch)
        return seen


def policy_in(reply: str) -> bytes:
    """The policy digest in a reply of hexadecimal digits."""
    return Body.of_entry(Reply.read(bytes.fromhex(reply)).entry).policy
