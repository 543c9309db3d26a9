"""Which heads of a user's auditors are recent and of the chain. A client of the library confirms epochs by them.

Decided here is only what the core of that client does not know: whether a cosignature is valid and recent.
"""

from __future__ import annotations

import math
import time
from contextlib import suppress
from dataclasses import dataclass, field
from typing import Any, Collection, Mapping

from . import Body, Head
from ._http import fetched, has_other_signature, is_signed_again, new_entries
from ._person import Alarm, Person
from ._telling import WELL, Notice, Unusable, Verdict
from .client import Cause, Client, Comparison, Refusal
from .notes import SKEW, Auditor, BadNote, Note, read_note

# The least seconds for which a head counts, and the most bytes of a note.
_RECENT, _NOTE = 600, 1 << 16


@dataclass(frozen=True)
class Agreement:
    """Whether a quorum of the auditors has confirmed the chain lately, with the values of that sentence: `CONFIRMED` or `FEW`, and without
    auditors `ALONE` or `NOBODY`. `heads` has the recent heads that are of the chain, by the places of the auditors."""

    verdict: Verdict
    values: Mapping[str, Any] = field(default_factory=dict)
    heads: Mapping[int, Head] = field(default_factory=dict)

    @property
    def is_enough(self) -> bool:
        """Whether the user may rely on what is confirmed, or has chosen to do without auditors."""
        return self.verdict.status == WELL


def settle(client: Client, heads: Mapping[int, Head], is_enough: bool, others: Collection[Client] = ()) -> None:
    """Marks the recent heads of auditors in a client, and drops the epochs before the confirmed one if the heads are enough. What an
    auditor is behind stays, since its head would be unknown then, and what other clients lack."""
    reached = [it.epoch if it else 0 for it in [*heads.values(), *(other.head() for other in others)]]
    last = min(reached) if is_enough and reached else 0
    drop(client, last)
    for place, head in heads.items():
        client.mark(place, head)
    drop(client, last)


def drop(client: Client, last: int) -> None:
    """Drops the epochs before the confirmed one, unless that is after an epoch."""
    if (client.confirmed or 0) <= last:
        client.drop()


class Confirming:
    """Compares the chain of a run with the heads of its auditors."""

    def __init__(self, person: Person):
        self._person = person

    def agreed(self, others: Collection[Client]) -> Agreement:
        """Asks for the heads of the auditors: the service, which carries their notes, or else each of them. Marks them in the chain, which
        drops nothing that other clients lack. Tells alarms."""
        it, trust = self._person, self._person.trust
        if not trust:
            return Agreement(Verdict.ALONE if it.state["alone"] else Verdict.NOBODY)
        found, count, needed = self._carried() or self._requested(), len(trust.auditors), trust.needed
        # If the latest entry was signed again meanwhile, heads of its first signature confirm nothing.
        heads = {trust.place(auditor): head for auditor, head in found.items() if it.chain.compare(head) is Comparison.EQUAL}
        is_enough = len(heads) >= needed
        settle(it.chain, heads, is_enough, others)
        agreed = it.chain.confirmed or 0
        # A quorum has the marks, also if the heads of now are earlier ones.
        confirming = max(needed, sum(head.epoch >= agreed for head in heads.values()))
        values = {"agreeing": len(heads), "confirming": confirming, "count": count, "needed": needed, "agreed": agreed}
        return Agreement(Verdict.CONFIRMED if is_enough else Verdict.FEW, values, heads)

    def _requested(self) -> dict[Auditor, Head]:
        """The heads of which each auditor has cosigned one itself."""
        heads = dict[Auditor, Head]()
        for url, auditor in self._person.auditors.items():
            self._person.tried(lambda: heads.update({auditor: self._head(auditor, self._note(url), url)}), is_beside=True)
        return heads

    def _note(self, url: str) -> Note:
        return read_note(fetched(f"{url}/v1/note", _NOTE))

    def _carried(self) -> dict[Auditor, Head]:
        """The heads in the note that the service carries, none if a quorum of them doesn't confirm the latest epoch or the one before:
        a service that forks can carry an old note."""
        it, heads, note = self._person, dict[Auditor, Head](), b""
        with suppress(Unusable):
            note = it.got("/v1/note", _NOTE)
        for auditor in it.auditors.values():
            with suppress(BadNote, Unusable):
                heads[auditor] = self._head(auditor, read_note(note))
        latest = [Body.of_entry(entry).epoch for entry in it.chain.entries[-2:]]
        recent = {auditor: head for auditor, head in heads.items() if head.epoch in latest}
        return recent if it.trust and len(recent) >= it.trust.needed else {}

    def _head(self, auditor: Auditor, note: Note, url: str = "") -> Head:
        """The head of a note, which this auditor has cosigned lately, and which this chain has. Its epoch ended lately too: an auditor
        that is shown no later ones confirms none. With a URL what differs is looked for among the auditor's entries. Raises `BadNote`,
        `Unusable`, `Alarm` and `Refusal`."""
        person, now = self._person, time.time()
        head, start, period = note.head(person.policy), person.policy.epoch_start, person.policy.epoch_period
        since = now - max(3 * (period or 0), _RECENT)
        check_time(auditor, note, since, now + SKEW)
        if url and person.chain.compare(head) is not Comparison.EQUAL:
            person.follow()
        if url and person.chain.compare(head) is not Comparison.EQUAL:
            with suppress(Unusable):
                self._search(url)
        found = person.chain.compare(head)
        if url and found is Comparison.DIFFERS:
            raise self._differing(auditor, note, head, url)
        is_old = start is not None and period is not None and start + head.epoch * period < since
        is_dropped = any(Body.of_entry(it).epoch > head.epoch for it in person.chain.entries[:1])
        if is_old or found is not Comparison.EQUAL:
            verdict = Verdict.HEAD_OLD if is_old or is_dropped else Verdict.HEAD_HIDDEN
            raise Unusable(verdict, auditor=auditor.name, epoch=head.epoch)
        return head

    def _differing(self, auditor: Auditor, note: Note, head: Head, url: str) -> Notice:
        """What a head of another chain is, for which no entry convicts the directory."""
        values = {"auditor": auditor.name, "epoch": head.epoch}
        with suppress(Unusable):
            if has_other_signature(self._person.chain, url, head):
                return Unusable(Verdict.HEAD_TWICE, **values)
        return Alarm(Verdict.HEAD_DIFFERS, "head", bytes(note.of(auditor)), **values)

    def _search(self, url: str) -> None:
        """Looks for an entry that convicts the directory among all that an auditor has, and takes its latest one if that was signed
        again."""
        chain = self._person.chain
        for entry in new_entries(chain, url, is_whole=True, again=True):
            if evidence := chain.evidence(entry):
                raise Refusal(Cause.EQUIVOCATION, None, evidence)
            if is_signed_again(entry, chain.entries[-1]):
                chain.feed([entry])


def check_time(auditor: Auditor, note: Note, since: float, until: float) -> None:
    """Checks that an auditor cosigned a note between two times. Raises `Unusable`."""
    seconds, any_seconds = (note.times([auditor], it).get(auditor.name) for it in (until, math.inf))
    if seconds is not None and seconds >= since:
        return
    verdict = Verdict.HEAD_NONE
    if seconds is None and any_seconds is not None:
        verdict = Verdict.HEAD_AHEAD
    elif seconds is None and any(line.split(" ")[1] == auditor.name for line in note.lines):
        verdict = Verdict.HEAD_OF_OTHER_KEY
    raise Unusable(verdict, auditor=auditor.name)
