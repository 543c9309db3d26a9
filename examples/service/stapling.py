"""Fetches the notes that auditors publish, so that each reply carries the latest head that they cosigned."""

from __future__ import annotations

import asyncio
from typing import Optional

import aiohttp
from coniks import ENTRY_LENGTH
from coniks.notes import Auditor, BadNote, Note, quorum, read_note
from holding import LOG, Holder, error_of, link_of

_PAUSE, _LONGEST = 3.0, 1 << 16
# The latest epochs whose notes are kept, so that an auditor that is late counts with the others.
_EPOCHS = 8


class Stapler:
    """The auditors by their URLs, and the lines by which each cosigned the latest heads of this directory."""

    def __init__(self, holder: Holder, auditors: dict[str, Auditor]):
        self._holder, self._auditors = holder, auditors
        # By the epoch: the text, and the line of each auditor.
        self._stored: dict[int, tuple[str, dict[str, str]]] = {}
        self.failures = dict.fromkeys(auditors, 0)

    async def run(self) -> None:
        """Asks each auditor now and then, until it is cancelled."""
        async with aiohttp.ClientSession(timeout=aiohttp.ClientTimeout(total=_PAUSE)) as session:
            while self._auditors:
                await asyncio.gather(*(self._ask(session, it) for it in self._auditors))
                await asyncio.sleep(_PAUSE)

    async def _ask(self, session: aiohttp.ClientSession, url: str) -> None:
        """Takes an auditor's note. One that isn't of this chain is the operator's to look at."""
        try:
            async with session.get(f"{url}/v1/note", allow_redirects=False, raise_for_status=True) as found:
                self._take(url, await found.content.read(_LONGEST))
            self.failures[url] = 0
        except Exception as error:
            self.failures[url] += 1
            LOG.warning("auditor", extra=error_of(error, auditor=url))

    def _take(self, url: str, document: bytes) -> None:
        note = read_note(document)
        head, lines = note.head(self._holder.keys.policy), note.of(self._auditors[url]).lines
        entries = self._holder.directory.catch_up(head.epoch - 1)
        if not lines:
            raise BadNote("the note isn't cosigned by this auditor")
        if link_of(entries[:ENTRY_LENGTH]) != head.link:
            raise BadNote("the auditor has a head that this directory lacks: compare the entries, if that stays")
        self._stored.setdefault(head.epoch, (note.text, {}))[1][url] = lines[-1]
        for epoch in sorted(self._stored)[:-_EPOCHS]:
            del self._stored[epoch]

    @property
    def note(self) -> Optional[Note]:
        """The latest head that a quorum of all auditors cosigned, the latest one that any did if there is none."""
        least = quorum(len(self._auditors), (len(self._auditors) - 1) // 3) if self._auditors else 0
        agreed = [epoch for epoch, (_, lines) in self._stored.items() if len(lines) >= least]
        text, lines = self._stored.get(max(agreed or self._stored, default=0), ("", {}))
        return Note(text, tuple(lines.values())) if lines else None

    def note_of(self, name: str) -> Optional[Note]:
        """The latest head that the auditor of a name cosigned."""
        urls = [url for url, it in self._auditors.items() if it.name == name]
        own = {epoch: Note(text, (lines[url],)) for epoch, (text, lines) in self._stored.items() for url in urls if url in lines}
        return own[max(own)] if own else None
