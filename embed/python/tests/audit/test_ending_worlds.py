"""All short histories of a directory that may end: after each step an auditor has what a model of docs/FORMATS.md says."""

from __future__ import annotations

import itertools
import os
import shutil
import time
from dataclasses import dataclass, replace
from pathlib import Path
from typing import Optional

import pytest

pytest.importorskip("nacl.signing")

import client_world
from endings import ENDED, OLD_POLICY, SIGNED, STOLEN, succession
from sources import Source
from test_audit import Room
from coniks._http import Answer
from coniks.notes import read_note

# What a service shows in a step: entries up to an epoch, of which 7 is a thief's, and no succession or one of two by its last epoch.
SHOWN, TEXTS = (3, 5, 6, 7), {None: b"", 6: SIGNED, 5: succession(ENDED[5])}
EVENTS = list(itertools.product(SHOWN, TEXTS))
CHAIN = STOLEN.entries(1, 2, 3, 5, 6, 7)


@dataclass(frozen=True)
class Model:
    """An auditor: the epoch of its latest entry, and of the latest head that it cosigned; the last epoch of the succession that it stored,
    and of the one that it cosigned; and its alarm."""

    fed: int = 0
    head: int = 0
    stored: Optional[int] = None
    cosigned: Optional[int] = None
    alarm: str = ""

    def alarmed(self, why: str) -> Model:
        """An alarm stays, but for that of void entries."""
        return replace(self, alarm=why if self.alarm in ("", "VOID") else self.alarm)

    def after(self, shown: int, text: Optional[int]) -> Model:
        """The auditor after a round with a service."""
        it = self
        if text and it.stored and text != it.stored:
            it = it.alarmed("SUCCESSIONS")
        it = replace(it, stored=it.stored or text)
        end = it.stored or 99
        if shown > max(it.fed, end):
            it = it.alarmed("VOID")
        it = replace(it, fed=max(it.fed, min(shown, end)))
        if it.stored and it.fed >= end:
            it = replace(it, cosigned=it.cosigned or (end if it.alarm in ("", "VOID") else None))
            it = it.alarmed("VOID") if it.fed > end else it
        return it if it.alarm or it.fed > end else replace(it, head=it.fed)


def made(room: Room, model: Model) -> Model:
    """What an auditor has. `model` says which succession it must be, of which the text is compared."""
    note, stored = room.read("succession.note"), room.read("succession")
    beside = room.home / "key.head.succession"
    assert note == (beside.read_bytes() if beside.exists() else b"")
    last = {text: epoch for epoch, text in TEXTS.items()}
    entries = room.read("entries")
    assert entries == b"".join(CHAIN)[: len(entries)]
    head = read_note(room.read("note")).head(OLD_POLICY).epoch if room.read("note") else 0
    fed = int.from_bytes(entries[-208:-200], "big") if entries else 0
    cosigned = last[note.partition(b"\n\n")[0] + b"\n"] if note else None
    return Model(fed, head, last[stored] if stored else None, cosigned, room.alarm["why"] if room.alarm else "")


def entered(place: Path, before: Room) -> Room:
    """A copy of an auditor."""
    shutil.copytree(before.home, place)
    room = object.__new__(Room)
    room.home, room.name, room.folder, room.policy = place, before.name, place / "audit", before.policy
    return room


def tried(room: Room, model: Model, source: Source, left: int) -> int:
    """Takes all steps from an auditor on. Returns how many there were."""
    count = 0
    for number, (shown, text) in enumerate(EVENTS):
        after = entered(room.home.parent / f"{room.home.name}.{number}", room)
        source.entries = [it for it in CHAIN if int.from_bytes(it[1:9], "big") <= shown]
        source.succession = TEXTS[text]
        auditor, wanted = after.opened(), model.after(shown, text)
        status = auditor.round(source.url, [])
        auditor._file.close()
        assert made(after, wanted) == wanted, (room.home.name, EVENTS[number], model)
        assert (status == 1) is bool(wanted.alarm), (room.home.name, EVENTS[number])
        count += 1 + (tried(after, wanted, source, left - 1) if left > 1 else 0)
        shutil.rmtree(after.home)
    return count


def test_all_histories(tmp_path: Path, monkeypatch: pytest.MonkeyPatch) -> None:
    """Whatever a service shows in three rounds, an auditor that starts anew for each of them has what the model has."""
    monkeypatch.setattr(time, "time", lambda: client_world.hour(7))
    with Source([]) as source:

        def answered(url: str, _: int) -> Answer:
            path = url[len(source.url) :]
            body = source.body(path)
            return Answer(source.status_of(path, body), {}, body or b"")

        # What is durable, and replies over HTTP, are tested in `test_endings`.
        monkeypatch.setattr(os, "fsync", lambda _: None)
        monkeypatch.setattr("coniks._http.answered", answered)
        monkeypatch.setattr("coniks.audit.answered", answered)
        assert tried(Room(tmp_path / "it", policy=OLD_POLICY), Model(), source, 3) == 12 + 12**2 + 12**3
