"""What the tests of `coniks.contacts` share. They need the library for C, and PyNaCl."""

from __future__ import annotations

import time
from contextlib import ExitStack
from pathlib import Path
from typing import TYPE_CHECKING, Iterator

import pytest
from coniks.client import Client

if TYPE_CHECKING:
    from directories import Directory
    from people import Auditing, Clock, Person
    from rooms import Room


@pytest.fixture(autouse=True)
def _needs_library(library: None) -> None:
    """Skips a test without the library."""
    pytest.importorskip("nacl.signing")


@pytest.fixture
def clock(monkeypatch: pytest.MonkeyPatch) -> Clock:
    from people import Clock

    it = Clock()
    monkeypatch.setattr(time, "time", it)
    monkeypatch.setitem(Client.__init__.__kwdefaults__, "clock", it)
    return it


@pytest.fixture
def directory(clock: Clock) -> Iterator[Directory]:
    from directories import VOUCHED, Directory

    with Directory(policy=VOUCHED) as it:
        clock.latest = lambda: it.latest
        yield it


@pytest.fixture
def person(tmp_path: Path, capsys: pytest.CaptureFixture[str], directory: Directory) -> Person:
    """A client that has begun with the honest directory, without auditors."""
    from people import Person

    it = Person(tmp_path, capsys)
    assert it.begin(directory) == 0
    return it


@pytest.fixture
def auditors(clock: Clock) -> Iterator[list[Auditing]]:
    from people import KEYS, Auditing

    with ExitStack() as opened:
        made = [Auditing(it) for it in KEYS]
        for it in made:
            opened.enter_context(it)
        yield made


@pytest.fixture
def room(
    tmp_path: Path,
    capsys: pytest.CaptureFixture[str],
    directory: Directory,
    auditors: list[Auditing],
    clock: Clock,
    monkeypatch: pytest.MonkeyPatch,
) -> Iterator[Room]:
    """A client that has not begun, with its directory, its auditors and its time."""
    from people import Person
    from rooms import Room

    it = Room(Person(tmp_path, capsys), directory, auditors, clock, monkeypatch)
    yield it
    if it.locked:
        it.locked.close()
