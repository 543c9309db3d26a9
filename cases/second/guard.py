"""The record of a guard, and its steps, as docs/STORED.md has them ("The guard's record")."""

from __future__ import annotations

from dataclasses import dataclass, replace

from chain import Entry
from evidence import is_malformed

BODY = 145


class Refused(Exception):
    """A step is refused, with the number of the reason. The record stays."""

    def __init__(self, number: int):
        super().__init__(number)
        self.number = number


@dataclass(frozen=True)
class Record:
    """The signed entry and the asked body, each empty without one, and the abandoned bodies."""

    signed: bytes = b""
    asked: bytes = b""
    abandoned: tuple[bytes, ...] = ()

    @property
    def epoch(self) -> int:
        """The epoch of the signed entry, 0 without one."""
        return Entry(self.signed).epoch if self.signed else 0


def answer(record: Record, body: bytes) -> tuple[int, bytes]:
    """0 for a body that is not settled, 1 with the signature for that of the signed entry, 2 for an abandoned one."""
    if body in record.abandoned:
        return 2, b""
    return (1, record.signed[BODY:]) if record.signed[:BODY] == body else (0, b"")


def ask(record: Record, body: bytes, may_begin: bool) -> Record:
    if answer(record, body)[0]:
        return record
    wanted = Entry(body)
    if is_malformed(wanted):
        raise Refused(112)
    if record.signed:
        refuse_after(Entry(record.signed), wanted)
    elif wanted.epoch_before:
        raise Refused(113)
    elif not may_begin:
        raise Refused(114)
    if record.asked not in (b"", body):
        raise Refused(122)
    return replace(record, asked=body)


def refuse_after(last: Entry, wanted: Entry) -> None:
    """Raises `Refused` for a body that can't follow the signed entry."""
    for number, is_refused in [
        (115, wanted.epoch_before == 0),
        (116, wanted.body[113:] != last.body[113:]),
        (117, wanted.epoch_before < last.epoch),
        (118, wanted.epoch_before > last.epoch),
        (119, wanted.previous_link != last.link),
        (120, wanted.version < last.version),
        (121, wanted.version == 1 and wanted.nonce != last.nonce),
    ]:
        if is_refused:
            raise Refused(number)


def sign(record: Record, body: bytes, signature: bytes, replaces: bool) -> Record:
    if replaces and record.signed[:BODY] == body:
        if record.asked:
            raise Refused(122)
        return replace(record, signed=body + signature)
    if answer(record, body)[0]:
        return record
    if record.asked != body:
        raise Refused(123)
    place = Entry(body).epoch_before, Entry(body).previous_link
    stay = [it for it in record.abandoned if (Entry(it).epoch_before, Entry(it).previous_link) == place]
    return Record(body + signature, abandoned=tuple(stay))


def abandon(record: Record, body: bytes) -> Record:
    if answer(record, body)[0]:
        return record
    before = Entry(body).epoch_before
    if before != record.epoch:
        raise Refused(124 if before < record.epoch else 125)
    return Record(record.signed, b"" if record.asked == body else record.asked, (*record.abandoned, body))


def adopt(record: Record, entry: bytes) -> Record:
    if record.signed == entry:
        return record
    if record != Record():
        raise Refused(126)
    if is_malformed(Entry(entry)):
        raise Refused(127)
    return Record(entry)
