"""Histories, catch-ups and states of the core of a client for C beside the second implementation: each call must give the same.

`Beside` adds these calls to the client of `core_client`. A state is read by both phases, and by its second phase alone.
"""

from __future__ import annotations

import ctypes
from typing import Any, Sequence

import client as second
import core_client
from core_client import (
    CALLS,
    EMPTY,
    LIBRARY,
    NOWHERE,
    SIZE,
    STORED,
    U32,
    Memory,
    at,
    is_signed,
    of,
    parts_of,
    passed,
    rules_of,
    sized,
)
from members import Fault
from coniks import _core as raw

# The client of the second implementation, also while tests put another one in its place.
_SECOND = second.Client
NO_ROOM, STATE_CHAIN, NO_STEPS = 137, 101, 0


def written(memory: Memory, room: int) -> tuple[int, int, bytes]:
    """Writes the state of a client into this room: the status, the number of bytes, and all bytes that there are."""
    text, size = ctypes.create_string_buffer(b"\xa5" * (room + 9), room + 9), SIZE(NOWHERE)
    status = LIBRARY.coniks_core_state_write(memory.core, text, SIZE(room), of(size))
    return int(status), size.value, text.raw


def size_of(memory: Memory) -> tuple[int, int]:
    """The status, and the number of bytes of the state."""
    size = SIZE(NOWHERE)
    return int(LIBRARY.coniks_core_state_size(memory.core, of(size))), size.value


def place_of(text: bytes) -> int:
    """The place of bytes in memory."""
    return ctypes.cast(ctypes.c_char_p(text), ctypes.c_void_p).value or 0


class Read(Memory):
    """Memory of a caller that reads a state, full of bytes that no call writes."""

    def __init__(self, rules: raw.Rules, trust: bytes, auditors: int, rooms: Sequence[int]) -> None:
        super().__init__(rules, EMPTY._replace(trust=trust, marks=[NOWHERE] * auditors), *rooms)
        core = self.core
        ctypes.memset(core.stored.items, 0xA5, core.stored.room * STORED)
        ctypes.memset(core.alarms.items, 0xA5, core.alarms.room * ctypes.sizeof(raw.Alarm))
        core.stored.count = core.changes.count = core.alarms.count = NOWHERE
        core.watch.is_watched = 0xA5A5A5A5

    def read(self, state: bytes, verdicts: Sequence[int]) -> int:
        """Reads a state. A refused one changes nothing."""
        before, reported = self.whole(), (U32 * (len(verdicts) + 1))(*verdicts)
        self._texts.append(state)
        status = LIBRARY.coniks_core_state_read(of(self.core), *passed(state), reported, SIZE(len(verdicts)))
        assert status == 0 or self.whole() == before, ("a refused state changes nothing", status)
        return int(status)


class Beside(core_client.Beside):
    """The same with histories, and with states that the core writes and reads too."""

    def history(self, name: bytes, whole: bytes, now: int) -> second.Answer:
        memory, needs, room = self.memory(), raw.HistoryNeeds(), len(self.stored) + 1
        steps = raw.Steps((raw.Step * room)(), room, NOWHERE)
        status = LIBRARY.coniks_core_history_needs(*passed(whole), of(needs))
        if status == 0:
            asking, siblings = raw.History(*sized(name), *sized(whole)), raw.Siblings()
            verdicts = self.on_index(name, whole[needs.vrf_start : needs.vrf_start + needs.vrf_length])
            call = [of(memory.core), asking, verdicts, of(siblings)]
            if len(self.stored) > 0:
                self.without_room(call, memory, steps)
            status = LIBRARY.coniks_core_history(*call, of(steps))
        refused = steps.count == NOWHERE and not any(it.shows or it.seen for it in steps.items[:room])
        assert status == 0 or refused, ("history", status)
        answer = self.compared("history", memory, status, raw.Why(), lambda: super(Beside, self).history(name, whole, now))
        assert steps.count == len(answer["found"]), ("history", steps.count, answer)
        for step, found in zip(steps, answer["found"]):
            key = at(step.key, step.key_length).hex() if step.shows == 1 else None
            assert step.shows in (1, 2) and (step.shows == 2) == (step.key_length == 0), ("history", step.shows, step.key_length)
            assert (self.stored[step.place].entry.epoch, key) == (found["epoch"], found["key"]), ("history", found)
            assert second.SEEN[step.seen] == found["seen"], ("history", found, step.seen)
            assert key is None or whole[step.key - place_of(whole) :].startswith(at(step.key, step.key_length)), found
        return answer

    def without_room(self, call: Sequence[Any], memory: Memory, steps: raw.Steps) -> None:
        """The same call without a place for a step: a history without a step is accepted, and each other one refused."""
        none = raw.Steps(steps.items, NO_STEPS, NOWHERE)
        is_refused = LIBRARY.coniks_core_history(*call, of(none)) != 0
        assert memory.all() == memory.before and none.count == (NOWHERE if is_refused else 0)

    @property
    def state(self) -> bytes:
        whole, memory = bytes(_SECOND.state.__get__(self)), self.memory()
        size = len(whole)
        assert size_of(memory) == (0, size), "the size is the same"
        assert written(memory, size - 1) == (NO_ROOM, NOWHERE, b"\xa5" * (size + 8)), "a refused state changes nothing"
        assert written(memory, size + 4) == (0, size, whole + b"\xa5" * 13), "the state is the same"
        CALLS["state_write"] += 1
        return whole

    def resume(self, state: bytes) -> None:
        needs = raw.StateNeeds()
        status = LIBRARY.coniks_core_state_needs(raw.Core(rules_of(self)), *passed(state), of(needs))
        CALLS["state_read"] += 1
        if status:
            self.refused_state(state, status)
            assert self.room(1, 1, 1).read(state, []) == status
            return
        assert state[needs.entry_start + needs.entry_step * needs.stored - 9 :].startswith(state[37 + 218 * needs.stored - 9 :])
        entries = [state[needs.entry_start + needs.entry_step * k :][:209] for k in range(needs.stored)]
        verdicts = [int(is_signed(self.signing, it[:145], it[145:])) for it in entries]
        self.without_rooms(state, needs, verdicts)
        memory = self.room(needs.stored, needs.changes, needs.alarms)
        status = memory.read(state, verdicts)
        if status:
            self.refused_state(state, status)
            return
        _SECOND.resume(self, state)
        assert memory.parts() == parts_of(self), "what is kept is the same"

    def room(self, *rooms: int) -> Read:
        """Memory of this client for a state with these numbers."""
        return Read(rules_of(self), self.trust.digest, len(self.marks), rooms)

    def refused_state(self, state: bytes, status: int) -> None:
        """The second implementation refuses it with the same number."""
        try:
            _SECOND.resume(self, state)
        except Fault as fault:
            assert status == second.NUMBERS[str(fault.answer["fault"])], (fault.answer, status)
            raise
        raise AssertionError(f"the core refuses a state with status {status}")

    def without_rooms(self, state: bytes, needs: raw.StateNeeds, verdicts: Sequence[int]) -> None:
        """The same state without a verdict, with one that is not valid, and without room."""
        stored, changes, alarms = needs.stored, needs.changes, needs.alarms
        if stored:
            for wrong in ([], verdicts[:-1], [2, *verdicts[1:]]):
                assert self.room(stored, changes, alarms).read(state, wrong) == STATE_CHAIN
            assert self.room(stored - 1, changes, alarms).read(state, verdicts) == NO_ROOM
        if changes:
            assert self.room(stored, changes - 1, alarms).read(state, verdicts) == NO_ROOM
        if alarms:
            assert self.room(stored, changes, alarms - 1).read(state, verdicts) == NO_ROOM
