"""A policy with a clock: under which number `commit` makes an epoch."""

from __future__ import annotations

import hashlib
from typing import Callable
from unittest import mock

import pytest

from memory_log import MemoryLog
from one_chain import staged
from stand_ins import POLICY, index, opened
from raising import raises
from coniks import provider
from coniks.policy import Policy
from coniks.provider import (
    Epoch,
    EpochNotLater,
    EpochNotNow,
    EpochSpent,
    EpochTooFar,
    LogFailed,
    ProviderError,
    Register,
    Settings,
    SignerFailed,
)
from coniks.replica import Replica


KEY = bytes([9]) * 32
# The document of the policy below, and so what its digest is the SHA-256 of.
DOCUMENT = f"""policy coniks-1
origin keys.example.com/clock
signature Ed25519
signing-key {KEY.hex()}
vrf none
epoch-start 1000
epoch-period 60
evidence one-chain
proofs-kept forever
"""
CLOCKED = Policy("keys.example.com/clock", KEY, epoch_start=1000, epoch_period=60)


class Clock:
    """The time, in the place of the module `time` of the provider."""

    def __init__(self, seconds: float) -> None:
        self.seconds = seconds

    def time(self) -> float:
        return self.seconds


def test_numbers(program: str) -> None:
    clock = Clock(1000)
    with mock.patch.object(provider, "time", clock), staged(program, policy=CLOCKED) as stage:
        own = stage.provider
        digest = hashlib.sha256(DOCUMENT.encode()).digest()
        assert stage.first.entry[113:145] == digest, "clock: the digest is in each entry"
        for seconds, epoch in [(1000, 1), (1059.999, 1), (1060, 2), (1119, 2), (1000 + 60 * 99, 100)]:
            clock.seconds = seconds
            assert own.epoch_now() == epoch, f"clock: the epoch at {seconds}"
        clock.seconds = 1060
        for number in (1, 3, 4):
            raises(f"clock: epoch {number} at epoch 2", EpochNotNow, lambda: own.commit(number, []), epoch=number, now=2)
        assert len(stage.bodies()) == 1 and own.pending is None, "clock: nothing is asked"
        assert own.commit(own.epoch_now(), []).epoch == 2, "clock: the number that it has"
        raises("clock: the same number again", EpochNotLater, lambda: own.commit(2, []))
        assert own.commit(5, [], force=True).epoch == 5, "clock: another number that is meant"
        clock.seconds = 1000 + 60 * (1 << 33)
        raises("clock: a number too far", EpochTooFar, lambda: own.commit(own.epoch_now(), []))
        clock.seconds = 999.9
        raises("clock: before it begins", ProviderError, own.epoch_now)
        raises("clock: a commit before it begins", ProviderError, lambda: own.commit(6, []))
        assert own.commit(6, [], force=True).epoch == 6 and stage.is_one_chain(), "clock: one that is meant"


@pytest.mark.parametrize("period, most", [(60, 10080), (3600, 168), (86400, 7), (30 * 86400, 3)])
def test_ahead(program: str, period: int, most: int) -> None:
    """A clock that is more than a week and three epochs ahead once doesn't end the directory."""
    clock, policy = Clock(1000), Policy("keys.example.com/clock", KEY, epoch_start=1000, epoch_period=period)
    with mock.patch.object(provider, "time", clock), staged(program, policy=policy) as stage:
        own = stage.provider
        for ahead in (10 * 365 * 86400, (most + 1) * period):
            clock.seconds = 1000 + ahead
            error = raises("clock: ahead", EpochTooFar, lambda: own.commit(own.epoch_now(), []), latest=1, most=most)
            assert "clock" in str(error) and "far=True" in str(error)
        assert len(stage.bodies()) == 1, "clock: nothing is asked"
        clock.seconds = 1000 + most * period
        assert own.commit(own.epoch_now(), []).epoch == 1 + most, "clock: as far as may be"
        clock.seconds += 2 * most * period
        assert own.commit(own.epoch_now(), [], far=True).epoch == 1 + 3 * most, "clock: a directory that stood still"


def test_pending(program: str) -> None:
    """An update of an earlier hour: it is signed and installed under its own number."""
    clock = Clock(1060)
    with mock.patch.object(provider, "time", clock), staged(program, policy=CLOCKED) as stage:
        own, mine = stage.provider, [Register("second", b"key")]
        calls: list[tuple[str, Callable[[], Epoch]]] = [
            ("retry", own.retry),
            ("the same commit", lambda: own.commit(own.latest().epoch + 1, mine)),
        ]
        for what, call in calls:
            epoch = own.latest().epoch + 1
            clock.seconds = 1000 + 60 * (epoch - 1)
            mine = [Register(f"user-{epoch}", b"key")]
            stage.signer.fails = 1
            raises(f"clock: {what}: a signer that fails", SignerFailed, lambda: own.commit(epoch, mine))
            clock.seconds += 60 * 7
            assert call().epoch == epoch, f"clock: {what} isn't refused"
        epoch = own.latest().epoch + 1
        clock.seconds = 1000 + 60 * (epoch - 1)
        stage.signer.fails = 1
        raises("clock: a signer that fails", SignerFailed, lambda: own.commit(epoch, []))
        clock.seconds += 120
        size = len(stage.bodies())
        raises("clock: a wrong number over a pending update", EpochNotNow, lambda: own.commit(epoch + 1, []), now=epoch + 2)
        raises("clock: a spent number", EpochSpent, lambda: own.commit(epoch, mine))
        assert len(stage.bodies()) == size and own.pending and own.pending.epoch == epoch, "clock: it isn't settled before"
        assert own.commit(epoch + 2, []).epoch == epoch + 2 and own.chain()[-2][8] == epoch, "clock: the right number settles it"
        assert stage.is_one_chain(), "clock: one chain"


def test_policies(program: str) -> None:
    """A policy without a clock, a digest in the place of a policy, and a replica that takes over."""
    for what, policy in [("a digest", POLICY), ("no clock", Policy("keys.example.com/none", KEY))]:
        with staged(program, policy=policy) as stage:
            raised = raises(f"clock: {what}", ProviderError, stage.provider.epoch_now)
            assert "no clock" in str(raised) and stage.provider.commit(7, []).epoch == 7, f"clock: {what}: any number"
    with mock.patch.object(provider, "time", Clock(1060)), staged(program, policy=CLOCKED) as stage:
        stage.provider.close()
        for wrong in (POLICY, Policy("keys.example.com/other", KEY)):
            raises("clock: another policy", LogFailed, lambda: opened(program, stage.log, stage.signer, policy=wrong))
        stage.opened(policy=CLOCKED.digest)
        assert stage.provider.commit(4, []).epoch == 4, "clock: the digest alone has no clock"
        stage.provider.close()
        replica = Replica(Settings(program, index, CLOCKED, workers=1), MemoryLog(stage.lines))
        with replica.promote(stage.guard, verify=stage.signer.verify) as new:
            raises("clock: a promoted replica has it", EpochNotNow, lambda: new.commit(5, []), epoch=5, now=2)
            assert new.commit(5, [], force=True).epoch == 5 and stage.is_one_chain(), "clock: a promoted replica, forced"
        raises(
            "clock: a replica of another policy",
            LogFailed,
            lambda: Replica(Settings(program, index, POLICY), MemoryLog(stage.lines)),
        )
