"""The errors of `coniks.provider`: one class for each fault of the program, and those of the child, the log and the signer. Each
text names what to do next, and none shows bytes of a line, which may be keys."""

from __future__ import annotations

from typing import Any, Optional

__all__ = [
    "AlreadyOpen",
    "BatchTooLong",
    "ChildrenDiffer",
    "Closed",
    "Command",
    "DirectoryExists",
    "EpochNotLater",
    "EpochNotNow",
    "EpochSpent",
    "EpochTooFar",
    "Fault",
    "IndexClash",
    "Json",
    "KeyLength",
    "LinesDropped",
    "LogBehind",
    "LogFailed",
    "LogForked",
    "LogRefused",
    "Malformed",
    "Member",
    "NameLength",
    "NameTaken",
    "NameTwice",
    "NameUnknown",
    "NoDirectory",
    "NotAbandoned",
    "NotLater",
    "NotOpen",
    "NotPrepared",
    "NotRestoring",
    "NotText",
    "OtherIndex",
    "OtherUpdate",
    "Overtaken",
    "ProgramFailed",
    "ProviderError",
    "RecordBehind",
    "ReplayDiffers",
    "RestartNeeded",
    "RootDiffers",
    "SignerFailed",
    "SnapshotDiffers",
    "UnknownEpoch",
    "Version",
]


class ProviderError(Exception):
    """An error of this module."""


class Fault(ProviderError):
    """The program refuses a line, and nothing is changed. `position` is that of the operation at fault, counted from 0,
    `latest` the latest epoch, `member` the line's member that is missing or wrong; each is None for other faults. `advice` is
    what to do next, if that is more than to fix the request."""

    reason = "the line is refused"

    def __init__(
        self,
        position: Optional[int] = None,
        latest: Optional[int] = None,
        member: Optional[str] = None,
        advice: Optional[str] = None,
    ):
        self.position, self.latest, self.member, self.advice = position, latest, member, advice
        given = [("operation", position), ("latest epoch", latest), ("member", member)]
        text = ", ".join([self.reason, *(f"{what} {it}" for what, it in given if it is not None)])
        super().__init__(text if advice is None else f"{text}: {advice}")

    def __reduce__(self) -> tuple[type[Fault], tuple[Any, ...]]:
        return type(self), (self.position, self.latest, self.member, self.advice)


# formats.toml: faults


class Json(Fault):
    reason = "the line is no JSON object"


class Command(Fault):
    reason = "the line has no command of the program"


class Member(Fault):
    reason = "a member is missing or wrong"


class NotOpen(Fault):
    reason = "the directory isn't open"


class AlreadyOpen(Fault):
    reason = "the directory is open already"


class BatchTooLong(Fault):
    reason = "a batch has at most 4,096 operations"


class EpochNotLater(Fault):
    reason = "the epoch isn't later than the latest one"


class NotPrepared(Fault):
    reason = "no update is pending"


class NotAbandoned(Fault):
    reason = "the line abandons another update than the pending one"


class OtherUpdate(Fault):
    reason = "the line names another body or link than its own"


class UnknownEpoch(Fault):
    reason = "there is no such epoch, or it is before the snapshot"


class OtherIndex(Fault):
    reason = "the name is registered with another index"


class NotRestoring(Fault):
    reason = "no restore has begun"


class NotLater(Fault):
    reason = "the entry's epoch isn't later than the one before it"


class Version(Fault):
    reason = "the entry has neither version 1 nor 2"


class Malformed(Fault):
    reason = "the epoch before the entry's is 0, and its previous link isn't zeros"


class RootDiffers(Fault):
    reason = "the root of the bindings isn't that of the entry"


class NameLength(Fault):
    reason = "a name has 1 to 255 bytes"


class KeyLength(Fault):
    reason = "a key has 1 to 16,384 bytes"


class NameTwice(Fault):
    reason = "an earlier operation has this name"


class NameTaken(Fault):
    reason = "the name to register is registered already"


class NameUnknown(Fault):
    reason = "the name to change isn't registered"


class IndexClash(Fault):
    reason = "another name has this index"


# formats.toml: end

BY_NAME: dict[str, type[Fault]] = {it.__name__: it for it in Fault.__subclasses__()}
# The error of a replay has this name.
BY_NAME["ReplayDiffers"] = OtherUpdate


class EpochSpent(ProviderError):
    """The signer was asked for another body of this epoch number or a later one, `requested`, so `epoch` can't be used."""

    def __init__(self, epoch: int, requested: int):
        self.epoch, self.requested = epoch, requested
        super().__init__(
            f"epoch {epoch} isn't later than {requested}, for which the signer was asked with other operations: take a later number"
        )

    def __reduce__(self) -> tuple[type[EpochSpent], tuple[int, int]]:
        return type(self), (self.epoch, self.requested)


class EpochNotNow(ProviderError):
    """The epoch number isn't the one that the policy's clock has, `now`. Clients compute it too, so an epoch under another one is
    late or early to all of them."""

    def __init__(self, epoch: int, now: int):
        self.epoch, self.now = epoch, now
        super().__init__(
            f"epoch {epoch} isn't {now}, which the policy's clock has: take epoch_now(), or pass force=True if it is meant"
        )

    def __reduce__(self) -> tuple[type[EpochNotNow], tuple[int, int]]:
        return type(self), (self.epoch, self.now)


class EpochTooFar(ProviderError):
    """The epoch number is further above the latest, or above that of the pending update, than `most`: 2^32, or as many epochs as a week
    has by the policy's clock. Numbers only increase, so a mistyped one, or a clock that is ahead once, would end the directory."""

    def __init__(self, epoch: int, latest: int, most: int = 1 << 32):
        self.epoch, self.latest, self.most = epoch, latest, most
        why = (
            "pass far=True if it is meant"
            if most == 1 << 32
            else ("look at the machine's clock, and pass far=True if the directory stood still for so long")
        )
        super().__init__(f"epoch {epoch} is more than {most} above the latest one, {latest}: {why}")

    def __reduce__(self) -> tuple[type[EpochTooFar], tuple[int, int, int]]:
        return type(self), (self.epoch, self.latest, self.most)


class NotText(ProviderError, ValueError):
    """A name has a lone surrogate, so it isn't Unicode text and has no bytes."""


class SignerFailed(ProviderError):
    """The signer raised an exception, which is the cause, or returned no valid signature. The update stays pending. Or the
    signer's record can't be read, and nothing is changed."""


class RecordBehind(SignerFailed):
    """The signer's record lacks the log's latest entry, as one that was lost or is from a backup. No body was prepared."""


class ProgramFailed(ProviderError):
    """The program ended, took longer than the timeout, or printed what docs/LINES.md doesn't define. It is started again and
    replays the log by itself."""


class LogFailed(ProviderError):
    """The log could not be read or written, or is that of another directory. If it was written, the line may be stored.

    `is_final` if later calls of this log fail too: open it again, and start a new provider over it."""

    is_final = False

    @classmethod
    def final(cls, text: str) -> LogFailed:
        """The error of a log that must be opened again."""
        error = cls(text)
        error.is_final = True
        return error


class LogRefused(LogFailed):
    """The log did not take a line, and it is certain that it will not. The next call may follow at once."""


class LinesDropped(LogFailed):
    """The log begins after the line that is requested, because `drop_before` dropped the lines below its snapshot's position."""


class NoDirectory(LogFailed):
    """The log is missing or empty, and a directory is made only if the caller asks for one."""


class DirectoryExists(LogFailed):
    """A directory is to be made, but the log already has lines."""


class Overtaken(LogFailed):
    """The log has a line at this position already, which another provider appended."""


class LogForked(ProviderError):
    """The log lacks lines that this process has seen in it, or has others in their place, or lacks what the signer's record has.
    `evidence` of the directory returns what it has seen and what the log has. `entries` are two entries of 209 bytes, one of them
    the log's, with different bodies in one place of the chain; None if no two such are known."""

    entries: Optional[tuple[bytes, bytes]] = None


class LogBehind(LogForked):
    """The log ends before the head that it is to have, or before what the signer's record has."""


class ReplayDiffers(ProviderError):
    """The program answers a line of the log otherwise than it did when the line was appended."""


class ChildrenDiffer(ProviderError):
    """Two children answer a line differently, so one of them is wrong. Neither the log nor the signer has seen what they answered,
    unless it was logged before. Lookups go on; nothing is changed before `restart`."""


class SnapshotDiffers(ProviderError):
    """The snapshot isn't whole, isn't one of this directory, or was changed. Or what a second child restored from a new one isn't
    what the first child has: then the first one goes on, and the snapshot that was stored before stays."""


class RestartNeeded(ProviderError):
    """An earlier error, the cause, left open whether the log has a line. `restart` replays the log, unless the text asks for a new
    provider. Lookups go on."""


class Closed(ProviderError):
    """The directory is closed."""
