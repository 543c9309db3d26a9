"""What `coniks-client` and `coniks-audit` print: each verdict with its exit status, its sentence and its members in JSON.

Nothing else has a status or a sentence of these programs, but for the help and the errors of a command line. Neither program prints
colours. What an error of a library says is a `reason`.
"""

from __future__ import annotations

import enum
import json
import string
import time
from typing import Any, Callable, Iterable, Mapping, Optional, Sequence

from .names import shown

# The statuses, those that count most first: an alarm, something that could not be verified now, a name without a key, and that all is
# well. 2 is a wrong command line, and an interrupt by the keyboard is the last one.
ALARM, UNVERIFIED, ABSENT, WELL, STOPPED = 1, 3, 4, 0, 130
# How sentences about the key of a name begin and end, and what JSON has of it.
_HAS, _AT, _OF_KEY = '{name!n} has the key "{key}"', " (epoch {epoch}{by!b})", "name epoch key before change"
_SIGNED = f'{_HAS} in place of "{{before}}", and the change was signed with its owner\'s secret key'


@enum.unique
class Verdict(enum.Enum):
    """A verdict: its status, its sentence, and which of the sentence's values JSON has. In a sentence `!n` shows a name, `!k` a key or
    that there is none, `!e` epochs, `!o` own keys with their epochs, `!v` whether a key was verified, `!b` who confirms it, `!t` a time, and
    `!d` how long a notice was. One without a sentence prints nothing."""

    # The key of a name.
    KEY = WELL, f"{_HAS}{{is_verified!v}}{_AT}", _OF_KEY
    KEY_UNCONFIRMED = UNVERIFIED, *KEY[1:]
    KEY_VOUCHED = WELL, f"{_SIGNED}{{is_verified!v}}{_AT}", _OF_KEY
    KEY_VOUCHED_UNCONFIRMED = UNVERIFIED, *KEY_VOUCHED[1:]
    KEY_UNKNOWN = (
        ALARM,
        f'{_HAS} in place of "{{before}}", and nobody vouches for that: ask the owner, and then verify it{_AT}',
        _OF_KEY,
    )
    KEY_UNVOUCHED = (
        ALARM,
        f'{_HAS}, and the change was not signed with the secret key of the one before, "{{before}}": don\'t use it{_AT}',
        _OF_KEY,
    )
    KEY_RESET = (
        ALARM,
        f'{{name!n}} was reset{{notice!d}}, and has the key "{{key}}" in place of "{{before}}": verify it by another channel{_AT}',
        _OF_KEY,
    )
    KEY_CLOSED = ABSENT, f"{{name!n}} was closed by its owner{_AT}", _OF_KEY
    KEY_ANNOUNCED = (
        WELL,
        "a reset of {name!n} is announced: from epoch {effect}{time!t} on somebody else can have it, unless its owner takes that back",
        "name effect",
    )
    FINGERPRINT = WELL, f"{{name!n}} has the fingerprint {{fingerprint}}{_AT}", "name epoch fingerprint"
    FINGERPRINT_UNCONFIRMED = UNVERIFIED, *FINGERPRINT[1:]
    KEY_OTHER = ALARM, f'{{name!n}} has another key, "{{key}}": don\'t use it{_AT}', _OF_KEY
    KEY_NOT_YOURS = ALARM, f"{{name!n}} has {{key!k}}, which is not yours: tell all who use it{_AT}", _OF_KEY
    KEY_GONE = ALARM, f'{{name!n}} has no key any more, and no directory removes a name. Its key was "{{before}}"{_AT}', _OF_KEY
    KEY_LACKING = ALARM, f"{{name!n}} has no key{_AT}", _OF_KEY
    KEY_ABSENT = ABSENT, *KEY_LACKING[1:]

    # A name of the user's.
    OWN_SHOWN = WELL, "{name!n} has your key {keys!o}", "name epochs key report"
    OWN_CHANGED = ALARM, "{name!n} has {key!k} ({epochs!e}), which is not yours: tell all who use it", "name epochs key"
    OWN_ALARM = ALARM, "{name!n} did not have your key ({epochs!e}): tell all who use it", "name epochs"
    OWN_CLOSED = WELL, "{name!n} is closed, by you ({epochs!e})", "name epochs"
    OWN_CLOSED_EVER = UNVERIFIED, "{name!n} was closed by you, and has no key any more: register another name"
    OWN_ANNOUNCED = (
        ALARM,
        "a reset of {name!n} is announced: from epoch {effect}{time!t} on somebody else can have it. If you have not lost its secret key, "
        "run coniks-client keep",
        "name effect voucher",
    )
    OWN_UNANNOUNCED = WELL, "no reset of {name!n} is announced, so there is nothing to take back"
    OWN_TWIN = (
        ALARM,
        "{name!n} has {key!k} ({epochs!e}), signed with your secret key by another device. If that is yours, run coniks-client adopt, and "
        "change the name on one device only. Else your secret key is stolen: tell all who use the name",
        "name epochs key",
    )
    OWN_ADOPTED = WELL, '{name!n}: this state goes on from the record with the key "{key}" (epoch {epoch})', "name epoch key"
    OWN_NO_TWIN = UNVERIFIED, "{name!n} shows no later record of your secret key, so there is nothing to adopt"
    OWN_VOUCHER = (
        UNVERIFIED,
        "{name!n} has no reset to you yet: give the voucher {voucher} to the operator of the directory, who must know that you are the owner",
        "name voucher",
    )
    OWN_RESET_WAITS = (
        UNVERIFIED,
        "a reset of {name!n} to you is announced: run the command again from epoch {effect}{time!t} on",
        "name effect",
    )
    OWN_KNOWN = UNVERIFIED, "{name!n} is yours, and you have its secret key: change it by coniks-client register"
    OWN_FREE = UNVERIFIED, "{name!n} has no key: take it by coniks-client register"
    OWN_NEVER = UNVERIFIED, "{name!n} is never reset: its owner chose that, or vouches for nothing. Register another name"
    OWN_MISSING = UNVERIFIED, "{name!n}: the service shows no proof for {missing!e}", "name missing"
    OWN_OVERDUE = (
        ALARM,
        f"{OWN_MISSING[1]} for more than {{period}} seconds, though its policy promises it: tell all who use it",
        "name missing",
    )
    OWN_LOST = UNVERIFIED, "{name!n}: {lost!e} can no longer be verified", "name lost"
    OWN_LOST_BEFORE = WELL, *OWN_LOST[1:]
    OWN_NOTED = WELL, "{name!n}: no alarm of {epochs!e} is reported any more, since you have taken note", "name epochs"
    OWN_NOTHING = WELL, "{name!n} has nothing to take note of yet: a quorum of auditors must confirm later epochs", "name"
    OWN_TAKEN = ALARM, '{name!n} is taken: it has the key "{key}" (epoch {epoch})', "name epoch key"
    OWN_OTHER = ALARM, '{name!n} has another key than yours, "{key}" (epoch {epoch}): tell all who use it', "name key"
    OWN_REFUSED = UNVERIFIED, 'the service refuses the key "{key}" of {name!n}: {detail}', "name"
    OWN_WAITING = UNVERIFIED, 'the key "{key}" of {name!n} waits for its epoch: run the command again after that', "name"
    OWN_UNDER_WAY = UNVERIFIED, 'the key "{key}" of {name!n} is signed and sent: register it before another one'
    OWN_UNVERIFIED = UNVERIFIED, "{name!n}: {missing!e} must be verified before the key is changed"
    OWN_NONE = UNVERIFIED, "no name is watched: register one"
    OWN_UNWATCHED = UNVERIFIED, "{name!n} is not watched"

    # The auditors, and the trust document.
    CONFIRMED = WELL, "{confirming} of your {count} auditors confirm this chain up to epoch {agreed}", "agreed"
    FEW = (
        UNVERIFIED,
        "{agreeing} of your {count} auditors confirm this chain, and {needed} must: rely on nothing new",
        "agreeing needed",
    )
    ALONE = WELL, "no auditor is named, so nobody notices if others are shown another chain"
    NOBODY = UNVERIFIED, *ALONE[1:]
    HEAD_DIFFERS = ALARM, "{auditor} has cosigned another chain, at epoch {epoch}: it lies, or others are shown another chain"
    HEAD_TWICE = UNVERIFIED, "{auditor} has cosigned another signature of epoch {epoch}: its next head will decide"
    HEAD_OLD = UNVERIFIED, "{auditor} has cosigned no later epoch than {epoch}, which is old"
    HEAD_HIDDEN = UNVERIFIED, "{auditor} has cosigned epoch {epoch}, which the service doesn't show"
    HEAD_AHEAD = UNVERIFIED, "{auditor} has cosigned for a time that is to come, which does not count: its clock is wrong, or yours"
    HEAD_OF_OTHER_KEY = UNVERIFIED, "{auditor} signs with another key than the one that you named: ask it for its key"
    HEAD_NONE = UNVERIFIED, "{auditor} has cosigned no head lately"
    TRUST = (
        WELL,
        "your trust document has the fingerprint {fingerprint}: whoever has the same one lets the same auditors confirm this directory",
        "fingerprint",
    )
    TRUST_NONE = WELL, "no auditor is named, so there is nothing that two people could compare"
    TRUST_UNWRITTEN = UNVERIFIED, *TRUST_NONE[1:]
    TRUST_OF_OTHER_POLICY = UNVERIFIED, "the trust document is for another policy: take both from one place"
    TRUST_LACKS = UNVERIFIED, "an auditor that you named isn't in the trust document"
    AUDITOR_TWICE = UNVERIFIED, "an auditor is listed twice"
    AUDITOR_UNKNOWN = UNVERIFIED, "no auditor has this URL: give one of {urls}"
    AUDITORS_FEW = UNVERIFIED, "name at least two auditors, or give --without-auditors: then nobody notices another chain"

    # A directory that ends.
    SUCCEEDED = WELL, "the directory ended at epoch {epoch}, and {origin} goes on from epoch {first}", "epoch first"
    SUCCESSION_NEW = (
        ALARM,
        "the directory says that it ended at epoch {epoch}, and that another one goes on: ask its operator, and then run coniks-client succeed",
        "epoch",
    )
    SUCCESSION_FEW = (
        UNVERIFIED,
        "{agreeing} of your auditors confirm that the directory ended at epoch {epoch}, and {needed} must: rely on nothing new",
        "epoch agreeing needed",
    )
    SUCCESSION_ELSEWHERE = (
        UNVERIFIED,
        "the directory ended at epoch {epoch}, and your service doesn't have the one that goes on: give its URL by coniks-client set --service",
        "epoch",
    )
    SUCCESSION_NONE = UNVERIFIED, "neither the service nor an auditor shows that the directory has ended"
    SUCCESSION_VOID = (
        ALARM,
        "the directory signed {epochs!e} after its last epoch {epoch}: its signing key was stolen, or it takes back what it signed",
        "epochs epoch",
    )
    SUCCESSION_DIFFERS = (
        ALARM,
        "the directory ended at epoch {epoch} with another entry than you were shown: go on by coniks-client succeed --anew, and compare keys",
        "epoch",
    )
    SUCCESSIONS = ALARM, "the directory has signed two successions, which convict it: ask its operator which one is right"
    KEY_VOID = ALARM, '{name!n} had the key "{key}" at epoch {epoch}, which is void: look it up again', "name epoch key"
    OWN_NOT_TAKEN = (
        UNVERIFIED,
        'the key "{key}" of {name!n} was not registered when the directory ended: register it again',
        "name key",
    )
    OWN_BEFORE_MISSING = UNVERIFIED, "{name!n}: nobody has verified {missing!e} of the directory before", "name missing"
    OWN_BEFORE_ALARM = (
        ALARM,
        "{name!n} did not have your key in the directory before ({epochs!e}): tell all who use it",
        "name epochs",
    )

    # What convicts the directory, and what the user must see.
    FOUND = ALARM, "something was found that you must see: run coniks-client evidence"
    FOUND_NOTHING = WELL, "nothing was found that convicts the directory"
    FOUND_ENTRIES = ALARM, "two signed entries that one chain can't have convict the directory", "policy kind evidence why"
    FOUND_UNVOUCHED = (
        ALARM,
        "{name!n}: two replies convict the directory: the key in the second was not signed with the owner's secret key, and no notice of a "
        "reset allows it",
        "policy kind evidence name",
    )
    FOUND_CHANGED = ALARM, "{name!n}: a reply shows another key than yours; alone it convicts nobody", "policy kind evidence name"
    FOUND_SUCCESSIONS = ALARM, "two successions of one directory convict it: its successor key signed both", "policy kind evidence"
    FOUND_VOID = (
        ALARM,
        "the directory signed an entry that its succession excludes: its signing key was stolen, or it takes back what it signed",
        "policy kind evidence",
    )
    FOUND_HEAD = (
        ALARM,
        "an auditor cosigned a head that your chain lacks; it convicts nobody alone: ask the auditor for its entries",
        "policy kind evidence",
    )
    CONVICTED = ALARM, "{reason}", "cause"

    # What can't be used now.
    REFUSED = UNVERIFIED, "{reason}", "cause"
    UNUSABLE = UNVERIFIED, "{reason}"
    BAD_URL = UNVERIFIED, "{url}: a URL begins with http:// or https://"
    UNREACHABLE = UNVERIFIED, "{url}: {kind} {reason}"
    WITHOUT_TLS = (
        UNVERIFIED,
        "{url} is another host and has no TLS, so anyone on the way reads the token: give an https URL, or no token",
    )
    TOO_LONG = UNVERIFIED, "{url} has more than {most} bytes"
    BAD_STATUS = UNVERIFIED, "{url} has status {status}"
    SERVICE_REFUSES = UNVERIFIED, "the service refuses {target}: {detail}"
    TO_COME = UNVERIFIED, "{source} shows epoch {epoch}, which begins later than now: its clock is ahead, or yours is slow"
    MORE_ENTRIES = UNVERIFIED, "{source} has more entries than are taken at once: the next run goes on"
    NOT_RISING = UNVERIFIED, "{source}: its entries do not rise"
    OLDER = UNVERIFIED, "{source} shows an older chain than before: it is late, or hides epochs"
    PROGRAM = UNVERIFIED, "this run ended by an error of the program, {kind}: {reason}"
    UNREAD = UNVERIFIED, ""
    INTERRUPTED = STOPPED, ""

    # The state of `coniks-client`.
    SET = WELL, "the service is {service}, the auditors are {auditors}, of whom {faulty} may lie"
    STATE_THERE = UNVERIFIED, "{path} is there already: give another --state, or change it by coniks-client set"
    STATE_LACKING = UNVERIFIED, "{path} isn't there: coniks-client begin makes it"
    STATE_TAKEN = UNVERIFIED, "another run has {path}: wait for it"
    STATE_NONE = UNVERIFIED, "{path} is no state of coniks-client, or was cut or changed: restore it, or begin anew"
    STATE_VERSION = UNVERIFIED, "{path} is a state of another version of coniks-client: use that version, or begin anew"
    STATE_CHANGED = UNVERIFIED, "{path} was changed: {reason}"

    # A state that moves to another device.
    EXPORTED = (
        WELL,
        "{file} has your whole state with its secret keys: import it on another device, and from then on change keys on one device only",
        "file",
    )
    IMPORTED = (
        WELL,
        "{path} has the state up to epoch {epoch}, first seen {age} ago: change keys on this device only, not on the one it comes from",
        "epoch seen",
    )
    EXPORT_THERE = UNVERIFIED, "{file} is there already, and is left as it is: give another file"
    IMPORT_NONE = UNVERIFIED, "{file} is no exported state, or was cut: take the file that coniks-client export wrote"
    IMPORT_VERSION = UNVERIFIED, "{file} was exported by another version of coniks-client: use that version"
    IMPORT_LIMITS = UNVERIFIED, "{file} asks for more than an exported state takes: take the file that coniks-client export wrote"
    IMPORT_CLOSED = UNVERIFIED, "the passphrase is wrong, or {file} was changed: nobody can tell which of both"
    PASSPHRASE_NONE = UNVERIFIED, "the passphrase is empty: choose one that nobody can guess"
    PASSPHRASE_DIFFERS = UNVERIFIED, "you have typed two passphrases: run the command again"
    PASSPHRASE_UNASKED = UNVERIFIED, "no terminal asks for a passphrase: give --passphrase with a file that has it"
    PASSPHRASE_SHARED = UNVERIFIED, "others can read {file}, which has a passphrase: chmod 600, and change it if they have"
    PASSPHRASE_MEMORY = UNVERIFIED, "there is too little memory for the passphrase, which takes {size} MiB: close other programs"

    # `coniks-audit`.
    AUDITED = WELL, ""
    AUDIT_ALARM = ALARM, "{source}: {why}"
    AUDIT_PEER_ALARM = ALARM, "{source}: HEAD_DIFFERS"
    AUDIT_REFUSED = UNVERIFIED, "{source}: {reason}"
    AUDIT_NOT_COSIGNED = UNVERIFIED, "{source}: the note isn't cosigned by {auditor}"
    AUDIT_WITHHELD = UNVERIFIED, "{source}: the entries up to epoch {epoch} are withheld, which {auditor} has cosigned"
    AUDIT_TWICE = UNVERIFIED, f"{{source}}: {HEAD_TWICE[1]}"
    AUDIT_LATE = UNVERIFIED, "the latest epoch is {behind} epochs behind the policy's clock"
    AUDIT_TAKEN = UNVERIFIED, "another process audits in {folder}"
    AUDIT_CHANGED = UNVERIFIED, "{folder} was changed, or is an old backup: {reason}"
    AUDIT_LACKS = UNVERIFIED, "{folder} was changed, or is an old backup: the entries lack the head that was cosigned"
    AUDIT_OTHER = UNVERIFIED, "{folder} is of another directory: give each policy a folder of its own"
    AUDIT_ENDED = UNVERIFIED, "{kind}: {reason}"

    # The succession of an auditor's directory, and that of the one before.
    AUDIT_SUCCEEDED = (
        WELL,
        "the directory ends with epoch {epoch}, and goes on under the policy {policy}: audit that --before {folder}",
    )
    AUDIT_UNCOMPARED = WELL, "epoch {epoch} and the last one before it have no roots to compare: VRF or nonce is another one"
    AUDIT_SUCCESSIONS = ALARM, "{source}: it shows another succession of this directory, and the successor key signed both"
    AUDIT_VOID = (
        ALARM,
        "{source}: an entry is signed after the directory's last epoch: the signing key was stolen, or the directory takes entries back",
    )
    AUDIT_END_DIFFERS = ALARM, "{source}: the entry of the last epoch is another one than the succession names"
    AUDIT_START_DIFFERS = (
        ALARM,
        "{source}: the entry of the first epoch that counts is another one than the succession before names",
    )
    AUDIT_ROOTS_DIFFER = ALARM, "{source}: the first epoch that counts shows other keys than the last one of the directory before"
    AUDIT_UNSIGNED = UNVERIFIED, "{source}: the succession is of another directory, or its successor key did not sign it"
    AUDIT_UNENDED = UNVERIFIED, "{source}: the entries up to epoch {epoch} are withheld, with which the directory ends"
    AUDIT_SUCCESSION_CHANGED = (
        UNVERIFIED,
        "{folder} was changed, or is an old backup: its succession is not the one that was cosigned",
    )
    AUDIT_NOT_BEFORE = UNVERIFIED, "{folder} has no directory that this one goes on from: {reason}"
    AUDIT_NOT_NEXT = UNVERIFIED, "{folder} has no directory that this one goes on from: another policy is next, {policy}"

    def __init__(self, status: int, text: str, members: str = ""):
        self.status, self.text, self.members = status, text, members.split()

    def sentence(self, values: Mapping[str, Any]) -> str:
        """The sentence with its values, for a terminal."""
        return printable(_Sentences().vformat(self.text, (), values))


class Notice(Exception):
    """What ends a call, as a verdict with its values."""

    def __init__(self, verdict: Verdict, **values: Any):
        self.verdict, self.values = verdict, values
        super().__init__(verdict.sentence(values))


class Unusable(Notice):
    """A service, an auditor or a file can't be used now."""


class Telling:
    """Prints verdicts, and keeps their statuses. All that a run of `coniks-client` prints is printed here."""

    def __init__(self, is_json: bool):
        self.is_json, self.origin, self._statuses = is_json, "coniks-client", {WELL}

    def __call__(self, verdict: Verdict, is_beside: bool = False, **values: Any) -> None:
        """Prints a verdict. One beside what a run is about, as of one auditor of several, counts only if it is an alarm."""
        status, text = WELL if is_beside and verdict.status != ALARM else verdict.status, verdict.sentence(values)
        self._statuses.add(status)
        members = {it: values[it] for it in verdict.members}
        self.line(json.dumps({"text": text, "status": status, **members}) if self.is_json else f"{self.origin}: {text}")

    def line(self, text: str) -> None:
        print(printable(text), flush=True)

    @property
    def status(self) -> int:
        return worst(self._statuses)


def worst(statuses: Iterable[int]) -> int:
    """The status that counts most."""
    return min(statuses, key=[ALARM, UNVERIFIED, ABSENT, WELL].index)


def event_of(verdict: Verdict) -> str:
    """What the lines of `coniks-audit` call a verdict."""
    named = {Verdict.AUDIT_LATE: "late", Verdict.AUDIT_ENDED: "ended"}
    return named.get(verdict) or {ALARM: "alarm", UNVERIFIED: "unusable", WELL: "succession"}[verdict.status]


def printable(text: str) -> str:
    """Returns text for a terminal, in which what isn't seen or changes the direction is written out."""
    return "".join(it if it.isprintable() else f"\\u{{{ord(it):x}}}" for it in text)


def in_words(epochs: Sequence[int]) -> str:
    """Epochs in words, for example `epochs 1 to 3, 5`."""
    known = set(epochs)
    ends = zip([it for it in epochs if it - 1 not in known], [it for it in epochs if it + 1 not in known])
    return f"epoch{'s' * (len(epochs) > 1)} " + ", ".join(f"{a} to {b}" if a < b else f"{a}" for a, b in ends)


def confirmed_by(verdict: Verdict) -> str:
    """What a sentence about a key says of its auditors."""
    if verdict in (Verdict.ALONE, Verdict.NOBODY):
        return ", which no auditor confirms"
    return ", which too few of your auditors confirm" if verdict is Verdict.FEW else ""


def own_keys(keys: Sequence[tuple[str, Sequence[int], Verdict]]) -> str:
    """Own keys with their epochs, and who confirms them."""
    return " and ".join(f'"{key}" ({in_words(epochs)}{confirmed_by(by)})' for key, epochs, by in keys)


def timed(seconds: Optional[int]) -> str:
    """A time in words, for a sentence about an epoch. There is none without a clock."""
    return "" if seconds is None else time.strftime(", %Y-%m-%d %H:%M UTC,", time.gmtime(seconds))


def noticed(seconds: Optional[int]) -> str:
    """How long a notice was, if that is known."""
    if not seconds:
        return ""
    size, unit = next((it for it in ((86400, "day"), (3600, "hour"), (60, "minute")) if seconds % it[0] == 0), (1, "second"))
    count = seconds // size
    return f" after {count} {unit}{'s' * (count > 1)} of notice"


_CONVERSIONS: dict[Optional[str], Callable[[Any], str]] = {
    "n": shown,
    "k": lambda key: "no key" if key is None else f'the key "{key}"',
    "e": lambda epochs: in_words(epochs) if epochs else "the latest epoch",
    "o": own_keys,
    "v": lambda is_verified: "" if is_verified else ". You have not verified it yet",
    "b": confirmed_by,
    "t": timed,
    "d": noticed,
}


class _Sentences(string.Formatter):
    """Formats a sentence by the conversions of the table."""

    def convert_field(self, value: Any, conversion: Any) -> Any:
        return _CONVERSIONS[conversion](value) if conversion else value
