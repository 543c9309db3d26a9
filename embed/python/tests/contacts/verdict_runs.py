"""A run of `coniks-client` for each of its verdicts: what is prepared, the command, and what it tells, written by hand from the manual
page. In a sentence `SERVICE`, `STATE` and `ROOM` are the service, the state's file and its folder."""

from __future__ import annotations

import hashlib

from client_world import hour
from people import AUDITORS, FORKS, KEYS, POLICY, WORLD
from rooms import (
    ANNOUNCED,
    DAVE,
    FEW,
    NOBODY,
    RECORD,
    RESET,
    RESETTABLE,
    TIME,
    Room,
    Run,
    after,
    at,
    commit,
    endless,
    faulty,
    file,
    gone,
    hidden,
    key_of,
    lie,
    made,
    old,
    older_version,
    other_key,
    overdue,
    refusing,
    shown_at,
    signed_again,
    state,
    taken,
    trust_file,
    unfounded,
    waiting,
    words,
)
from coniks.vouching import following

TEXT = bytes(POLICY).decode()
LATER = "name at least two auditors, or give --without-auditors: then nobody notices another chain"
FINGERPRINT = hashlib.sha256(
    f"trust coniks-1\npolicy {hashlib.sha256(bytes(POLICY)).hexdigest()}\n".encode()
    + "".join(sorted(f"auditor {AUDITORS[it]}\n" for it in ("one", "two"))).encode()
    + b"faulty 0\n"
).hexdigest()
SHOWN = " ".join(FINGERPRINT[it : it + 8] for it in range(0, 64, 8))
BEGIN = ["begin", "--state", "ROOM/other", "--service", "SERVICE", "--policy", "ROOM/policy"]
# By the definition of docs/FORMATS.md, of a key without a record.
DIGEST = hashlib.sha512(b"fingerprint coniks-1\n\x05alice" + bytes(32) + b"key of alice").digest()
OF_ALICE = " ".join(f"{int.from_bytes(DIGEST[at : at + 5], 'big') % 10**5:05}" for at in range(0, 40, 5))
LACKS = "the service shows no proof for epoch 4"

RUNS = {
    "KEY": Run(
        0,
        f'"alice" has the key "key of alice" (epoch 2{NOBODY})',
        key_of("alice", "key of alice"),
        ["verify", "alice", "--key", "key of alice"],
    ),
    "KEY_UNCONFIRMED": Run(
        3,
        f'"alice" has the key "key of alice". You have not verified it yet (epoch 2{NOBODY})',
        key_of("alice", "key of alice"),
        ["lookup", "alice"],
        after(state(alone=False)),
    ),
    "KEY_VOUCHED": Run(
        0,
        f'"dave" has the key "l" in place of "k", and the change was signed with its owner\'s secret key. You have not verified it yet (epoch 4{NOBODY})',
        key_of("dave", "l", "k", "vouched", 4),
        ["lookup", "dave"],
        after(Room.record, commit(4, dave=following(DAVE, KEYS["one"], RECORD, b"l"))),
    ),
    "KEY_VOUCHED_UNCONFIRMED": Run(
        3,
        f'"dave" has the key "l" in place of "k", and the change was signed with its owner\'s secret key (epoch 4{NOBODY})',
        key_of("dave", "l", "k", "vouched", 4),
        ["verify", "dave", "--key", "l"],
        after(Room.record, commit(4, dave=following(DAVE, KEYS["one"], RECORD, b"l")), state(alone=False)),
    ),
    "KEY_UNKNOWN": Run(
        1,
        '"alice" has the key "second" in place of "key of alice", and nobody vouches for that: ask the owner, and then verify it'
        f" (epoch 3{NOBODY})",
        key_of("alice", "second", "key of alice", "unknown", 3),
        ["lookup", "alice"],
        after(words("lookup", "alice"), commit(3, alice=b"second")),
    ),
    "KEY_UNVOUCHED": Run(
        1,
        f'"dave" has the key "l", and the change was not signed with the secret key of the one before, "k": don\'t use it (epoch 4{NOBODY})',
        key_of("dave", "l", "k", "unvouched", 4),
        ["lookup", "dave"],
        after(Room.record, commit(4, dave=b"l")),
    ),
    "KEY_OTHER": Run(
        1,
        f'"alice" has another key, "key of alice": don\'t use it (epoch 2{NOBODY})',
        key_of("alice", "key of alice"),
        ["verify", "alice", "--key", "key of mallory"],
    ),
    "KEY_NOT_YOURS": Run(
        1,
        f'"dave" has the key "key of mallory", which is not yours: tell all who use it (epoch 4{NOBODY})',
        key_of("dave", "key of mallory", "key one", "unvouched", 4),
        ["lookup", "dave"],
        after(Room.own, commit(4, dave=b"key of mallory")),
    ),
    "KEY_GONE": Run(
        1,
        f'"dave" has no key any more, and no directory removes a name. Its key was "k" (epoch 4{NOBODY})',
        key_of("dave", None, "k", "unvouched", 4),
        ["lookup", "dave"],
        after(gone),
    ),
    "KEY_LACKING": Run(1, f'"nobody" has no key (epoch 2{NOBODY})', key_of("nobody", None), ["verify", "nobody", "--key", "k"]),
    "KEY_ABSENT": Run(4, f'"nobody" has no key (epoch 2{NOBODY})', key_of("nobody", None), ["lookup", "nobody"]),
    "KEY_RESET": Run(
        1,
        '"dave" was reset after 1 day of notice, and has the key "m" in place of "k": verify it by another channel'
        f" (epoch 28{NOBODY})",
        key_of("dave", "m", "k", "reset", 28),
        ["lookup", "dave"],
        after(commit(3, dave=RESETTABLE), words("lookup", "dave"), commit(4, dave=ANNOUNCED), commit(28, dave=RESET)),
    ),
    "KEY_CLOSED": Run(
        4,
        f'"dave" was closed by its owner (epoch 4{NOBODY})',
        key_of("dave", None, "k", "vouched", 4),
        ["lookup", "dave"],
        after(Room.record, commit(4, dave=following(DAVE, KEYS["one"], RECORD, b""))),
    ),
    "KEY_ANNOUNCED": Run(
        0,
        f'a reset of "dave" is announced: from epoch 28, {TIME}, on somebody else can have it, unless its owner takes that back',
        {"name": "dave", "effect": 28},
        ["lookup", "dave"],
        after(commit(3, dave=RESETTABLE), words("lookup", "dave"), commit(4, dave=ANNOUNCED)),
    ),
    "FINGERPRINT": Run(
        0,
        f'"alice" has the fingerprint {OF_ALICE} (epoch 2{NOBODY})',
        {"name": "alice", "epoch": 2, "fingerprint": OF_ALICE},
        ["fingerprint", "alice"],
    ),
    "FINGERPRINT_UNCONFIRMED": Run(
        3,
        f'"alice" has the fingerprint {OF_ALICE} (epoch 2{NOBODY})',
        {"name": "alice", "epoch": 2, "fingerprint": OF_ALICE},
        ["fingerprint", "alice"],
        after(state(alone=False)),
    ),
    "OWN_CLOSED": Run(
        0,
        '"dave" is closed, by you (epoch 4)',
        {"name": "dave", "epochs": [4]},
        ["close", "dave"],
        after(Room.own),
    ),
    "OWN_CLOSED_EVER": Run(
        3,
        '"dave" was closed by you, and has no key any more: register another name',
        {},
        ["register", "dave", "key two"],
        after(Room.own, words("close", "dave")),
    ),
    "OWN_ANNOUNCED": Run(
        1,
        'a reset of "dave" is announced: from epoch 175, 2026-01-08 06:00 UTC, on somebody else can have it. If you have not lost its'
        " secret key, run coniks-client keep",
        {"name": "dave", "effect": 175, "voucher": bytes(KEYS["two"].verify_key).hex()},
        ["watch"],
        after(Room.announced),
    ),
    "OWN_UNANNOUNCED": Run(
        0, 'no reset of "dave" is announced, so there is nothing to take back', {}, ["keep", "dave"], after(Room.own)
    ),
    "OWN_TWIN": Run(
        1,
        '"dave" has the key "key two" (epoch 4), signed with your secret key by another device. If that is yours, run coniks-client adopt,'
        " and change the name on one device only. Else your secret key is stolen: tell all who use the name",
        {"name": "dave", "epochs": [4], "key": "key two"},
        ["watch"],
        after(Room.twin),
    ),
    "OWN_ADOPTED": Run(
        0,
        '"dave": this state goes on from the record with the key "key two" (epoch 4)',
        {"name": "dave", "epoch": 4, "key": "key two"},
        ["adopt", "dave"],
        after(Room.twin),
    ),
    "OWN_NO_TWIN": Run(
        3,
        '"dave" shows no later record of your secret key, so there is nothing to adopt',
        {},
        ["adopt", "dave"],
        after(Room.own),
    ),
    "OWN_VOUCHER": Run(
        3,
        lambda room: f'"dave" has no reset to you yet: give the voucher {room.voucher()} to the operator of the directory, who must know'
        " that you are the owner",
        {"name": "dave", "voucher": lambda room: room.voucher()},
        ["reset", "dave", "key two"],
        after(commit(3, dave=RESETTABLE)),
    ),
    "OWN_RESET_WAITS": Run(
        3,
        f'a reset of "dave" to you is announced: run the command again from epoch 28, {TIME}, on',
        {"name": "dave", "effect": 28},
        ["reset", "dave", "key two"],
        after(Room.resetting),
    ),
    "OWN_KNOWN": Run(
        3,
        '"dave" is yours, and you have its secret key: change it by coniks-client register',
        {},
        ["reset", "dave", "key two"],
        after(Room.own),
    ),
    "OWN_FREE": Run(3, '"erin" has no key: take it by coniks-client register', {}, ["reset", "erin", "k"]),
    "OWN_NEVER": Run(
        3,
        '"dave" is never reset: its owner chose that, or vouches for nothing. Register another name',
        {},
        ["reset", "dave", "k"],
        after(Room.record),
    ),
    "OWN_SHOWN": Run(
        0,
        f'"dave" has your key "key one" (epoch 3{NOBODY})',
        {"name": "dave", "epochs": [3], "key": "key one", "report": "unconfirmed"},
        ["register", "dave", "key one"],
    ),
    "OWN_CHANGED": Run(
        1,
        '"dave" has the key "key of mallory" (epoch 4), which is not yours: tell all who use it',
        {"name": "dave", "epochs": [4], "key": "key of mallory"},
        ["watch"],
        after(Room.changed),
    ),
    "OWN_ALARM": Run(
        1,
        '"dave" did not have your key (epoch 4): tell all who use it',
        {"name": "dave", "epochs": [4]},
        ["watch"],
        after(Room.changed, words("watch")),
    ),
    "OWN_MISSING": Run(3, f'"dave": {LACKS}', {"name": "dave", "missing": [4]}, ["watch"], after(Room.missing)),
    "OWN_OVERDUE": Run(
        1,
        f'"dave": {LACKS} for more than 3600 seconds, though its policy promises it: tell all who use it',
        {"name": "dave", "missing": [4]},
        ["watch"],
        after(overdue),
    ),
    "OWN_LOST": Run(
        3, '"dave": epochs 4 to 6 can no longer be verified', {"name": "dave", "lost": [4, 5, 6]}, ["watch"], Room.lost
    ),
    "OWN_LOST_BEFORE": Run(
        0,
        '"dave": epochs 4 to 6 can no longer be verified',
        {"name": "dave", "lost": [4, 5, 6]},
        ["watch"],
        made(Room.lost, words("watch")),
    ),
    "OWN_NOTED": Run(
        0,
        '"dave": no alarm of epochs 4 to 6 is reported any more, since you have taken note',
        {"name": "dave", "epochs": [4, 5, 6]},
        ["note", "dave"],
        made(Room.lost, words("watch")),
    ),
    "OWN_NOTHING": Run(
        0,
        '"dave" has nothing to take note of yet: a quorum of auditors must confirm later epochs',
        {"name": "dave"},
        ["note", "dave"],
        after(Room.own),
    ),
    "OWN_TAKEN": Run(
        1,
        '"alice" is taken: it has the key "key of alice" (epoch 2)',
        {"name": "alice", "epoch": 2, "key": "key of alice"},
        ["register", "alice", "key of mine"],
    ),
    "OWN_OTHER": Run(
        1,
        '"dave" has another key than yours, "key of mallory" (epoch 3): tell all who use it',
        {"name": "dave", "key": "key of mallory"},
        ["watch"],
        after(waiting, words("register", "dave", "key one"), commit(3, dave=b"key of mallory")),
    ),
    "OWN_REFUSED": Run(
        3,
        'the service refuses the key "key one" of "dave": no',
        {"name": "dave"},
        ["register", "dave", "key one"],
        after(refusing),
    ),
    "OWN_WAITING": Run(
        3,
        'the key "key one" of "dave" waits for its epoch: run the command again after that',
        {"name": "dave"},
        ["register", "dave", "key one"],
        after(waiting),
    ),
    "OWN_UNDER_WAY": Run(
        3,
        'the key "key one" of "dave" is signed and sent: register it before another one',
        {},
        ["register", "dave", "key two"],
        after(waiting, words("register", "dave", "key one")),
    ),
    "OWN_UNVERIFIED": Run(
        3,
        '"dave": epoch 4 must be verified before the key is changed',
        {},
        ["register", "dave", "key two"],
        after(Room.missing),
    ),
    "OWN_NONE": Run(3, "no name is watched: register one", {}, ["watch"]),
    "OWN_UNWATCHED": Run(3, '"erin" is not watched', {}, ["set", "--unwatch", "erin"]),
    "CONFIRMED": Run(0, "2 of your 2 auditors confirm this chain up to epoch 2", {"agreed": 2}, ["compare"], Room.audited),
    "FEW": Run(
        3,
        "1 of your 2 auditors confirm this chain, and 2 must: rely on nothing new",
        {"agreeing": 1, "needed": 2},
        ["compare"],
        lambda room: room.head(seconds=hour(9)),
    ),
    "ALONE": Run(0, "no auditor is named, so nobody notices if others are shown another chain", {}, ["compare"]),
    "NOBODY": Run(
        3, "no auditor is named, so nobody notices if others are shown another chain", {}, ["compare"], after(state(alone=False))
    ),
    "HEAD_DIFFERS": Run(
        1,
        "two has cosigned another chain, at epoch 2: it lies, or others are shown another chain",
        {},
        ["compare"],
        unfounded,
    ),
    "HEAD_TWICE": Run(
        3,
        "two has cosigned another signature of epoch 2: its next head will decide",
        {},
        ["compare"],
        signed_again,
        line=0,
    ),
    "HEAD_OLD": Run(3, "two has cosigned no later epoch than 2, which is old", {}, ["compare"], old, line=0),
    "HEAD_HIDDEN": Run(3, "two has cosigned epoch 3, which the service doesn't show", {}, ["compare"], hidden, line=0),
    "HEAD_AHEAD": Run(
        3,
        "two has cosigned for a time that is to come, which does not count: its clock is wrong, or yours",
        {},
        ["compare"],
        lambda room: room.head(seconds=room.clock() + 301),
        line=0,
    ),
    "HEAD_OF_OTHER_KEY": Run(
        3,
        "two signs with another key than the one that you named: ask it for its key",
        {},
        ["compare"],
        other_key,
        line=0,
    ),
    "HEAD_NONE": Run(
        3,
        "two has cosigned no head lately",
        {},
        ["compare"],
        lambda room: room.head(seconds=room.clock() - 3 * 3600 - 1),
        line=0,
    ),
    "TRUST": Run(
        0,
        f"your trust document has the fingerprint {SHOWN}: whoever has the same one lets the same auditors confirm this directory",
        {"fingerprint": SHOWN},
        ["trust"],
        Room.audited,
    ),
    "TRUST_NONE": Run(0, "no auditor is named, so there is nothing that two people could compare", {}, ["trust"]),
    "TRUST_UNWRITTEN": Run(
        3, "no auditor is named, so there is nothing that two people could compare", {}, ["trust", "ROOM/trust"]
    ),
    "TRUST_OF_OTHER_POLICY": Run(
        3,
        "the trust document is for another policy: take both from one place",
        {},
        ["set", "--trust", "ROOM/trust"],
        after(trust_file(bytes(32))),
    ),
    "TRUST_LACKS": Run(
        3,
        "an auditor that you named isn't in the trust document",
        {},
        ["set", "--trust", "ROOM/trust", "--add-auditor", "http://127.0.0.1:1", str(AUDITORS["three"])],
        after(trust_file(POLICY.digest)),
    ),
    "AUDITOR_TWICE": Run(
        3,
        "an auditor is listed twice",
        {},
        [
            *BEGIN,
            *("--auditor", "http://127.0.0.1:1", str(AUDITORS["one"])),
            *("--auditor", "http://127.0.0.1:1/", str(AUDITORS["two"])),
        ],
    ),
    "AUDITOR_UNKNOWN": Run(
        3,
        "no auditor has this URL: give one of https://one.example, https://two.example",
        {},
        ["set", "--remove-auditor", "http://127.0.0.1:1"],
        after(state(auditors=[[f"https://{it}.example", str(AUDITORS[it])] for it in ("one", "two")])),
    ),
    "AUDITORS_FEW": Run(3, LATER, {}, ["set", "--add-auditor", "http://127.0.0.1:1", str(AUDITORS["one"])]),
    "FOUND": Run(
        1,
        "something was found that you must see: run coniks-client evidence",
        {},
        ["compare"],
        after(Room.fork, words("compare")),
    ),
    "FOUND_NOTHING": Run(0, "nothing was found that convicts the directory", {}, ["evidence"]),
    "FOUND_ENTRIES": Run(
        1,
        "two signed entries that one chain can't have convict the directory",
        {"policy": TEXT, "kind": "entries", "evidence": [WORLD[2].hex(), FORKS[0][2].hex()], "why": "overlap"},
        ["evidence"],
        after(Room.fork, words("compare")),
    ),
    "FOUND_UNVOUCHED": Run(
        1,
        '"dave": two replies convict the directory: the key in the second was not signed with the owner\'s secret key, and no notice of a reset'
        " allows it",
        {"policy": TEXT, "kind": "unvouched", "evidence": shown_at("dave", 3, 4), "name": "dave"},
        ["evidence"],
        after(Room.record, commit(4, dave=b"l"), words("lookup", "dave")),
    ),
    "FOUND_CHANGED": Run(
        1,
        '"dave": a reply shows another key than yours; alone it convicts nobody',
        {"policy": TEXT, "kind": "changed", "evidence": shown_at("dave", 3), "name": "dave"},
        ["evidence"],
        after(waiting, words("register", "dave", "key one"), commit(3, dave=b"key of mallory"), words("watch")),
    ),
    "FOUND_HEAD": Run(
        1,
        "an auditor cosigned a head that your chain lacks; it convicts nobody alone: ask the auditor for its entries",
        {"policy": TEXT, "kind": "head", "evidence": lambda room: [room.auditors[1].note.hex()]},
        ["evidence"],
        made(unfounded, words("compare")),
    ),
    "CONVICTED": Run(
        1,
        "the signed entry and one of the chain convict the provider: keep the evidence, and publish it",
        {"cause": "EQUIVOCATION"},
        ["lookup", "alice"],
        after(Room.fork),
    ),
    "REFUSED": Run(
        3,
        "the reply has no byte: ask for the reply again",
        {"cause": "NO_REPLY"},
        ["lookup", "alice"],
        after(lie("/v1/lookup", b"")),
    ),
    "UNUSABLE": Run(
        3,
        "[Errno 2] No such file or directory: 'ROOM/none'",
        {},
        ["set", "--token", "ROOM/none"],
    ),
    "BAD_URL": Run(
        3, "ftp://x/v1/entries?after=1: a URL begins with http:// or https://", {}, ["compare"], after(state(service="ftp://x"))
    ),
    "UNREACHABLE": Run(
        3,
        "http://127.0.0.1:1/v1/entries?after=1: ConnectionRefusedError [Errno 111] Connection refused",
        {},
        ["compare"],
        after(state(service="http://127.0.0.1:1")),
    ),
    "WITHOUT_TLS": Run(
        3,
        "http://keys.example.com is another host and has no TLS, so anyone on the way reads the token: give an https URL, or no token",
        {},
        ["set", "--service", "http://keys.example.com"],
    ),
    "TOO_LONG": Run(
        3,
        "SERVICE/v1/lookup?name=alice has more than 32768 bytes",
        {},
        ["lookup", "alice"],
        after(lie("/v1/lookup", bytes(1 << 16))),
    ),
    "BAD_STATUS": Run(3, "SERVICE/v1/entries?after=1 has status 500", {}, ["compare"], after(lie("/v1/entries", b"", 500))),
    "SERVICE_REFUSES": Run(
        3, "the service refuses /v1/lookup: no", {}, ["lookup", "alice"], after(lie("/v1/lookup", b'{"detail":"no"}', 500))
    ),
    "TO_COME": Run(
        3,
        "the service shows epoch 9, which begins later than now: its clock is ahead, or yours is slow",
        {},
        ["compare"],
        after(at(hour(5)), commit(9)),
    ),
    "MORE_ENTRIES": Run(
        3, "SERVICE has more entries than are taken at once: the next run goes on", {}, ["compare"], after(endless)
    ),
    "NOT_RISING": Run(3, "SERVICE: its entries do not rise", {}, ["compare"], after(lie("/v1/entries", WORLD[2] + WORLD[1]))),
    "OLDER": Run(
        3,
        "SERVICE shows an older chain than before: it is late, or hides epochs",
        {},
        ["compare"],
        after(lie("/v1/entries", b"")),
    ),
    "PROGRAM": Run(3, "this run ended by an error of the program, AssertionError: a fault", {}, ["lookup", "alice"], after(faulty)),
    "SET": Run(0, "the service is SERVICE, the auditors are none, of whom 0 may lie", {}, ["set", "--service", "SERVICE"]),
    "STATE_THERE": Run(
        3,
        "STATE is there already: give another --state, or change it by coniks-client set",
        {},
        ["begin", "--service", "SERVICE", "--policy", "ROOM/policy", "--without-auditors"],
    ),
    "STATE_LACKING": Run(3, "STATE isn't there: coniks-client begin makes it", {}, ["compare"], made()),
    "STATE_TAKEN": Run(3, "another run has STATE: wait for it", {}, ["compare"], after(taken)),
    "STATE_NONE": Run(
        3,
        "STATE is no state of coniks-client, or was cut or changed: restore it, or begin anew",
        {},
        ["compare"],
        after(file(b"coniks-client 3 x")),
    ),
    "STATE_VERSION": Run(
        3,
        "STATE is a state of another version of coniks-client: use that version, or begin anew",
        {},
        ["compare"],
        after(older_version),
    ),
    "STATE_CHANGED": Run(
        3,
        "STATE was changed: this is no verifier key of an auditor: take the line that coniks-audit prints",
        {},
        ["compare"],
        after(state(auditors=[["http://127.0.0.1:1", "x"]])),
    ),
}
