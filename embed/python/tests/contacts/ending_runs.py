"""A run of `coniks-client` for each of its verdicts on a directory that ends, as in `verdict_runs`."""

from __future__ import annotations

from typing import Any, Callable

from coniks import Head
from coniks.succession import Succession
from directories import Reply
from endings import OLD, SUCCESSOR, Confirming, Ended, thief
from rooms import Room, Run, made, words

# The last epoch of the old directory, and the first of the next one that counts.
LAST, FIRST = 6, 12
RULE = "its signing key was stolen, or it takes back what it signed"


def begun(directory: Callable[[], Ended], *auditors: str) -> Callable[[Room], object]:
    """Begins with another directory, and with auditors of it."""

    def begin(room: Room) -> None:
        room.directory = found = directory()
        room.clock.latest = lambda: found.hour
        (room.person.room / "policy").write_text(OLD)
        confirming = [Confirming(it, found) for it in auditors]
        room.auditors = [*confirming]  # type: ignore[list-item]
        assert room.person.begin(found, *(it.pair for it in confirming)) == 0

    return begin


GOES_ON = words("set", "--go-on")


def end(room: Room) -> None:
    assert isinstance(room.directory, Ended)
    room.directory.end()


def left(room: Room) -> None:
    """The user has been shown the thief's epochs, and asks the honest service then."""
    stolen, room.directory = room.directory, Ended()
    assert isinstance(room.directory, Ended) and isinstance(stolen, Ended)
    room.run("set", "--service", room.directory.url)
    room.directory.end()
    room.directory.go_on(stolen.hour)


def stolen() -> Ended:
    return thief(LAST)


def other() -> Ended:
    """A directory with another last entry."""
    found = Ended()
    found.batches[-1] = LAST, {"bob": b"key of mallory"}
    found.renew()
    return found


def succession(room: Room) -> Succession:
    assert isinstance(room.directory, Ended)
    return Succession.read(next(iter(room.directory.past.values()))[2])


def second(room: Room) -> Succession:
    """Another succession of the same directory."""
    one = succession(room)
    return Succession(one.policy, one.last, one.next_policy, Head(one.first.epoch, bytes(32))).sign(SUCCESSOR)


def two(room: Room) -> None:
    """An auditor has cosigned another succession."""
    end(room)
    auditor: Any = room.auditors[1]
    auditor.lies["/v1/succession"] = lambda _: Reply(auditor.cosigned(bytes(second(room)).decode()))


def hidden(room: Room) -> None:
    """No auditor shows the succession."""
    for it in room.auditors:
        it.lies["/v1/succession"] = lambda _: Reply(b"", 404)


def own(room: Room) -> None:
    room.own()


def waiting(room: Room) -> None:
    room.directory.commits = False
    room.run("register", "dave", "key one")


def unverified(room: Room) -> None:
    """An epoch of the user's name that nobody verified before the end."""
    room.own()
    room.directory.commit(LAST + 2)
    end(room)


def changed(room: Room) -> None:
    """An epoch showed another key of the user's name before the end."""
    room.own()
    record = room.directory.world.epochs[LAST + 1].names[dave()][2]
    room.directory.commit(LAST + 2, dave=b"key of mallory")
    room.directory.commit(LAST + 3, dave=record)
    room.run("watch")
    end(room)
    room.run("watch")


def dave() -> bytes:
    from client_world import index

    return index("dave")


def void_evidence(room: Room) -> list[str]:
    return [bytes(succession(room)).hex(), stolen().world[LAST + 1].hex()]


RUNS = {
    "SUCCEEDED": Run(
        0,
        f"the directory ended at epoch {LAST}, and keys.example.com goes on from epoch {FIRST}",
        {"epoch": LAST, "first": FIRST},
        ["compare"],
        made(begun(Ended), GOES_ON, end),
    ),
    "SUCCESSION_NEW": Run(
        1,
        f"the directory says that it ended at epoch {LAST}, and that another one goes on: ask its operator, and then run "
        "coniks-client succeed",
        {"epoch": LAST},
        ["lookup", "bob"],
        made(begun(Ended), end),
    ),
    "SUCCESSION_FEW": Run(
        3,
        f"0 of your auditors confirm that the directory ended at epoch {LAST}, and 2 must: rely on nothing new",
        {"epoch": LAST, "agreeing": 0, "needed": 2},
        ["lookup", "bob"],
        made(begun(Ended, "one", "two"), GOES_ON, hidden, end),
    ),
    "SUCCESSION_ELSEWHERE": Run(
        3,
        f"the directory ended at epoch {LAST}, and your service doesn't have the one that goes on: give its URL by coniks-client set "
        "--service",
        {"epoch": LAST},
        ["lookup", "bob"],
        made(begun(Ended), GOES_ON, end, lambda room: room.lie("/v1/policy", b"", 404)),
    ),
    "SUCCESSION_NONE": Run(
        3, "neither the service nor an auditor shows that the directory has ended", {}, ["succeed"], begun(Ended)
    ),
    "SUCCESSION_VOID": Run(
        1,
        f"the directory signed epochs {LAST + 1} to {LAST + 2} after its last epoch {LAST}: {RULE}",
        {"epochs": [LAST + 1, LAST + 2], "epoch": LAST},
        ["succeed"],
        made(begun(stolen), left),
    ),
    "SUCCESSION_DIFFERS": Run(
        1,
        f"the directory ended at epoch {LAST} with another entry than you were shown: go on by coniks-client succeed --anew, and compare "
        "keys",
        {"epoch": LAST},
        ["succeed"],
        made(begun(other), left),
    ),
    "SUCCESSIONS": Run(
        1,
        "the directory has signed two successions, which convict it: ask its operator which one is right",
        {},
        ["lookup", "bob"],
        made(begun(Ended, "one", "two"), GOES_ON, two),
    ),
    "KEY_VOID": Run(
        1,
        f'"bob" had the key "key of mallory" at epoch {LAST + 2}, which is void: look it up again',
        {"name": "bob", "key": "key of mallory", "epoch": LAST + 2},
        ["succeed"],
        made(begun(stolen), words("lookup", "bob"), left),
    ),
    "OWN_NOT_TAKEN": Run(
        3,
        'the key "key one" of "dave" was not registered when the directory ended: register it again',
        {"name": "dave", "key": "key one"},
        ["compare"],
        made(begun(Ended), GOES_ON, waiting, end),
    ),
    "OWN_BEFORE_MISSING": Run(
        3,
        f'"dave": nobody has verified epoch {LAST + 2} of the directory before',
        {"name": "dave", "missing": [LAST + 2]},
        ["compare"],
        made(begun(Ended), GOES_ON, unverified),
    ),
    "OWN_BEFORE_ALARM": Run(
        1,
        f'"dave" did not have your key in the directory before (epoch {LAST + 2}): tell all who use it',
        {"name": "dave", "epochs": [LAST + 2]},
        ["watch"],
        made(begun(Ended), GOES_ON, changed),
    ),
    "FOUND_SUCCESSIONS": Run(
        1,
        "two successions of one directory convict it: its successor key signed both",
        {
            "policy": OLD,
            "kind": "successions",
            "evidence": lambda room: [bytes(it).hex() for it in (succession(room), second(room))],
        },
        ["evidence"],
        made(begun(Ended, "one", "two"), GOES_ON, two, words("lookup", "bob")),
    ),
    "FOUND_VOID": Run(
        1,
        f"the directory signed an entry that its succession excludes: {RULE}",
        {"policy": OLD, "kind": "void", "evidence": void_evidence},
        ["evidence"],
        made(begun(stolen), left, words("succeed")),
    ),
}
