"""Cases of clients: marks of auditors, covers, alarms, reports, states that have them, and a latest entry that is signed again."""

from __future__ import annotations

from itertools import chain
from typing import Any, Iterator, Optional

from bytelists import link, number, sha256
from client import Answer, Watch, state_of, watch_bytes
from client_attacks import case, edited, feed, flipped, lookup, resigned
from client_cases import FIRST_KEY, SECOND_KEY, head, history, vouched, watch
from client_lost import DAY, DAYS, Directory, end
from client_names import expect, renewed
from client_world import World, hour, signed

# The digest of a trust document with four auditors, of which one may be faulty. So three are a quorum.
TRUST: Answer = {"digest": sha256(b"trust document").hex(), "auditors": 4, "faulty": 1}
COVER, REPORT, ALARMS, CONFIRMED = ({"do": it} for it in ("cover", "report", "alarms", "confirmed"))
WORLD, ALL = DAYS.world, [1, 2, 3, 5, 6]
OLD, NEW, OTHER = f"{FIRST_KEY} same", f"{SECOND_KEY} same", f"{SECOND_KEY} changed"
# Before the proofs of any epoch end, and after those of each epoch but the latest one.
EARLY, LATE = hour(6), end(6)
GOES_ON = "fed 1 missing 2 missing 3 missing 5 missing 6 missing"


def cover(now: int) -> Answer:
    return {**COVER, "now": now}


def report(now: int) -> Answer:
    return {**REPORT, "now": now}


def note(epoch: int) -> Answer:
    return {"do": "note", "epoch": epoch}


def mark(auditor: int, epoch: int, other: Optional[bytes] = None) -> Answer:
    """The head of an auditor, which has the client's link unless another one is given."""
    return {"do": "mark", "auditor": auditor, "epoch": epoch, "link": (other or WORLD.link(epoch)).hex()}


def quorum(epoch: int) -> list[Answer]:
    """Three auditors have the head of an epoch."""
    return [mark(it, epoch) for it in range(3)]


THREE_EQUAL = ["mark equal"] * 3


def shown(*epochs: int) -> list[Answer]:
    return [DAYS.shown(it) for it in epochs]


def made(name: str, steps: list[Answer], *wanted: str, directory: Directory = DAYS, **more: Any) -> Answer:
    given: Answer = {"now": EARLY, "policy": directory.policy, "trust": TRUST, **more}
    return case(name, steps, *wanted, **given)


def watched(name: str, steps: list[Answer], *wanted: str, key: str = FIRST_KEY, since: int = 1, **more: Any) -> Answer:
    """A case that begins with a watch of alice, and with all entries."""
    reported = [f"watch {since}", " ".join(["fed", *(f"{it} missing" if it >= since else str(it) for it in ALL)])]
    return made(name, [watch("alice", key, since), feed(*WORLD.entries()), *steps], *reported, *wanted, **more)


def alarms() -> Iterator[Answer]:
    yield from chain(marks(), covers(), over_changes(), notes(), reports())
    yield from chain(signed_again(), again_in_turn(), states(), marked_states())
    for what, state, refusal in [*damaged(), *forged(), *broken()]:
        yield made(f"state with alarms: {what}", [], refusal, state=state.hex())


def marks() -> Iterator[Answer]:
    fed = feed(*WORLD.entries())
    heads = [fed, mark(0, 5), CONFIRMED, mark(1, 6), CONFIRMED, mark(2, 3), CONFIRMED, mark(3, 6), CONFIRMED]
    reported = ["confirmed", "mark equal", "confirmed", "mark equal", "confirmed 3", "mark equal", "confirmed 5"]
    yield made("marks: three of four are a quorum", heads, "fed 1 2 3 5 6", "mark equal", *reported)
    falls = [fed, *quorum(5), mark(0, 2), mark(1, 1), CONFIRMED]
    yield made("marks: an earlier head changes nothing", falls, "fed 1 2 3 5 6", *THREE_EQUAL, *["mark equal"] * 2, "confirmed 5")
    again = [fed, mark(1, 3), mark(1, 5), mark(1, 6), CONFIRMED]
    yield made("marks: one auditor is no quorum", again, "fed 1 2 3 5 6", *THREE_EQUAL, "confirmed")
    other = [fed, *quorum(3)[:2], mark(2, 5, sha256(b"link")), mark(2, 4, bytes(32)), mark(2, 7, WORLD.link(6)), CONFIRMED]
    reported = ["mark equal", "mark equal", "mark differs", "mark differs", "mark unknown", "confirmed"]
    yield made("marks: heads that differ or are unknown", other, "fed 1 2 3 5 6", *reported)
    yield made("marks: no such auditor", [fed, mark(4, 3)], "fed 1 2 3 5 6", "misuse")
    alone = watch("alice", SECOND_KEY), feed(*WORLD.entries()), lookup("alice", WORLD.reply("alice", 6))
    none = [*alone, mark(0, 6), CONFIRMED, cover(LATE), report(LATE)]
    reported = ["watch 1", GOES_ON, NEW, "misuse", "confirmed", "cover", "report lost 1"]
    yield made("marks: without a trust document", none, *reported, trust=None)
    few: list[tuple[int, int, list[Answer], str]] = [
        (2, 0, [mark(0, 3), mark(1, 5)], "confirmed 3"),
        (3, 0, [mark(0, 3), mark(2, 5)], "confirmed 3"),
        (5, 1, [mark(4, 6), mark(0, 3), mark(1, 5)], "confirmed"),
        (7, 2, [mark(it, 6) for it in range(5)], "confirmed 6"),
    ]
    for count, faulty, heads, wanted in few:
        trust = {**TRUST, "auditors": count, "faulty": faulty}
        reported = ["fed 1 2 3 5 6", *["mark equal"] * len(heads), wanted]
        yield made(f"marks: {count} auditors, {faulty} faulty", [fed, *heads, CONFIRMED], *reported, trust=trust)


def covers() -> Iterator[Answer]:
    """What is dropped, and what leaves an alarm."""
    five = quorum(5)
    steps = [cover(LATE), REPORT, ALARMS]
    yield watched("alarms: nobody confirms an epoch", steps, "cover", "report missing 6", "alarms")
    steps = [*five, cover(end(2) - 1), ALARMS, cover(end(2)), ALARMS, cover(end(3)), ALARMS, cover(LATE), ALARMS]
    reported = ["cover", "alarms", "cover 1", "alarms 1 lost", "cover 2", "alarms 1 lost 2 lost", "cover 3"]
    yield watched("alarms: lost epochs are dropped", steps, *THREE_EQUAL, *reported, "alarms 1 lost 2 lost 3 lost")
    steps = [*quorum(6), *shown(1, 2), cover(EARLY), ALARMS, *shown(2, 3, 5), cover(EARLY), ALARMS, report(EARLY)]
    reported = [OLD, OLD, "cover 1 2", "alarms", "UnknownEpoch", OTHER, OTHER, "cover 3 5", "alarms 3 changed 5 changed"]
    yield watched("alarms: another key", steps, *THREE_EQUAL, *reported, "report changed 3")
    steps = [watch("dave", "key", 2), feed(*WORLD.entries()), *quorum(5), *looked_up("dave", 2, 3), cover(EARLY), ALARMS, REPORT]
    reported = ["watch 2", "fed 1 2 missing 3 missing 5 missing 6 missing", *THREE_EQUAL, "none absent", "none absent"]
    yield made("alarms: no key", steps, *reported, "cover 1 2 3", "alarms 2 absent 3 absent", "report changed 2")
    steps = [*five, *shown(2), cover(end(2)), ALARMS]
    yield watched("alarms: a missing epoch keeps later ones", steps, *THREE_EQUAL, OLD, "cover 1 2", "alarms 1 lost")
    steps = [*quorum(6), *shown(3), cover(end(2)), cover(end(3)), ALARMS]
    reported = [OTHER, "cover 1", "cover 2 3", "alarms 1 lost 2 lost 3 changed"]
    yield watched("alarms: a lost epoch keeps none", steps, *THREE_EQUAL, *reported)
    steps = [*quorum(6), cover(LATE), ALARMS, report(10**12), {"do": "missing"}]
    reported = ["cover 1 2 3 5", "alarms 1 lost 2 lost 3 lost 5 lost", "report missing 6", "missing 6"]
    yield watched("alarms: the latest epoch is never lost", steps, *THREE_EQUAL, *reported)
    steps = [*five, cover(LATE), *shown(3), history("alice", WORLD.history("alice", 3, 5)), ALARMS]
    reported = ["cover 1 2 3", "UnknownEpoch", "UnknownEpoch", "alarms 1 lost 2 lost 3 lost"]
    yield watched("alarms: a reply for an epoch that was dropped", steps, *THREE_EQUAL, *reported)
    steps = [*five, cover(LATE), ALARMS, report(LATE)]
    reported = ["cover 1 2 3", "alarms 2 lost 3 lost", "report missing 6"]
    yield watched("alarms: epochs that are not watched leave none", [*steps[:3], *shown(5), *steps[3:]], *THREE_EQUAL, NEW, *reported,
                  key=SECOND_KEY, since=2)  # fmt: skip
    steps = [feed(*WORLD.entries()), *five, cover(LATE), watch("alice", SECOND_KEY, 1), ALARMS, report(EARLY)]
    reported = ["fed 1 2 3 5 6", *THREE_EQUAL, "cover 1 2 3", "watch 1", "alarms", "report missing 5"]
    yield made("alarms: a watch that begins after a cover", steps, *reported)
    yield from policies()


def looked_up(name: str, *epochs: int) -> list[Answer]:
    return [lookup(name, WORLD.reply(name, it), it) for it in epochs]


def policies() -> Iterator[Answer]:
    """How long the policy promises proofs."""
    for what, stored, clock, gone in [
        ("proofs are kept for ever", None, True, ""),
        ("no clock, and proofs are kept for ever", None, False, ""),
        ("no clock, and proofs are kept for a day", DAY, False, ""),
        ("no clock, and proofs are kept for 0 seconds", 0, False, " 1 2 3"),
    ]:
        it = Directory.of(stored, has_clock=clock)
        steps = [*it.begin, *(mark(at, 5, it.world.link(5)) for at in range(3)), cover(LATE), report(LATE)]
        reported = ["watch 1", GOES_ON, *THREE_EQUAL, f"cover{gone}", "report missing 6" if gone else "report missing 1"]
        yield made(f"alarms: {what}", steps, *reported, directory=it)


def over_changes() -> Iterator[Answer]:
    """Epochs of a change are lost."""
    world = World([(it, {"alice": key.encode()}) for it, key in enumerate("AABBB", 1)], policy=sha256(DAYS.policy.encode()))
    heads = [mark(it, 5, world.link(5)) for it in range(3)]
    begin = [watch("alice", "A", 1), feed(world[1]), expect("B", 4), feed(*world.entries(2, 3, 4, 5)), *heads]
    reported = ["watch 1", "fed 1 missing", "expect 4", "fed 2 missing 3 missing 4 missing 5 missing", *THREE_EQUAL]
    look = {it: lookup("alice", world.reply("alice", it), it) for it in world.epochs}
    steps = [*begin, look[5], cover(end(5)), ALARMS, look[5], expect("C", 9), report(end(5)), note(4), report(end(5))]
    wanted = ["B same", "cover 1 2 3 4", "alarms 1 lost 2 lost 3 lost 4 lost", "B same", "expect 9", "report lost 1", "alarms"]
    yield made("alarms: a change within lost epochs is dropped", steps, *reported, *wanted, "report good 5 5", now=hour(5))
    steps = [*begin, look[1], look[3], cover(end(3)), ALARMS, watch("alice", "A"), look[4], look[5], cover(end(3)), REPORT]
    wanted = ["A same", "B same", "cover 1 2 3", "alarms 2 lost", "misuse", "B same", "B same", "cover 4", "report lost 2"]
    yield made("alarms: a change that a lost epoch may have begun", steps, *reported, *wanted, now=hour(5))
    turning = World([(it, {"alice": key.encode()}) for it, key in enumerate("ABAB", 1)], policy=sha256(DAYS.policy.encode()))
    look = {it: lookup("alice", turning.reply("alice", it), it) for it in turning.epochs}
    begin = [watch("alice", "A", 1), feed(turning[1]), expect("B", 9), feed(*turning.entries(2, 3, 4)), look[1], look[2]]
    reported = ["watch 1", "fed 1 missing", "expect 9", "fed 2 missing 3 missing 4 missing", "A same", "B same"]
    heads = [mark(it, 4, turning.link(4)) for it in range(3)]
    back = [*begin, *heads, cover(end(2)), look[3], look[4], cover(end(2)), REPORT]
    wanted = [*THREE_EQUAL, "cover 1 2", "A changed", "B same", "cover 3", "report changed 3"]
    yield made("alarms: the old key after a change that was dropped", back, *reported, *wanted, now=hour(4))


def notes() -> Iterator[Answer]:
    begin = [*quorum(6), *shown(2, 3), cover(LATE)]
    reported = [*THREE_EQUAL, OLD, OTHER, "cover 1 2 3 5"]
    for what, steps, wanted in [
        ("one after another", [1, 3, 5], ["alarms 3 changed 5 lost", "alarms 5 lost", "alarms"]),
        ("all at once", [5], ["alarms"]),
        ("at an epoch without an alarm", [2, 4], ["alarms 3 changed 5 lost", "alarms 5 lost"]),
        ("of no alarm", [0], ["alarms 1 lost 3 changed 5 lost"]),
        ("of later epochs too", [2**64 - 1], ["alarms"]),
        ("twice", [1, 1], ["alarms 3 changed 5 lost"] * 2),
    ]:
        yield watched(f"note: {what}", [*begin, *map(note, steps)], *reported, *wanted)
    early = [*quorum(6), note(6), cover(LATE), ALARMS]
    reported = ["alarms", "cover 1 2 3 5", "alarms 1 lost 2 lost 3 lost 5 lost"]
    yield watched("note: before there is an alarm", early, *THREE_EQUAL, *reported)
    yield made("note: no name is watched", [note(9), ALARMS], "alarms", "alarms")


def reports() -> Iterator[Answer]:
    late = report(LATE)
    yield made("report: no name is watched", [REPORT], "misuse")
    yield made("report: no entry", [watch("alice", FIRST_KEY), REPORT], "watch 1", "report unwatched")
    steps = [feed(*WORLD.entries()), watch("alice", FIRST_KEY, 7), *quorum(6), REPORT]
    yield made("report: no epoch is watched", steps, "fed 1 2 3 5 6", "watch 7", *THREE_EQUAL, "report unwatched")
    same = [*shown(3, 5, 6), REPORT, *quorum(5), REPORT, *quorum(6), REPORT, cover(EARLY), late]
    reported = [NEW, NEW, NEW, "report unconfirmed 3 6", *THREE_EQUAL, "report unconfirmed 3 6", *THREE_EQUAL, "report good 3 6"]
    yield watched("report: confirmed or not", same, *reported, "cover 1 2 3 5", "report good 6 6", key=SECOND_KEY, since=3)
    stored = [REPORT, late, *shown(3), REPORT, *shown(6), REPORT]
    reported = ["report missing 1", "report missing 6", OTHER, "report changed 3", OTHER, "report changed 3"]
    yield watched("report: what is kept", stored, *reported)
    lost = [*shown(3, 6), report(end(5) - 1), report(end(6) - 1), report(LATE)]
    reported = [NEW, NEW, "report missing 5", "report missing 5", "report lost 5"]
    yield watched("report: lost or not yet", lost, *reported, key=SECOND_KEY, since=3)
    begin = [*quorum(5), *shown(1), cover(end(3)), ALARMS]
    reported = [*THREE_EQUAL, OLD, "cover 1 2", "alarms 2 lost"]
    steps = [*begin, report(end(3)), *shown(3), report(end(3)), note(2), REPORT]
    wanted = [*reported, "report missing 3", OTHER, "report changed 3", "alarms", "report changed 3"]
    yield watched("report: a changed or missing epoch before an alarm of a lost one", steps, *wanted)
    steps = [*quorum(6), *shown(6), cover(LATE), late, note(3), late, note(5), late]
    reported = [NEW, "cover 3 5", "report lost 3", "alarms 5 lost", "report lost 5", "alarms", "report good 6 6"]
    begin = [feed(*WORLD.entries()), *quorum(3), cover(EARLY), watch("alice", SECOND_KEY, 3)]
    front = ["fed 1 2 3 5 6", *THREE_EQUAL, "cover 1 2", "watch 3"]
    yield made("report: alarms until they are noted", [*begin, *steps], *front, *THREE_EQUAL, *reported)
    steps = [*quorum(6), *shown(1, 2, 3, 5, 6), cover(EARLY), REPORT, note(3), REPORT, note(5), REPORT]
    reported = [
        OLD,
        OLD,
        OTHER,
        OTHER,
        OTHER,
        "cover 1 2 3 5",
        "report changed 3",
        "alarms 5 changed",
        "report changed 5",
        "alarms",
    ]
    yield watched("report: an alarm before a kept epoch", steps, *THREE_EQUAL, *reported, "report changed 6")
    steps = [*quorum(6), *shown(5, 6), cover(end(3)), ALARMS, report(end(5)), cover(end(5)), ALARMS, report(end(5))]
    reported = [NEW, NEW, "cover 1 2", "alarms 1 lost 2 lost", "report lost 1"]
    wanted = ["cover 3 5", "alarms 1 lost 2 lost 3 lost", "report lost 1"]
    yield watched("report: an alarm before a kept epoch that is lost", steps, *THREE_EQUAL, *reported, *wanted, key=SECOND_KEY)


AGAIN = signed(WORLD[3][:145], nonce=7)
FIFTH = resigned(WORLD[5], 49, link(AGAIN))


def signed_again() -> Iterator[Answer]:
    """Epoch 3 has another signature, and epoch 5 follows that one."""
    two, third, fifth = feed(*WORLD.entries(1, 2)), feed(WORLD[3]), feed(WORLD[5])
    again, after = feed(AGAIN), feed(FIFTH)
    fed = "fed 1 2", "fed 3"
    steps = [two, third, after, again, after, {"do": "head"}]
    yield made("signed again: the next entry follows", steps, *fed, "PreviousLink", "fed 3", "fed 5", "head 5")
    steps = [two, third, again, fifth, third, fifth]
    yield made("signed again: back to the first signature", steps, *fed, "fed 3", "PreviousLink", "fed 3", "fed 5")
    catch_up = {"do": "catch up", "bytes": (AGAIN + FIFTH).hex()}
    yield made("signed again: by a catch-up", [two, third, catch_up], *fed, "fed 3 5")
    yield made("signed again: the same bytes", [two, third, third, again, again], *fed, "NotLater", "fed 3", "NotLater")
    third_time = signed(WORLD[3][:145], nonce=9)
    yield made("signed again: a third time", [two, third, again, feed(third_time)], *fed, "fed 3", "fed 3")
    yield made("signed again: not the latest", [two, third, fifth, again], *fed, "fed 5", "NotLater")
    first = feed(signed(WORLD[1][:145], nonce=7))
    second = feed(resigned(WORLD[2], 49, link(signed(WORLD[1][:145], nonce=7))))
    yield made("signed again: the first entry", [feed(WORLD[1]), first, second], "fed 1", "fed 1", "fed 2")
    for what, entry, wanted in [
        ("a signature that is not valid", flipped(AGAIN, 150), "Signature"),
        ("no signature", AGAIN[:145] + bytes(64), "Signature"),
        ("208 bytes", AGAIN[:208], "EntryLength"),
        ("210 bytes", AGAIN + b"\0", "EntryLength"),
        ("another root", resigned(WORLD[3], 17, bytes(32)), "Equivocation overlap 3"),
    ]:
        yield made(f"signed again: {what}", [two, third, feed(entry), fifth], *fed, wanted, "fed 5")


def again_in_turn() -> Iterator[Answer]:
    """What stays when the latest entry is signed again, and what does not."""
    three, again, after = feed(*WORLD.entries(1, 2, 3)), {**feed(AGAIN), "now": hour(5)}, feed(FIFTH)
    begin, reported = [watch("alice", SECOND_KEY, 3), {**three, "now": hour(3)}], ["watch 3", "fed 1 2 3 missing"]
    steps = [*begin, *shown(3), again, {"do": "missing"}, *shown(3), lookup("alice", WORLD.reply("alice", 3, entry=AGAIN), 3)]
    yield made("signed again: what was seen stays", steps, *reported, NEW, "fed 3 same", "missing", NEW, NEW)
    steps = [*begin, again, {"do": "missing"}, *shown(3), after]
    yield made("signed again: a missing epoch stays missing", steps, *reported, "fed 3 missing", "missing 3", NEW, "fed 5 missing")
    changed = [watch("alice", FIRST_KEY, 3), three, *shown(3), again, REPORT]
    yield made("signed again: a changed epoch stays", changed, *reported, OTHER, "fed 3 changed", "report changed 3")
    heads = [mark(0, 2), *quorum(3)[1:], mark(3, 3)]
    steps = [*begin, *shown(3), *heads, CONFIRMED, REPORT, again, CONFIRMED, REPORT, mark(1, 3)]
    reported += [NEW, *["mark equal"] * 4, "confirmed 3", "report good 3 3", "fed 3 same", "confirmed", "report unconfirmed 3 3"]
    steps += [mark(it, 3, link(AGAIN)) for it in (1, 2)] + [CONFIRMED]
    yield made(
        "signed again: heads of the first signature", steps, *reported, "mark differs", "mark equal", "mark equal", "confirmed 2"
    )
    heads = [*quorum(2), mark(0, 3)]
    steps = [three, *heads, CONFIRMED, again, CONFIRMED, mark(0, 2), CONFIRMED, cover(EARLY)]
    reported = ["fed 1 2 3", *["mark equal"] * 4, "confirmed 2", "fed 3", "confirmed", "mark equal", "confirmed 2", "cover 1"]
    yield made("signed again: heads of earlier epochs stay", steps, *reported)
    steps = [three, *quorum(3), cover(EARLY), again, CONFIRMED, cover(EARLY), after, {"do": "head"}]
    reported = ["fed 1 2 3", *THREE_EQUAL, "cover 1 2", "fed 3", "confirmed", "cover", "fed 5", "head 5"]
    yield made("signed again: the only entry that is left", steps, *reported)
    late = vouched(WORLD[3], 1, (3, WORLD.link(3)))
    yield made("signed again: a late start", [again, after], "fed 3", "fed 5", **late)


def state_after(steps: list[Answer], **more: Any) -> bytes:
    """The state of a client after some steps."""
    return state_of(made("", steps, **more))


# A client with an alarm of a lost epoch and one of another key, which keeps epochs 5 and 6.
BEGIN = [watch("alice", FIRST_KEY, 2), feed(*WORLD.entries()), *quorum(5), mark(3, 6), *shown(3, 5), cover(LATE)]
STATE = state_after(BEGIN)
LISTED = "alarms 2 lost 3 changed"
# Where the parts of this state begin.
STORED, COUNT = 37, 37 + 2 * 218
TRUSTED, MARKED = COUNT + 4 + 2 * 9, COUNT + 4 + 2 * 9 + 32
WATCHED = MARKED + 4 + 4 * 8


def states() -> Iterator[Answer]:
    """States that are resumed."""
    steps = [ALARMS, CONFIRMED, REPORT, {"do": "missing"}, note(3), report(LATE)]
    reported = [LISTED, "confirmed 5", "report changed 3", "missing 6", "alarms", "report changed 5"]
    yield made("state with alarms: alarms, marks and all", steps, *reported, state=STATE.hex())
    empty = state_after([])
    yield made(
        "state with alarms: of no entry", [ALARMS, CONFIRMED, feed(WORLD[1])], "alarms", "confirmed", "fed 1", state=empty.hex()
    )
    shortest = state_after([], trust=None)
    assert len(shortest) == 110
    yield made("state with alarms: the shortest one", [feed(WORLD[1])], "fed 1", state=shortest.hex(), trust=None)
    noted = state_after([*BEGIN, note(2)])
    steps = [ALARMS, *shown(6), mark(0, 6), mark(1, 6), cover(LATE), ALARMS]
    reported = ["alarms 3 changed", OTHER, "mark equal", "mark equal", "cover 5", "alarms 3 changed 5 changed"]
    yield made("state with alarms: it goes on", steps, *reported, state=noted.hex())
    again = state_after([*BEGIN, feed(signed(WORLD[6][:145], nonce=7))])
    yield made(
        "state with alarms: an entry that was signed again",
        [feed(WORLD[6]), CONFIRMED],
        "fed 6 missing",
        "confirmed 5",
        state=again.hex(),
    )
    first = edited(STATE, COUNT + 4, number(2**64 - 1, 8))
    yield made(
        "state with alarms: an alarm of the last number there is",
        [note(6)],
        f"alarms {2**64 - 1} lost 3 changed",
        state=renewed(first).hex(),
    )
    kinds = edited(STATE, COUNT + 4 + 8, b"\4")
    yield made("state with alarms: an alarm of no key", [ALARMS], "alarms 2 absent 3 changed", state=renewed(kinds).hex())


def marked_states() -> Iterator[Answer]:
    """The marks of a state count only under its trust document."""
    for what, trust, wanted in [
        ("another trust document", {**TRUST, "digest": sha256(b"another").hex()}, "confirmed"),
        ("another number that may be faulty", {**TRUST, "faulty": 0}, "confirmed 5"),
        ("one auditor more", {**TRUST, "auditors": 5}, "confirmed"),
        ("one auditor less", {**TRUST, "auditors": 3, "faulty": 0}, "confirmed"),
        ("no trust document", None, "confirmed"),
    ]:
        yield made(f"state with alarms: {what}", [ALARMS, CONFIRMED], LISTED, wanted, state=STATE.hex(), trust=trust)
    none = state_after(BEGIN[:2], trust=None)
    steps = [CONFIRMED, *quorum(5), CONFIRMED]
    yield made("state with alarms: a first trust document", steps, "confirmed", *THREE_EQUAL, "confirmed 5", state=none.hex())


def damaged() -> Iterator[tuple[str, bytes, str]]:
    yield "no byte", b"", "StateLength"
    yield "109 bytes", STATE[:109], "StateLength"
    yield "109 bytes of version 02", b"\2" + STATE[1:109], "StateLength"
    for version in (0, 1, 2, 4):
        yield f"version {version}", renewed(edited(STATE, 0, bytes([version]))), "StateVersion"
    yield "version 2, damaged", b"\2" + STATE[1:], "StateVersion"
    yield "one byte less", STATE[:-1], "StateDamaged"
    yield "one byte more", STATE + b"\0", "StateDamaged"
    yield "110 bytes", STATE[:110], "StateDamaged"
    parts = {"policy": 5, "alarm": COUNT + 11, "trust": TRUSTED, "mark": MARKED + 11, "watch": WATCHED + 3, "digest": -1}
    for what, place in parts.items():
        yield f"{what} changed", flipped(STATE, place), "StateDamaged"
    yield "another policy, and a wrong number of alarms", renewed(
        edited(edited(STATE, 1, bytes(32)), COUNT, bytes(4))
    ), "StatePolicy"


def forged() -> Iterator[tuple[str, bytes, str]]:
    """States whose digest is right, and that have a part that cannot be."""
    alarm, unwatched = COUNT + 4, state_after([feed(*WORLD.entries())])
    for what, state in [
        *((f"an alarm with the number {it}", edited(STATE, alarm + 17, bytes([it]))) for it in (0, 1, 2, 6, 255)),
        ("an alarm before the first watched epoch", edited(STATE, alarm, number(1, 8))),
        ("an alarm of epoch 0", edited(STATE, alarm + 9, number(0, 8))),
        ("an alarm without a watched name", STATE[:WATCHED] + b"\0" + bytes(32)),
        ("one alarm more", edited(STATE, COUNT, number(3, 4))),
        ("one alarm less", edited(STATE, COUNT, number(1, 4))),
        ("very many alarms", edited(STATE, COUNT, b"\xff" * 4)),
        ("one mark more", edited(STATE, MARKED, number(5, 4))),
        ("one mark less", edited(STATE, MARKED, number(3, 4))),
        ("very many marks", edited(STATE, MARKED, b"\xff" * 4)),
        ("cut in the marks", STATE[: MARKED + 4 + 30] + bytes(32)),
        ("cut in an alarm", STATE[: alarm + 9 + 4] + bytes(32 + 64)),
        ("cut in the trust", STATE[: TRUSTED + 9] + bytes(32)),
        ("without a watch", STATE[:WATCHED] + bytes(32)),
        ("bytes follow", STATE[:-32] + b"\0" + bytes(32)),
        ("a watch of kind 2", edited(STATE, WATCHED, b"\2")),
        ("seen 2", edited(STATE, STORED + 217, b"\2")),
        ("seen 0 of a watched epoch", edited(STATE, STORED + 217, b"\0")),
        ("very many epochs", edited(STATE, 33, b"\xff" * 4)),
        ("the parts of version 02", STATE[:COUNT] + STATE[WATCHED:]),
        ("an alarm without a watched name, and no entry", with_alarm(state_after([]), 37)),
        ("an alarm without a watched name, and entries", with_alarm(unwatched, 37 + 5 * 218)),
    ]:
        yield what, renewed(state), "StateForm"


def with_alarm(state: bytes, place: int) -> bytes:
    """A state without an alarm, to which one is added."""
    return state[:place] + number(1, 4) + number(9, 8) + b"\5" + state[place + 4 :]


def broken() -> Iterator[tuple[str, bytes, str]]:
    """States whose entries are no chain. The form comes first."""
    other = edited(STATE, STORED + 17, bytes(32))
    yield "the root of an entry", renewed(other), "StateChain"
    yield "the root of an entry, signed", renewed(
        edited(STATE, STORED, resigned(STATE[STORED : STORED + 209], 17, bytes(32)))
    ), "StateChain"
    yield "the last signature", renewed(edited(STATE, COUNT - 218 + 145, bytes(64))), "StateChain"
    yield "the root of an entry, and an alarm with the number 1", renewed(edited(other, COUNT + 12, b"\1")), "StateForm"
    back = Watch(b"alice", 4, FIRST_KEY.encode())
    yield "alarms before a first watched epoch that is later", renewed(STATE[:WATCHED] + watch_bytes(back) + bytes(32)), "StateForm"
