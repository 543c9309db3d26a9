"""Cases of clients: successions, by which a client goes on in another directory."""

from __future__ import annotations

from dataclasses import dataclass, replace
from itertools import chain
from typing import Any, Iterator, Optional

import curve
from bytelists import number, sha256
from client import LARGEST, Answer
from client_attacks import SMALL, case, edited, feed, flipped, lookup, resigned
from client_cases import head, vouched, watch
from client_names import MISSING, expect, shown
from client_world import SIGNING, SIGNING_KEY, World, digest, hour, policy_text, signed
from successions import signed as signed_text
from successions import text_of

SUCCESSOR, NEXT_SIGNING, NEXT_SUCCESSOR = sha256(b"successor key"), sha256(b"next signing key"), sha256(b"next successor key")
OLD = policy_text(successor=curve.public_key(SUCCESSOR))
NEXT_KEY = curve.public_key(NEXT_SIGNING)
NEXT = policy_text(NEXT_KEY, origin="next.example.com", successor=curve.public_key(NEXT_SUCCESSOR))
TIMELESS = policy_text(NEXT_KEY, has_clock=False, origin="next.example.com")

# Alice has the key A, from epoch 3 on B. The chain ends at epoch 5, and epochs 6 and 7 are void.
ENDED = World([(1, {"alice": b"A", "bob": b"K"}), (2, {}), (3, {"alice": b"B"}), (5, {}), (6, {}), (7, {})], policy=digest(OLD))
# Epoch 4 is the first that counts. Before it only bob is there.
GOING = World([(1, {"bob": b"K"}), (4, {"alice": b"B"}), (5, {}), (8, {"alice": b"C"})], policy=digest(NEXT), signing=NEXT_SIGNING)

FIVE, FED = [1, 2, 3, 5], "fed 1 2 3 5"
HEAD: Answer = {"do": "head"}
WATCHED = "watch 1", "fed 1 missing 2 missing 3 missing 5 missing"
TRUST: Answer = {"digest": sha256(b"trust document").hex(), "auditors": 4, "faulty": 1}


@dataclass(frozen=True)
class Parts:
    """What a succession says, and the secret key that signs it."""

    policy: bytes = digest(OLD)
    last: tuple[int, bytes] = (5, ENDED.link(5))
    next_policy: bytes = digest(NEXT)
    first: tuple[int, bytes] = (4, GOING.link(4))
    secret: bytes = SUCCESSOR

    @property
    def text(self) -> str:
        return signed_text(text_of(self.policy, self.last, self.next_policy, self.first), self.secret).decode()


TEXT = Parts().text


def succeed(text: str = TEXT, policy: str = NEXT, entry: bytes = GOING[4], **more: Any) -> Answer:
    return {"do": "succeed", "succession": text, "policy": policy, "entry": entry.hex(), **more}


def made(name: str, steps: list[Answer], *wanted: str, **more: Any) -> Answer:
    given: Answer = {"policy": OLD, "now": hour(5), **more}
    return case(f"succession: {name}", steps, *wanted, **given)


def bare(name: str, step: Answer, wanted: str, **more: Any) -> Answer:
    """A client that has the entries up to the last epoch. It stays as it is after an error, and goes on by the right succession then."""
    after, then = ([], []) if wanted == "void" else ([HEAD, succeed(), HEAD], ["head 5", "void", "head 4"])
    return made(name, [feed(*ENDED.entries(*FIVE)), step, *after], FED, wanted, *then, **more)


def watching(name: str, steps: list[Answer], *wanted: str, key: Optional[str] = "A", **more: Any) -> Answer:
    """A client that watches alice from epoch 1 on, and has the entries up to the last epoch."""
    return made(name, [watch("alice", key), feed(*ENDED.entries(*FIVE)), *steps], *WATCHED, *wanted, **more)


def going(epoch: int, world: World = GOING) -> Answer:
    """A lookup of alice in the next directory."""
    return shown("alice", epoch, world)


def successions() -> Iterator[Answer]:
    return chain(accepted(), texts(), signatures(), chains(), starts(), orders(), watches(), changes(), ends(), clients())


def accepted() -> Iterator[Answer]:
    yield bare("at the latest epoch", succeed(), "void")
    for what, epochs, void in [("an entry", [6], "6"), ("two entries", [6, 7], "6 7")]:
        steps = [feed(*ENDED.entries(*FIVE, *epochs)), succeed(), HEAD]
        yield made(f"{what} after the last epoch", steps, f"{FED} {void}", f"void {void}", "head 4")
    steps = [feed(*ENDED.entries(*FIVE)), succeed(), feed(GOING[5]), going(4), going(5), feed(GOING[8]), going(8), HEAD]
    yield made("the next chain goes on", steps, FED, "void", "fed 5", "B", "B", "fed 8", "C", "head 8", now=hour(8))
    before = [feed(*ENDED.entries(*FIVE)), succeed(), feed(GOING[1]), going(1), feed(ENDED[6]), feed(GOING[8]), feed(GOING[4])]
    wanted = [FED, "void", "NotLater", "UnknownEpoch", "Signature", "PreviousEpoch", "NotLater"]
    yield made("what the next client does not accept", before, *wanted)
    first = World([(1, {"alice": b"B"}), (2, {})], policy=digest(NEXT), signing=NEXT_SIGNING)
    begun = succeed(replace(Parts(), first=(1, first.link(1))).text, entry=first[1])
    steps = [feed(*ENDED.entries(*FIVE)), begun, feed(first[2]), going(2, first)]
    yield made("the next chain counts from its first epoch on", steps, FED, "void", "fed 2", "B")
    early = succeed(replace(Parts(), last=(2, ENDED.link(2))).text)
    yield made("an early last epoch", [feed(*ENDED.entries(*FIVE)), early, HEAD], FED, "void 3 5", "head 4")
    yield made(
        "the first epoch is the last one",
        [feed(ENDED[1]), succeed(replace(Parts(), last=(1, ENDED.link(1))).text)],
        "fed 1",
        "void",
    )


def changed_texts() -> Iterator[tuple[str, str]]:
    """Texts that are no succession."""
    rows = TEXT.splitlines(True)
    names = [it.split(" ")[0] for it in rows]
    for place, name in enumerate(names):
        yield f"without the line {name}", "".join(rows[:place] + rows[place + 1 :])
        yield f"the line {name} twice", "".join(rows[: place + 1] + rows[place:])
        yield f"the line {name} in another place", "".join(moved(rows, place))
        yield f"the line {name} in upper case", TEXT.replace(name, name.upper(), 1)
        yield f"two spaces after {name}", TEXT.replace(f"{name} ", f"{name}  ", 1)
        yield f"a space at the end of {name}", "".join([*rows[:place], rows[place].replace("\n", " \n"), *rows[place + 1 :]])
    yield from numbers()
    yield "another format", TEXT.replace("coniks-1", "coniks-2")
    yield "one policy twice", replace(Parts(), next_policy=digest(OLD)).text
    yield "digits in upper case", TEXT.replace(digest(OLD).hex(), digest(OLD).hex().upper())
    yield "63 digits of a policy", TEXT.replace(digest(OLD).hex(), digest(OLD).hex()[:63])
    yield "66 digits of a link", TEXT.replace(ENDED.link(5).hex(), ENDED.link(5).hex() + "00")
    yield "127 digits of the signature", TEXT[:-2] + "\n"
    yield "130 digits of the signature", TEXT[:-1] + "00\n"
    yield "an empty line in front", "\n" + TEXT
    yield "an empty line at the end", TEXT + "\n"
    yield "the last line not ended", TEXT[:-1]
    yield "no text", ""
    yield "lines that end in CR and LF", TEXT.replace("\n", "\r\n")
    yield "a tab in place of a space", TEXT.replace("policy ", "policy\t")
    yield "a text that follows", TEXT + "end\n"
    yield "a policy document", OLD


def moved(rows: list[str], place: int) -> list[str]:
    """The lines, of which one changes places with the next one, the last with the first."""
    other, changed = (place + 1) % len(rows), [*rows]
    changed[place], changed[other] = rows[other], rows[place]
    return changed


def numbers() -> Iterator[tuple[str, str]]:
    for name, value in [("last-epoch", 5), ("first-epoch", 4)]:
        for other in ["0", f"0{value}", f"+{value}", f"-{value}", f"{value}.0", "", "five", str(LARGEST + 1), f"{value} {value}"]:
            yield f"{name} {other!r}", TEXT.replace(f"{name} {value}\n", f"{name} {other}\n")


def texts() -> Iterator[Answer]:
    for what, text in changed_texts():
        yield bare(f"{what} is none", succeed(text), "misuse")
    yield bare("a next policy that is no document", succeed(policy=NEXT + "\n"), "misuse")
    for what, text in [("the signing key", SMALL["the point of order 2"]), ("the VRF key", SMALL["a point of order 8"])]:
        is_signing = what == "the signing key"
        policy = policy_text(bytes.fromhex(text)) if is_signing else policy_text(NEXT_KEY, bytes.fromhex(text))
        yield bare(f"{what} of the next policy is none", succeed(policy=policy), "SigningKey" if is_signing else "VrfKey")


def signatures() -> Iterator[Answer]:
    policy = "SuccessionPolicy"
    yield bare("of another directory", succeed(replace(Parts(), policy=sha256(b"policy")).text), policy)
    other = replace(Parts(), policy=digest(NEXT), next_policy=digest(OLD))
    yield bare("of the next directory", succeed(other.text), policy)
    wrong = "SuccessionSignature"
    secrets = {"the signing key": SIGNING, "the next signing key": NEXT_SIGNING, "the next successor key": NEXT_SUCCESSOR}
    for what, secret in secrets.items():
        yield bare(f"signed by {what}", succeed(replace(Parts(), secret=secret).text), wrong)
    body = TEXT[: TEXT.index("signature")]
    yield bare("a signature of 0", succeed(f"{body}signature {'0' * 128}\n"), wrong)
    early = replace(Parts(), last=(3, ENDED.link(3))).text
    moved = body + early[early.index("signature") :]
    yield bare("the signature of another succession", succeed(moved), wrong)
    for what, old, new in [
        ("last-epoch", "last-epoch 5", "last-epoch 6"),
        ("last-link", ENDED.link(5).hex(), ENDED.link(6).hex()),
        ("next-policy", digest(NEXT).hex(), sha256(b"policy").hex()),
        ("first-epoch", "first-epoch 4", "first-epoch 5"),
        ("first-link", GOING.link(4).hex(), GOING.link(5).hex()),
    ]:
        yield bare(f"{what} is not the signed one", succeed(TEXT.replace(old, new)), wrong)
    for what, policy in [
        ("no such line", policy_text()),
        ("no successor key", policy_text(successor=b"")),
        ("another successor key", policy_text(successor=NEXT_KEY)),
        ("a successor key of small order", policy_text(successor=bytes.fromhex(SMALL["the identity"]))),
    ]:
        world = World([(1, {"alice": b"A"})], policy=digest(policy))
        text = replace(Parts(), policy=digest(policy), last=(1, world.link(1))).text
        yield made(f"the policy has {what}", [feed(world[1]), succeed(text), HEAD], "fed 1", wrong, "head 1", policy=policy)
    yield bare("another next policy", succeed(replace(Parts(), next_policy=sha256(b"policy")).text), "NextPolicy")
    yield bare("the policy itself as the next one", succeed(policy=OLD), "NextPolicy")
    line = f"successor-key {curve.public_key(NEXT_SUCCESSOR).hex()}\n"
    yield bare("the next policy without a line", succeed(policy=NEXT.replace(line, "")), "NextPolicy")


def chains() -> Iterator[Answer]:
    unknown, differs = "UnknownEpoch", "ChainDiffers"
    for what, last, wanted in [
        ("an epoch that is not fed", (6, ENDED.link(6)), unknown),
        ("the last number there is", (LARGEST, ENDED.link(5)), unknown),
        ("another link", (5, ENDED.link(6)), differs),
        ("an epoch that a stored entry covers", (4, ENDED.link(5)), differs),
        ("the link of an earlier epoch", (5, ENDED.link(3)), differs),
        ("another link of an earlier epoch", (2, ENDED.link(3)), differs),
    ]:
        yield bare(f"last is {what}", succeed(replace(Parts(), last=last).text), wanted)
    yield made("before the first entry", [succeed(), HEAD], unknown, "head")
    other = World([(1, {"alice": b"A", "bob": b"K"}), (2, {}), (4, {}), (7, {})], policy=digest(OLD))
    steps = [feed(*other.entries()), succeed(), HEAD]
    yield made("another chain, which covers the last epoch", steps, "fed 1 2 4 7", differs, "head 7", now=hour(7))
    again = World([(1, {"alice": b"A"}), (2, {})], policy=digest(OLD))
    text = replace(Parts(), last=(2, again.link(2))).text
    again.sign_again(2)
    steps = [feed(*again.entries()), succeed(text), HEAD]
    yield made("the last entry is signed again", steps, "fed 1 2", differs, "head 2")
    late = vouched(ENDED[5], 1, (5, ENDED.link(5)))
    yield made(
        "a client that started late, at the last epoch", [feed(ENDED[6]), succeed(), HEAD], "fed 6", "void 6", "head 4", **late
    )
    text = replace(Parts(), last=(3, ENDED.link(3))).text
    yield made("a client that started late, after the last epoch", [succeed(text), HEAD], unknown, "head 5", **late)
    text = replace(Parts(), last=(4, ENDED.link(3))).text
    yield made("a client that started late, at an entry that covers it", [succeed(text), HEAD], differs, "head 5", **late)
    drop = head("cover", 5, ENDED.link(5))
    steps = [feed(*ENDED.entries(*FIVE)), drop, succeed(replace(Parts(), last=(3, ENDED.link(3))).text), succeed(), HEAD]
    yield made("the last epoch was dropped", steps, FED, "compare equal", unknown, "void", "head 4")


def starts() -> Iterator[Answer]:
    first = GOING[4]
    own = digest(OLD)
    for what, entry, wanted in [
        ("no byte", b"", "EntryLength"),
        ("208 bytes", first[:208], "EntryLength"),
        ("210 bytes", first + b"\0", "EntryLength"),
        ("a changed root", flipped(first, 30), "Signature"),
        ("a changed signature", flipped(first, 200), "Signature"),
        ("the old signing key", signed(first[:145]), "Signature"),
        ("an entry of the old chain", ENDED[5], "Signature"),
        ("the old policy digest", resigned(first, 113, own, NEXT_SIGNING), "OtherPolicy"),
        ("the old policy digest and version 3", resigned(edited(first, 0, b"\3"), 113, own, NEXT_SIGNING), "OtherPolicy malformed"),
        ("version 3", resigned(first, 0, b"\3", NEXT_SIGNING), "Malformed malformed"),
        ("an epoch like the one before", resigned(first, 1, number(1, 8), NEXT_SIGNING), "Malformed malformed"),
        ("epoch 0", resigned(first, 1, number(0, 8), NEXT_SIGNING), "Malformed malformed"),
        ("an earlier entry of the next chain", GOING[1], "OtherStart"),
        ("a later entry of the next chain", GOING[5], "OtherStart"),
        ("another root", resigned(first, 17, sha256(b"root"), NEXT_SIGNING), "OtherStart"),
        ("another epoch", resigned(first, 1, number(6, 8), NEXT_SIGNING), "OtherStart"),
        ("the same body, signed again", signed(first[:145], NEXT_SIGNING, nonce=7), "OtherStart"),
    ]:
        yield bare(f"first is {what}", succeed(entry=entry), wanted)
    for what, at in [("epoch", (5, GOING.link(4))), ("link", (4, GOING.link(5)))]:
        yield bare(f"first has another {what}", succeed(replace(Parts(), first=at).text), "OtherStart")


def orders() -> Iterator[Answer]:
    """Each error with all later ones."""
    wrong = Parts(sha256(b"policy"), (5, ENDED.link(6)), sha256(b"next policy"), (4, GOING.link(5)), NEXT_SIGNING)
    entry = flipped(GOING[4], 30)
    for wanted, parts, given in [
        ("SuccessionPolicy", wrong, entry[:208]),
        ("SuccessionSignature", replace(wrong, policy=digest(OLD)), entry[:208]),
        ("NextPolicy", replace(wrong, policy=digest(OLD), secret=SUCCESSOR), entry[:208]),
        ("UnknownEpoch", Parts(last=(6, ENDED.link(6)), first=wrong.first), entry[:208]),
        ("ChainDiffers", Parts(last=wrong.last, first=wrong.first), entry[:208]),
        ("EntryLength", Parts(first=wrong.first), entry[:208]),
        ("Signature", Parts(first=wrong.first), entry),
        ("OtherPolicy", Parts(first=wrong.first), resigned(GOING[4], 113, digest(OLD), NEXT_SIGNING)),
        ("Malformed malformed", Parts(first=wrong.first), resigned(GOING[4], 0, b"\3", NEXT_SIGNING)),
    ]:
        yield bare(f"{wanted.split()[0]} comes first", succeed(parts.text, entry=given), wanted)
    text = "".join(replace(wrong, policy=digest(OLD)).text.splitlines(True)[:-1])
    yield bare("no succession comes before the errors", succeed(text, entry=entry), "misuse")


def watches() -> Iterator[Answer]:
    same, steps = "B same", [succeed(), MISSING]
    begun = ["void", "missing 4"]
    yield watching(
        "a name is watched", [*steps, going(4), MISSING, watch("alice", "B")], *begun, same, "missing", "watch 4", key="B"
    )
    yield watching("another key at the first epoch", [*steps, going(4)], *begun, "B changed")
    yield watching("a key, though none is expected", [*steps, going(4)], *begun, "B changed", key=None)
    gone = World([(4, {"bob": b"K"})], policy=digest(NEXT), signing=NEXT_SIGNING)
    there = succeed(replace(Parts(), first=(4, gone.link(4))).text, entry=gone[4])
    yield watching("no key at the first epoch", [there, going(4, gone)], "void", "none absent", key="B")
    yield watching("none is expected, and none is there", [there, going(4, gone)], "void", "none same", key=None)
    late = [feed(*ENDED.entries(*FIVE, 6)), watch("alice", "B", 6), succeed(), MISSING, going(4)]
    yield made("a name that is watched after the last epoch", late, f"{FED} 6", "watch 6", "void 6", "missing 4", same)
    other = [*steps, shown("bob", 4, GOING), MISSING]
    yield watching("another name in the next directory", other, *begun, "K", "missing 4")
    seen = [shown("alice", it, ENDED) for it in (1, 3)]
    yield watching("what was seen before", [*seen, *steps, going(4)], "A same", "B changed", *begun, "B changed")
    drop = [*seen, {"do": "cover", **head("cover", 3, ENDED.link(3))}, {"do": "alarms"}, succeed(), {"do": "alarms"}, MISSING]
    yield watching(
        "the alarms of the ended chain stay with it",
        drop,
        "A same",
        "B changed",
        "compare equal",
        "alarms",
        *["void", "alarms", "missing 4"],
    )
    yield made("no name is watched", [feed(*ENDED.entries(*FIVE)), succeed(), {"do": "report"}, watch("alice", "B"), going(4)],
               FED, "void", "misuse", "watch 4", same)  # fmt: skip
    yield watching("a report of the first epoch", [succeed(), {"do": "report"}, going(4), {"do": "report"}],
                   "void", "report missing 4", same, "report unconfirmed 4 4", key="B")  # fmt: skip


def open_until(by: int) -> list[Answer]:
    """Alice is watched, and B is expected after epoch 2, by an epoch."""
    return [watch("alice", "A"), feed(*ENDED.entries(1, 2)), expect("B", by), feed(*ENDED.entries(3, 5))]


def gives(by: int) -> list[str]:
    return ["watch 1", "fed 1 missing 2 missing", f"expect {by}", "fed 3 missing 5 missing"]


def later(letters: str, first: int = 4, policy: str = NEXT) -> World:
    """A directory in which alice has these keys from the first epoch that counts on, one at each epoch."""
    batches = [(first + at, {"alice": it.encode()}) for at, it in enumerate(letters)]
    return World(batches, policy=digest(policy), signing=NEXT_SIGNING)


def into(world: World, policy: str = NEXT, **parts: Any) -> Answer:
    """The succession to a directory, at its first epoch."""
    first = min(world.epochs)
    text = replace(Parts(), next_policy=digest(policy), first=(first, world.link(first)), **parts).text
    return succeed(text, policy, world[first])


def followed(world: World) -> list[Answer]:
    """A succession, the later entries, and a lookup of alice at each epoch."""
    first, *after = world.epochs
    return [into(world), feed(*world.entries(*after)), *(going(it, world) for it in (first, *after))]


def changes() -> Iterator[Answer]:
    a, b, late = "A same", "B same", "fed 5 missing 6 missing"
    # By epoch 8 of the old chain: three epochs after the last one, so epoch 7 of the next one.
    for letters, seen in [("ABB", [a, b, b]), ("BBB", [b, b, b]), ("AAB", [a, a, b]), ("BAB", [b, "A changed", b])]:
        steps = [*open_until(8), *followed(later(letters))]
        yield made(f"an open change, and the keys {letters}", steps, *gives(8), "void", late, *seen, now=hour(8))
    end = [*open_until(8), *followed(later("AAAA"))]
    yield made(
        "an open change ends as late as before", end, *gives(8), "void", f"{late} 7 missing", a, a, a, "A changed", now=hour(8)
    )
    steps = [*open_until(6), *followed(later("AA"))]
    yield made("an open change until the epoch after the last one", steps, *gives(6), "void", "fed 5 missing", a, "A changed")
    for what, by in [("at the last epoch", 5), ("before the last epoch", 3)]:
        steps = [*open_until(by), *followed(later("BA"))]
        yield made(f"a change that is over {what}", steps, *gives(by), "void", "fed 5 missing", b, "A changed")
        steps = [*open_until(by), into(later("B")), expect("C", 5), going(4, later("B"))]
        yield made(f"a change that is over {what} is not open", steps, *gives(by), "void", "expect 5", b)
    at_last = [expect("C", 9), into(later("BC")), feed(later("BC")[5]), going(4, later("BC")), going(5, later("BC"))]
    yield watching(
        "a change from the last epoch on is dropped", at_last, "expect 9", "void", "fed 5 missing", b, "C changed", key="B"
    )
    anew = [expect("C", 9), into(later("BC")), expect("C", 6), feed(later("BC")[5]), going(5, later("BC")), going(4, later("BC"))]
    yield watching("and is expected anew", anew, "expect 9", "void", "expect 6", "fed 5 missing", "C same", b, key="B")
    after = [feed(ENDED[6]), expect("C", 9), into(later("BC")), feed(later("BC")[5]), going(4, later("BC")), going(5, later("BC"))]
    yield watching(
        "a change after the last epoch is dropped",
        after,
        "fed 6 missing",
        "expect 9",
        "void 6",
        "fed 5 missing",
        b,
        "C changed",
        key="B",
    )
    looked = [*open_until(8), shown("alice", 2, ENDED), shown("alice", 3, ENDED), *followed(later("BAB"))]
    yield made("the new key was seen before the last epoch", looked, *gives(8), a, b, "void", late, b, "A changed", b, now=hour(8))
    turning = World([(1, {"alice": b"A"}), (2, {}), (5, {}), (6, {"alice": b"B"})], policy=digest(OLD))
    for what, epochs, keys, seen in [
        ("the last epoch", [5], "AB", [a, "B changed"]),
        ("an epoch before the last one", [2], "AB", [a, b]),
    ]:
        looks = [shown("alice", it, turning) for it in epochs]
        begin = [watch("alice", "A"), feed(turning[1]), expect("B", 9), feed(*turning.entries(2, 5)), *looks]
        world = later(keys)
        steps = [*begin, into(world, last=(5, turning.link(5))), feed(world[5]), going(4, world), going(5, world)]
        wanted = ["watch 1", "fed 1 missing", "expect 9", "fed 2 missing 5 missing", a, "void", "fed 5 missing", *seen]
        yield made(f"the old key was seen at {what}", steps, *wanted)
    void = [
        *open_until(8),
        feed(ENDED[6]),
        shown("alice", 6, ENDED),
        into(later("AB")),
        feed(later("AB")[5]),
        going(4, later("AB")),
    ]
    yield made("the new key was seen at a void epoch", void, *gives(8), "fed 6 missing", b, "void 6", "fed 5 missing", a)
    none = [watch("alice", "A"), feed(*ENDED.entries(1, 2)), expect(None, 8), feed(*ENDED.entries(3, 5)), *followed(later("A"))[:1]]
    gone = World([(4, {"bob": b"K"})], policy=digest(NEXT), signing=NEXT_SIGNING)
    none = [*none[:-1], into(gone), going(4, gone)]
    yield made("an open change to no key", none, *gives(8), "void", "none same")
    yield from in_a_row()


def in_a_row() -> Iterator[Answer]:
    """One change is over, and the next one is open."""
    world = later("BCC")
    begin = [watch("alice", "A"), feed(ENDED[1]), expect("B", 2), feed(ENDED[2]), feed(ENDED[3]), expect("C", 7), feed(ENDED[5])]
    steps = [*begin, *followed(world)]
    wanted = ["watch 1", "fed 1 missing", "expect 2", "fed 2 missing", "fed 3 missing", "expect 7", "fed 5 missing"]
    seen = ["B same", "C same", "C same"]
    yield made("two changes, of which one is open", steps, *wanted, "void", "fed 5 missing 6 missing", *seen, now=hour(7))
    keys = [watch("alice", it) for it in ("A", "B", "C")]
    steps = [*begin, into(world), *keys, expect("D", 9)]
    yield made("the keys of the next client", steps, *wanted, "void", "misuse", "watch 4", "watch 4", "misuse")


def ends() -> Iterator[Answer]:
    """Numbers at the end of the range, in a directory without a clock."""
    for what, first, by, key, seen in [
        ("before the last number there is", LARGEST - 1, 8, "A", "A same"),
        ("at the last number there is, the new key", LARGEST, 8, "B", "B same"),
        ("at the last number there is, the old key", LARGEST, 8, "A", "A changed"),
    ]:
        world = later(key, first, TIMELESS)
        steps = [*open_until(by), into(world, TIMELESS), going(first, world)]
        yield made(f"an open change {what}", steps, *gives(by), "void", seen)
    world = later("AB", LARGEST - 1, TIMELESS)
    steps = [*open_until(LARGEST), into(world, TIMELESS), feed(world[LARGEST]), going(LARGEST - 1, world), going(LARGEST, world)]
    wanted = [*gives(LARGEST), "void", f"fed {LARGEST} missing", "A same", "B same"]
    yield made("a change that never ends, at the last numbers there are", steps, *wanted)
    one = later("AB", 1)
    steps = [*open_until(8), into(one), feed(one[2]), going(1, one), going(2, one)]
    yield made("an open change, and the first epoch is 1", steps, *gives(8), "void", "fed 2 missing", "A same", "B same")


def clients() -> Iterator[Answer]:
    """What the next client is made with."""
    latest = lookup("alice", GOING.reply("alice", 4))
    limits: list[tuple[str, Answer, int, str]] = [
        ("its age", {"max_age": 60}, hour(4, 61), "Stale"),
        ("its default age", {}, hour(6, 0), "B"),
        ("no more than its default age", {}, hour(6, 1), "Stale"),
        ("its skew", {"skew": 60}, hour(4, -61), "Future"),
        ("not the age of the ended one", {}, hour(4, 61), "B"),
    ]
    for what, more, now, wanted in limits:
        first = {**feed(*ENDED.entries(*FIVE)), "now": hour(5)}
        yield made(
            f"the next client has {what}", [first, succeed(**more), {**latest, "now": now}], FED, "void", wanted, max_age=7200
        )
    yield from auditors()
    yield from next_directories()


def auditors() -> Iterator[Answer]:
    fed = feed(*ENDED.entries(*FIVE))
    marks = [{**head("mark", 4, GOING.link(4)), "auditor": it} for it in range(3)]
    old = [{**head("mark", 5, ENDED.link(5)), "auditor": it} for it in range(4)]
    confirmed: Answer = {"do": "confirmed"}
    steps = [fed, *old, confirmed, succeed(trust=TRUST), confirmed, *marks, confirmed]
    wanted = [FED, *["mark equal"] * 4, "confirmed 5", "void", "confirmed", *["mark equal"] * 3, "confirmed 4"]
    yield made("marks are 0 at first", steps, *wanted, trust=TRUST)
    steps = [fed, *old, confirmed, succeed(), {**marks[0]}, confirmed]
    wanted = [FED, *["mark equal"] * 4, "confirmed 5", "void", "misuse", "confirmed"]
    yield made("the next client has no auditors", steps, *wanted, trust=TRUST)


def next_directories() -> Iterator[Answer]:
    """Other directories that go on."""
    fed = feed(*ENDED.entries(*FIVE))
    bare_policy = policy_text(NEXT_KEY, has_clock=False, origin="third.example.com")
    third = World([(2, {"alice": b"C"})], policy=digest(bare_policy), signing=NEXT_SIGNING)
    last, first = (8, GOING.link(8)), (2, third.link(2))
    again = Parts(digest(NEXT), last, digest(bare_policy), first, NEXT_SUCCESSOR).text
    steps = [fed, succeed(), feed(*GOING.entries(5, 8)), succeed(again, bare_policy, third[2]), going(2, third), succeed(again)]
    wanted = [FED, "void", "fed 5 8", "void", "C", "SuccessionPolicy"]
    yield made("one after another", steps, *wanted)
    none = policy_text(NEXT_KEY, None, origin="next.example.com")
    world = World([(1, {"alice": b"B"})], policy=digest(none), signing=NEXT_SIGNING)
    text = replace(Parts(), next_policy=digest(none), first=(1, world.link(1))).text
    yield made("the next directory has no VRF", [fed, succeed(text, none, world[1]), going(1, world)], FED, "void", "VrfProof")
    same = policy_text(SIGNING_KEY, origin="next.example.com")
    world = World([(1, {"alice": b"B"})], policy=digest(same))
    text = replace(Parts(), next_policy=digest(same), first=(1, world.link(1))).text
    yield made(
        "the next directory has the same signing key", [fed, succeed(text, same, world[1]), going(1, world)], FED, "void", "B"
    )
