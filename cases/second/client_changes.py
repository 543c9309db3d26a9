"""Cases of clients: changes of a watched key that its owner expects, and states that have them."""

from __future__ import annotations

from typing import Iterator

from client import Answer, Change, Watch, watch_bytes
from client_attacks import OTHER, WORLD, case, edited, feed
from client_cases import EQUAL, FIRST_KEY, SECOND_KEY, head, history, watch
from client_names import MISSING, TURNING, expect, renewed, shown, state_after
from client_world import World, hour

# What a step of each letter's key gives.
A, B, C = "A same", "B same", "C same"


def fed(*epochs: int) -> str:
    return " ".join(["fed", *(f"{it} missing" for it in epochs)])


def looked_up(world: World, *epochs: int) -> list[Answer]:
    return [shown("alice", it, world) for it in epochs]


def taken(world: World, *epochs: int) -> list[Answer]:
    """Entries that are fed, and a lookup of alice at each."""
    return [feed(*world.entries(*epochs)), *looked_up(world, *epochs)]


def started(world: World, by: int) -> list[Answer]:
    """Epoch 1 shows A, and B is expected by an epoch."""
    return [watch("alice", "A"), *taken(world, 1), expect("B", by)]


def starting(by: int) -> list[str]:
    return ["watch 1", fed(1), A, f"expect {by}"]


def keys(letters: str) -> World:
    """A directory in which alice has these keys, one at each epoch."""
    return World([(epoch, {"alice": letter.encode()}) for epoch, letter in enumerate(letters, 1)])


def changes() -> Iterator[Answer]:
    yield from windows()
    yield from nexts()
    yield from returns()
    yield from in_a_row()
    yield from covered()
    for what, state, following, wanted in changed_states():
        yield case(f"state: {what}", following, *wanted, now=hour(5), state=state.hex())
    for what, state in forged_changes():
        yield case(f"state: {what}", [], "StateForm", state=state.hex())


def windows() -> Iterator[Answer]:
    """What the epochs between the last old and the first new one may show."""
    late = keys("AABB")
    begin, reported = [*started(late, 4), feed(*late.entries(2, 3, 4))], [*starting(4), fed(2, 3, 4)]
    yield case("expect: the old key before an epoch with the new one", [*begin, *looked_up(late, 3, 2)], *reported, B, A)
    every = [*begin, *looked_up(late, 4, 3, 2, 1), history("alice", late.history("alice", 1, 2, 3, 4)), MISSING]
    yield case("expect: looked up again after it", every, *reported, B, B, A, A, f"{A}, {A}, {B}, {B}", "missing", now=hour(4))
    whole = history("alice", TURNING.history("alice", 1, 2, 3, 4))
    begin = [watch("alice", "A"), expect("B", 5), feed(*TURNING.entries(1, 2, 3, 4))]
    reported = ["watch 1", "expect 5", fed(1, 2, 3, 4)]
    twice = [f"{A}, {B}, A changed, {B}"] * 2
    yield case("expect: back and forth, by a history", [*begin, whole, whole], *reported, *twice, now=hour(4))
    other = keys("AAXBB")
    begin, reported = [*started(other, 5), feed(*other.entries(2, 3, 4))], [*starting(5), fed(2, 3, 4)]
    yield case("expect: a third key marks nothing", [*begin, *looked_up(other, 3, 2, 4)], *reported, "X changed", A, B, now=hour(4))
    none = [feed(WORLD[1]), watch("dave", "key"), expect(None, 3), feed(*WORLD.entries(2, 3))]
    none += [shown("dave", it) for it in (2, 1, 3)]
    yield case("expect: no key", none, "fed 1", "watch 1", "expect 3", fed(2, 3), "none same", "none absent", "none same")
    gone = [feed(WORLD[1]), watch("dave", "key"), expect("new key", 4), feed(*WORLD.entries(2, 3)), shown("dave", 2)]
    yield case("expect: an absence marks nothing", gone, "fed 1", "watch 1", "expect 4", fed(2, 3), "none absent")


def nexts() -> Iterator[Answer]:
    """When another change may be expected."""
    begin = [*started(TURNING, 5), feed(*TURNING.entries(2, 3, 4))]
    reported = [*starting(5), fed(2, 3, 4)]
    after = [feed(TURNING[5]), shown("alice", 5, TURNING)]
    for what, epoch, key in [("at the latest epoch", 4, B), ("before the latest epoch", 2, B)]:
        steps = [*begin, expect("C", 9), shown("alice", epoch, TURNING), expect("C", 9), *after]
        name = f"expect: once the new key was seen {what}"
        yield case(name, steps, *reported, "misuse", key, "expect 9", fed(5), C, now=hour(5))
    steps = [*begin, shown("alice", 3, TURNING), expect("C", 9)]
    yield case("expect: once the old key was seen, and not the new one", steps, *reported, A, "misuse", now=hour(4))
    same = [*begin, shown("alice", 4, TURNING), expect("B", 9), expect("A", 4), expect("A", 9), expect("C", 9)]
    yield case(
        "expect: after a change, what is no change", same, *reported, B, "misuse", "misuse", "expect 9", "misuse", now=hour(4)
    )
    again = [*started(TURNING, 2), *taken(TURNING, 2), expect("C", 9)]
    again += [watch("alice", "A"), watch("alice", "B"), watch("alice", "C"), watch("alice", "X"), watch("alice", "C", 2)]
    reported = [*starting(2), fed(2), B, "expect 9", "watch 1", "watch 1", "watch 1", "misuse", "misuse"]
    yield case("watch: once more after changes", again, *reported)


def returns() -> Iterator[Answer]:
    """An old key that is shown once more, at an epoch that is withheld at first."""
    back = keys("AABAB")
    steps = [watch("alice", "A"), *taken(back, 1, 2), expect("B", 5), *taken(back, 3), feed(*back.entries(4, 5))]
    steps += [shown("alice", 5, back), head("cover", 5, back.link(5)), MISSING, shown("alice", 4, back), MISSING]
    reported = ["watch 1", fed(1, 2), A, A, "expect 5", fed(3), B, fed(4, 5), B, EQUAL, "missing 4", "A changed", "missing"]
    yield case("expect: the old key again, withheld until its change is covered", steps, *reported, now=hour(5))
    steps = [*started(TURNING, 4), feed(*TURNING.entries(2, 3, 4)), *looked_up(TURNING, 3, 4), expect("C", 5)]
    steps += [shown("alice", 2, TURNING), *taken(TURNING, 5)]
    reported = [*starting(4), fed(2, 3, 4), A, B, "expect 5", "B changed", fed(5), C]
    yield case("expect: a new key too early, withheld until the next change", steps, *reported, now=hour(5))
    later = keys("ACBC")
    steps = [*started(later, 3), feed(*later.entries(2, 3)), shown("alice", 3, later), expect("C", 4), *taken(later, 4)]
    reported = [*starting(3), fed(2, 3), B, "expect 4", fed(4), C]
    yield case("expect: the key of a later change", [*steps, shown("alice", 2, later)], *reported, "C changed", now=hour(4))
    earlier = keys("ABCA")
    steps = [*started(earlier, 2), *taken(earlier, 2), expect("C", 4), feed(*earlier.entries(3, 4)), *looked_up(earlier, 3, 4)]
    reported = [*starting(2), fed(2), B, "expect 4", fed(3, 4), C, "A changed"]
    yield case("expect: the key before an earlier change", steps, *reported, now=hour(4))


def in_a_row() -> Iterator[Answer]:
    """Changes of an honest directory, one after another, are never another key."""
    two = keys("AAABBCC")
    steps = [watch("alice", "A"), feed(*two.entries(1, 2, 3)), *looked_up(two, 1, 3), expect("B", 4), *taken(two, 4, 5)]
    reported = ["watch 1", fed(1, 2, 3), A, A, "expect 4", fed(4, 5), B, B]
    steps += [expect("C", 6), *taken(two, 6, 7), shown("alice", 2, two), *looked_up(two, 1, 2, 3, 4, 5, 6, 7)]
    reported += ["expect 6", fed(6, 7), C, C, A, A, A, A, B, B, C, C]
    yield case("expect: two changes in a row, and all is looked up again", steps, *reported, now=hour(7))
    whole = history("alice", two.history("alice", 1, 2, 3, 4, 5, 6, 7))
    steps += [head("cover", 4, two.link(4)), *looked_up(two, 4, 5, 6, 7), head("cover", 7, two.link(7)), shown("alice", 7, two)]
    yield case("expect: two changes in a row, covered one by one", steps, *reported, EQUAL, B, B, C, C, EQUAL, C, now=hour(7))
    late = [watch("alice", "A"), feed(*two.entries(1, 2, 3)), expect("B", 5), feed(*two.entries(4, 5)), expect("C", 7)]
    late += [feed(*two.entries(6, 7)), *looked_up(two, 7, 6, 5, 4, 3, 2, 1), whole]
    reported = ["watch 1", fed(1, 2, 3), "expect 5", fed(4, 5), "expect 7", fed(6, 7), C, C, B, B, A, A, A]
    yield case(
        "expect: two changes in a row, looked up backwards", late, *reported, f"{A}, {A}, {A}, {B}, {B}, {C}, {C}", now=hour(7)
    )
    back = keys("ABA")
    steps = [*started(back, 2), *taken(back, 2), expect("A", 3), *taken(back, 3), *looked_up(back, 2, 1)]
    yield case("expect: the old key once more, as a change", steps, *starting(2), fed(2), B, "expect 3", fed(3), A, B, A)


def covered() -> Iterator[Answer]:
    """An auditor covers epochs of a change."""
    third, fifth = head("cover", 3, WORLD.link(3)), head("cover", 5, WORLD.link(5))
    old, new = f"{FIRST_KEY} same", f"{SECOND_KEY} same"
    begin = [feed(WORLD[1]), watch("alice", FIRST_KEY), shown("alice", 1), expect(SECOND_KEY, 9), feed(*WORLD.entries(2, 3, 5))]
    reported = ["fed 1", "watch 1", old, "expect 9", fed(2, 3, 5)]
    steps = [*begin, shown("alice", 3), shown("alice", 5), fifth, shown("alice", 3), shown("alice", 2), shown("alice", 3), fifth]
    wanted = [*reported, new, new, EQUAL, new, old, new, EQUAL, "UnknownEpoch"]
    yield case("cover: a missing epoch before a change keeps it", [*steps, shown("alice", 3)], *wanted, now=hour(5))
    steps = [*begin, *(shown("alice", it) for it in (2, 3, 5)), third, shown("alice", 3), shown("alice", 5), expect("key", 6)]
    yield case(
        "cover: a change that the oldest epoch shows", steps, *reported, old, new, new, EQUAL, new, new, "expect 6", now=hour(5)
    )
    second = head("cover", 2, WORLD.link(2))
    steps = [*begin, *(shown("alice", it) for it in (2, 3, 5)), second, *(shown("alice", it) for it in (2, 3, 5))]
    yield case("cover: a change after the oldest epoch", steps, *reported, old, new, new, EQUAL, old, new, new, now=hour(5))
    differs = [*begin, *(shown("alice", it) for it in (2, 3, 5)), head("cover", 5, OTHER.link(4)), shown("alice", 2)]
    yield case("cover: a head that differs drops no change", differs, *reported, old, new, new, "compare differs", old, now=hour(5))
    bob = [feed(WORLD[1]), watch("bob", "key of bob"), shown("bob", 1), expect("key", 6), feed(*WORLD.entries(2, 3))]
    reported, same = ["fed 1", "watch 1", "key of bob same", "expect 6", fed(2, 3)], "key of bob same"
    steps = [*bob, shown("bob", 2), shown("bob", 3), third, expect("key 2", 9)]
    steps += [feed(WORLD[5]), shown("bob", 5), fifth, feed(WORLD[6]), shown("bob", 6)]
    wanted = [*reported, same, same, EQUAL, "misuse", fed(5), same, EQUAL, fed(6), "key of bob changed"]
    yield case("cover: an open change stays", steps, *wanted, now=hour(6))
    gone = [*started(TURNING, 2), *taken(TURNING, 2), head("cover", 2, TURNING.link(2)), watch("alice", "A"), watch("alice", "B")]
    yield case("watch: the key before a change that was covered", gone, *starting(2), fed(2), B, EQUAL, "misuse", "watch 1")


def watching_alice(seen: list[int], *changes: tuple[int, int, str], since: int = 1, key: str = "A") -> bytes:
    """The state of a client that watches alice, with what was seen at each of its epochs."""
    state = state_after([feed(*TURNING.entries())], hour(5))
    for place, number_seen in enumerate(seen):
        state = edited(state, 37 + 218 * place + 217, bytes([number_seen]))
    watched = Watch(b"alice", since, key.encode(), tuple(Change(old, new, to.encode()) for old, new, to in changes))
    return renewed(state[:-33] + watch_bytes(watched) + bytes(32))


TWO: list[tuple[int, int, str]] = [(1, 4, "B"), (4, 9, "C")]


def changed_states() -> Iterator[tuple[str, bytes, list[Answer], list[str]]]:
    """States with changes."""
    looked = [shown("alice", it, TURNING) for it in (1, 2, 3, 4, 5)]
    yield "two changes", watching_alice([1, 5, 5, 1, 5], *TWO), [*looked, MISSING], [A, B, "A changed", B, C, "missing"]
    backwards = watching_alice([1, 5, 5, 1, 5], *TWO), [*reversed(looked), MISSING], [C, B, A, "B changed", A, "missing"]
    yield "two changes, looked up backwards", *backwards
    other = watching_alice([1, 3, 4, 1, 5], *TWO), [MISSING, watch("alice", "B")], ["missing 5", "watch 1"]
    yield "another key and none in an open change", *other
    edges = watching_alice([1, 1, 1, 1, 1], (1, 2, "B"), (2, 3, "A"), (3, 4, "B"), (4, 5, "C"))
    yield "a change at each epoch", edges, looked, [A, B, A, B, C]
    yield "seen 1 at the last old and the first new epoch", watching_alice([1, 5, 5, 1, 1], (1, 4, "B")), looked[:1], [A]
    none = watching_alice([1, 5, 5, 5, 5], (0, 1, "A"), (1, 9, ""), key=""), looked[:2], [A, "B changed"]
    yield "changes from no key and to none", *none
    last = watching_alice([5] * 5, (2**64 - 2, 2**64 - 1, "B")), [*looked[:2], MISSING], [A, "B changed", "missing 3 4 5"]
    yield "a change at the last number there is", *last
    before = watching_alice([1, 1, 1, 1, 1], (0, 1, "B"), key="X"), [looked[3], head("cover", 4, TURNING.link(4))], [B, EQUAL]
    yield "a change that has begun at the oldest epoch", *before
    yield "epochs in an open change that are not watched", watching_alice([0, 0, 0, 1, 5], (1, 4, "B"), since=4), looked[3:4], [B]


def forged_changes() -> Iterator[tuple[str, bytes]]:
    """States whose changes can't be, or not with what was seen."""
    yield from [
        ("a change without an epoch between", watching_alice([5] * 5, (4, 4, "B"))),
        ("a change that ends before it begins", watching_alice([5] * 5, (4, 2, "B"))),
        ("a change at epoch 0", watching_alice([5] * 5, (0, 0, "B"))),
        ("a second change that begins in the first", watching_alice([5] * 5, (1, 4, "B"), (3, 9, "C"))),
        ("a second change before the first", watching_alice([5] * 5, (4, 9, "B"), (1, 3, "C"))),
        ("a second change without an epoch between", watching_alice([5] * 5, (1, 4, "B"), (4, 4, "C"))),
        ("a change to the first key", watching_alice([5] * 5, (1, 4, "A"))),
        ("a second change to the same key", watching_alice([5] * 5, (1, 4, "B"), (4, 9, "B"))),
        ("a change from no key to none", watching_alice([5] * 5, (1, 4, ""), key="")),
        ("seen 1 in an open change", watching_alice([1, 1, 5, 1, 5], *TWO)),
        ("seen 1 before the first new epoch", watching_alice([1, 5, 1, 1, 5], *TWO)),
        ("seen 1 in a second open change", watching_alice([1, 5, 5, 1, 1], *TWO)),
        ("seen 2 of a new key", watching_alice([1, 5, 5, 2, 5], *TWO)),
        ("seen 1 before the first watched epoch", watching_alice([1, 5, 5, 1, 5], *TWO, since=2)),
    ]
