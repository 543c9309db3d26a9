"""Runs the cases of cases/client over `coniks.client`, and gives verdicts as the second implementation has them."""

from __future__ import annotations

import hashlib
import json
from pathlib import Path
from typing import Any, Callable, Iterator, Optional

import coniks
from coniks.client import Cause, Client, Found, Refusal, Reported, Trust, Watched
from coniks.succession import Succession


TOP = Path(__file__).resolve().parents[4]
CASES = TOP / "cases/client"
Answer = dict[str, Any]
KINDS = {
    coniks.EvidenceKind.OVERLAP: "overlap",
    coniks.EvidenceKind.OTHER_POLICY: "other policy",
    coniks.EvidenceKind.MALFORMED: "malformed",
}
# The name of the status 33 in docs/FORMATS.md.
NAMES = {Cause.VERSION_UNKNOWN: "Version"}
# What an alarm is called.
ALARMS = {Watched.CHANGED: "changed", Watched.ABSENT: "absent", Watched.MISSING: "lost"}


class Clock:
    """A clock that is set."""

    now: float = 0

    def __call__(self) -> float:
        return self.now


def cases() -> Iterator[Answer]:
    for file in sorted(CASES.glob("*.jsonl")):
        yield from map(json.loads, file.read_text("utf-8").splitlines())


def data(members: Answer, name: str) -> Optional[bytes]:
    value = members.get(name)
    return None if value is None else bytes.fromhex(value)


def begun(case: Answer, clock: Clock) -> Client:
    """The client of a case."""
    policy = coniks.Policy.read(case["policy"].encode())
    keys = bytes.fromhex(case["signing_key"]), data(case, "vrf_key")
    more: dict[str, Any] = {"max_age": case.get("max_age"), "skew": case.get("skew", 300), "clock": clock, "trust": trust_of(case)}
    vouched = case.get("vouched")
    if vouched is None:
        return Client(*keys, policy, data(case, "state"), **more)
    heads = {str(at): coniks.Head(epoch, bytes.fromhex(link)) for at, (epoch, link) in enumerate(vouched["heads"])}
    return Client.vouched(*keys, policy, bytes.fromhex(vouched["entry"]), heads, vouched["least"], **more)


def trust_of(case: Answer) -> Optional[Trust]:
    it = case.get("trust")
    return Trust(bytes.fromhex(it["digest"]), it["auditors"], it["faulty"]) if it else None


def found(it: Found) -> Answer:
    key, seen = None if it.key is None else it.key.hex(), it.seen and it.seen.value
    return {"epoch": it.epoch, "key": key, "seen": seen, "age": it.age, "first_seen": it.first_seen}


def evidence_of(client: Client, given: object) -> Optional[list[Any]]:
    """The kind of the evidence, and the epoch of the client's entry, None if it is the other one itself."""
    if given is None:
        return None
    mine, other, kind = vars(given).values()
    assert coniks.convicts(mine, other) is kind and client._verifier.of_entry(other), "what is published convicts"
    return [KINDS[kind], coniks.Body.of_entry(mine).epoch if mine in client.entries else None]


def fed(client: Client, entries: Any) -> Answer:
    return {"fed": [[it.epoch, it.seen and it.seen.value] for it in client.feed(entries)]}


def head(client: Client) -> Answer:
    it = client.head()
    return {"head": it and [it.epoch, it.link.hex()]}


def head_of(step: Answer) -> coniks.Head:
    return coniks.Head(step["epoch"], bytes.fromhex(step["link"]))


def watched(client: Client, step: Answer) -> Answer:
    client.watch(bytes.fromhex(step["name"]), data(step, "key"), step.get("since"))
    return {"watch": watched_from(client.state)}


def watched_from(state: bytes) -> int:
    """The first watched epoch in a state, which is after the name."""

    def number(at: int, size: int = 4) -> int:
        return int.from_bytes(state[at : at + size], "big")

    alarms = 37 + 218 * number(33)
    marks = alarms + 4 + 9 * number(alarms) + 32
    watch = marks + 4 + 8 * number(marks)
    return number(watch + 2 + state[watch + 1], 8)


def expected(client: Client, step: Answer) -> Answer:
    client.expect(data(step, "key"), by=step["by"])
    return {"expect": step["by"]}


def looked_up(client: Client, step: Answer) -> Answer:
    return found(client.lookup(bytes.fromhex(step["name"]), bytes.fromhex(step["reply"]), step.get("epoch")))


def gone_through(client: Client, step: Answer) -> Answer:
    return {"found": [found(it) for it in client.history(bytes.fromhex(step["name"]), bytes.fromhex(step["history"]))]}


def covered(client: Client, step: Answer) -> Answer:
    """What is dropped: by the head of one auditor if the step has one."""
    return {"compare": client.cover(head_of(step)).value} if "epoch" in step else {"cover": client.drop()}


def listed(client: Client) -> Answer:
    return {"alarms": [[it.epoch, ALARMS[it.seen]] for it in client.alarms]}


def noted(client: Client, step: Answer) -> Answer:
    client.note(step["epoch"])
    return listed(client)


def reported(client: Client) -> Answer:
    it = client.report()
    if it.what in (Reported.GOOD, Reported.UNCONFIRMED):
        return {"report": [it.what.value, it.first, it.last]}
    assert it.first == it.last and (it.what is Reported.UNWATCHED) == (it.first == 0)
    return {"report": [it.what.value, it.first][: 1 if it.first == 0 else 2]}


class Run:
    """The client of a case, which is another one once it went on in another directory."""

    def __init__(self, client: Client):
        self.client = client

    def step(self, step: Answer) -> Answer:
        if step["do"] != "succeed":
            return CALLS[step["do"]](self.client, step)
        policy, succession = coniks.Policy.read(step["policy"].encode()), Succession.read(step["succession"].encode())
        limits = {"max_age": step.get("max_age"), "skew": step.get("skew", 300), "trust": trust_of(step)}
        before = self.client.state
        succeeded = self.client.succeed(succession, policy, bytes.fromhex(step["entry"]), **limits)
        assert self.client.state == before, "the client of the ended policy stays as it is"
        self.client = succeeded.client
        return {"void": [coniks.Body.of_entry(it).epoch for it in succeeded.void]}


CALLS: dict[str, Callable[[Client, Answer], Answer]] = {
    "feed": lambda client, step: fed(client, [bytes.fromhex(it) for it in step["entries"]]),
    "catch up": lambda client, step: fed(client, bytes.fromhex(step["bytes"])),
    "lookup": looked_up,
    "history": gone_through,
    "watch": watched,
    "expect": expected,
    "compare": lambda client, step: {"compare": client.compare(head_of(step)).value},
    "cover": covered,
    "mark": lambda client, step: {"mark": client.mark(step["auditor"], head_of(step)).value},
    "confirmed": lambda client, step: {"confirmed": client.confirmed},
    "alarms": lambda client, step: listed(client),
    "note": noted,
    "report": lambda client, step: reported(client),
    "evidence": lambda client, step: {"evidence": evidence_of(client, client.evidence(bytes.fromhex(step["entry"])))},
    "head": lambda client, step: head(client),
    "missing": lambda client, step: {"missing": client.missing},
    "lost": lambda client, step: {"lost": client.lost},
}


def outcome(call: Callable[[], Answer], client: Optional[Client]) -> Answer:
    """What a call returns, or its error as members."""
    try:
        return call()
    except Refusal as error:
        name = NAMES.get(error.cause, error.cause.name.title().replace("_", ""))
        status = None if error.status is None else int(error.status)
        evidence = evidence_of(client, error.evidence) if client else own_evidence(error)
        return {"refused": name, "status": status, "evidence": evidence}
    except ValueError:
        return {"misuse": True}


def own_evidence(error: Refusal) -> Optional[list[Any]]:
    """The evidence that an entry is by itself."""
    return [KINDS[error.evidence.kind], None] if error.evidence else None


def verdicts(case: Answer) -> Answer:
    """All that the client of a case returns: when it is made, for each step, and its state at the end."""
    made: list[Client] = []
    clock = Clock()
    clock.now = case["now"]

    def begin() -> Answer:
        made.append(begun(case, clock))
        return {"begun": True}

    answer = outcome(begin, None)
    if not made:
        return {"begin": answer, "steps": [], "state": None}
    run, answers = Run(made[0]), []
    for step in case["steps"]:
        clock.now = step.get("now", clock.now)
        # What convicts at a succession is an entry of the next directory alone.
        answers.append(outcome(lambda: run.step(step), None if step["do"] == "succeed" else run.client))
    return {"begin": answer, "steps": answers, "state": hashlib.sha256(run.client.state).hexdigest()}
