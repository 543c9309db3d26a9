"""How the clients in Go, Rust, JavaScript, C and Java are asked: the cases of cases/client, and random alterations and walks beside the second
implementation. Each language has a program that replies to requests, one on each line. Words are separated by one space.

Bytes are hexadecimal digits, `.` for no byte. `-` stands for nothing: no key, no state, the default, the latest epoch.

| Request | Reply |
|---|---|
| `begin NOW MAX_AGE SKEW SIGNING_KEY VRF_KEY POLICY STATE`, POLICY is the document | `begun` |
| `vouched NOW MAX_AGE SKEW SIGNING_KEY VRF_KEY POLICY ENTRY LEAST EPOCH:LINK ..` | `begun` |
| `succeed MAX_AGE SKEW SIGNING_KEY VRF_KEY POLICY SUCCESSION ENTRY`, of the next directory; SUCCESSION is the text | `void EPOCH ..` |
| `now SECONDS` sets the clock | `set` |
| `trust DIGEST AUDITORS FAULTY`, of the trust document that the next client names | `set` |
| `feed ENTRY ..`, `catchup BYTES` | `fed EPOCH:SEEN ..`, SEEN is `missing` or `-` |
| `lookup NAME REPLY EPOCH` | `found EPOCH KEY SEEN AGE FIRST_SEEN` |
| `history NAME HISTORY` | `found` and these five words for each step |
| `watch NAME KEY SINCE` | `watching` |
| `expect KEY BY` | `expected` |
| `missing` | `missing EPOCH ..` |
| `lost` | `lost EPOCH ..` |
| `head` | `head EPOCH LINK`, or `head -` |
| `compare EPOCH LINK`, `cover EPOCH LINK` | `equal`, `unknown` or `differs` |
| `evidence ENTRY` | `evidence KIND MINE OTHER`, or `evidence -` |
| `state` | `state BYTES` |
| `mark AUDITOR EPOCH LINK` | `equal`, `unknown` or `differs` |
| `confirmed` | `confirmed EPOCH`, or `confirmed -` |
| `drop` | `dropped EPOCH ..` |
| `alarms`, or `note EPOCH` | `alarms EPOCH:SEEN ..`, those that are left |
| `report` | `report NAME FIRST LAST` |

KIND is `overlap`, `other-policy` or `malformed`. A refusal is `refused NAME STATUS KIND MINE OTHER`, NAME as in docs/FORMATS.md,
with `-` for no status and for no evidence. A call that the caller must not make is `misuse`. A program that begins anew forgets the
client that it had, also if it refuses to begin.
"""

from __future__ import annotations

import copy
import hashlib
import json
import random
import re
import subprocess
import time
from typing import Any, Callable, Optional, Sequence, Union

import client as second
from alarm_walks import AlarmWalk
from alterations import Alterer, causes_in
from case_runner import Answer, cases
from client import plain
from running import Say
from walks import Walk, seen_in


class Broken(Exception):
    """A program ended, or its reply is none of the table."""


class Side:
    """The program of one language."""

    def __init__(self, words: Sequence[str]) -> None:
        self.process = subprocess.Popen(words, stdin=subprocess.PIPE, stdout=subprocess.PIPE, text=True, encoding="ascii")

    def ask(self, *words: str) -> list[str]:
        """The words of the reply to a request."""
        assert self.process.stdin and self.process.stdout
        try:
            self.process.stdin.write(" ".join(words) + "\n")
            self.process.stdin.flush()
        except BrokenPipeError:
            raise Broken(f"the program ended before {words[0]}") from None
        line = self.process.stdout.readline()
        if not line.endswith("\n"):
            raise Broken(f"the program ended at {words[0]}")
        printed: list[str] = line[:-1].split(" ")
        return printed

    def end(self) -> int:
        """The status of the program, whose input ends."""
        self.process.communicate()
        return self.process.returncode


def word(digits: Optional[str]) -> str:
    """Bytes in a case as a word."""
    return "-" if digits is None else digits or "."


def number(value: object) -> str:
    return "-" if value is None else str(value)


def digits_of(given: str) -> Optional[str]:
    """A word as bytes in a case."""
    return None if given == "-" else given.replace(".", "")


def number_of(given: str) -> Union[int, float, None]:
    return None if given == "-" else float(given) if "." in given else int(given)


def begin_words(case: Answer) -> list[str]:
    """The request that makes the client of a case."""
    clock = [number(case.get(it)) for it in ("now", "max_age", "skew")]
    keys = [word(case["signing_key"]), word(case.get("vrf_key")), word(case["policy"].encode().hex())]
    vouched = case.get("vouched")
    if vouched is None:
        return ["begin", *clock, *keys, word(case.get("state"))]
    heads = [f"{epoch}:{link}" for epoch, link in vouched["heads"]]
    return ["vouched", *clock, *keys, word(vouched["entry"]), number(vouched["least"]), *heads]


def key_in(policy: str, name: str) -> Optional[str]:
    """The digits of a key that a policy document has."""
    found = re.search(f"^{name} ([0-9a-f]{{64}})$", policy, re.M)
    return found[1] if found else None


def succeed_words(step: Answer) -> list[str]:
    """The request that goes on in another directory."""
    limits = [number(step.get(it)) for it in ("max_age", "skew")]
    keys = [word(key_in(step["policy"], it)) for it in ("signing-key", "vrf-key")]
    texts = [word(step[it].encode().hex()) for it in ("policy", "succession")]
    return ["succeed", *limits, *keys, *texts, word(step["entry"])]


# The request for a step, by what it does.
REQUESTS: dict[str, Callable[[Answer], list[str]]] = {
    "feed": lambda it: ["feed", *map(word, it["entries"])],
    "catch up": lambda it: ["catchup", word(it["bytes"])],
    "lookup": lambda it: ["lookup", word(it["name"]), word(it["reply"]), number(it.get("epoch"))],
    "history": lambda it: ["history", word(it["name"]), word(it["history"])],
    "watch": lambda it: ["watch", word(it["name"]), word(it["key"]), number(it.get("since"))],
    "expect": lambda it: ["expect", word(it["key"]), number(it["by"])],
    "compare": lambda it: ["compare", number(it["epoch"]), word(it["link"])],
    "cover": lambda it: ["cover", number(it["epoch"]), word(it["link"])] if "link" in it else ["drop"],
    "mark": lambda it: ["mark", number(it["auditor"]), number(it["epoch"]), word(it["link"])],
    "note": lambda it: ["note", number(it["epoch"])],
    "confirmed": lambda it: ["confirmed"],
    "alarms": lambda it: ["alarms"],
    "report": lambda it: ["report"],
    "evidence": lambda it: ["evidence", word(it["entry"])],
    "head": lambda it: ["head"],
    "missing": lambda it: ["missing"],
    "lost": lambda it: ["lost"],
    "succeed": succeed_words,
}


def evidence_of(words: Sequence[str]) -> Optional[list[Any]]:
    """The kind of the evidence, and the epoch of the client's entry, None if it is the other one itself."""
    if words[0] == "-":
        return None
    kind, mine, other = words
    epoch = int.from_bytes(bytes.fromhex(mine)[1:9], "big")
    return [kind.replace("-", " "), None if mine == other else epoch]


def found(words: Sequence[str]) -> Answer:
    epoch, key, seen, age, first_seen = words
    seen_or_none = None if seen == "-" else seen
    return {
        "epoch": int(epoch),
        "key": digits_of(key),
        "seen": seen_or_none,
        "age": number_of(age),
        "first_seen": int(first_seen),
    }


def fed(words: Sequence[str]) -> list[list[Any]]:
    pairs = [it.split(":") for it in words]
    return [[int(epoch), None if seen == "-" else seen] for epoch, seen in pairs]


def answer_of(side: Side, step: Answer, printed: list[str]) -> Answer:
    """A reply as the second implementation has it."""
    first, rest, do = printed[0], printed[1:], step["do"]
    if first == "refused":
        name, status, *evidence = rest
        return {"refused": name, "status": number_of(status), "evidence": evidence_of(evidence)}
    if first == "misuse":
        return {"misuse": True}
    if do in ("feed", "catch up") and first == "fed":
        return {"fed": fed(rest)}
    if do == "lookup" and first == "found":
        return found(rest)
    if do == "history" and first == "found":
        return {"found": [found(rest[at : at + 5]) for at in range(0, len(rest), 5)]}
    if do == "watch" and first == "watching":
        return {"watch": watched_from(state_of(side))}
    if do == "expect" and first == "expected":
        return {"expect": step["by"]}
    if do in ("missing", "lost") and first == do:
        return {do: [int(it) for it in rest]}
    if do == "succeed" and first == "void":
        return {"void": [int(it) for it in rest]}
    if do == "head" and first == "head":
        return {"head": None if rest[0] == "-" else [int(rest[0]), rest[1]]}
    if do in ("compare", "cover") and first in ("equal", "unknown", "differs"):
        return {"compare": first}
    if do in ("mark", "confirmed", "cover", "alarms", "note", "report"):
        return owner_answer_of(do, first, rest)
    if do == "evidence" and first == "evidence":
        return {"evidence": evidence_of(rest)}
    raise Broken(f"{do}: {' '.join(printed)[:200]}")


def owner_answer_of(do: str, first: str, rest: Sequence[str]) -> Answer:
    """A reply to a call about auditors, or about what the owner sees."""
    if do == "mark" and first in ("equal", "unknown", "differs"):
        return {"mark": first}
    if do == "confirmed" and first == do:
        return {"confirmed": number_of(rest[0])}
    if do == "cover" and first == "dropped":
        return {"cover": [int(it) for it in rest]}
    if do in ("alarms", "note") and first == "alarms":
        return {"alarms": [[epoch, "lost" if seen == "missing" else seen] for epoch, seen in fed(rest)]}
    if do == "report" and first == "report":
        # Of `unwatched` there is no epoch, of these two the first and the last one, else one.
        epochs = {"unwatched": 0, "unconfirmed": 2, "good": 2}.get(rest[0], 1)
        return {"report": [rest[0], *map(int, rest[1 : 1 + epochs])]}
    raise Broken(f"{do}: {first} {' '.join(rest)[:200]}")


def state_of(side: Side) -> bytes:
    first, digits = side.ask("state")
    if first != "state":
        raise Broken(f"state: {first}")
    return bytes.fromhex(digits)


def watched_from(state: bytes) -> int:
    """The first watched epoch in a state, which stands after the name."""
    alarms = 37 + 218 * int.from_bytes(state[33:37], "big")
    trust = alarms + 4 + 9 * int.from_bytes(state[alarms : alarms + 4], "big")
    watch = trust + 36 + 8 * int.from_bytes(state[trust + 32 : trust + 36], "big")
    start = watch + 2 + state[watch + 1]
    return int.from_bytes(state[start : start + 8], "big")


def set_trust(side: Side, members: Answer) -> None:
    """Names the trust document of the next client, if a case or a step has one."""
    trust = members.get("trust")
    if trust:
        side.ask("trust", word(trust["digest"]), number(trust["auditors"]), number(trust["faulty"]))


def verdicts(side: Side, case: Answer) -> Answer:
    """All that the client of a case returns: when it is made, for each step, and its state at the end."""
    set_trust(side, case)
    printed = side.ask(*begin_words(case))
    if printed != ["begun"]:
        return {"begin": answer_of(side, {"do": "begin"}, printed), "steps": [], "state": None}
    answers = []
    for step in case["steps"]:
        if "now" in step:
            side.ask("now", number(step["now"]))
        set_trust(side, step)
        answers.append(answer_of(side, step, side.ask(*REQUESTS[step["do"]](step))))
    return {"begin": {"begun": True}, "steps": answers, "state": hashlib.sha256(state_of(side)).hexdigest()}


def verdict(side: Side, case: Answer) -> Any:
    """What a program returns, or what is wrong with its replies."""
    try:
        return verdicts(side, case)
    except (Broken, ValueError, KeyError) as error:
        return f"{type(error).__name__}: {error}"


# The walks of an owner without auditors, and with them, by turns.
WALKS: Sequence[type[Walk]] = [Walk, AlarmWalk]


def check_cases(side: Side) -> None:
    for case in cases():
        got = verdict(side, case)
        assert (plain(got) if isinstance(got, dict) else got) == case["gives"], case["name"]


def check_alterations(side: Side, count: int, seed: int) -> tuple[set[str], float]:
    """So many alterations, of which both implementations return the same. Returns the kinds of results, and the program's seconds."""
    alterer, chance, seen, spent = Alterer(list(cases())), random.Random(seed), set[str](), 0.0
    for number in range(count):
        case = alterer.altered(chance)
        before = time.monotonic()
        mine = verdict(side, copy.deepcopy(case))
        spent += time.monotonic() - before
        theirs = second.verdicts(case)
        assert mine == theirs, f"alteration {number} of seed {seed}: {json.dumps(case)}"[:9000]
        seen.update(causes_in(mine))
    return seen, spent


def check_walks(side: Side, count: int, seed: int) -> None:
    """So many walks, each of which is interrupted by starts from the state, of which both implementations return the same."""
    seen: set[str] = set()
    for number in range(count):
        walk, state = WALKS[number % 2](random.Random(f"{seed} {number}")), None
        for part in range(3):
            case = walk.case(state)
            case["steps"] += [walk.step() for _ in range(20)]
            mine, theirs = verdict(side, case), second.verdicts(case)
            assert mine == theirs and mine["begin"] == {"begun": True}, f"walk {number} of seed {seed}, part {part}"
            seen.update(seen_in(mine))
            state = state_of(side)
    assert count < 20 or {"same", "changed", "absent", "misuse"} <= seen, "the walks see changes"


def check_program(what: str, words: Sequence[str], count: int, seed: int, say: Say) -> None:
    """All cases over the program of a client, so many alterations, and a quarter as many walks."""
    start, side = time.monotonic(), Side(words)
    check_cases(side)
    if count:
        seen, spent = check_alterations(side, count, seed)
        say(f"{what}: {count} alterations with {len(seen)} results, of which the program took {spent:.1f} s")
        check_walks(side, max(1, count // 4), seed)
    assert side.end() == 0, "the program ends"
    say(f"{what}: {time.monotonic() - start:.0f} s")
