"""The library in Python: its values and exceptions, its loading, and its results, which must be those of the program."""

from __future__ import annotations

import base64
import copy
import hashlib
import itertools
import json
import os
import pickle
import sys
from dataclasses import replace
from pathlib import Path
from typing import Any, Callable, Sequence

import case_rows
import coniks as package
import evidence
import pytest
import samples
import tools
from running import EMBED, TOP, run

pytestmark = pytest.mark.usefixtures("embedded")

# Without types, since wrong arguments are passed too.
coniks: Any = package


def test_watch(keydir: str) -> None:
    """The example in Python over the tour: its results are those of the program for the same lines."""
    tour = run(keydir, "run", stdin=open(TOP / "examples/tour.jsonl", "rb")).stdout
    found = os.environ | {"PYTHONPATH": str(EMBED / "python/src")}
    ran = run(sys.executable, EMBED / "python/watch.py", "--expect", "YWxpY2UtMQ==", "alice", input=tour, env=found)
    printed = ran.stdout.decode().splitlines()
    lines = [json.loads(it) for it in tour.splitlines()]
    looked = [it for it in lines if it.get("ok") == "lookup"]
    checked = run(keydir, "check", input="".join(f"{json.dumps(it)}\n" for it in looked).encode()).stdout.splitlines()
    wanted = []
    for line, answer in zip(looked, map(json.loads, checked), strict=True):
        wanted.append(f"epoch {line['epoch']}, {line['name']}: {answer.get('key', 'absent')}")
    assert [it for it in printed if ", " in it and "watched" not in it] == wanted, ("watch.py checks as the program does", printed)
    watched = run(keydir, "monitor", "--key", "0" * 64, "--name", "alice", "--expect", "YWxpY2UtMQ==",
                  input="".join(f"{json.dumps(it)}\n" for it in looked if it["name"] == "alice").encode()).stdout.splitlines()  # fmt: skip
    wanted = [f"epoch {it['epoch']}, watched: {it['seen']}" for it in map(json.loads, watched)]
    assert wanted and [it for it in printed if "watched" in it] == wanted, ("watch.py sees what the program does", printed)
    audited = [f"epoch {json.loads(it)['epoch']}: follows" for it in run(
        keydir, "audit", "--key", "0" * 64, input="".join(f"{json.dumps(it)}\n" for it in lines if it.get("ok") == "batch").encode()
    ).stdout.splitlines()]  # fmt: skip
    assert audited and [it for it in printed if it.endswith("follows")] == audited, ("watch.py audits as the program does", printed)


def test_faults(lines: Sequence[samples.Line]) -> None:
    """Exceptions, and that a refusal leaves an auditor as it was."""
    line = lines[0]
    entry, proof = bytes.fromhex(line["entry"]), coniks.proof_bytes(line["proof"])
    body = coniks.Body.of_entry(entry)
    assert bytes(body) == entry[:145], "a body's bytes are the entry's first"
    assert coniks.link(entry) == hashlib.sha256(b"\x53" + entry).digest(), "a link is SHA-256 of 53 and the entry"
    auditor = coniks.Auditor()
    refused: list[Callable[[], object]] = [
        lambda: auditor.feed(entry[:-1], True),
        lambda: auditor.feed(entry, False),
        lambda: coniks.link(entry + b"\0"),
    ]
    for wrong in refused:
        with pytest.raises(coniks.Refused) as raised:
            wrong()
        assert raised.value.status.name in ("ENTRY_LENGTH", "SIGNATURE")
    assert auditor.state == bytes(80) and auditor.head is None, "an auditor that refused is as it was"
    misused: list[tuple[Callable[[], object], type[Exception]]] = [
        (lambda: coniks.check(b"", bytes(32), bytes(32), "a", proof), ValueError),
        (lambda: coniks.check("", bytes(32), bytes(32), "a", proof), TypeError),
        (lambda: coniks.Auditor(b"short"), ValueError),
        (lambda: auditor.feed(entry, 1), TypeError),
        (lambda: coniks.Monitor("a", bytes(32), b""), ValueError),
        (lambda: coniks.Monitor("a", bytes(32), "key"), TypeError),
        (lambda: coniks.text(-1), ValueError),
        (lambda: coniks.text("4"), TypeError),
        (lambda: bytes(replace(body, epoch=1 << 64)), ValueError),
        (lambda: bytes(replace(body, version=256)), ValueError),
        (lambda: bytes(replace(body, previous_epoch=-1)), ValueError),
        (lambda: bytes(replace(body, epoch=1.0)), TypeError),
        (lambda: coniks.proof_bytes([]), TypeError),
    ]
    for wrong, kind in misused:
        with pytest.raises(kind):
            wrong()


def test_forks() -> None:
    """All forks of small chains contain a pair that convicts, at the first place at which they differ, and no other two chains
    do. Each chain is a good one."""
    chains = evidence.chains(6, 5)
    for it in chains:
        auditor = coniks.Auditor()
        for entry in it:
            auditor.feed(entry, True)
    found: dict[tuple[bytes, bytes], object] = {}
    forks, wrong = 0, []
    for one, other in itertools.combinations(chains, 2):
        place = next((at for at, (a, b) in enumerate(zip(one, other)) if a[:145] != b[:145]), None)
        is_fork = not (evidence.begins(one, other) or evidence.begins(other, one))
        forks += is_fork
        kinds = [found.setdefault(it, coniks.convicts(*it)) if it not in found else found[it] for it in zip(one, other)]
        first = next((at for at, kind in enumerate(kinds) if kind), None)
        if (
            first != place
            or (first is not None) != is_fork
            or (first is not None and kinds[first] is not coniks.EvidenceKind.OVERLAP)
        ):
            wrong.append((one, other))
    assert len(chains) == 665 and forks == 218248 and not wrong, (f"{forks} forks of {len(chains)} chains convict", wrong[:1])


def test_copies(lines: Sequence[samples.Line]) -> None:
    """Copies, and unpickled ones, continue from the state of the first one, and do not change it."""
    line = next(it for it in lines if coniks.Body.of_entry(bytes.fromhex(it["entry"])).previous_epoch == 0)
    entry, proof, index = bytes.fromhex(line["entry"]), coniks.proof_bytes(line["proof"]), bytes.fromhex(line["index"])
    ways: dict[str, Callable[[Any], Any]] = {
        "copy": copy.copy,
        "deepcopy": copy.deepcopy,
        "pickle": lambda it: pickle.loads(pickle.dumps(it)),
    }
    for what, copied in ways.items():
        auditor, monitor = coniks.Auditor(), coniks.Monitor(line["name"], index, b"another key")
        other, watching = copied(auditor), copied(monitor)
        other.feed(entry, True)
        seen = watching.step(entry, True, proof)
        assert auditor.head is None and other.head is not None and type(other) is coniks.Auditor, f"{what} of an auditor"
        assert monitor.head is None and watching.head == other.head, f"{what} of a monitor"
        assert watching.expected == b"another key" and seen is not coniks.Seen.SAME, f"{what} of a monitor"
        fault = copied(coniks.Refused(40))
        assert fault.status == 40 and str(fault) == coniks.text(40), (f"{what} of a refusal", fault)


def test_equality(lines: Sequence[samples.Line]) -> None:
    """Auditors are equal by state, and monitors by their arguments too. The unused bytes of a state count for nothing."""
    line = next(it for it in lines if coniks.Body.of_entry(bytes.fromhex(it["entry"])).previous_epoch == 0)
    entry, index = bytes.fromhex(line["entry"]), bytes.fromhex(line["index"])
    fed = coniks.Auditor()
    fed.feed(entry, True)
    assert fed == copy.copy(fed) and not fed != pickle.loads(pickle.dumps(fed)), "auditors of one state are equal"
    assert fed != coniks.Auditor() and coniks.Auditor() == coniks.Auditor(), "auditors of other states are not"
    first: tuple[Any, ...] = ("alice", index, b"key", fed.state)
    others: list[tuple[Any, ...]] = [
        ("bob", *first[1:]),
        (first[0], bytes(32), *first[2:]),
        (*first[:2], b"other", first[3]),
        (*first[:2], None, first[3]),
        (*first[:3], bytes(80)),
    ]
    assert coniks.Monitor(*first) == coniks.Monitor(b"alice", *first[1:]), "monitors of the same arguments are equal"
    assert not any(coniks.Monitor(*first) == coniks.Monitor(*it) for it in others), "monitors of others are not"
    assert (
        coniks.Monitor(*first) != fed != coniks.Monitor(*first) and fed != fed.state
    ), "a monitor is no auditor, and an auditor no state"
    assert coniks.Auditor.__hash__ is None is coniks.Monitor.__hash__, "auditors and monitors have no hash"
    other = coniks.Auditor(fed.state[:73] + b"\xff" * 7)
    assert other.state == fed.state and other == fed, ("the unused bytes of a state are zero", other.state.hex())
    monitor = coniks.Monitor(*first[:3], fed.state[:73] + b"\xff" * 7)
    assert monitor.state == fed.state, ("the unused bytes of a monitor's state are zero", monitor.state.hex())


LOAD = """
import coniks
for call in (coniks.library_version, coniks.Auditor, lambda: coniks.text(4)):
    try:
        print(call())
    except ImportError as error:
        print(error)
"""


def test_library(tmp_path: Path) -> None:
    """A file that is no library, one that is another library, and one of another version raise ImportError at each call."""
    names = [it for it, _, _ in coniks._exports]
    (tmp_path / "text").write_text("no library\n", "utf-8")
    for file, calls in [("later", names), ("lacking", names[:3] + names[-1:]), ("another", ["other_version"])]:
        number = 20304 if file == "later" else 10000
        code = "".join(f"unsigned {it}(void) {{ return {number}; }}\n" for it in calls)
        (tmp_path / f"{file}.c").write_text(code, "utf-8")
        ran = run(tools.CC, "-shared", "-fPIC", "-o", tmp_path / file, tmp_path / f"{file}.c")
        assert ran.returncode == 0, (f"{file}.c compiles", ran.stderr.decode())
    for file, parts in [
        ("missing", ["the library can't be loaded: ", "No such file"]),
        ("text", ["the library can't be loaded: ", "text"]),
        ("", ["the library can't be loaded: "]),
        ("another", ["isn't the library of this package: ", "coniks_version"]),
        ("lacking", ["isn't the library of this package: ", names[3]]),
        ("later", ["has version 2.3.4, and this package has version " + coniks.__version__]),
    ]:
        ran = run(sys.executable, "-c", LOAD, env=os.environ | {"CONIKS_LIBRARY": str(tmp_path / file)}, cwd=EMBED / "python/src")
        printed = ran.stdout.decode().splitlines()
        is_well = len(printed) == 3 and all(part in it and str(tmp_path / file) in it for it in printed for part in parts)
        assert is_well and ran.returncode == 0, (f"the library {file or 'that is a folder'}", (printed, ran.stderr.decode()[-500:]))


def answer_by_python(members: dict[str, Any]) -> dict[str, Any]:
    """What `keydir check` prints of a line, by the library in Python."""
    try:
        proof = coniks.proof_bytes(members.get("proof"))
    except (TypeError, ValueError):
        return {"fault": "Member", "member": "proof"}
    nonce, root, index = [bytes.fromhex(members[it]) for it in ("nonce", "root", "index")]
    try:
        key = coniks.check(nonce, root, index, members["name"], proof)
    except coniks.Refused as fault:
        return {"fault": "".join(it.title() for it in fault.status.name.split("_"))}
    shown = {"answer": "absent"} if key is None else {"answer": "key", "key": base64.b64encode(key).decode()}
    return shown | {"ok": "check"}


def test_lines() -> None:
    """Each line of the cases of `check` that is read up to its proof has its result."""
    tried, wrong = 0, []
    for case in case_rows.chosen(["check"])[0]:
        for line, answer in zip(case.given().split(b"\n"), case.read("out").splitlines()):
            wanted = json.loads(answer)
            if wanted.get("fault") == "Json" or wanted.get("member", "proof") != "proof":
                continue
            printed = answer_by_python(json.loads(line))
            tried += 1
            if printed != wanted:
                wrong.append((case.name, wanted, printed))
    assert tried > 100 and not wrong, ("the cases of check, by Python", (tried, wrong[:3]))
