"""The library for C: its names, its header, its examples, and its results, which must be those of the program."""

from __future__ import annotations

import base64
import ctypes
import hashlib
import json
import os
import random
import re
import shutil
from pathlib import Path
from typing import Callable, Sequence

import model
import pytest
import samples
import tools
from running import ARCHIVE, EMBED, INCLUDE, SHARED, TOP, WARNED, Say, compiled, needs, run, sanitizers

pytestmark = pytest.mark.usefixtures("embedded")

HEADER = (INCLUDE / "coniks.h").read_text("utf-8")
HEADERS = {it.name: it.read_text("utf-8") for it in INCLUDE.glob("*.h")}
CC = tools.CC
MAY_ASK = {"memcpy", "memmove", "memset"}
STACK = 8192
# The scripts by which `embed/build` builds the library.
BUILDING = ["built", "crates", "need-rt", "processor", "kit", "unproved-library"]
SEED = 20261125
# The empty tree's root is the hash of an empty node: 45, the nonce, the prefix in 32 bytes and its length in 2.
SAMPLE = {
    "ok": "lookup",
    "name": "alice",
    "index": "00" * 32,
    "nonce": "11" * 32,
    "root": hashlib.sha256(b"\x45" + b"\x11" * 32 + bytes(34)).hexdigest(),
    "proof": {"siblings": [], "end": {"kind": "empty"}},
}


def declared(header: str = "".join(HEADERS.values())) -> set[str]:
    return set(re.findall(r"^[a-z0-9_]+ (coniks_[a-z_0-9]+)\(", header, re.M))


@pytest.mark.parametrize("unproved, name", [("", "build"), ("1", "unproved-library")], ids=["proved", "unproved"])
def test_build_without_rt(tmp_path: Path, unproved: str, name: str) -> None:
    """Without `rt` the library isn't built, and the error says in one line what is missing."""
    for it in ("embed/build", "crates.txt", *(f"include/{it}" for it in HEADERS), *(f"scripts/{it}" for it in BUILDING)):
        (tmp_path / it).parent.mkdir(exist_ok=True)
        shutil.copy(TOP / it, tmp_path / it)
    stored = [it for it in os.environ["PATH"].split(os.pathsep) if not (Path(it) / "rt").exists()]
    ran = run(tmp_path / "embed/build", env=os.environ | {"PATH": os.pathsep.join(stored), "CONIKS_UNPROVED": unproved})
    printed = ran.stderr.decode()
    assert ran.returncode == 1 and printed.startswith(f"{name}: rt isn't on the search path") and printed.count("\n") == 1, printed
    assert not list((tmp_path / "embed/out").iterdir()), "nothing is made"


def test_names() -> None:
    lines = run("nm", ARCHIVE).stdout.decode().split("\n")
    requested = {it.split()[-1] for it in lines if " U " in it}
    assert requested <= MAY_ASK, "the archive asks for three functions at most"
    given = {it.split()[-1] for it in lines if re.search(" [TDBRVW] ", it)}
    assert given == declared(), "the archive's names are those of the header"
    exported = run("nm", "-D", "--defined-only", SHARED).stdout.decode().split("\n")
    shared = {it.split()[-1].split("@")[0] for it in exported if " T " in it}
    assert shared == declared(), "the shared object's names are those of the header"


@pytest.mark.parametrize("standard", ["c89", "c99", "c17", "c++98", "c++11", "c++20"])
def test_header(tmp_path: Path, standard: str) -> None:
    """The sizes of types, and a warning of a pointer that must not be NULL."""
    language = standard.rstrip("0123456789")
    if language == "c++":
        needs("a C++ compiler")
    sizes = {
        "coniks_bytes32": 32,
        "coniks_bytes145": 145,
        "coniks_auditor": 80,
        "coniks_body": 152,
        "coniks_stored_entry": 218,
        "coniks_found": 32,
        "coniks_guard_record": 364,
    }
    lines = "".join(f"typedef char is_{name}[sizeof({name}) == {size} ? 1 : -1];\n" for name, size in sizes.items())
    source, words = tmp_path / "header", [CC, *WARNED, f"-std={standard}", "-fsyntax-only", "-x", language]
    source.write_text(f'#include "coniks_core.h"\n#include "coniks_guard.h"\n{lines}')
    ran = run(*words, "-pedantic", source)
    assert ran.returncode == 0, ran.stderr.decode()
    source.write_text('#include "coniks.h"\nvoid f(coniks_body *body) { coniks_body_bytes(body, 0); }\n')
    ran = run(*words, source)
    assert ran.returncode and b"nonnull" in ran.stderr, ran.stderr.decode()


def test_texts() -> None:
    import coniks

    numbers = samples.statuses()
    of_faults = {name: it for name, it in numbers.items() if name not in ("GOOD", "ABSENT", "CHANGED", "NO_EVIDENCE")}
    assert of_faults == {it.name: it.value for it in coniks.Status}, "the header's numbers are Python's"
    wanted = samples.texts()
    assert wanted.keys() == of_faults.keys(), "formats.toml has a text of each fault"
    texts = {of_faults[name]: text for name, text in wanted.items()}
    assert [coniks.text(it) for it in range(70)] == [texts.get(it, "") for it in range(70)]


def test_version() -> None:
    import coniks

    macros = dict(re.findall(r"#define CONIKS_VERSION_(\w+) (\d+)$", HEADER, re.M))
    parts = [int(macros[it]) for it in ["MAJOR", "MINOR", "PATCH"]]
    wanted = 10000 * parts[0] + 100 * parts[1] + parts[2]
    assert coniks._library.coniks_version() == wanted == model.VERSION
    assert f'CONIKS_VERSION "{parts[0]}.{parts[1]}.{parts[2]}"' in HEADER


def test_null() -> None:
    """A pointer whose length is 0 may be NULL."""
    import coniks

    library, state, zeros = coniks._library, coniks._State(), coniks._Bytes32()
    places = [ctypes.byref(ctypes.c_size_t()) for _ in range(2)]
    for what, status, wanted in [
        ("a name", library.coniks_check(zeros, zeros, zeros, None, 0, b"\0\0\0", 3, *places), 3),
        ("a proof", library.coniks_check(zeros, zeros, zeros, b"a", 1, None, 0, *places), 17),
        ("an entry", library.coniks_auditor_feed(state, None, 0, 1), 48),
        ("all of a step", library.coniks_monitor_step(state, zeros, None, 0, None, 0, None, 0, 1, None, 0), 48),
        ("an entry of a body", library.coniks_entry_body(None, 0, coniks._Body()), 48),
        ("an entry of a link", library.coniks_link(None, 0, zeros), 48),
        ("room for a text", library.coniks_text(4, None, 0), len(coniks.text(4))),
    ]:
        assert status == wanted, what


def test_installed(tmp_path: Path) -> None:
    """What is installed, in a folder with a space and moved after, serves the header's line."""
    needs("pkg-config")
    ran = run(EMBED / "install", tmp_path / "first place")
    assert ran.returncode == 0, ran.stderr.decode()
    os.rename(tmp_path / "first place", tmp_path / "another place")
    lib = tmp_path / "another place/lib"
    found = os.environ | {"PKG_CONFIG_PATH": f"{lib}/pkgconfig", "LD_LIBRARY_PATH": str(lib)}
    program = tmp_path / "installed"
    line = f"{CC} '{EMBED}/c/check_lookup.c' -o '{program}' $(pkg-config --cflags --libs coniks) && '{program}'"
    ran = run("sh", "-c", f'eval "{line}"', env=found)
    assert b"check_lookup NONCE" in ran.stderr, ran.stderr.decode()
    version = run("pkg-config", "--modversion", "coniks", env=found).stdout.decode().strip()
    macros = dict(re.findall(r"#define CONIKS_VERSION_(\w+) (\d+)", HEADER))
    assert version == ".".join(macros[it] for it in ["MAJOR", "MINOR", "PATCH"]) and f'CONIKS_VERSION "{version}"' in HEADER
    links = {it.name: os.readlink(it) for it in lib.iterdir() if it.is_symlink()}
    assert links == {"libconiks.so": "libconiks.so.1", "libconiks.so.1": f"libconiks.so.{version}"}


def test_failed_link(tmp_path: Path) -> None:
    """A link that fails leaves what the last build made as it was, and no file of its own."""
    top = tmp_path / "failed link"
    out, linker, archive = top / "embed/out", top / "linker", top / "crates/coniks_c/out/libconiks_c.a"
    for folder in [top / "embed", top / "include", top / "scripts", archive.parent]:
        folder.mkdir(parents=True)
    shutil.copy(EMBED / "build", top / "embed")
    for it in HEADERS:
        shutil.copy(INCLUDE / it, top / "include")
    shutil.copy(ARCHIVE, archive)
    writes_a_part = 'while [ $# -gt 1 ]; do [ "$1" != -o ] || echo part >"$2"; shift; done; exit 1'
    for file, text in [(top / "scripts/built", "exit 0"), (top / "scripts/crates", "exit 0"), (linker, writes_a_part)]:
        file.write_text(f"#!/bin/sh\n{text}\n", "utf-8")
        file.chmod(0o755)
    found: Callable[[], dict[str, bytes]] = lambda: {it.name: it.read_bytes() for it in out.iterdir()}
    ran = run(top / "embed/build", env=os.environ | {"CC": str(linker)})
    assert ran.returncode and not found(), "a first link that fails leaves no file"
    ran = run(top / "embed/build")
    made = found()
    assert ran.returncode == 0 and "libconiks.so" in made, ran.stderr.decode()
    archive.write_bytes(archive.read_bytes() + b"\n")
    ran = run(top / "embed/build", env=os.environ | {"CC": str(linker)})
    assert ran.returncode and found() == made, "a link that fails leaves the files that were there"


def test_check_lookup(tmp_path: Path, keydir: str, lines: Sequence[samples.Line]) -> None:
    """The example in C prints the program's result for each lookup."""
    import coniks

    example = compiled(tmp_path, EMBED / "c/check_lookup.c")
    printed = run(keydir, "check", input="".join(f"{json.dumps(it)}\n" for it in lines).encode()).stdout.splitlines()
    for line, answer in zip(lines, map(json.loads, printed), strict=True):
        ran = run(example, line["nonce"], line["root"], line["index"], line["name"], input=coniks.proof_bytes(line["proof"]))
        wanted = base64.b64decode(answer["key"]).hex() if answer.get("answer") == "key" else answer.get("answer")
        assert (ran.stdout.decode().strip(), ran.returncode) == (wanted, 0), line["name"]
        root = f"{int(line['root'], 16) ^ 1:064x}"
        ran = run(example, line["nonce"], root, line["index"], line["name"], input=coniks.proof_bytes(line["proof"]))
        wanted = "refused (8): the root computed from the proof isn't the expected root\n"
        assert (ran.stdout.decode(), ran.returncode) == (wanted, 1), (line["name"], "another root")


def test_header_line(tmp_path: Path) -> None:
    """The header's line builds and runs a program, over a proof of embed/sample."""
    line = re.search(r"embed/build && (cc .*) && (\./program)$", HEADER, re.M)
    assert line
    (tmp_path / "program.c").write_bytes((EMBED / "c/check_lookup.c").read_bytes())
    given = run(EMBED / "sample", tmp_path / "proof", input=json.dumps(SAMPLE).encode()).stdout.decode()
    built = line[1].replace("program.c", f"{tmp_path}/program.c").replace("-o program", f"-o {tmp_path}/program")
    ran = run("sh", "-c", f"{built} && {tmp_path}/{line[2]} {given.strip()} < {tmp_path}/proof", cwd=TOP)
    assert ran.stdout == b"absent\n", (given, ran.stderr.decode())


def test_audit_signed(tmp_path: Path) -> None:
    needs("the headers of OpenSSL")
    printed = run(compiled(tmp_path, EMBED / "c/audit_signed.c")).stdout.decode()
    assert printed == (EMBED / "c/audit_signed.out").read_text("utf-8")


def test_exports(tmp_path: Path, lines: Sequence[samples.Line], pytestconfig: pytest.Config) -> None:
    """Calls of every export of coniks.h, each argument beside inaccessible pages and under the sanitizers: each result is the model's."""
    driver = compiled(tmp_path, EMBED / "c/guarded.c", "-std=c99", "-O1", "-g", *sanitizers(tmp_path))
    chance, count, called = random.Random(SEED), pytestconfig.getoption("calls"), set[int]()
    for done in range(0, count, 20000):
        calls = [model.some_call(chance, lines) for _ in range(min(count - done, 20000))]
        ran = run(driver, input=b"".join(model.record(*it) for it in calls))
        printed = [it.rstrip() for it in ran.stdout.decode().splitlines()]
        wanted = [model.answer(*it).rstrip() for it in calls for _ in range(2)]
        wrong = [(calls[it // 2], mine, theirs) for it, (mine, theirs) in enumerate(zip(printed, wanted)) if mine != theirs]
        assert ran.returncode == 0 and len(printed) == len(wanted) and not wrong, (ran.stderr.decode()[:2000], wrong[:2])
        called.update(it[0] for it in calls)
    assert called == set(range(len(declared(HEADER)))), "every export is called"


def record_of(question: samples.Question) -> bytes:
    """A question as embed/c/answers.c reads it."""
    given, name, proof = question
    sizes = len(name).to_bytes(4, "big") + len(proof).to_bytes(4, "big")
    return sizes + given["nonce"] + given["root"] + given["index"] + name + proof


def requested(chance: random.Random, program: str, lines: Sequence[samples.Line], count: int) -> list[tuple[bytes, str]]:
    """Random and mutated proofs, each with its result: that of docs/FORMATS.md for bytes that are no proof, else the program's."""
    questions = [samples.mutated(chance, chance.choice(lines)) for _ in range(count)]
    printed = samples.printed_by_program(program, questions)
    wanted = [str(samples.wire_status(it[2]) or "") or theirs or "" for it, theirs in zip(questions, printed, strict=True)]
    return [(record_of(it), answer) for it, answer in zip(questions, wanted)]


def test_answers(tmp_path: Path, keydir: str, lines: Sequence[samples.Line], pytestconfig: pytest.Config, say: Say) -> None:
    """Random and mutated proofs under the compiler's sanitizers: each result is the program's."""
    chance, sanitized = random.Random(SEED), compiled(
        tmp_path, EMBED / "c/answers.c", "-std=c99", "-O1", "-g", *sanitizers(tmp_path)
    )
    reported: dict[str, int] = {}
    count = pytestconfig.getoption("proofs")
    for done in range(0, count, 20000):
        given = requested(chance, keydir, lines, min(count - done, 20000))
        ran = run(sanitized, input=b"".join(record for record, _ in given))
        printed = ran.stdout.decode().splitlines()
        assert (ran.returncode, len(printed)) == (0, len(given)), ran.stderr.decode()[:2000]
        wrong = [it for it, mine in zip(given, printed) if it[1] not in ("", mine)]
        assert not wrong, wrong[:3]
        for it in printed:
            reported[it.split()[0]] = reported.get(it.split()[0], 0) + 1
    say(f"statuses of {count} proofs: " + ", ".join(f"{it} {reported[it]}" for it in sorted(reported, key=int)))


def test_answers_under_valgrind(tmp_path: Path, keydir: str, lines: Sequence[samples.Line]) -> None:
    needs("valgrind")
    plain = compiled(tmp_path, EMBED / "c/answers.c", "-std=c99", "-O1", "-g")
    given = requested(random.Random(SEED), keydir, lines, 1000)
    ran = run("valgrind", "-q", "--error-exitcode=9", plain, input=b"".join(record for record, _ in given))
    printed = ran.stdout.decode().splitlines()
    assert (ran.returncode, len(printed)) == (0, len(given)), ran.stderr.decode()[:2000]
    assert not [it for it, mine in zip(given, printed) if it[1] not in ("", mine)]


def test_stack(tmp_path: Path, say: Say) -> None:
    """A check takes at most 8,192 bytes of stack."""
    printed = run(compiled(tmp_path, EMBED / "c/stack.c", "-std=c11", "-O2")).stdout.decode()
    taken = [int(it) for it in re.findall(r": (\d+) bytes", printed)]
    assert len(taken) == 3 and max(taken) <= STACK, printed
    for line in printed.splitlines():
        say(line)
