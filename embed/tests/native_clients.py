"""How the client in C is compiled, and what the examples of the clients in C and Rust print."""

from __future__ import annotations

import json
from dataclasses import dataclass
from pathlib import Path
from typing import Any, Sequence, Union

import tools
from running import ARCHIVE, EMBED, INCLUDE, TOP, run

CASES = TOP / "cases/client"
WARNED = ["-std=c99", "-Wall", "-Wextra", "-Wpedantic", "-Wconversion", "-Wshadow", "-Werror", f"-I{INCLUDE}"]
PROGRAMS = ["client_answers", "client_calls", "client_lookup"]
# The lookup of which status is refused as too old, by the clock of the machine.
STALE = "the latest epoch is too old by the policy's clock: feed a catch-up, or alarm"

Word = Union[str, Path]


@dataclass(frozen=True)
class Machine:
    """A compiler for a machine, and the libraries for it."""

    compiler: str = tools.CC
    libraries: Sequence[Word] = (ARCHIVE, "-lsodium")


def compiled(room: Path, name: str, *more: str, machine: Machine = Machine()) -> Path:
    """A program over the client, which compiles without a warning."""
    sources = [it for it in sorted((EMBED / "c").glob("client*.c")) if it.stem not in PROGRAMS]
    program = room / name
    ran = run(machine.compiler, *WARNED, *more, EMBED / f"c/{name}.c", *sources, "-o", program, *machine.libraries)
    assert ran.returncode == 0, ran.stderr.decode()[-3000:]
    return program


def looked_up() -> list[tuple[dict[str, Any], dict[str, Any]]]:
    """Cases of which the second step is a lookup that is accepted, with what it gives: a key, and none."""
    found: dict[bool, tuple[dict[str, Any], dict[str, Any]]] = {}
    for file in sorted(CASES.glob("*.jsonl")):
        for case in map(json.loads, file.read_text("utf-8").splitlines()):
            kinds, gives = [it["do"] for it in case["steps"][:2]], case["gives"]["steps"][1:2]
            if kinds == ["feed", "lookup"] and gives and "first_seen" in gives[0] and not case.get("state"):
                found.setdefault(gives[0]["key"] is None, (case, gives[0]))
    return list(found.values())


def check_example(program: Path, room: Path) -> None:
    """The example prints the key of a case, or that there is none, and refuses what is too old or of another key."""
    chosen = looked_up()
    assert len(chosen) == 2, "cases with a key and without"
    for case, gives in chosen:
        fed, requested = case["steps"][:2]
        parts = {"policy": case["policy"].encode(), "catch-up": bytes.fromhex("".join(fed["entries"]))}
        for file, content in (parts | {"reply": bytes.fromhex(requested["reply"])}).items():
            (room / file).write_bytes(content)
        shown = bytes.fromhex(requested["name"]).decode()
        words: list[Word] = [case["signing_key"], case["vrf_key"], room / "policy", room / "catch-up", shown, room / "reply"]
        ran = run(program, *words, str(gives["epoch"]))
        wanted = "absent" if gives["key"] is None else gives["key"]
        assert (ran.stdout.decode(), ran.returncode) == (f"{wanted}\n", 0), case["name"]
        ran = run(program, *words)
        assert STALE in (ran.stdout + ran.stderr).decode() and ran.returncode == 1, (case["name"], "now")
        ran = run(program, *words[1:2], *words[1:], str(gives["epoch"]))
        assert b"policy" in ran.stdout + ran.stderr and ran.returncode == 1, (case["name"], "under another key")
