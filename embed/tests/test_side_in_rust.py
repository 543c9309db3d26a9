"""The side in Rust: its tests, its example, its replies, and what its compiler warns of."""

from __future__ import annotations

import os
from pathlib import Path
from typing import Any, Sequence

import native_clients
import pytest
import samples
import tools
from running import needs, run
from sides import Request, check_example, check_requests, example_of

# Statements that drop what they return. The compiler warns of each.
DROPPED = [
    "coniks::version();",
    "coniks::text(4, &mut [0; 128]);",
    'coniks::check(&zeros, &zeros, &zeros, b"", b"");',
    'coniks::convicts(b"", b"");',
    'coniks::link(b"");',
    "coniks::Auditor::new();",
    "coniks::Auditor::resume([0; 80]);",
    "auditor.clone();",
    "auditor.state();",
    "auditor.head();",
    'auditor.feed(b"", false);',
    'monitor.step(b"", false, b"")?;',
    "body.bytes();",
]
DROPPED_OF_CLIENTS = [
    "client.missing();",
    "client.head();",
    "client.entries();",
    "client.state();",
    "client.compare(head);",
    "client.cover(head);",
    'client.evidence(b"");',
    "client.feed([[0; 209]]);",
    'client.feed_catch_up(b"");',
    'client.watch("alice", None, None);',
    "client.expect(None, 7);",
    'client.history("alice", b"");',
    'client.lookup("alice", b"", None).unwrap();',
    "policy.digest();",
    "policy.epoch_at(7);",
]


def check_dropped(here: Path, features: Sequence[str]) -> None:
    """The compiler warns if a result is dropped that must be looked at."""
    room = here / "rust/examples/dropped.rs"
    given, dropped = "auditor: &mut coniks::Auditor, monitor: &mut coniks::Monitor, body: &coniks::Body", DROPPED
    if features:
        given += ", client: &mut coniks::client::Client, policy: &coniks::client::Policy, head: &coniks::Head"
        dropped = DROPPED + DROPPED_OF_CLIENTS
    lines = [f"fn f({given}) -> Result<(), coniks::Error> {{", "let zeros = [0; 32];", *dropped, "Ok(())", "}"]
    room.write_text("\n".join([*lines, "fn main() { let _ = f; }", ""]), "utf-8")
    words = ["cargo", "check", "--offline", *features, "--example", "dropped", "--message-format", "short"]
    ran = run(*words, cwd=here / "rust")
    printed = [it for it in ran.stderr.decode().splitlines() if "dropped.rs:" in it and "unused" in it]
    # One line may have several warnings.
    warned = list(dict.fromkeys(lines[int(it.split(":")[1]) - 1] for it in printed))
    assert warned == dropped, ("each dropped result is warned of", (set(dropped) - set(warned), ran.stderr.decode()[-2000:]))
    room.unlink()


@pytest.fixture(autouse=True)
def _tools() -> None:
    needs("cargo", "a C compiler")


def features() -> list[list[str]]:
    """The choices of features that can be built here."""
    return [[], ["--features", "client"]] if tools.has("libsodium") else [[]]


def cargo(here: Path, *words: str) -> None:
    ran = run("cargo", words[0], "--offline", *words[1:], cwd=here / "rust", env=os.environ | {"RUSTFLAGS": "-Dwarnings"})
    assert ran.returncode == 0, (ran.stdout + ran.stderr).decode()[-3000:]


@pytest.mark.parametrize("edition, needed", [("2024", "1.85"), ("2021", "1.82")])
def test_package(here: Path, edition: str, needed: str) -> None:
    manifest = here / "rust/Cargo.toml"
    as_it_is = manifest.read_text("utf-8")
    manifest.write_text(as_it_is.replace('"2021"', f'"{edition}"').replace('"1.82"', f'"{needed}"'))
    try:
        for chosen in features():
            cargo(here, "test", *chosen, "--examples", "--lib", "--tests")
    finally:
        manifest.write_text(as_it_is)


@pytest.fixture(scope="module")
def built(here: Path) -> Path:
    """The examples, with as many features as can be built here."""
    for chosen in features():
        cargo(here, "build", *chosen, "--examples")
    return here / "rust/target/debug/examples"


def test_client_example(built: Path, tmp_path: Path) -> None:
    needs("libsodium")
    native_clients.check_example(built / "client", tmp_path)


def test_dropped(here: Path) -> None:
    check_dropped(here, features()[-1])


def test_requests(built: Path, requests: Sequence[Request]) -> None:
    check_requests([built / "answers"], requests)


def test_example(built: Path, lines: Sequence[samples.Line]) -> None:
    check_example(built / "example", *example_of(lines))
