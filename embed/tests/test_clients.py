"""The clients in Go, Rust, JavaScript, C and Java: all cases of cases/client, and random alterations and walks beside the second
implementation."""

from __future__ import annotations

import os
import shlex
import subprocess
from dataclasses import dataclass
from pathlib import Path
from typing import Callable, Sequence, Union

import client_sides
import java_clients
import native_clients
import pytest
from running import EMBED, TOP, Say, needs

Command = list[str]


def run(words: Sequence[Union[str, Path]], home: Path, **environment: str) -> None:
    """Runs a command in a folder."""
    ran = subprocess.run([str(it) for it in words], cwd=home, capture_output=True, text=True, env=os.environ | environment)
    assert ran.returncode == 0, (ran.stdout + ran.stderr)[-2000:]


def in_go(room: Path) -> Command:
    words: list[Union[str, Path]] = ["go", "build", "-modfile", "debian.mod", "-o", room / "in_go", "./internal/answers"]
    run(words, EMBED / "go/client", GOCACHE=str(room / "cache"), GOFLAGS="", GOPROXY="off")
    return [str(room / "in_go")]


def in_rust(room: Path) -> Command:
    words = ["cargo", "build", "--offline", "--release", "--features", "client", "--example", "client_answers"]
    run(words, EMBED / "rust", CARGO_TARGET_DIR=str(room / "target"))
    return [str(room / "target/release/examples/client_answers")]


def in_javascript(_room: Path) -> Command:
    return ["node", str(TOP / "web/client_answers.mjs")]


def in_c(room: Path) -> Command:
    return [str(native_clients.compiled(room, "client_answers", "-O2"))]


@dataclass(frozen=True)
class Language:
    """The tools that a language's program needs, what builds it, what it is built from, and other arguments under which it passes
    the cases."""

    tools: Sequence[str]
    build: Callable[[Path], Command]
    over: str = "embedded"
    also: Sequence[str] = ()


LANGUAGES = {
    "Go": Language(["go", "a C compiler", "edwards25519 for Go"], in_go),
    "Rust": Language(["cargo", "a C compiler", "libsodium"], in_rust),
    "JavaScript": Language(["node", "wasm-opt"], in_javascript, "module"),
    "C": Language(["a C compiler", "libsodium"], in_c, also=["refusing"]),
    "Java": Language(["javac", "a C compiler", "libsodium"], java_clients.answers),
}


def numbers(config: pytest.Config) -> tuple[int, int]:
    """How many alterations, and from which seed."""
    return config.getoption("alterations"), config.getoption("seed")


def pytest_generate_tests(metafunc: pytest.Metafunc) -> None:
    """Each language, or the program that `--client` names."""
    if "what" in metafunc.fixturenames:
        named = metafunc.config.getoption("client")
        metafunc.parametrize("what", [named] if named else list(LANGUAGES))


def test_client(tmp_path: Path, what: str, request: pytest.FixtureRequest, say: Say) -> None:
    if what not in LANGUAGES:
        return client_sides.check_program(what, shlex.split(what), *numbers(request.config), say)
    language = LANGUAGES[what]
    needs(*language.tools)
    request.getfixturevalue(language.over)
    words = language.build(tmp_path)
    client_sides.check_program(what, words, *numbers(request.config), say)
    for more in language.also:
        client_sides.check_program(f"{what}, {more}", [*words, more], 0, 1, say)
