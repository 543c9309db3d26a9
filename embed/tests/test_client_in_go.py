"""The client in Go, a module of its own over Debian's copy of the package for curves: its tests and its example. Its cases are in
test_clients.py."""

from __future__ import annotations

import json
from pathlib import Path

import pytest
from running import TOP, needs, run
from sides import go_environment

# A function that copies a client, which go vet finds.
COPY_IN_GO = "package client\n\nfunc both(it *Client) (Client, *Client) { return *it, it }\n"


@pytest.fixture(autouse=True)
def _tools() -> None:
    needs("go", "a C compiler", "edwards25519 for Go")


def go(here: Path, *words: str, **environment: str) -> None:
    """Runs a command of Go in the client's folder."""
    ran = run("go", words[0], "-modfile=debian.mod", *words[1:], cwd=here / "go/client", env=go_environment(here) | environment)
    assert ran.returncode == 0, (ran.stdout + ran.stderr).decode()[-2000:]


def test_vet(here: Path) -> None:
    go(here, "vet", "./...")


def test_package(here: Path, program: str, tmp_path: Path) -> None:
    """The package's tests, over what the provider in Python returns."""
    needs("PyNaCl")
    import messages

    messages.write(program, tmp_path / "messages.json")
    go(here, "test", "-bench=.", "./...", CONIKS_MESSAGES=str(tmp_path / "messages.json"))


def test_copies(here: Path) -> None:
    """`debian.mod` is `go.mod` with Debian's copy, and go vet finds a copy of a client."""
    module = here / "go/client"
    same = [(module / it).read_text("utf-8").split("\n\nreplace filippo")[0].strip() for it in ("go.mod", "debian.mod")]
    assert same[0] == same[1]
    file = module / "copies.go"
    file.write_text(COPY_IN_GO, "utf-8")
    ran = run("go", "vet", "-modfile=debian.mod", ".", cwd=module, env=go_environment(here))
    file.unlink()
    assert b"copies lock value" in ran.stderr, ran.stderr.decode()[-2000:]


def test_example(here: Path, tmp_path: Path) -> None:
    """The example looks alice up in the directory of docs/FORMATS.md, whose latest epoch is too old for a lookup without its number."""
    program, data = tmp_path / "go_client_example", here / "go/testdata"
    go(here, "build", "-o", str(program), "./example")
    wanted = json.loads((data / "messages.json").read_text("utf-8"))
    formats, stored = ("".join(it.read_text("utf-8").split()) for it in (TOP / "docs/FORMATS.md", TOP / "docs/STORED.md"))
    assert wanted["reply"] in formats and wanted["history"] in formats, "messages.json has the examples of docs/FORMATS.md"
    assert wanted["state"] in stored, "messages.json has the example of docs/STORED.md"
    vectors = (TOP / "examples/provider/vectors.json", here / "go/client/testdata/vectors.json")
    assert vectors[0].read_bytes() == vectors[1].read_bytes()
    files = {it: tmp_path / f"{it}.bytes" for it in ("catch-up", "later", "reply", "other")}
    texts = ["".join(wanted["entries"]), "", wanted["reply"], wanted["reply"][:-2] + "6c"]
    for file, digits in zip(files.values(), texts):
        file.write_bytes(bytes.fromhex(digits))
    words = [data / "policy.txt", tmp_path / "client.state"]

    def reported(catch_up: str, name: str, reply: str, *epoch: str) -> tuple[int, str]:
        ran = run(program, *words, files[catch_up], name, files[reply], *epoch)
        return ran.returncode, (ran.stdout or ran.stderr).decode().split(":")[0].strip()

    assert reported("catch-up", "alice", "reply", "2") == (0, b"k".hex())
    assert reported("later", "alice", "reply", "2") == (0, b"k".hex()), "from its state"
    assert reported("later", "alice", "reply") == (1, "the latest epoch is too old by the policy's clock")
    assert reported("later", "alice", "other", "2") == (1, "the root computed from the proof isn't the expected root")
