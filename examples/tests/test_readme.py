"""Runs the commands of the README, in a copy of what git knows, over programs that are built already, and the first code of
docs/GUIDE.md.

Each `sh` block is run, on other ports, and each code span that begins with `./`. The `text` block after a block is its output, in
which `..` matches any text, and a line `..` any lines. A command or a block without one must end with status 0. Commands that prove
are not run.
"""

from __future__ import annotations

import json
import re
import shutil
import socket
import subprocess
import sys
import tempfile
import textwrap
from pathlib import Path
from typing import Iterator, NamedTuple, Optional

import pytest

import tools
from checkouts import ARCHIVE, TOP, copied, put_archive, put_program

README = (TOP / "README.md").read_text("utf-8")
BLOCK = re.compile(r"^```(\w+)\n(.*?)^```$", re.M | re.S)
SPAN = re.compile(r"`(\./[^`]+)`")

# They prove, compile for a minute, or are what runs this script.
NOT_RUN = ["./gate", "./keydir --unproved"]

# The ports of the directory and of the auditors, each with the text that has it.
PORTS = ["127.0.0.1:8080", "127.0.0.1:8081", "127.0.0.1:8082"]

# The code of docs/GUIDE.md is indented. These sections make a directory and open it, with the code of GIVEN before them.
INDENTED = re.compile(r"(?:^    .*\n|^\n(?=    ))+", re.M)
SECTIONS = ["Indices from a VRF", "Signing keys", "The policy", "Batches and epochs"]
GIVEN = """
import sys; sys.path[:0] = ["embed/python/src", "examples/provider"]
import ecvrf as vrf, nacl.signing, secrets, time
secret_key, signing_key = secrets.token_bytes(32), nacl.signing.SigningKey.generate()
vrf_public_key, key, other_key, new_key = vrf.public_key(secret_key), b"1", b"2", b"3"
now = time.time
def verify(body, signature): return signing_key.verify_key.verify(body, signature) == body
def publish(document): pass
"""
NEXT_EPOCH = "time.time = lambda: now() + 3600\n"


class Block(NamedTuple):
    """A block of the README, and its output."""

    text: str
    output: str


FOUND = BLOCK.findall(README)
BLOCKS = [Block(text, FOUND[it + 1][1]) for it, (language, text) in enumerate(FOUND) if language == "sh"]


def pattern_of(text: str) -> str:
    """The pattern of an output in which `..` matches any text."""
    lines = ["(?:.*\n)*" if it == ".." else ".*".join(map(re.escape, it.split(".."))) + "\n" for it in text.splitlines()]
    return "".join(lines)


def run(room: Path, language: str, text: str) -> subprocess.CompletedProcess[str]:
    words = ["bash", "-c", text] if language == "sh" else [tools.python_for("signatures") or sys.executable, "-c", text]
    return subprocess.run(words, cwd=room, capture_output=True, text=True, timeout=600)


def check(room: Path, language: str, text: str, output: Optional[str]) -> None:
    """Runs commands. Their output is compared if it is given. The status must be 0."""
    ran = run(room, language, text)
    is_well = output is None or re.fullmatch(pattern_of(output), ran.stdout)
    assert is_well and ran.returncode == 0, f"status {ran.returncode}\n{ran.stdout[-2000:]}{ran.stderr[-2000:]}"


@pytest.fixture(scope="module")
def room(keydir: str, program: str) -> Iterator[Path]:
    """A copy of the checkout in which both programs are built, and the archive of the library for C if it is."""
    with tempfile.TemporaryDirectory() as folder:
        room = Path(folder)
        copied(room)
        for words in ["init --quiet", "add --all", "-c user.name=test -c user.email=test commit --quiet --message=copied"]:
            subprocess.run(["git", *words.split()], cwd=room, check=True)
        put_program(room, "keydir", Path(keydir))
        put_program(room, "provider", Path(program))
        put_archive(room)
        yield room


def needs_archive(room: Path) -> None:
    if not (room / ARCHIVE).is_file():
        pytest.skip("the archive of coniks_c is missing")


def first_line(block: Block) -> str:
    return block.text.splitlines()[0]


def free() -> str:
    """An address with a port that is free now."""
    with socket.socket() as it:
        it.bind(("127.0.0.1", 0))
        return f"127.0.0.1:{it.getsockname()[1]}"


def with_other_ports(text: str) -> str:
    """The block with ports that are free, and which ends what it has started."""
    directory, *auditors = (free() for _ in PORTS)
    assert text.count(PORTS[0]) == 1 and "--listen 127.0.0.1:808$n" in text and "--tokens tokens 2>" in text
    text = text.replace("--tokens tokens 2>", f"--tokens tokens --listen {directory} 2>").replace(PORTS[0], directory)
    text = text.replace("--listen 127.0.0.1:808$n", f"--listen $(cut -d ' ' -f $n <<< '{' '.join(auditors)}')")
    for port, other in zip(PORTS[1:], auditors):
        assert text.count(port) == 1
        text = text.replace(port, other)
    return f"set -e\ntrap 'kill $(jobs -p)' EXIT\n{text}"


@pytest.mark.parametrize("block", BLOCKS, ids=[it.text.splitlines()[0] for it in BLOCKS])
def test_block(packages: None, room: Path, block: Block) -> None:
    """The first screen makes a directory that runs, two auditors that cosign one head, and a client that relies on both."""
    if not tools.has("a C compiler"):
        pytest.skip("a C compiler is missing")
    needs_archive(room)
    check(room, "sh", with_other_ports(block.text), block.output)
    made = room / "directory"
    assert len([it for it in (made / "names.log").read_text("utf-8").splitlines() if '"cmd":"install"' in it]) >= 2
    notes = [(made / f"audit{n}/note").read_text("utf-8").split("\n\n") for n in (1, 2)]
    assert all(f"audit{n}.example.org" in cosigned for n, (_, cosigned) in enumerate(notes, 1))
    assert len({text.splitlines()[0] for text, _ in notes}) == 1, "both are of one directory and policy"
    assert not [it for n in (1, 2) if (it := made / f"audit{n}/alarm").exists()]
    reported = [json.loads(it) for it in (made / "service.log").read_text("utf-8").splitlines()]
    assert "serving" in [it["event"] for it in reported]


@pytest.mark.parametrize("span", [it for it in SPAN.findall(README) if it not in NOT_RUN])
def test_span(room: Path, span: str) -> None:
    check(room, "sh", span, None)


def code_of(section: str) -> list[str]:
    """The blocks of a section of docs/GUIDE.md."""
    text = (TOP / "docs/GUIDE.md").read_text("utf-8").partition(f"\n## {section}\n")[2].partition("\n## ")[0]
    return [textwrap.dedent(it).strip() + "\n" for it in INDENTED.findall(text)]


def test_guide(room: Path) -> None:
    """A reader of docs/GUIDE.md who runs each block gets a directory, and commits at the next epoch."""
    if not tools.has("PyNaCl"):
        pytest.skip("PyNaCl is missing")
    needs_archive(room)
    check(room, "sh", "embed/build", None)
    *before, opens = [it for section in SECTIONS for it in code_of(section)]
    for it in room.glob("names.*"):
        it.unlink()
    text = "".join(
        [GIVEN, *before, NEXT_EPOCH, opens, "print([*coniks.provider.entries(FileLog('names.log'))][1:] == [made.entry])\n"]
    )
    ran = run(room, "python", text)
    assert ran.returncode == 0 and ran.stdout == "True\n", ran.stdout + ran.stderr[-2000:]
    again = run(room, "python", "".join([GIVEN, *before]))
    assert again.returncode != 0 and "coniks.guard.BodyRefused" in again.stderr, "a directory is made once"


def test_leaves_nothing(room: Path) -> None:
    """What the commands left in the checkout is ignored by git."""
    left = subprocess.run(["git", "status", "--porcelain"], cwd=room, capture_output=True, text=True, check=True)
    assert left.stdout == "", left.stdout


def test_first_screen() -> None:
    """The first block is the first screen: what it says is a directory, auditors and a client."""
    assert len(BLOCKS) == 1 and FOUND[1][0] == "text" and README.index(BLOCKS[0].text) < 1500
    assert all(it in BLOCKS[0].text for it in ("serve run", "coniks-audit", "coniks-client lookup"))
    assert len(README.split()) <= 900


def test_toolchain() -> None:
    """The README names the toolchain that is here."""
    if not shutil.which("rt"):
        pytest.skip("rt is missing")
    printed = subprocess.run(["rt", "version"], capture_output=True, text=True).stdout.strip()
    assert f"`{printed}`" in README
