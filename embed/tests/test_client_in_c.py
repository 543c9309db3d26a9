"""The client in C: its calls, its example, and its cases under the sanitizers and under valgrind."""

from __future__ import annotations

import re
from pathlib import Path

import client_sides
import pytest
from native_clients import PROGRAMS, check_example, compiled
from running import EMBED, Say, needs, run, sanitizers

pytestmark = pytest.mark.usefixtures("embedded")


@pytest.fixture(autouse=True)
def _tools() -> None:
    needs("libsodium")


def check_calls(program: Path) -> None:
    ran = run(program)
    assert ran.returncode == 0 and not ran.stdout, (ran.stdout + ran.stderr).decode()[-2000:]


def test_calls(tmp_path: Path) -> None:
    check_calls(compiled(tmp_path, "client_calls", "-O2"))


def test_calls_under_sanitizers(tmp_path: Path) -> None:
    check_calls(compiled(tmp_path, "client_calls", "-g", "-O1", *sanitizers(tmp_path)))


def test_verdicts() -> None:
    """The core is given verdicts that one file makes. The others pass them on."""
    sources = {it.name: it.read_text("utf-8") for it in (EMBED / "c").glob("client*.c") if it.stem not in PROGRAMS}

    def having(text: str) -> list[str]:
        return sorted(name for name, source in sources.items() if re.search(text, source))

    assert having(r"->(verify|index)\(") == ["client_verdicts.c"]
    assert having(r"(client_is_signature|client_verify_vrf)\(") == ["client_ecvrf.c", "client_schemes.c"]
    others = "".join(source for name, source in sources.items() if name != "client_verdicts.c")
    # `{0}` is no verdict yet.
    made = re.findall(r"\b(?:verdicts(?:\[\w+\]|\.\w+)?|is_signed|parts\.signature) =(?!\s*\{0\})\s*([^;]*);", others)
    assert made and all(re.match(r"client_(signature|index|succession)_verdict\(|verify_reply\(", it) for it in made), made


def test_example(tmp_path: Path) -> None:
    check_example(compiled(tmp_path, "client_lookup", "-O2"), tmp_path)


def test_cases_under_sanitizers(tmp_path: Path, say: Say) -> None:
    program = compiled(tmp_path, "client_answers", "-g", "-O1", *sanitizers(tmp_path))
    client_sides.check_program("C, under sanitizers", [str(program)], 20, 1, say)


def test_cases_under_valgrind(tmp_path: Path, say: Say) -> None:
    needs("valgrind")
    words = ["valgrind", "-q", "--error-exitcode=9", "--leak-check=full", "--errors-for-leak-kinds=all"]
    client_sides.check_program("C, under valgrind", [*words, str(compiled(tmp_path, "client_answers", "-O2"))], 10, 2, say)
