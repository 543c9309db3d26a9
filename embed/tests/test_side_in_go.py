"""The side in Go: its tests, its example, and its replies."""

from __future__ import annotations

from pathlib import Path
from textwrap import indent
from typing import Sequence

import pytest
from running import TOP, needs, run
from sides import Request, check_example, check_requests, go_environment, signed_example


@pytest.fixture(autouse=True)
def _tools() -> None:
    needs("go", "a C compiler")


def go(here: Path, *words: str) -> None:
    ran = run("go", *words, cwd=here / "go", env=go_environment(here))
    assert ran.returncode == 0, (ran.stdout + ran.stderr).decode()[-2000:]


def test_vet(here: Path) -> None:
    go(here, "vet", "./...")


def test_package(here: Path) -> None:
    """The package's tests. Its policies are the examples of docs/FORMATS.md."""
    page = (TOP / "docs/FORMATS.md").read_text("utf-8")
    for file in ("policy.txt", "vouched_policy.txt", "ending_policy.txt", "next_policy.txt", "succession.txt"):
        assert indent((here / "go/testdata" / file).read_text("utf-8"), " " * 4) in page
    go(here, "test", "./...")


def test_requests(here: Path, tmp_path: Path, requests: Sequence[Request]) -> None:
    go(here, "build", "-o", str(tmp_path / "answers"), "./internal/answers")
    check_requests([tmp_path / "answers"], requests)


def test_example(here: Path, tmp_path: Path) -> None:
    go(here, "build", "-o", str(tmp_path / "example"), "./example")
    check_example(tmp_path / "example", *signed_example())
