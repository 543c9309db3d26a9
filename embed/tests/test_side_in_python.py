"""The side in Python: the package as pip installs it, with the environment's variables left out, and its replies."""

from __future__ import annotations

import os
import re
import shutil
import sys
from pathlib import Path
from typing import Sequence

import coniks
import pytest
import tools
from running import TOP, needs, run
from sides import Request, check_requests, header_version


def installed(python: Path, package: Path, env: dict[str, str]) -> tuple[int, str]:
    """The status and the output of pip, which installs the package into an environment."""
    ran = run(python.parent / "pip", "install", "--no-build-isolation", "--no-index", package, env=env)
    return ran.returncode, (ran.stdout + ran.stderr).decode()


@pytest.fixture(scope="module")
def venv(here: Path) -> Path:
    """An environment with the package, which pip has installed. That leaves nothing in the checkout."""
    needs("pip")
    maker = tools.python_for("packages")
    assert maker
    python, before = here / "venv/bin/python3", sorted(here.glob("python/**/*"))
    ran = run(maker, "-m", "venv", "--system-site-packages", here / "venv")
    assert ran.returncode == 0, ran.stderr.decode()
    writing = {it: value for it, value in os.environ.items() if it not in ("PYTHONDONTWRITEBYTECODE", "PYTHONPATH")}
    status, printed = installed(python, here / "python", writing)
    assert status == 0, printed[-2000:]
    assert sorted(here.glob("python/**/*")) == before
    return python


def bare(**more: str) -> dict[str, str]:
    """The environment's variables without those that name a library or folders of modules."""
    return {it: value for it, value in os.environ.items() if it not in ("CONIKS_LIBRARY", "PYTHONPATH")} | more


def test_exports() -> None:
    assert coniks.__version__ == header_version()
    assert all(hasattr(coniks, it) for it in coniks.__all__)


def test_requests(here: Path, requests: Sequence[Request]) -> None:
    check_requests([sys.executable, here / "python/answers.py"], requests, env=bare(PYTHONPATH=str(here / "python/src")))


def test_audit(venv: Path, tmp_path: Path) -> None:
    """The package installs the commands coniks-audit and coniks-client."""
    needs("PyNaCl")
    assert b"COMMAND" in run(venv.parent / "coniks-client", "--help", env=bare()).stdout
    ran = run(venv.parent / "coniks-audit", "--name", "audit.example.org", "--new-key", tmp_path / "key", env=bare())
    assert ran.returncode == 0 and ran.stdout.startswith(b"audit.example.org+"), ran.stderr.decode()


def test_metadata(venv: Path) -> None:
    """What is installed has the licence, and its long description has no link into the checkout."""
    folders = list(venv.parents[1].glob("lib/python*/site-packages/coniks-*.dist-info"))
    licences = [it.read_bytes() for folder in folders for it in folder.rglob("LICENSE")]
    assert licences == [(TOP / "LICENSE").read_bytes()], folders
    metadata = "".join((it / "METADATA").read_text("utf-8") for it in folders)
    links = [it for it in re.findall(r"\]\(([^)]*)\)", metadata) if not it.startswith("https://")]
    assert "# coniks for Python" in metadata and not links


def test_bare_environment(here: Path) -> None:
    """An environment without setuptools or wheel: an error that names the missing package, and no traceback."""
    needs("pip")
    maker = tools.python_for("packages")
    assert maker
    python = here / "bare/bin/python3"
    ran = run(maker, "-m", "venv", here / "bare")
    assert ran.returncode == 0, ran.stderr.decode()
    for name in ["wheel", "setuptools"]:
        run(python.parent / "pip", "uninstall", "-y", name)
        status, printed = installed(python, here / "python", bare())
        assert status and re.search("the package (setuptools|wheel) is missing: install it", printed), printed[-2000:]
        assert "Traceback" not in printed


def test_installed_requests(venv: Path, here: Path, tmp_path: Path, requests: Sequence[Request]) -> None:
    """The installed package replies alike from another folder, without the library that was built beside it."""
    shutil.copy(here / "python/answers.py", tmp_path)
    (here / "out").rename(here / "elsewhere")
    try:
        check_requests([venv, tmp_path / "answers.py"], requests, env=bare(), cwd=tmp_path)
        ran = run(venv, "-c", "import coniks.provider", env=bare(), cwd=tmp_path)
        assert ran.returncode == 0, ran.stderr.decode()
    finally:
        (here / "elsewhere").rename(here / "out")


def test_types(here: Path, tmp_path: Path) -> None:
    needs("mypy", "psycopg")
    python = tools.python_for("databases")
    assert python
    words = ["mypy", "--strict", "--python-executable", python]
    ran = run(*words, here / "python/src/coniks", cwd=tmp_path, env=bare())
    assert ran.returncode == 0, ran.stdout.decode()
