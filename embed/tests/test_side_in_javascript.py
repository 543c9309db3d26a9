"""The side in JavaScript: the module for web projects, its files, its types, and its replies."""

from __future__ import annotations

import json
import os
import shutil
import sys
from pathlib import Path
from typing import Sequence

import pytest
from running import TOP, needs, run
from sides import Request, check_requests, header_version


def test_build_without_rt(tmp_path: Path) -> None:
    """Without `rt` the module isn't built, and the error says what is missing."""
    shutil.copytree(TOP / "web", tmp_path / "web", ignore=shutil.ignore_patterns("out"))
    (tmp_path / "scripts").mkdir()
    for it in ("built", "need-rt"):
        shutil.copy(TOP / "scripts" / it, tmp_path / "scripts")
    stored = [it for it in os.environ["PATH"].split(os.pathsep) if not (Path(it) / "rt").exists()]
    ran = run(sys.executable, tmp_path / "web/build", env=os.environ | {"PATH": os.pathsep.join(stored)})
    printed = ran.stderr.decode()
    assert ran.returncode == 1 and printed.startswith("build: rt isn't on the search path") and printed.count("\n") == 1, printed
    assert not list((tmp_path / "web/out").iterdir()) and not (tmp_path / "out").exists()


@pytest.mark.usefixtures("module")
def test_files() -> None:
    """The version of the module, and its files."""
    named = json.loads((TOP / "web/out/package.json").read_text("utf-8"))
    assert named["version"] == header_version()
    assert all((TOP / "web/out" / it).is_file() for it in named["files"]), named


@pytest.mark.usefixtures("module")
def test_types() -> None:
    needs("tsc")
    ran = run("tsc", "--project", TOP / "web")
    assert ran.returncode == 0, ran.stdout.decode()


@pytest.mark.usefixtures("module")
def test_requests(requests: Sequence[Request]) -> None:
    needs("node")
    check_requests(["node", TOP / "web/answers.mjs"], requests)
