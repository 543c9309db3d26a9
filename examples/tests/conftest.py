"""What the tests of examples/service share."""

from __future__ import annotations

from pathlib import Path
from typing import Iterator

import pytest

import tools


@pytest.fixture(scope="session")
def packages() -> None:
    """Skips a test without the packages of the service."""
    for tool in ["PyNaCl", "aiohttp", "prometheus_client"]:
        if not tools.has(tool):
            pytest.skip(f"{tool} is missing")


@pytest.fixture(scope="module")
def service(
    packages: None, program: str, request: pytest.FixtureRequest, tmp_path_factory: pytest.TempPathFactory
) -> Iterator[object]:
    """A service that the tests of a module share. It has an epoch each second, and the patience and the policy that the module says."""
    from services import Running

    running = Running(tmp_path_factory.mktemp("service"), program)
    running.make(*getattr(request.module, "POLICY", ()))
    running.start(
        "--rate", "100000", "--patience", getattr(request.module, "PATIENCE", "600"), "--connections", "300", "--recent", "100000"
    )
    yield running
    assert running.end() == 0, running.errors.read_text()[-3000:]


@pytest.fixture
def other(packages: None, program: str, tmp_path: Path) -> Iterator[object]:
    """A service of a test's own, made and not yet started."""
    from services import Running

    running = Running(tmp_path, program)
    running.make()
    yield running
    running.process.kill()
    running.process.wait()
