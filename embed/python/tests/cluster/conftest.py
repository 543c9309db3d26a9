"""What the tests of `coniks.postgres` and `coniks.replica` share: a private PostgreSQL, and that each thread ends."""

from __future__ import annotations

import tempfile
import threading
from pathlib import Path
from typing import TYPE_CHECKING, Iterator

import pytest

if TYPE_CHECKING:
    from database import Database


def pytest_collection_modifyitems(items: list[pytest.Item]) -> None:
    for it in items:
        if it.path.parent == Path(__file__).resolve().parent:
            it.add_marker("postgres")


@pytest.fixture(scope="session")
def postgres(library: None) -> None:
    """Skips a test without PostgreSQL, or without the library for C, which has the steps of a guard."""
    if not any(Path("/usr/lib/postgresql").glob("*/bin/initdb")):
        pytest.skip("PostgreSQL is missing")


@pytest.fixture(scope="module")
def database(postgres: None) -> Iterator[Database]:
    from database import Database

    with tempfile.TemporaryDirectory() as folder, Database(Path(folder)) as database:
        yield database


@pytest.fixture(autouse=True)
def _threads_end(request: pytest.FixtureRequest) -> Iterator[None]:
    """Each thread of a test ends with it."""
    from database import soon

    before = threading.active_count()
    yield
    if "clusters" not in request.fixturenames:
        assert soon(lambda: threading.active_count() <= before), threading.enumerate()
