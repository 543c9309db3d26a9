"""What the tests of the package share."""

from __future__ import annotations

import os
import sys
from typing import Iterator

import pytest


@pytest.fixture(scope="session", autouse=True)
def _environment() -> Iterator[None]:
    """Processes in Python that a test starts import what it does, and write no bytecode."""
    with pytest.MonkeyPatch.context() as patch:
        patch.setenv("PYTHONPATH", os.pathsep.join(it for it in sys.path if it))
        patch.setenv("PYTHONDONTWRITEBYTECODE", "1")
        yield
