"""What the tests of the library for C and of its sides share."""

from __future__ import annotations

import shutil
from pathlib import Path
from typing import Sequence

import pytest
import samples
from running import TOP
from sides import Request, requests_of


@pytest.fixture(scope="session")
def requests(embedded: None, keydir: str, lines: Sequence[samples.Line]) -> Sequence[Request]:
    """What each side is asked, with the replies that it must give."""
    return requests_of(keydir, lines)


@pytest.fixture(scope="session")
def here(embedded: None, tmp_path_factory: pytest.TempPathFactory) -> Path:
    """The files of the checkout below `embed`, and what embed/build made, in another folder."""
    room = tmp_path_factory.mktemp("checkout")
    for folder in ["embed", "include"]:
        shutil.copytree(TOP / folder, room / folder, ignore=shutil.ignore_patterns("target", "__pycache__"))
    return room / "embed"
