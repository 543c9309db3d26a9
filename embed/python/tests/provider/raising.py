"""What a test expects of a call that raises an error."""

from __future__ import annotations

from typing import Callable

import pytest


def raises(what: str, error: type[BaseException], call: Callable[[], object], **attributes: object) -> Exception:
    """Checks that a call raises an error of this class, and not of one below it, with these attributes. Returns the error."""
    try:
        returned = call()
    except Exception as raised:
        assert type(raised) is error, f"{what}: {raised!r}"
        assert {it: getattr(raised, it, None) for it in attributes} == attributes, f"{what}: {raised!r}"
        return raised
    pytest.fail(f"{what}: returned {returned!r}")
