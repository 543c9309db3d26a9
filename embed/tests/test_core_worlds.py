"""All that can happen to the owner of a name in a few epochs, by the core of a client for C (embed/c/core_worlds.c)."""

from __future__ import annotations

import re
from pathlib import Path

import pytest
from running import EMBED, Say, compiled, run, sanitizers

# What the search over the second implementation counts (embed/python/tests/client/test_search.py): moments, and lookups that show the same
# and another key, for the keys A, B and C.
COUNTED = {2: (768, 820, 482), 3: (9602, 15210, 8787), 4: (95776, 204318, 119034)}

# The same where lost epochs are dropped, and their alarms are noted at once.
COUNTED_WITH_LOST = {2: (1015, 980, 569), 3: (16958, 21881, 12438), 4: (221169, 352236, 201981)}


def counts(worlds: Path, epochs: int, keys: str, say: Say, *words: str) -> tuple[int, ...]:
    ran = run(worlds, str(epochs), keys, *words)
    printed = ran.stdout.decode()
    assert ran.returncode == 0, printed or ran.stderr.decode()
    say(f"all histories of {' '.join([str(epochs), 'epochs with the keys', keys, *words])}: {printed.strip()}")
    return tuple(map(int, re.findall(r"\d+", printed)))


def test_worlds(embedded: None, tmp_path: Path, pytestconfig: pytest.Config, say: Say) -> None:
    """What is the same is what the owner meant, an honest directory never shows another key, each fork convicts, and no other client
    with an equal head accepts another key."""
    worlds, epochs = compiled(tmp_path, EMBED / "c/core_worlds.c", "-std=c11", "-O2"), int(pytestconfig.getoption("epochs"))
    for number in range(2, epochs + 1):
        found = counts(worlds, number, "ABC", say)
        assert found[:3] == COUNTED[number], "the second implementation has other counts"
        assert all(it > 1000 for it in found[3:])
    assert all(it > 1000 for it in counts(worlds, epochs, "AB-", say))


def test_lost_epochs(embedded: None, tmp_path: Path, pytestconfig: pytest.Config, say: Say) -> None:
    """The same where lost epochs are dropped and their alarms are noted at each moment: each dropped epoch was the same, or has an alarm,
    or had one, and with an alarm nothing is reported as good."""
    worlds, epochs = compiled(tmp_path, EMBED / "c/core_worlds.c", "-std=c11", "-O2"), int(pytestconfig.getoption("epochs"))
    for number in range(2, epochs + 1):
        assert (
            counts(worlds, number, "ABC", say, "noted")[:3] == COUNTED_WITH_LOST[number]
        ), "the second implementation has other counts"
        assert counts(worlds, number, "ABC", say, "lost")[0] > COUNTED_WITH_LOST[number][0], "no moment more with alarms that stay"


def test_worlds_under_sanitizers(embedded: None, tmp_path: Path, say: Say) -> None:
    worlds = compiled(tmp_path, EMBED / "c/core_worlds.c", "-std=c11", "-O1", "-g", *sanitizers(tmp_path))
    assert counts(worlds, 2, "ABC", say)[:3] == COUNTED[2]
