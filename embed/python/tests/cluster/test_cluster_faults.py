"""Faults of a cluster under load. Clients list what they were told; after each fault all of it must be there, at each member."""

from __future__ import annotations

import random
from collections import Counter
from contextlib import ExitStack
from typing import Callable, Iterator, Optional

import pytest

pytest.importorskip("psycopg")

from cluster_faults import FAULTS, FAULTS_OF_ROOM, SCHEMES, Cluster
from stand_ins import lines


def pytest_generate_tests(metafunc: pytest.Metafunc) -> None:
    if "number" in metafunc.fixturenames:
        count = metafunc.config.getoption("faults")
        metafunc.parametrize("number", range(count), ids=[f"{it} {FAULTS[it % len(FAULTS)]}" for it in range(count)])


class Clusters:
    """One cluster after another, and what happened in all of them."""

    def __init__(self, program: str, seed: int = 20261126) -> None:
        self.program, self.chance, self.counts = program, random.Random(seed), Counter[str]()
        self._room, self._number = ExitStack(), -1
        self._cluster: Optional[Cluster] = None

    def of(self, number: int) -> Cluster:
        """The cluster for a fault. A new one comes after some faults, so that replays stay short."""
        room = number // FAULTS_OF_ROOM
        if self._cluster is None or room != self._number:
            self.close()
            scheme = SCHEMES[room % len(SCHEMES)]
            self._number, self._cluster = room, self._room.enter_context(Cluster(self.program, scheme, self.chance))
        return self._cluster

    def close(self) -> None:
        """Ends the cluster, and counts what happened in it."""
        if self._cluster:
            requested, reported = lines(self._cluster.signer.file), self._cluster
            self.counts.update(
                {"bodies signed": len(requested), "signed again": len(requested) - len({*requested}), **reported.reported}
            )
            self.counts.update({"epochs acknowledged": len(reported.acknowledged), "lookups kept": len(reported.shown)})
        self._room.close()
        self._cluster = None


@pytest.fixture(scope="module")
def clusters(program: str, postgres: None) -> Iterator[Clusters]:
    clusters = Clusters(program)
    yield clusters
    clusters.close()


def test_fault(clusters: Clusters, number: int) -> None:
    cluster, fault = clusters.of(number), FAULTS[number % len(FAULTS)]
    if fault == "fill disk" and not cluster.database.folder.is_mount():
        pytest.skip("a full disk needs the right to mount a tmpfs")
    cluster.strike(fault)
    for what, is_stored in cluster.check():
        assert is_stored, f"{what}: {cluster.wrong[:3]}"
    clusters.counts[fault] += 1


def test_faults_were_made(clusters: Clusters, say: Callable[[str], None]) -> None:
    clusters.close()
    say("faults: " + ", ".join(f"{it} {number}" for it, number in clusters.counts.items()))
    assert clusters.counts["epochs acknowledged"]
