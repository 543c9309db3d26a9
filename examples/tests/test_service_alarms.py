"""The alarms of examples/service: deploy/alerts.yml over the metrics of a service and of an auditor."""

from __future__ import annotations

import os
import re
import resource
import subprocess
import sys
from pathlib import Path

import pytest

pytest.importorskip("aiohttp")
pytest.importorskip("nacl.signing")

import tools
from auditing import Auditing
from services import HOME, Running, until

# The verifier key of docs/FORMATS.md.
AUDITOR = "audit.example.org+8ba082b9+BPxRzY5iGKGjjaR+0AIw8FgIFu0TujMDrF3rkRVIkIAl"


def rules() -> dict[str, str]:
    """The expressions of the alarms by their names. An epoch of the tests lasts a second."""
    text = (HOME / "deploy/alerts.yml").read_text("utf-8").replace(" > 5400", " > 1.5")
    return dict(re.findall(r"- alert: (\w+)\n +expr: (.*)", text))


def metric_of(expression: str) -> str:
    """The metric that an expression compares with a number."""
    found = re.fullmatch(r"(?:increase\()?(\w+)(?:\{.*\})?(?:\[1h\]\))? (?:>|<|==) [\d.]+", expression)
    assert found, expression
    return found[1]


def fired(service: Running) -> set[str]:
    """The alarms of a service's metrics, whose counters began at 0."""
    compared = {">": float.__gt__, "<": float.__lt__, "==": float.__eq__}
    lines = re.findall(r"^(\w+)(?:\{.*\})? (\S+)$", service.get("/metrics").body.decode(), re.M)
    values = {metric_of(it): [float(value) for name, value in lines if name == metric_of(it)] for it in rules().values()}
    return {
        name
        for name, expression in rules().items()
        for value in values[metric_of(expression)]
        if compared[expression.split()[-2]](value, float(expression.split()[-1]))
    }


def test_metrics(other: Running, library: None, tmp_path: Path, monkeypatch: pytest.MonkeyPatch) -> None:
    """The service and an auditor have the metric of each alarm, but for those of Prometheus itself and of a replica."""
    monkeypatch.setenv("PYTHONPATH", os.pathsep.join(it for it in sys.path if it))
    other.start()
    auditor = Auditing(tmp_path, 1)
    auditor.start(other, [])
    try:
        until((auditor.home / "audit/metrics").is_file)
    finally:
        auditor.process.kill()
        auditor.process.wait()
    reported = other.get("/metrics").body.decode() + (auditor.home / "audit/metrics").read_text()
    lacking = {
        it for it in map(metric_of, rules().values()) if not re.search(rf"^(# TYPE )?{it.removesuffix('_total')}", reported, re.M)
    }
    assert lacking == {"up", "coniks_lag_seconds"} and len(rules()) > 10


def test_alarms(other: Running) -> None:
    """An auditor that is silent and a disk that is full are alarms until they are repaired. A healthy service has none."""
    other.start()
    until(lambda: other.operate("register", "alice", b"key").status == 200 and not fired(other))
    assert other.end() == 0
    other.start("--auditor", "http://127.0.0.1:9", AUDITOR)
    until(lambda: fired(other) == {"ConiksAuditorSilent"})
    limit = (other.room / "log").stat().st_size
    resource.prlimit(other.process.pid, resource.RLIMIT_FSIZE, (limit, resource.RLIM_INFINITY))
    until(lambda: {"ConiksCommitFails", "ConiksEpochLate"} <= fired(other))
    resource.prlimit(other.process.pid, resource.RLIMIT_FSIZE, (resource.RLIM_INFINITY, resource.RLIM_INFINITY))
    until(lambda: fired(other) == {"ConiksAuditorSilent"})


def test_rules() -> None:
    if not tools.has("promtool"):
        pytest.skip("promtool is missing")
    ran = subprocess.run(["promtool", "check", "rules", HOME / "deploy/alerts.yml"], capture_output=True, text=True)
    assert ran.returncode == 0, ran.stdout + ran.stderr
