"""What the gate counts: by the end of a command's output, and over the programs for a newer processor."""

from __future__ import annotations

import os
import sys
from importlib.machinery import SourceFileLoader
from importlib.util import module_from_spec, spec_from_loader
from pathlib import Path
from typing import Any

import pytest


@pytest.fixture(scope="module")
def gate() -> Any:
    loader = SourceFileLoader("gate", str(Path(__file__).resolve().parents[2] / "gate"))
    spec = spec_from_loader("gate", loader)
    assert spec
    module = sys.modules[spec.name] = module_from_spec(spec)
    loader.exec_module(module)
    return module


NODE = "ℹ pass 39\nℹ fail 1\nℹ cancelled 2\nℹ skipped 3\nℹ todo 0\n"
ENDS = {
    "a script": ("a line\n4 passed, 0 failed\n", 0, [4, 0, 0]),
    "a script that skips": ("4 passed, 1 failed, 2 skipped\n", 1, [4, 1, 2]),
    "pytest": ("..F\n1 failed, 2 passed, 3 skipped in 0.50s\n", 1, [2, 1, 3]),
    "pytest, long": ("5 passed in 125.00s (0:02:05)\n", 0, [5, 0, 0]),
    "pytest, with errors": ("1 failed, 3 passed, 2 errors in 0.5s\n", 1, [3, 3, 0]),
    "node": (NODE, 1, [39, 3, 3]),
    "a bad status without a failure": ("4 passed, 0 failed\n", 1, [4, 1, 0]),
    "no output": ("", 0, [0, 1, 0]),
    "no count": ("all is well\n", 0, [0, 1, 0]),
    "a count before the end": ("4 passed, 0 failed\nTraceback\n", 0, [0, 1, 0]),
}


@pytest.mark.parametrize("what", ENDS)
def test_counts(gate: Any, what: str) -> None:
    text, status, wanted = ENDS[what]
    assert gate.counts_of(text, status) == wanted


WRONG = {
    "pytest": (["..F", "E   assert 1 == 2", "FAILED a/test_b.py::test_c - assert 1 == 2", "1 failed in 0.5s"], [2]),
    "pytest, an error": (["ERROR a/test_b.py::test_c - OSError", "1 error in 0.5s"], [0]),
    "node": (["✔ names (2ms)", "✖ numbers (3ms)", "ℹ fail 1"], [1]),
    "a script": (["== one: ok", "== two: FAILED: another reply", "1 passed, 1 failed"], [1]),
    "no name": (["Traceback", "OSError: no room", ""], [1]),
    "many": ([f"FAILED {it}" for it in range(12)], list(range(2, 12))),
}


@pytest.mark.parametrize("what", WRONG)
def test_wrong(gate: Any, what: str) -> None:
    """The lines that name what failed, and of an output that names nothing the last one."""
    lines, wanted = WRONG[what]
    job, tally = gate.Job("a job", ["sh", "-c", 'printf "%s\\n" "$@"; exit 1', "sh", *lines]), gate.Tally()
    gate.run_jobs([job, gate.Job("another", ["echo", "1 passed, 0 failed"])], tally)
    assert tally.wrong == [f"a job: {lines[it]}" for it in wanted]


@pytest.mark.parametrize("failed", ["rt: FAILED: coniks_c/longer_entry_taken.edit", ""])
def test_wrong_of_ci(gate: Any, monkeypatch: pytest.MonkeyPatch, tmp_path: Path, failed: str) -> None:
    """What `rt ci` says that failed is named at the end too, and nothing if nothing did."""
    printed = f"{failed or 'rt: ok'}\n3 passed, {int(bool(failed))} failed\n"
    monkeypatch.setattr(gate, "TOP", tmp_path)
    monkeypatch.setattr(gate, "built", lambda word, file: True)
    monkeypatch.setattr(gate, "shown", lambda words, *beside: (printed, int(bool(failed))))
    monkeypatch.setattr(gate.minutes, "note", lambda times: None)
    monkeypatch.setenv("CONIKS_CPU", gate.OLDER)
    tally = gate.Tally()
    gate.run_ci(tally)
    assert [tally.passed, tally.failed] == [3, int(bool(failed))]
    assert tally.wrong == ([f"rt ci: {failed}"] if failed else [])


def built(gate: Any, monkeypatch: pytest.MonkeyPatch, room: Path, here: str, fails: str = "none") -> tuple[list[str], str]:
    """Has the gate build on a machine, where a build with these words fails. What ran in the end, and the counts."""
    ran: list[str] = []

    def made(name: str) -> str:
        ran.append(name)
        return "FAILED" if fails in name else ""

    def done(job: Any) -> list[int]:
        made(" ".join(job.words))
        return [1, 0, 0]

    monkeypatch.setattr(gate, "processor", lambda: here)
    monkeypatch.setattr(gate, "build_archive", lambda file: made(f"archive {file.parent.name}"))
    monkeypatch.setattr(gate, "compiled", lambda program, cpu, folder: made(f"{program.name} {cpu} in {folder}"))
    monkeypatch.setattr(gate.tools, "has", lambda tool: True)
    monkeypatch.setattr(gate.Job, "run", done)
    tally = gate.Tally()
    gate.run_jobs(gate.builds(tally, room), tally)
    return sorted(it.replace(str(room), "ROOM") for it in ran), tally.line()


ARCHIVES = ["archive out", "archive wasm64", "embed/build", "web/build"]
NEWER = ["cases/bytes ROOM/keydir", "cases/compare ROOM/keydir", "cases/compare ROOM/provider", "cases/epochs ROOM/provider"]
NEWER += ["cases/like-run ROOM/provider", "cases/streams ROOM/keydir", "cases/streams ROOM/provider"]
NEWER += ["cases/wrong/told-apart ROOM/keydir", "keydir x86-64-v3 in ROOM", "provider x86-64-v3 in ROOM"]


def test_builds(gate: Any, monkeypatch: pytest.MonkeyPatch, tmp_path: Path) -> None:
    """The archives are built, and both programs for the newer processor, whose cases run. A machine without its features skips them."""
    assert built(gate, monkeypatch, tmp_path, "x86-64-v3") == (sorted(ARCHIVES + NEWER), "10 passed, 0 failed")
    assert built(gate, monkeypatch, tmp_path, "x86-64-v2") == (ARCHIVES, "2 passed, 0 failed, 1 skipped")


@pytest.mark.parametrize(
    "fails, lacking", [("archive out", "embed/build"), ("archive wasm64", "web/build"), ("keydir x86-64-v3", "ROOM/keydir")]
)
def test_build_fails(gate: Any, monkeypatch: pytest.MonkeyPatch, tmp_path: Path, fails: str, lacking: str) -> None:
    """A build that fails is counted, and what needs it isn't run."""
    ran, line = built(gate, monkeypatch, tmp_path, "x86-64-v3", fails)
    assert ", 1 failed" in line and not any(lacking in it for it in ran) and len(ran) in (13, 10)


def test_all_tests(gate: Any, monkeypatch: pytest.MonkeyPatch) -> None:
    """Each test runs once, with nothing left out, over the proved programs, some of them with the machine alone."""
    programs = {"keydir": "/keydir", "provider": "/provider"}
    monkeypatch.setattr(gate.tools, "has", lambda tool: True)
    together, alone = (gate.jobs_of(gate.Tally(), programs, it) for it in (False, True))
    words = [word for job in [*together, *alone] for word in job.words]
    tests = [it for it in words if it.rpartition("/")[2].startswith("test_") or it.endswith(".mjs")]
    named = {it for part in gate.parts.PARTS for it in part.tests if part.is_pytest() or it.endswith(".mjs")}
    assert sorted(tests) == sorted(named) and {"the page: ways", "the log in PostgreSQL"} <= {it.name for it in alone}
    assert not [word for job in together for word in job.words if "/cluster/" in word]
    assert not {"-k", "-m", "--kills", "--honest", "--lines", "KEYDIR", "PROVIDER"} & {*words}
    # Those that need the library or the module wait for it, whichever part of a file needs which.
    clients = next(it for it in together if "embed/tests/test_clients.py" in it.words)
    assert {"embed/build", "web/build"} <= {*clients.after}


def test_without_tools(gate: Any, monkeypatch: pytest.MonkeyPatch) -> None:
    """What needs a tool that is missing is skipped by its name."""
    tally = gate.Tally()
    monkeypatch.setattr(gate.tools, "has", lambda tool: tool != "wasm-opt")
    jobs = gate.jobs_of(tally, {"keydir": "", "provider": ""}, False)
    assert tally.line() == "0 passed, 0 failed, 1 skipped" and not any("node" in it.words for it in jobs)


def test_processor(gate: Any, monkeypatch: pytest.MonkeyPatch) -> None:
    """What is requested doesn't change what the machine has."""
    had = gate.processor()
    for requested in ["x86-64-v2", "x86-64-v3", "another"]:
        monkeypatch.setenv("CONIKS_CPU", requested)
        assert gate.processor() == had in ["x86-64-v2", "x86-64-v3"]
