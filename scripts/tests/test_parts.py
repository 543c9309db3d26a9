"""Which tests `./gate quick` runs for which change: each test belongs to a part, and each file to a part that says something of it."""

from __future__ import annotations

import re
import subprocess
from pathlib import Path
from typing import Sequence

import parts
import pytest
import quick
from counting import Tally

TOP = Path(__file__).resolve().parents[2]

# Files of which no part but the linters says anything: what only a person starts, or what nothing reads.
ALONE = [".clang-format", ".editorconfig", "HANDLES", "LICENSE"]
ALONE += ["embed/clients", "embed/test", "examples/readme", "web/test"]
ALONE += ["embed/python/tests/cluster/cluster_speed.py", "embed/python/tests/provider/lookup_speed.py"]


# The parts that read each file, whatever is in it.
GENERAL = ["linters", "the gate"]


def listed() -> list[str]:
    """The files that git knows or would add."""
    words = ["git", "ls-files", "--cached", "--others", "--exclude-standard"]
    named = subprocess.run(words, cwd=TOP, capture_output=True, text=True, check=True).stdout.splitlines()
    return [it for it in named if (TOP / it).is_file()]


def is_test(file: str) -> bool:
    name = Path(file).name
    return name.endswith(".test.mjs") or (name.startswith("test_") and name.endswith(".py") and file.split("/")[-2] != "python")


def test_each_test() -> None:
    """Each file of tests in Python or in JavaScript belongs to a part, and each part's tests are there."""
    named = {test for part in parts.PARTS for test in part.tests if part.is_pytest() or test.endswith(".mjs")}
    assert named == {*filter(is_test, listed())}


def test_each_script() -> None:
    """Each script of cases/README.md that compares a program belongs to a part."""
    named = {test for part in parts.PARTS for test in part.tests}
    scripts = {it for it in listed() if it.startswith("cases/") and "\n" in it or it.count("/") == 1 and it.startswith("cases/")}
    run = {it for it in scripts if "." not in it and (TOP / it).stat().st_mode & 0o100}
    assert run <= named, run - named


def test_each_file() -> None:
    """Each file belongs to a part beside the linters. Those that don't are listed here."""
    lonely = [it for it in listed() if not any(part.has(it) for part in parts.PARTS if part.name != "linters")]
    assert sorted(lonely) == sorted(ALONE)


def test_each_document() -> None:
    """A part whose tests, or what they share, read a page of docs/ runs if that page changes."""
    reads = re.compile(r'(?:\bTOP / |\bread\(|\bReadFile\()"(?:\.\./)*(docs/\w+\.md)"')
    found = [
        (it, page)
        for it in listed()
        if it.endswith((".py", ".mjs", ".go"))
        for page in reads.findall((TOP / it).read_text("utf-8"))
    ]
    assert len(found) > 5
    reading = [(part, page) for part in parts.PARTS for file, page in found if part.name not in GENERAL and part.has(file)]
    assert [(part.name, page) for part, page in reading if not part.has(page)] == []


def test_names() -> None:
    """A part is found by its name."""
    names = [it.name for it in parts.PARTS]
    assert len(names) == len({*names}) and {it for found in quick.OVER.values() for it in found} <= {*names}


CHANGES = {
    "embed/python/src/coniks/guard.py": "the guard",
    "embed/python/src/coniks/log.py": "the log",
    "embed/python/src/coniks/_host.py": "what a provider does",
    "embed/python/src/coniks/replica.py": "replicas",
    "embed/python/src/coniks/_memory.py": "the client in Python",
    "embed/go/policy.go": "the package in Go",
    "embed/go/client/watch.go": "cases of the client in Go",
    "embed/rust/src/client_core.rs": "cases of the client in Rust",
    "embed/java/src/main/java/org/coniks/Client.java": "cases of the client in Java",
    "web/src/watch.js": "cases of the client in JavaScript",
    "web/src/page.js": "the page: results",
    "examples/service/holding.py": "the service: life",
    "embed/python/src/coniks/audit.py": "auditors",
    "docs/GUIDE.md": "documents",
}


@pytest.mark.parametrize("file", CHANGES)
def test_change(file: str) -> None:
    """A change has the tests of its subject run, and not those of everything."""
    chosen = [it.name for it in parts.parts_of([file])]
    assert CHANGES[file] in chosen and len(chosen) < len(parts.PARTS) / 3


def test_patterns() -> None:
    for text, file, is_found in [
        ("a/*", "a/b", True),
        ("a/*", "a/b/c", False),
        ("a/**", "a/b/c", True),
        ("**/*.md", "a/b.md", True),
        ("a.b", "axb", False),
    ]:
        assert bool(parts.pattern(text).fullmatch(file)) is is_found


def git(room: Path, *words: str) -> None:
    setting = ["-c", "user.name=a", "-c", "user.email=a@example.com", "-c", "commit.gpgsign=false"]
    subprocess.run(["git", *setting, *words], cwd=room, check=True, capture_output=True)


def commit(room: Path, file: str) -> None:
    (room / file).write_text(file)
    git(room, "add", file)
    git(room, "commit", "-m", file)


def test_changed_files(tmp_path: Path, monkeypatch: pytest.MonkeyPatch) -> None:
    """On main the last commit counts if all is committed. On a branch all of its commits do, and what is not committed always."""
    monkeypatch.setattr(quick, "TOP", tmp_path)
    git(tmp_path, "init", "-b", "main")
    for file in ["first", "second"]:
        commit(tmp_path, file)
    assert quick.changed_files()[1] == ["second"]
    (tmp_path / "open").write_text("text")
    assert quick.changed_files()[1] == ["open"]
    git(tmp_path, "checkout", "-b", "branch")
    assert quick.changed_files()[1] == ["open"]
    for file in ["third", "fourth"]:
        commit(tmp_path, file)
    assert quick.changed_files()[1] == ["fourth", "open", "third"]
    git(tmp_path, "checkout", "main")
    git(tmp_path, "update-ref", "refs/remotes/origin/main", "main~1")
    assert quick.changed_files()[1] == ["open", "second"]


def job(name: str, text: str, after: Sequence[str] = (), limit: int = 0) -> quick.Job:
    return quick.Job(name, ["sh", "-c", text], after, limit=limit)


def test_jobs(capfd: pytest.CaptureFixture[str]) -> None:
    """Jobs are counted; what stands on one that failed isn't run, and what is ended at its limit is told with its command."""
    tally = Tally()
    jobs = [
        job("first", "echo 3 passed, 0 failed"),
        job("second", "echo from second; exit 1", ["first"]),
        job("third", "echo never", ["second"]),
        job("fourth", "echo never", ["third"]),
        job("fifth", "exec sleep 60", limit=1),
        job("sixth", "exit 0", ["elsewhere"]),
        job("seventh", "echo 'test result: ok. 5 passed; 0 failed'"),
        job("eighth", "echo 0 passed, 1 failed"),
    ]
    lacking = quick.run_jobs(jobs, tally)
    printed = capfd.readouterr().out
    assert tally.line() == "5 passed, 2 failed, 1 skipped"
    assert sorted(lacking) == [
        "fifth, ended after 1 s: cd . && sh -c exec sleep 60",
        "fourth, since third failed",
        "third, since second failed",
    ]
    assert "second: from second\n" in printed and "never" not in printed and "first: ok, 0 s\n" in printed


def test_left_out() -> None:
    """What is left out is reported with the command that runs it."""
    guard = next(it for it in parts.PARTS if it.name == "the guard")
    lines = quick.left_out([guard], ["coniks_tree"], ["coniks_c"])
    assert lines[0] == f"all of the guard: scripts/pytest {' '.join(guard.tests)}"
    assert "rt ci coniks_tree" in lines[1] and lines[-1].endswith("./gate")
    assert "rt must-fail coniks_c" in quick.left_out([], [], ["coniks_c"])[0]


def test_crates() -> None:
    """A crate is checked if a file of its sources changed, after those below it, and the crates with its tests are tried."""
    files = [
        "crates/coniks_tree/src/tree.rt",
        "crates/coniks_proof/proofs/Lemmas.antt",
        "crates/coniks_c/must-fail/a.edit",
        "crates",
    ]
    names = quick.changed_crates(files, "src", "specs", "proofs")
    assert names == ["coniks_proof", "coniks_tree"] and quick.changed_crates(files, "must-fail") == ["coniks_c"]
    jobs = {it.name: it for it in quick.crate_jobs(names)}
    assert jobs["rt check in coniks_tree"].after == ["rt check in coniks_proof"]
    assert {"tests in coniks_base_tests", "tests in coniks_directory_tests"} < jobs.keys()
    assert jobs["tests in coniks_base_tests"].words == ["rt", "try", "--test"]
    assert jobs["tests in coniks_evidence"].words == [str(TOP / "scripts/unproved-tests")]
