"""`coniks-client export` and `import`: a state that moves to another device, against a second implementation of the file."""

from __future__ import annotations

import ctypes.util
import fcntl
import getpass
import json
import os
import random
import resource
import signal
import subprocess
import sys
import termios
import time
from contextlib import suppress
from pathlib import Path
from typing import Any, Callable, Optional

import pytest

pytest.importorskip("nacl.signing")

from client_world import hour
from directories import Directory
from people import TOP, Clock, Person
from coniks import _moving, contacts
from coniks._client_state import text_of
from coniks._moving import members
from coniks._telling import Unusable, Verdict

EXPORTS = str(TOP / "cases/second/exports")
CASES = [json.loads(it) for it in (TOP / "cases/exports.jsonl").read_text().splitlines()]
ERRORS = {
    "NoExport": Verdict.IMPORT_NONE,
    "ExportVersion": Verdict.IMPORT_VERSION,
    "ExportLimits": Verdict.IMPORT_LIMITS,
    "ExportClosed": Verdict.IMPORT_CLOSED,
    "NoState": Verdict.STATE_NONE,
    "StateVersion": Verdict.STATE_VERSION,
}
PHRASE = "correct horse battery staple"


class Moving:
    """A client with a name of its own, whose state moves. The passphrase is in a file."""

    def __init__(self, person: Person):
        self.person, self.room, self.file, self.phrase = person, person.room, person.room / "moved", person.room / "phrase"
        self.phrase.write_text(f"{PHRASE}\n")
        self.phrase.chmod(0o600)

    def words(self, command: str, *more: str) -> list[str]:
        return [command, str(self.file), "--passphrase", str(self.phrase), *more]

    def export(self) -> tuple[int, list[dict[str, Any]]]:
        return self.person.run(*self.words("export"))

    def bring(self, name: str = "other", *more: str) -> tuple[int, list[dict[str, Any]]]:
        return self.person.run(*self.words("import", "--state", str(self.room / name), *more))

    def stored(self, name: str = "other") -> Any:
        path = self.room / name
        found: Any = json.loads(path.read_bytes().partition(b"\n")[2]) if path.exists() else None
        return found


@pytest.fixture(autouse=True)
def _fast(request: pytest.FixtureRequest, monkeypatch: pytest.MonkeyPatch) -> None:
    """Files take little memory, but in the test of what they take."""
    if "memory" not in request.node.name:
        monkeypatch.setattr(_moving, "PASSES", 1)
        monkeypatch.setattr(_moving, "KIB", 8)


@pytest.fixture
def moving(person: Person) -> Moving:
    assert person.run("register", "dave", "key one")[0] == 0
    assert person.run("lookup", "alice")[0] == 0
    return Moving(person)


def opened(file: Path, phrase: Path) -> tuple[int, str]:
    """What the second implementation says of a file."""
    ran = subprocess.run([sys.executable, EXPORTS, str(file), str(phrase)], capture_output=True, text=True)
    return ran.returncode, ran.stdout or ran.stderr


@pytest.mark.parametrize("case", CASES, ids=[it["name"] for it in CASES])
def test_case(case: dict[str, str], tmp_path: Path) -> None:
    """The cases of the second implementation."""
    file, phrase = tmp_path / "file", tmp_path / "phrase"
    file.write_bytes(bytes.fromhex(case["file"]))
    phrase.write_text(case["passphrase"])
    phrase.chmod(0o600)
    if case["gives"] not in ERRORS:
        assert members(file, phrase) == json.loads(case["gives"])
        return
    with pytest.raises(Unusable) as refused:
        members(file, phrase)
    assert refused.value.verdict is ERRORS[case["gives"]] and PHRASE not in str(refused.value)


def test_cases() -> None:
    """The table is that of the second implementation, whose primitives have the published vectors."""
    assert subprocess.run([EXPORTS, "--check"], capture_output=True, text=True).stdout == f"{len(CASES) + 4} passed, 0 failed\n"
    assert {it["gives"] for it in CASES} > {*ERRORS}


def test_moves(moving: Moving, directory: Directory) -> None:
    """The other device has the whole state: own names with their secret keys, contacts, chain and settings."""
    before, written = moving.person.state.read_bytes(), moving.export()
    assert written[0] == 0 and written[1][0]["file"] == str(moving.file) and moving.person.state.read_bytes() == before
    assert opened(moving.file, moving.phrase) == (0, json.dumps(moving.person.stored()) + "\n")
    status, lines = moving.bring()
    assert status == 0 and lines[0]["epoch"] == directory.latest and moving.stored() == moving.person.stored()
    assert (moving.room / "other").stat().st_mode & 0o777 == 0o600
    moving.person.state = moving.room / "other"
    assert moving.person.run("register", "dave", "key two")[0] == 0 and moving.person.run("watch")[0] == 0
    status, lines = moving.person.run("lookup", "alice")
    assert status == 0 and lines[0]["before"] == "key of alice"


def test_one_device(moving: Moving) -> None:
    """Both commands say that one device changes keys."""
    lines = [moving.export()[1][0]["text"], moving.bring()[1][0]["text"]]
    assert all("change keys on" in it and "only" in it for it in lines) and all(PHRASE not in it for it in lines)


def test_memory_and_time(moving: Moving) -> None:
    """A file takes libsodium's moderate limits, and each has a salt and a nonce of its own. libargon2 opens it."""
    files = list[bytes]()
    for name in ("first", "second"):
        moving.file = moving.room / name
        assert moving.export()[0] == 0 and moving.file.stat().st_mode & 0o777 == 0o600
        files.append(moving.file.read_bytes())
    lines = [it.partition(b"\n")[0].split(b" ") for it in files]
    assert all(it[:4] == [b"coniks-client-export", b"1", b"3", b"262144"] for it in lines) and lines[0][4] != lines[1][4]
    assert len({it.partition(b"\n")[2][:24] for it in files}) == 2 and all(b"policy" not in it for it in files)
    assert moving.bring()[0] == 0 and moving.stored() == moving.person.stored()
    if ctypes.util.find_library("argon2") is None:
        pytest.skip("libargon2 is missing")
    assert opened(moving.file, moving.phrase) == (0, json.dumps(moving.stored()) + "\n")


def test_too_little_memory(moving: Moving) -> None:
    """Without the memory for the passphrase nothing is written, and the error says so."""
    limit = lambda: resource.setrlimit(resource.RLIMIT_AS, (200 << 20, 200 << 20))
    words = [sys.executable, "-m", "coniks.contacts", *moving.words("export", "--state", str(moving.person.state))]
    ran = subprocess.run(words, capture_output=True, text=True, preexec_fn=limit)
    assert ran.returncode == 3 and "which takes 256 MiB" in ran.stdout and not moving.file.exists(), ran
    assert not (moving.room / "moved.new").exists()


# Files that are there.


def make_file(path: Path) -> None:
    path.write_bytes(b"something else")


def make_link(path: Path) -> None:
    path.symlink_to(path.with_name("nowhere"))


@pytest.mark.parametrize("make", [make_file, make_link, Path.mkdir])
def test_nothing_is_overwritten(moving: Moving, make: Callable[[Path], object], monkeypatch: pytest.MonkeyPatch) -> None:
    """A file, a link or a folder that is there stays, also if it comes while the passphrase is hashed."""
    for is_late in (False, True):
        moving.file = moving.room / f"moved{is_late}"
        if is_late:
            key = _moving._key
            monkeypatch.setattr(_moving, "_key", lambda *given: (make(moving.file), key(*given))[1])
        else:
            make(moving.file)
        status, lines = moving.export()
        assert (status, lines[0]["text"]) == (3, f"{moving.file} is there already, and is left as it is: give another file")
        assert moving.file.is_symlink() or moving.file.is_dir() or moving.file.read_bytes() == b"something else"
        assert not (moving.room / "nowhere").exists() and not (moving.room / f"{moving.file.name}.new").exists()


def test_not_asked_in_vain(moving: Moving) -> None:
    """No passphrase is asked for if the file is there already."""
    moving.file.write_bytes(b"something else")
    moving.phrase.unlink()
    status, lines = moving.export()
    assert status == 3 and "is there already" in lines[0]["text"] and moving.file.read_bytes() == b"something else"


def test_no_state_is_overwritten(moving: Moving) -> None:
    """A state that is there stays, and no passphrase is asked for."""
    assert moving.export()[0] == 0
    before = moving.person.state.read_bytes()
    moving.phrase.unlink()
    status, lines = moving.person.run(*moving.words("import"))
    assert status == 3 and "is there already" in lines[0]["text"] and moving.person.state.read_bytes() == before


def test_nothing_to_export(moving: Moving) -> None:
    """Without a state nothing is written. A file that isn't there is no state."""
    moving.person.state = moving.room / "nothing"
    assert moving.export()[0] == 3 and not moving.file.exists()
    assert moving.bring()[0] == 3 and moving.stored() is None


def test_damaged(moving: Moving) -> None:
    """A file that was cut, changed or is none, or another passphrase, makes no state."""
    assert moving.export()[0] == 0
    whole, draw = moving.file.read_bytes(), random.Random(1)
    for at in [0, 21, 23, whole.index(b"\n"), *(draw.randrange(len(whole)) for _ in range(60)), len(whole) - 1]:
        for wrong in (whole[:at], whole[:at] + bytes([whole[at] ^ 1 << draw.randrange(8)]) + whole[at + 1 :]):
            moving.file.write_bytes(wrong)
            assert moving.bring()[0] == 3 and moving.stored() is None
    moving.file.write_bytes(whole)
    moving.phrase.write_text("correct horse battery stapl")
    status, lines = moving.bring()
    assert status == 3 and "nobody can tell which" in lines[0]["text"] and moving.stored() is None
    moving.phrase.write_text(PHRASE)
    assert moving.bring()[0] == 0


def test_state_that_is_no_client(moving: Moving, monkeypatch: pytest.MonkeyPatch) -> None:
    """What is in the box is verified as a state is: another chain, or none, is refused."""
    wrong: list[dict[str, Any]] = [{"chain": "00"}, {"policy": "x"}, {"chain": ""}, {"own": 7}]
    for number, changes in enumerate(wrong):
        moving.file = moving.room / f"moved{number}"
        monkeypatch.setattr("coniks._moving.text_of", lambda it: text_of({**it, **changes}))
        assert moving.export()[0] == 0
        status, lines = moving.bring()
        assert status == 3 and moving.stored() is None and "error of the program" not in lines[0]["text"], (changes, lines)


def test_long_file(moving: Moving, monkeypatch: pytest.MonkeyPatch) -> None:
    """A file that is longer than a state ever is isn't read as a whole."""
    assert moving.export()[0] == 0
    size = moving.file.stat().st_size
    monkeypatch.setattr(_moving, "_MOST", size - 1)
    status, lines = moving.bring()
    assert status == 3 and "asks for more" in lines[0]["text"] and moving.stored() is None
    monkeypatch.setattr(_moving, "_MOST", size)
    assert moving.bring()[0] == 0


# The passphrase.


@pytest.mark.parametrize("mode", [0o640, 0o604, 0o620, 0o602, 0o610, 0o644, 0o666])
def test_shared_passphrase(moving: Moving, mode: int) -> None:
    """A file with a passphrase that others can read or write is refused, by both commands."""
    assert moving.export()[0] == 0
    moving.phrase.chmod(mode)
    assert moving.bring()[0] == 3 and moving.stored() is None
    moving.file = moving.room / "again"
    status, lines = moving.export()
    assert status == 3 and f"others can read {moving.phrase}" in lines[0]["text"] and not moving.file.exists()


@pytest.mark.parametrize("text", [PHRASE, f"{PHRASE}\n", f"{PHRASE}\r\n", f"{PHRASE}\nmore\n"])
def test_lines_of_passphrases(moving: Moving, text: str) -> None:
    """The passphrase is the first line of its file."""
    assert moving.export()[0] == 0
    moving.phrase.write_bytes(text.encode())
    assert moving.bring()[0] == 0


@pytest.mark.parametrize("text", ["", "\n", "\r\n"])
def test_empty_passphrase(moving: Moving, text: str) -> None:
    moving.phrase.write_text(text)
    assert moving.export()[0] == 3 and not moving.file.exists()


def typing(monkeypatch: pytest.MonkeyPatch, *texts: str) -> list[str]:
    """Someone types these, and what they were asked with."""
    prompts, left = list[str](), list(texts)

    def typed(prompt: str) -> str:
        prompts.append(prompt)
        return left.pop(0)

    monkeypatch.setattr(getpass, "getpass", typed)
    return prompts


def test_typed(moving: Moving, monkeypatch: pytest.MonkeyPatch) -> None:
    """A new passphrase is asked for twice, and must be the same. One for an import is asked for once."""
    prompts = typing(monkeypatch, "one", "two", "", "pass", "pass", "pass", "passe\u0301", "passe\u0301", "pass\u00e9")
    words = [str(moving.file)]
    for text in ("two passphrases", "empty"):
        status, lines = moving.person.run("export", *words)
        assert status == 3 and text in lines[0]["text"] and not moving.file.exists()
    assert moving.person.run("export", *words)[0] == 0 and len(prompts) == 5
    assert moving.person.run("import", *words, "--state", str(moving.room / "other"))[0] == 0 and len(prompts) == 6
    words = [str(moving.room / "accented")]
    assert moving.person.run("export", *words)[0] == 0
    assert moving.person.run("import", *words, "--state", str(moving.room / "third"))[0] == 0, "in the other form of Unicode"


PROGRAM = "import coniks._moving as it; it.PASSES, it.KIB = 1, 8; import sys; from coniks.contacts import main; sys.exit(main())"


def at_terminal(words: list[str], *texts: str) -> tuple[int, str]:
    """Runs the command at a terminal, at which someone types a text after each question. Returns the status and what is seen."""
    mine, other = os.openpty()
    take = lambda: fcntl.ioctl(0, termios.TIOCSCTTY, 0)
    given = [sys.executable, "-c", PROGRAM, *words]
    running = subprocess.Popen(given, stdin=other, stdout=other, stderr=other, start_new_session=True, preexec_fn=take)
    os.close(other)
    seen, left = b"", list(texts)
    with suppress(OSError):
        while data := os.read(mine, 1000):
            seen += data
            if left and seen.count(b"assphrase") > len(texts) - len(left):
                time.sleep(0.1)
                os.write(mine, f"{left.pop(0)}\n".encode())
    os.close(mine)
    return running.wait(60), seen.decode()


def test_terminal(moving: Moving) -> None:
    """At a terminal the passphrase is asked for, and not shown."""
    words = [str(moving.file), "--state", str(moving.person.state)]
    status, seen = at_terminal(["export", *words], PHRASE, PHRASE)
    assert status == 0 and seen.count("assphrase") == 2 and PHRASE not in seen, seen
    assert opened(moving.file, moving.phrase)[0] == 0
    words = [str(moving.file), "--state", str(moving.room / "other")]
    status, seen = at_terminal(["import", *words], PHRASE + "r")
    assert status == 3 and "nobody can tell which" in seen and moving.stored() is None
    status, seen = at_terminal(["import", *words], PHRASE)
    assert status == 0 and PHRASE not in seen and moving.stored() == moving.person.stored()


def test_no_terminal(moving: Moving) -> None:
    """Without a terminal no passphrase is read, also not from a pipe that would show it."""
    words = [sys.executable, "-m", "coniks.contacts", "export", str(moving.file), "--state", str(moving.person.state)]
    ran = subprocess.run(words, input=f"{PHRASE}\n{PHRASE}\n", capture_output=True, text=True, start_new_session=True)
    assert ran.returncode == 3 and "no terminal asks for a passphrase" in ran.stdout and not moving.file.exists()


def test_interrupted_question(moving: Moving, monkeypatch: pytest.MonkeyPatch) -> None:
    def raising(_: str) -> str:
        raise KeyboardInterrupt

    monkeypatch.setattr(getpass, "getpass", raising)
    assert contacts.main(["export", str(moving.file), "--state", str(moving.person.state)]) == 130 and not moving.file.exists()


# The age.


AGES = {
    0: "0 minutes",
    59: "0 minutes",
    60: "1 minute",
    3599: "59 minutes",
    3600: "1 hour",
    86399: "23 hours",
    86400: "1 day",
    86400 * 45: "45 days",
    -3600: "0 minutes",
}


@pytest.mark.parametrize("seconds", AGES)
def test_age(moving: Moving, clock: Clock, directory: Directory, seconds: int) -> None:
    """An import tells the latest epoch, and when the client first saw it."""
    directory.commit(5)
    clock.seconds = seen = hour(5, 7)
    assert moving.person.run("compare")[0] == 0 and moving.export()[0] == 0
    clock.seconds = seen + seconds
    status, lines = moving.bring()
    assert status == 0 and (lines[0]["epoch"], lines[0]["seen"]) == (5, seen)
    assert f"up to epoch 5, first seen {AGES[seconds]} ago:" in lines[0]["text"]


# Ends at any moment.


class Killed(BaseException):
    """The process ends here."""


def ended(call: Callable[[], object], at: int) -> bool:
    """Ends a call before one of its writes, or in the middle of one. Returns whether it came so far."""
    count = 0
    with pytest.MonkeyPatch.context() as patch:
        for name in ("fsync", "replace", "unlink", "open"):
            made = getattr(os, name)

            def counted(*given: Any, made: Callable[..., Any] = made, **more: Any) -> Any:
                nonlocal count
                count += 1
                if count == at:
                    raise Killed
                return made(*given, **more)

            patch.setattr(os, name, counted)
        try:
            call()
        except Killed:
            return True
    return False


def check_export(moving: Moving) -> None:
    """There is no file, or a whole one, and the state is as it was."""
    if moving.file.exists():
        assert opened(moving.file, moving.phrase) == (0, json.dumps(moving.person.stored()) + "\n")
    rest = moving.room / "moved.new"
    assert not rest.exists() or rest.stat().st_mode & 0o777 == 0o600


def test_ends_of_an_export(moving: Moving) -> None:
    """An export that ends at any call leaves no file or a whole one, and the next one goes on."""
    at, state = 1, moving.person.state.read_bytes()
    while ended(moving.export, at):
        check_export(moving)
        assert moving.person.state.read_bytes() == state
        if not moving.file.exists():
            assert moving.export()[0] == 0
        check_export(moving)
        moving.file.unlink()
        at += 1
    assert at > 6 and moving.file.exists()


def test_ends_of_an_import(moving: Moving) -> None:
    """An import that ends at any call leaves no state or a whole one, and the next one goes on."""
    assert moving.export()[0] == 0
    at, there = 1, moving.room / "other"
    while ended(moving.bring, at):
        assert moving.stored() in (None, moving.person.stored())
        wanted = 3 if there.exists() else 0
        assert moving.bring()[0] == wanted and moving.stored() == moving.person.stored()
        there.unlink()
        at += 1
    assert at > 6 and moving.stored() == moving.person.stored()


@pytest.mark.parametrize("size", [0, 1, 8, 20, 60, 90, 200, 1000])
def test_rest_of_an_export(moving: Moving, size: int) -> None:
    """What a process has written of a file before it was killed is no exported state, and the next export removes it."""
    assert moving.export()[0] == 0
    rest, whole = moving.room / "next.new", moving.file.read_bytes()
    rest.write_bytes(whole[:size])
    moving.file = rest
    assert len(whole) > size and moving.bring()[0] == 3 and moving.stored() is None
    moving.file = moving.room / "next"
    assert moving.export()[0] == 0 and not rest.exists() and moving.bring()[0] == 0


def test_rest_of_somebody_else(moving: Moving) -> None:
    """Another file in the place of what is written first is left as it is."""
    rest = moving.room / "moved.new"
    rest.write_bytes(b"something else")
    assert moving.export()[0] == 3 and rest.read_bytes() == b"something else" and not moving.file.exists()


def test_full_disk(moving: Moving) -> None:
    """A disk that takes only a part leaves no file that is taken for whole."""

    def limit() -> None:
        resource.setrlimit(resource.RLIMIT_FSIZE, (100, 100))
        signal.signal(signal.SIGXFSZ, signal.SIG_IGN)

    words = [sys.executable, "-m", "coniks.contacts", *moving.words("export", "--state", str(moving.person.state))]
    ran = subprocess.run(words, capture_output=True, text=True, preexec_fn=limit)
    assert ran.returncode == 3 and not moving.file.exists(), ran.stdout
    moving.file = moving.room / "moved.new"
    assert moving.bring()[0] == 3 and moving.stored() is None


@pytest.mark.kills
def test_kills(moving: Moving, request: pytest.FixtureRequest) -> None:
    """Both commands are killed at random moments."""
    draw, there = random.Random(request.config.getoption("seed")), moving.room / "other"
    program = (
        "import coniks._moving as it; it.PASSES, it.KIB = 1, 8; import sys; from coniks.contacts import main; sys.exit(main())"
    )
    for _ in range(max(4, request.config.getoption("kills") * 2)):
        for command, state in (("export", moving.person.state), ("import", there)):
            words = [sys.executable, "-c", PROGRAM, *moving.words(command, "--state", str(state))]
            running = subprocess.Popen(words, stdout=subprocess.DEVNULL)
            time.sleep(draw.random() / 2)
            running.kill()
            running.wait()
            check_export(moving)
            assert moving.stored() in (None, moving.person.stored())
            if command == "export" and not moving.file.exists():
                assert moving.export()[0] == 0
        assert moving.stored() or moving.bring()[0] == 0
        for path in (moving.file, there):
            path.unlink()


def written(path: Path, *_: object) -> Optional[bytes]:
    return path.read_bytes() if path.exists() else None


def test_written_whole(moving: Moving, monkeypatch: pytest.MonkeyPatch) -> None:
    """The file comes to its place once it is synced as a whole."""
    seen, replace = list[tuple[Optional[bytes], Optional[bytes]]](), os.replace

    def replaced(old: str, new: Path) -> None:
        seen.append((written(moving.file), Path(old).read_bytes()))
        replace(old, new)

    monkeypatch.setattr(os, "replace", replaced)
    assert moving.export()[0] == 0
    assert seen == [(None, moving.file.read_bytes())]
