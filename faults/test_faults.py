"""Calls that fail in turn, the first, the second and so on until a run has no failing call, over what `rt ci` has built.

Over the tests of TESTS each allocation fails, over the programs each allocation, each read, each write and the start of each
thread, which also counts the threads. A line at the end of the run reports how each of these ended.
"""

from __future__ import annotations

import os
import subprocess
from concurrent.futures import Future, ThreadPoolExecutor
from functools import cache, partial
from pathlib import Path
from typing import Any, Callable, Iterator, Optional, Sequence, Union

import case_rows
import pytest
import tools
from bytelists import demonstration_index
from size_lines import KEY, NONCE, POLICY, operation
from size_lines import text_of as line_of
from supplied import SIGNATURE_LENGTH, SuppliedDirectory

HERE = Path(__file__).resolve().parent
CRATES = HERE.parent / "crates"
MOST = 5000
SECONDS = 60

# A crate, a test of it, and whether some failures of its call cost only a worker. A test writes `refused` if its call was,
# else `answered`.
TESTS = [
    ("coniks_directory_tests", "tests::refused::prepare::refused_in_turn", False),
    ("coniks_directory_tests", "tests::refused::prepare_by_three", True),
    ("coniks_directory_tests", "tests::refused::rotate_by_one", False),
    ("coniks_directory_tests", "tests::refused::rotate_by_three", True),
    ("coniks_directory_tests", "tests::refused::install::refused_in_turn", False),
    ("coniks_directory_tests", "tests::refused::commit_in_prepare", False),
    ("coniks_directory_tests", "tests::refused::commit_in_install", False),
    ("coniks_directory_tests", "tests::refused::lookup::refused_in_turn", False),
    ("coniks_directory_tests", "tests::refused::signed_lookup_at", False),
    ("coniks_directory_tests", "tests::refused::supply", False),
    ("coniks_directory_tests", "tests::refused::prepare_owned", False),
    ("coniks_directory_tests", "tests::refused::install_supplied", False),
    ("coniks_directory_tests", "tests::refused::restore::page", False),
    ("coniks_directory_tests", "tests::refused::restore::add", False),
    ("coniks_directory_tests", "tests::refused::restore::finish", True),
    ("coniks_base_tests", "tests::proof::refused_in_turn", False),
    ("coniks_base_tests", "tests::tree::refused_in_turn", False),
    ("coniks_base_tests", "tests::chain::refused_in_turn", False),
    ("coniks_directory_tests", "tests::tool::refused::by_one", False),
    ("coniks_directory_tests", "tests::tool::refused::by_three", True),
]

# Cases that the programs run.
RUNS = [
    "run/a-script-of-faults",
    "run/refused-batch-leaves-the-registry",
    "run/empty-batch-that-renews-the-nonce",
    "run/workers-2-depth-8",
    "check/lookups-that-run-printed",
    "audit/batches-that-run-printed",
    "monitor/lookups-that-run-printed",
    "provider/refused-prepare-keeps-the-pending-update",
    "provider/second-prepare-replaces-the-first",
    "provider/lookup-of-a-prepared-name",
    "provider/nonce-with-operations",
    "provider/three-names-by-two-workers",
    "provider/bindings-page-by-page",
    "provider/restored-and-then-the-same-batches",
    "provider/restored-line-by-line",
    "provider/restoring-faults-across-lines",
    "provider/root-differs-by-another-key",
]

# How many worker threads the programs are asked for, the names of the one batch that they build, which has enough jobs for each,
# and the fewest commitments in the share of a worker.
WORKERS = [1, 2, 3, 8, 64]
NAMES = 2000
FEWEST = 512

# While the command line is read one request is for room that reading can do without.
SPARED = 1

# What each kind of call that fails leads to, after the program's name. Only `keydir run` has a board.
NO_BOARD = "no board"
TEXTS = {"memory": ["out of memory", NO_BOARD], "read": ["read failed"], "write": ["write failed"], "stall": ["write failed"]}
WITH_BOARD = ["run"]


# Lines that a program reads, each by its members.
Lines = list[dict[str, Any]]

# What runs a try over the library that makes calls fail, and returns the text that its line prints.
Try = Callable[[str], str]

# A program and its arguments.
Words = Sequence[Union[str, bytes, Path]]


class Wrong(Exception):
    """What a run did otherwise than it should."""


class Ran:
    """What came of a run in which a call was to fail, and whether it came to that call."""

    def __init__(self, library: str, fault: str, words: Words, given: bytes = b"") -> None:
        reported, teller = os.pipe()
        try:
            setting = {"FAULT": fault, "FAULT_TOLD": str(teller), "LD_PRELOAD": library}
            ran = subprocess.run(words, input=given, capture_output=True, env=setting, pass_fds=[teller], timeout=SECONDS)
        finally:
            os.close(teller)
            self.is_met = os.read(reported, 1) == b"!"
            os.close(reported)
        self.status, self.output, self.errors = ran.returncode, ran.stdout, ran.stderr


def each(library: str, kind: str, words: Words, given: bytes = b"") -> Iterator[tuple[int, Ran]]:
    """The runs in which the first call fails, then the second, and so on, until none fails; with their numbers."""
    for number in range(1, MOST):
        ran = Ran(library, f"{kind} {number}", words, given)
        yield number, ran
        if not ran.is_met:
            return
    raise Wrong(f"{kind}: still met at the call {MOST}")


def answer_of(number: int, ran: Ran) -> bool:
    """Whether the call of a test was refused memory."""
    if ran.status or not ran.output.endswith(b"\ntest result: ok\n"):
        raise Wrong(f"memory {number}: {ran.output + ran.errors!r}")
    words = ran.output.split()
    if (b"refused" in words) == (b"answered" in words):
        raise Wrong(f"memory {number}: the test doesn't say whether its call was refused")
    return b"refused" in words


def try_test(library: str, crate: str, test: str, costs_workers: bool) -> str:
    """Makes each allocation of a test fail. Between the first and the last failure of its call each one is the call's, unless
    it may cost only a worker."""
    program = CRATES / crate / f"out/{crate}_tests"
    if not program.is_file():
        pytest.skip(f"{program.name} isn't built: `rt ci` builds it")
    words: Words = [program, test]
    answers = [answer_of(number, ran) for number, ran in each(library, "memory", words)]
    if True not in answers:
        raise Wrong("its call met no refusal")
    first, last = answers.index(True), len(answers) - answers[::-1].index(True)
    borne = answers[first:last].count(False)
    if (borne > 0) != costs_workers:
        raise Wrong(f"refusals of the call that changed no answer: {borne}")
    return f"{len(answers) - 1} requests, of which {last - first} are its call's" + f", {borne} without a fault" * costs_workers


class CaseRun:
    """A case as a program runs it: the program's name, its arguments, and the case."""

    def __init__(self, case: case_rows.Case) -> None:
        self.case = case
        self.program = next(it for it, tables in case_rows.TABLES.items() if case.table in tables)
        self.has_board = case.table in WITH_BOARD
        self.words: list[Union[str, bytes, Path]] = [CRATES / self.program / "out" / self.program, *case.words()]
        if self.program == "provider" and b"--workers" not in case.words():
            # Without an option it has as many workers as the machine has processors.
            self.words += ["--workers", "1"]
        self.has_workers = self.workers() != "1"

    def workers(self) -> str:
        """The number of workers in the arguments."""
        words = [os.fsdecode(it) for it in self.words]
        return words[words.index("--workers") + 1] if "--workers" in words else "1"


def text_of(run: CaseRun, kind: str, number: int, ran: Ran) -> Optional[str]:
    """What a run reports of the call that failed; none if it ends as without a failure."""
    whole = run.case.read("out")
    if (ran.status, ran.output, ran.errors) == (run.case.status(), whole, b""):
        return None
    is_part = whole.startswith(ran.output) and (kind in ("write", "stall") or ran.output[-1:] in (b"", b"\n"))
    text = next((it for it in TEXTS[kind] if ran.errors == f"{run.program}: {it}\n".encode()), None)
    is_reported = text is not None and (text != NO_BOARD or not ran.output)
    if ran.status != 3 or not is_part or not is_reported:
        raise Wrong(f"{kind} {number}: status {ran.status}, {ran.errors!r}, output {ran.output[-200:]!r}")
    return text


def try_program(library: str, run: CaseRun, kind: str) -> str:
    """Makes each call of a kind fail under a program. Each failure is reported, except one that costs only a worker."""
    texts = [text_of(run, kind, number, ran) for number, ran in each(library, kind, run.words, run.case.given())]
    borne = texts[:-1].count(None) - SPARED * (kind == "memory")
    if texts[-1] or len(texts) < 2 or borne < 0 or (borne > 0) != (kind == "memory" and run.has_workers):
        raise Wrong(f"{kind}: of {len(texts) - 1} failures {borne} changed nothing, and the run without one told {texts[-1]}")
    if kind == "memory" and (NO_BOARD in texts) != run.has_board:
        raise Wrong("memory: want of a board is told by run, and by no other")
    return f"{len(texts) - 1} failures" + f", {borne} without a fault" * (borne > 0)


def try_bytes(library: str, run: CaseRun) -> str:
    """One byte a call gives the same output."""
    case = run.case
    ran = Ran(library, "bytes 0", run.words, case.given())
    if (ran.status, ran.output, ran.errors) != (case.status(), case.read("out"), b""):
        raise Wrong(f"status {ran.status}, {ran.errors!r}, output {ran.output[-200:]!r}")
    return "the whole output"


def batch_lines(program: str) -> Lines:
    """The lines of one batch, as the program reads it."""
    ops = [operation("register", it, 0) for it in range(NAMES)]
    if program == "keydir":
        return [{"cmd": "open", "key": KEY, "nonce": NONCE, "policy": POLICY}, {"cmd": "batch", "epoch": 1, "ops": ops}]
    ops = [{**it, "index": demonstration_index(bytes.fromhex(KEY), it["name"].encode()).hex()} for it in ops]
    return [{"cmd": "open", "nonce": NONCE, "policy": POLICY}, {"cmd": "prepare", "epoch": 1, "ops": ops}]


@cache
def restore_lines() -> Lines:
    """The lines that restore the names of that batch, under an entry with the body that the second implementation computes."""
    lines, directory = batch_lines("provider"), SuppliedDirectory()
    *_, prepared = [directory.answer(line_of(it).encode()) for it in lines]
    entry = f"{prepared['body']}{'00' * SIGNATURE_LENGTH}"
    return [{"cmd": "restore", "entry": entry}, {"cmd": "restoring", "bindings": lines[-1]["ops"]}, {"cmd": "restored"}]


def threads(workers: int) -> int:
    """How many threads this number of workers starts for the names. The program's own thread is a worker too, once for their
    commitments, in even shares of `FEWEST` or more, and once for the tree."""
    share = -(-NAMES // max(min(workers, NAMES // FEWEST), 1))
    return -(-NAMES // share) - 1 + workers - 1


def try_threads(library: str, program: str, options: Sequence[str], workers: int, lines: Callable[[], Lines]) -> str:
    """Lets the start of each thread fail under lines that build one tree, all of which are accepted. That changes no answer, and as
    many threads are started as its workers need."""
    words: Words = [CRATES / program / "out" / program, *(["run"] if program == "keydir" else []), *options]
    read = lines()
    given = "".join(f"{line_of(it)}\n" for it in read).encode()
    runs = [ran for _, ran in each(library, "thread", words, given)]
    if len(runs) - 1 != threads(workers):
        raise Wrong(f"{len(runs) - 1} threads were started, and {threads(workers)} are wanted")
    if any(it.status or it.errors or it.output != runs[-1].output for it in runs) or runs[-1].output.count(b"\n") != len(read):
        raise Wrong("a thread that can't be started changed an answer")
    return f"{len(runs) - 1} threads beside its own"


def thread_tries() -> Iterator[tuple[str, Try]]:
    """The programs with each number of workers, and `provider` with as many as there are processors, which is its default."""
    for program in ("keydir", "provider"):
        for workers in WORKERS:
            options = ["--workers", str(workers), "--depth", "12"]
            yield f"{program} {' '.join(options)}", partial(
                try_threads, program=program, options=options, workers=workers, lines=partial(batch_lines, program)
            )
            if program == "provider":
                yield f"a restore, {' '.join(options)}", partial(
                    try_threads, program=program, options=options, workers=workers, lines=restore_lines
                )
    processors = min(64, len(os.sched_getaffinity(0)))
    yield "provider without an option", partial(
        try_threads, program="provider", options=[], workers=processors, lines=partial(batch_lines, "provider")
    )


def tries() -> Iterator[tuple[str, Try]]:
    """What is tried, each by its name and what does it."""
    yield from thread_tries()
    for crate, test, costs_workers in TESTS:
        yield f"{crate}, {test}", partial(try_test, crate=crate, test=test, costs_workers=costs_workers)
    for run in map(CaseRun, case_rows.chosen(RUNS)[0]):
        for kind in TEXTS:
            yield f"{run.case.name}, {kind}", partial(try_program, run=run, kind=kind)
        yield f"{run.case.name}, one byte a call", partial(try_bytes, run=run)


ALL = dict(tries())


@pytest.fixture(scope="module")
def running(request: pytest.FixtureRequest, tmp_path_factory: pytest.TempPathFactory) -> Iterator[dict[str, Future[str]]]:
    """The tries of the chosen tests, of which as many run at once as there are processors."""
    if not tools.has("a C compiler"):
        pytest.skip("a C compiler is missing")
    if not all((CRATES / it / "out" / it).is_file() for it in case_rows.TABLES):
        pytest.skip("keydir and provider aren't built: `rt ci` builds them")
    library = str(tmp_path_factory.mktemp("faults") / "failing.so")
    subprocess.run([tools.CC, "-O1", "-shared", "-fPIC", "-o", library, HERE / "failing.c"], check=True)
    chosen = [it.callspec.params["name"] for it in request.session.items if it.path == Path(__file__)]  # type: ignore[attr-defined]
    with ThreadPoolExecutor(os.cpu_count()) as pool:
        yield {it: pool.submit(ALL[it], library) for it in chosen}
        pool.shutdown(cancel_futures=True)


@pytest.mark.parametrize("name", ALL)
def test_fault(name: str, running: dict[str, Future[str]], say: Callable[[str], None]) -> None:
    say(f"{name}: {running[name].result()}")
