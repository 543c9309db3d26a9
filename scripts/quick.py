"""`./gate quick`: the tests of what changed, side by side, over programs and a library that are built without a proof."""

from __future__ import annotations

import os
import re
import subprocess
import time
from concurrent.futures import FIRST_COMPLETED, Future, ThreadPoolExecutor, wait
from dataclasses import dataclass, field
from pathlib import Path
from typing import Callable, Optional, Sequence, Union

import parts
from counting import Tally, counts_of, say, wrong_in
from over_libraries import crates

TOP = Path(__file__).resolve().parent.parent
PROGRAMS = {parts.KEYDIR: "keydir", parts.PROVIDER: "provider"}

# The seconds after which a proof is ended. One that has to prove the libraries below its crate takes longer.
LONGEST = 150

# A line of pytest's progress.
DOTS = re.compile(r"[.sxXFE]+( +\[ *\d+%\])?")

# What runs if a crate changed from which a program, or the library for C, is built.
OVER = {
    "keydir": ["the cases over keydir", "the streams of keydir", "wrong programs", "the examples"],
    "provider": ["the cases over provider", "the streams of provider", "provider beside keydir"],
    "coniks_c": ["the library for C"],
}

# What runs the tests of a crate that take minutes under `rt try`.
TESTS: dict[str, list[str]] = {"coniks_evidence": [str(TOP / "scripts/unproved-tests")]}


def git(*words: str) -> list[str]:
    return subprocess.run(["git", *words], cwd=TOP, capture_output=True, text=True).stdout.splitlines()


def base() -> Optional[str]:
    """Where the branch left main: the nearest commit that it has in common with main or origin/main. On main, that of origin/main."""
    here = git("rev-parse", "HEAD")
    found = [it for ref in ("main", "origin/main") for it in git("merge-base", "HEAD", ref) if [it] != here]
    return min(found, key=lambda it: len(git("rev-list", f"{it}..HEAD")), default=None)


def changed_files() -> tuple[str, list[str]]:
    """Since when files changed, and which: those of all commits since the branch left main, and those that are not committed. If
    there are none, those of the last commit."""
    loose = [it[3:].rpartition(" -> ")[2].strip('"') for it in git("status", "--porcelain", "--untracked-files=all")]
    since = base() or ("" if loose else "HEAD~1")
    files = {*loose, *(git("diff", "--name-only", since, "HEAD") if since else [])}
    return (f"since {since[:12]}" if since else "that are not committed"), sorted(files)


@dataclass
class Job:
    """A command that runs beside others, once the jobs in `after` have passed. If it has a limit, it is ended after these seconds.
    What went wrong is in `wrong` once it has run."""

    name: str
    words: Sequence[str]
    after: Sequence[str] = ()
    home: Path = TOP
    limit: int = 0
    wrong: list[str] = field(default_factory=list)

    def tell(self, text: str) -> None:
        say(f"{self.name}: {text}")

    def run(self) -> Optional[list[int]]:
        """Prints each line as it comes. What passed, failed and was skipped, or None at the limit."""
        start, lines = time.monotonic(), []
        # In the foreground, so that an interrupt reaches what it runs.
        words = [*(["timeout", "--foreground", "--signal=INT", str(self.limit)] if self.limit else []), *self.words]
        setting = os.environ | {"PYTHONUNBUFFERED": "1"}
        with subprocess.Popen(
            words, cwd=self.home, env=setting, stdout=subprocess.PIPE, stderr=subprocess.STDOUT, text=True, errors="replace"
        ) as ran:
            assert ran.stdout
            for line in map(str.rstrip, ran.stdout):
                lines.append(line)
                if line and not DOTS.fullmatch(line):
                    self.tell(line)
        took = f"{time.monotonic() - start:.0f} s"
        if self.limit and ran.returncode == 124:
            self.tell(f"not at its end after {took}")
            return None
        counts = counts_of("\n".join(lines), ran.returncode)
        if ran.returncode == 0 and counts == [0, 1, 0] and not re.search(r"[1-9]\d* failed", "".join(lines[-1:])):
            # It counts nothing that is known here, and has passed.
            counts = [1, 0, 0]
        self.tell(f"{'FAILED' if counts[1] else 'ok'}, {took}")
        self.wrong += wrong_in(lines) if counts[1] else []
        return counts


@dataclass
class Step:
    """A call that runs beside jobs, and returns what went wrong, if anything."""

    name: str
    call: Callable[[], str]
    after: Sequence[str] = ()
    wrong: list[str] = field(default_factory=list)

    def run(self) -> list[int]:
        wrong = self.call()
        say(f"{self.name}: {wrong or 'ok'}")
        self.wrong += [wrong] if wrong else []
        return [0, int(bool(wrong)), 0]


def is_built(program: str) -> bool:
    """Whether the proved program is of the present sources, for whichever processor."""
    file = TOP / f"crates/{program}/out/{program}"
    tried = [os.environ | {"CONIKS_CPU": it} for it in ("x86-64-v3", "x86-64-v2")]
    return any(subprocess.run([TOP / "scripts/built", "is", file], env=it).returncode == 0 for it in tried)


def places() -> dict[str, str]:
    """The path of each program: the proved one if it is of the present sources, else the one without a proof."""
    return {it: str(TOP / (f"crates/{it}/out/{it}" if is_built(it) else f"out/unproved/{it}")) for it in PROGRAMS.values()}


def build_jobs(programs: dict[str, str]) -> list[Job]:
    """What builds the programs, the library and the module, if they aren't built from the present sources."""
    unproved = [Job(it, [f"./{it}", "--unproved", "--version"]) for it, place in programs.items() if "unproved" in place]
    return [*unproved, Job("embed/build", ["embed/build"]), Job("web/build", ["web/build"])]


def job_of(part: parts.Part, programs: dict[str, str], is_whole: bool = False) -> Job:
    """The job of a part, with what its options leave out if it is the whole one."""
    after = ["embed/build"] * part.library + ["web/build"] * part.module
    words = [programs[PROGRAMS[it]] if it in PROGRAMS else it for it in part.command(is_whole)]
    if part.is_pytest() and not part.tests[0].startswith("scripts/"):
        words += [f"--{it}={place}" for it, place in programs.items()]
        after += programs
    elif part.is_over_programs():
        after += programs
    return Job(part.name, words, after)


def changed_crates(files: Sequence[str], *folders: str) -> list[str]:
    """The crates in which a file of these folders changed, lowest first."""
    found = {found[1] for it in files if (found := re.fullmatch(rf"crates/(\w+)/({'|'.join(folders)})/.*", it))}
    return sorted(found & crates().keys(), key=lambda it: (len(crates(it)), it))


def has_tests(crate: str) -> bool:
    return any("#[test]" in it.read_text("utf-8") for it in (TOP / "crates" / crate / "src").rglob("*.rt"))


def crate_jobs(names: Sequence[str]) -> list[Job]:
    """What tests some crates: the check of each, one after another since they share libraries, and their tests without a proof."""
    jobs, before = list[Job](), list[str]()
    for name in names:
        jobs.append(Job(f"rt check in {name}", ["rt", "check"], before, TOP / "crates" / name, LONGEST))
        before = [jobs[-1].name]
    tested = [it for it, needs in crates().items() if not {it, *needs}.isdisjoint(names) and has_tests(it)]
    return jobs + [Job(f"tests in {it}", TESTS.get(it, ["rt", "try", "--test"]), home=TOP / "crates" / it) for it in tested]


def processors() -> int:
    return len(os.sched_getaffinity(0))


def run_jobs(jobs: Sequence[Union[Job, Step]], tally: Tally, most: int = 0) -> list[str]:
    """Runs the jobs, as many at a time as there are processors, or at most `most`. What was not run, or not to its end."""
    left, ended, lacking = [*jobs], dict[str, bool](), list[str]()
    names = {it.name for it in jobs}
    with ThreadPoolExecutor(most or processors()) as pool:
        running: dict[Future[Optional[list[int]]], Union[Job, Step]] = {}
        while left or running:
            for job in [*left]:
                waits = [it for it in job.after if it in names]
                if any(ended.get(it) is False for it in waits):
                    left.remove(job)
                    ended[job.name] = False
                    lacking.append(f"{job.name}, since {next(it for it in waits if ended.get(it) is False)} failed")
                elif all(it in ended for it in waits):
                    left.remove(job)
                    running[pool.submit(job.run)] = job
            for done in wait(running, return_when=FIRST_COMPLETED).done:
                job, counts = running.pop(done), done.result()
                ended[job.name] = counts is None or not counts[1]
                if counts is None and isinstance(job, Job):
                    lacking.append(
                        f"{job.name}, ended after {job.limit} s: cd {job.home.relative_to(TOP)} && {' '.join(job.words)}"
                    )
                tally.add(*(counts or [0, 0, 1]))
                tally.wrong += [f"{job.name}: {it}" for it in job.wrong]
    return lacking


def quick(tally: Tally) -> None:
    os.environ["CONIKS_UNPROVED"] = "1"
    since, files = changed_files()
    say(f"gate: quick, which runs rt check in the crates that changed, and no other proof: {len(files)} files {since}")
    names = changed_crates(files, "src", "specs", "proofs")
    over = [it for built, found in OVER.items() if not crates(built).keys().isdisjoint(names) for it in found]
    chosen = [it for it in parts.PARTS if it.name in over or any(map(it.has, files))]
    programs = places()
    jobs = [job_of(it, programs) for it in chosen]
    needed = {it for job in jobs for it in job.after}
    begun = [it for it in build_jobs(programs) if it.name in needed]
    lacking = run_jobs([*begun, *crate_jobs(names), *jobs], tally)
    say("")
    for it in [*lacking, *left_out(chosen, names, changed_crates(files, "must-fail"))]:
        say(f"not run: {it}")


def left_out(chosen: Sequence[parts.Part], names: Sequence[str], edited: Sequence[str]) -> list[str]:
    """What the jobs leave out, and the command that runs it: of the chosen parts, of crates that changed, and of crates whose must-fail
    edits did."""
    lines = [f"all of {it.name}: {it.whole()}" for it in chosen if it.whole()]
    if names:
        lines.append(
            f"the proofs of the crates above, and the must-fail edits: rt ci {' '.join(names)} (scripts/price has the minutes)"
        )
    elif edited:
        lines.append(f"the must-fail edits: rt must-fail {' '.join(edited)}")
    return [*lines, f"{len(parts.PARTS) - len(chosen)} parts of which no file changed, and every proof: ./gate"]
