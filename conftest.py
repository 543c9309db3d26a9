"""What the tests in Python share: options, the programs, the library for C, and lines for the end of a run."""

from __future__ import annotations

import subprocess
from contextlib import suppress
from pathlib import Path
from typing import Any, Callable, Sequence

import pytest
import tools

TOP = Path(__file__).resolve().parent
PRINTED: pytest.StashKey[list[str]] = pytest.StashKey()
Say = Callable[[str], None]

with suppress(ImportError):
    from hypothesis import HealthCheck, configuration, settings

    configuration.set_hypothesis_home_dir(str(TOP / "out/hypothesis"))  # type: ignore[no-untyped-call]
    shared = settings(deadline=None, suppress_health_check=[HealthCheck.too_slow, HealthCheck.data_too_large])
    # The first one is the default, and makes the same examples each time. `--hypothesis-profile` names another one.
    settings.register_profile("gate", shared, max_examples=400, derandomize=True, database=None)
    settings.register_profile("random", shared, max_examples=400)
    settings.register_profile("long", shared, max_examples=20_000)
    settings.load_profile("gate")

pytest.register_assert_rewrite(
    "raising", "stand_ins", "snapshots", "one_chain", "steps", "clusters", "log_calls", "services", "loads", "facts"
)


# The numbers that options set, with their defaults.
NUMBERS: dict[str, tuple[float, str]] = {
    "kills": (10, "kills of a provider, and twice as many of a guard"),
    "honest": (150, "honest runs"),
    "faults": (9, "faults of a cluster"),
    "proofs": (5000, "random proofs over the library for C"),
    "calls": (20_000, "random calls of the library for C"),
    "alterations": (200, "alterations of a client's cases, and a quarter as many walks"),
    "epochs": (3, "epochs of all that can happen to a watched name"),
    "schedules": (100, "random schedules of a hostile service"),
    "seed": (1, "where the random alterations and walks of clients begin"),
    "lines": (1000, "random lines, each checked by the page and by the program"),
    "requests": (40, "random requests of each endpoint of examples/service"),
    "load": (0.0, "seconds of the whole load on examples/service (default: a short one)"),
    "lookups": (1000, "lookups a second of the whole load"),
    "readers": (2, "processes that look names up in it"),
    "replicas": (0, "replicas that they ask, in place of the writer"),
    "days": (6, "days of the year of examples/service"),
    "points": (500, "random VRF proofs and as many signatures in JavaScript"),
}


def pytest_addoption(parser: pytest.Parser) -> None:
    group = parser.getgroup("coniks", "the tests of coniks")
    for name in ["keydir", "provider"]:
        group.addoption(f"--{name}", metavar="FILE", help=f"the program `{name}` (default: the proved one, else the unproved one)")
    for name, (default, what) in NUMBERS.items():
        group.addoption(f"--{name}", type=type(default), default=default, metavar="N", help=what)
    group.addoption(
        "--client", metavar="COMMAND", help="a client's program that replies to the requests of embed/tests/client_sides.py"
    )


def pytest_configure(config: pytest.Config) -> None:
    config.stash[PRINTED] = list[str]()


def pytest_collection_modifyitems(items: list[pytest.Item]) -> None:
    """Puts the interrupts last: those at some bytecodes leave an exception behind in the main thread, with the frames of its call."""
    items.sort(key=lambda it: it.get_closest_marker("interrupts") is not None)


def pytest_terminal_summary(terminalreporter: Any, config: pytest.Config) -> None:
    """Prints what the tests have counted and measured."""
    for line in config.stash[PRINTED]:
        terminalreporter.write_line(line)


@pytest.fixture
def say(request: pytest.FixtureRequest) -> Say:
    """Adds a line to the end of the run."""
    return request.config.stash[PRINTED].append


def built(config: pytest.Config, name: str) -> str:
    """The path of a program. Without one the test is skipped. One that is named and missing is an error."""
    given = config.getoption(name)
    for place in [Path(given)] if given else [TOP / f"crates/{name}/out/{name}", TOP / f"out/unproved/{name}"]:
        if place.is_file():
            return str(place.resolve())
    if given:
        raise pytest.UsageError(f"--{name}: {given} is no file")
    pytest.skip(f"{name} isn't built: ./{name} --version builds it")


@pytest.fixture(scope="session")
def program(request: pytest.FixtureRequest) -> str:
    """The path of the program `provider`."""
    return built(request.config, "provider")


@pytest.fixture(scope="session")
def keydir(request: pytest.FixtureRequest) -> str:
    """The path of the program `keydir`."""
    return built(request.config, "keydir")


@pytest.fixture(scope="session")
def lines(keydir: str) -> Sequence[dict[str, Any]]:
    """Lookups, each with its line."""
    import samples

    return samples.lookups(keydir)


@pytest.fixture(scope="session")
def embedded() -> None:
    """What embed/build makes: the library for C, proved and built."""
    needs("a C compiler")
    build(TOP / "embed/build")


@pytest.fixture(scope="session")
def module() -> None:
    """What web/build makes: the page and the module for web projects."""
    needs("wasm-opt")
    build(TOP / "web/build")


def needs(tool: str) -> None:
    if not tools.has(tool):
        pytest.skip(f"{tool} is missing")


def build(script: Path) -> None:
    ran = subprocess.run([script], capture_output=True, text=True)
    assert ran.returncode == 0, ran.stderr[-2000:]


@pytest.fixture(scope="session")
def library() -> None:
    """Skips a test without the library for C."""
    import coniks

    try:
        coniks.library_version()
    except ImportError as error:
        pytest.skip(str(error))
