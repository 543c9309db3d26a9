"""The parts of the tests: which files each of them tests, and what runs it.

`./gate quick` runs the parts of which a file changed. Each test of the repository is in a part, and each file is of a part or in
`ALONE` (scripts/tests/test_parts.py).
"""

from __future__ import annotations

import re
from dataclasses import dataclass, replace
from functools import cache
from typing import Iterable, Sequence

# The words of a command that `./gate quick` replaces by the path of a program.
KEYDIR, PROVIDER = "KEYDIR", "PROVIDER"

# The pages whose examples and tables several tests read.
FORMATS, LINES, STORED = "docs/FORMATS.md", "docs/LINES.md", "docs/STORED.md"

# The tests that `./gate quick` leaves out, since they take minutes: they kill processes, or interrupt calls at each bytecode.
SHORT = ["-m", "not interrupts and not kills"]


@cache
def pattern(text: str) -> re.Pattern[str]:
    """A pattern of paths: `*` matches what is within a folder, and `**` anything."""
    parts = {"**": ".*", "*": "[^/]*"}
    return re.compile("".join(parts.get(it, re.escape(it)) for it in re.split(r"(\*\*|\*)", text)))


@dataclass(frozen=True)
class Part:
    """A part of the tests. `of` has patterns of the files that it tests, and `tests` its files of tests, or the command that runs it.
    With `options` pytest runs it in less time. What needs the library for C, or the module for browsers, has `library` or `module`.
    What fails on a busy machine is `alone` in the whole gate: it has limits of time.
    """

    name: str
    of: Sequence[str]
    tests: Sequence[str]
    options: Sequence[str] = ()
    library: bool = False
    module: bool = False
    alone: bool = False

    def has(self, file: str) -> bool:
        """Whether a file is tested by this part, or is a test of it."""
        return file in self.tests or any(pattern(it).fullmatch(file) for it in self.of)

    def is_pytest(self) -> bool:
        return self.tests[0].rpartition("/")[2].startswith("test_")

    def is_over_programs(self) -> bool:
        """Whether a command takes a program, or starts one by its launcher."""
        return not self.is_pytest() and ("examples" in self.tests[0] or any(it in (KEYDIR, PROVIDER) for it in self.tests))

    def command(self, is_whole: bool = False) -> list[str]:
        """What the gate runs, at the top of the repository."""
        if self.is_pytest():
            return ["scripts/pytest", "--quiet", "-rsfE", *self.tests, *([] if is_whole else self.options)]
        if self.tests[0].endswith(".mjs"):
            return ["node", "--test", "--test-reporter=spec", *self.tests]
        return [*self.tests]

    def whole(self) -> str:
        """The command that runs the part with all that `options` leave out, if they leave something out."""
        return " ".join(["scripts/pytest", *self.tests]) if self.options else ""


def package(*names: str) -> list[str]:
    """Modules of the package in Python."""
    return [f"embed/python/src/coniks/{it}.py" for it in names]


def tests(folder: str, *names: str) -> list[str]:
    """Files of a folder of its tests."""
    return [f"embed/python/tests/{folder}/{it}.py" for it in names]


# What the tests of providers, and those of clusters, share.
OF_PROVIDERS = (
    ["embed/python/tests/conftest.py"]
    + tests("provider", "conftest", "stand_ins", "raising", "memory_log", "fake")
    + package("provider", "faults")
)
OF_CLUSTERS = (
    tests("cluster", "conftest", "clusters", "log_calls") + package("_session", "_tables") + ["examples/cluster/database.py"]
)
# What the clients of all languages are compared with, and what compares them.
CORE_TESTS = [f"embed/tests/{it}.py" for it in ("core_client", "core_states", "guarded")]
OF_CLIENTS = [
    "cases/client/*",
    "cases/second/client*",
    "cases/second/replies.py",
    "cases/second/curve.py",
    "cases/second/policy.py",
    "cases/second/successions.py",
    "embed/tests/client_sides.py",
]
OF_JAVA = ["embed/java/**", "embed/c/client*", "embed/tests/java_clients.py", "embed/tests/native_clients.py", "include/*"]
# What the packages for other languages are compared with.
OF_SIDES = ["include/coniks.h", "include/coniks_core.h", "formats.toml", "embed/sample", "embed/proof_bytes.py"]
OF_SIDES += [f"embed/tests/{it}.py" for it in ("conftest", "messages", "model", "running", "samples", "sides")]

OF_CLIENT_IN_PYTHON = [
    *package("client", "_core", "_memory", "_verdicts", "_messages", "_replies", "_ecvrf", "policy", "succession"),
    "include/coniks_core.h",
]
OF_CONTACTS = package(
    "contacts", "_person", "_own_names", "_confirming", "_telling", "_moving", "_going_on", "succession", "commands", "trust"
)
# What a replica is, and what makes the faults of a cluster.
REPLICATED = ["replica", "postgres"]
OF_FAULTS = [*tests("cluster", "cluster_faults"), "examples/cluster/node.py"]


def of_cluster(
    name: str, modules: Sequence[str], files: Sequence[str], options: Sequence[str] = (), more: Sequence[str] = ()
) -> Part:
    """A part whose tests need a private PostgreSQL."""
    return Part(name, [*package(*modules), *OF_CLUSTERS, *more], tests("cluster", *files), options, library=True, alone=True)


PYTHON = [
    Part(
        "the guard",
        [
            *package("guard", "_guarding", "_files"),
            *tests("provider", "conftest", "guard_ends", "bodies", "interrupts", "kills"),
            FORMATS,
            STORED,
        ],
        tests("provider", "test_guards", "test_guard_ends"),
        SHORT,
        library=True,
    ),
    Part(
        "the guard in PostgreSQL",
        [*package("guard", "_guarding", "_postgres_guard"), *OF_CLUSTERS],
        tests("cluster", "test_row_guards"),
        SHORT,
        library=True,
        alone=True,
    ),
    Part(
        "the log",
        [
            *package("log", "_files", "_lines", "_host", "_directory"),
            *OF_PROVIDERS,
            "embed/python/tests/provider/first_format.jsonl",
        ],
        tests("provider", "test_formats", "test_mistakes"),
        library=True,
    ),
    Part(
        "what a provider does",
        [*package("_host", "_engine", "_directory", "_lines", "_threads", "log"), *OF_PROVIDERS],
        tests("provider", "test_units", "test_records"),
        library=True,
    ),
    Part(
        "policies and clocks",
        [*package("policy", "succession", "_host", "provider"), *tests("provider", "worked_examples"), FORMATS, STORED],
        tests("provider", "test_policies", "test_clocks"),
        library=True,
    ),
    Part(
        "children",
        [*package("_children", "_host", "_engine", "_threads"), *OF_PROVIDERS, *tests("provider", "lying", "obeying", "stored")],
        tests("provider", "test_children"),
        library=True,
    ),
    Part(
        "one chain",
        [*package("_directory", "_host", "_engine", "guard"), *OF_PROVIDERS, *tests("provider", "one_chain")],
        tests("provider", "test_one_chain"),
        library=True,
    ),
    Part(
        "steps of a commit",
        [*package("_host", "_directory", "log"), *OF_PROVIDERS, *tests("provider", "steps")],
        tests("provider", "test_steps"),
        library=True,
    ),
    Part(
        "honest runs",
        [*package("_host", "_directory", "guard", "log", "replica"), *OF_PROVIDERS],
        tests("provider", "test_honest"),
        ["--honest", "20"],
        library=True,
    ),
    Part(
        "snapshots",
        [
            *package("_snapshot_file", "_snapshot_lines", "_restoring", "_engine", "log"),
            *OF_PROVIDERS,
            *tests("provider", "snapshots"),
        ],
        tests("provider", "test_snapshots", "test_snapshot_files"),
        library=True,
    ),
    Part(
        "replays",
        [*package("_engine", "_restoring", "_snapshot_lines", "log"), *OF_PROVIDERS, "cases/replay.jsonl", "cases/case_rows.py"],
        tests("provider", "test_replays"),
        library=True,
    ),
    Part(
        "kills of a provider",
        [*package("_host", "_children", "_files", "log"), *tests("provider", "kills", "stand_ins")],
        tests("provider", "test_kills"),
        ["--kills", "2"],
        library=True,
    ),
    Part(
        "interrupts of a provider",
        tests("provider", "interrupts"),
        tests("provider", "test_interrupts"),
        library=True,
    ),
    of_cluster("the log in PostgreSQL", ["postgres"], ["test_logs", "test_log_refusals"]),
    of_cluster("ends of its calls", ["postgres"], ["test_log_ends"], SHORT),
    of_cluster("replicas", [*REPLICATED, "_host", "_engine"], ["test_replicas"]),
    of_cluster("snapshots of a cluster", ["_postgres_snapshot", "_restoring", *REPLICATED], ["test_shared_snapshots"]),
    of_cluster("mistakes in a cluster", REPLICATED, ["test_cluster_mistakes"]),
    of_cluster("faults of a cluster", REPLICATED, ["test_cluster_faults"], ["--faults", "1"], OF_FAULTS),
    Part(
        "examples/cluster",
        ["examples/cluster/*", *package(*REPLICATED)],
        tests("cluster", "test_example"),
        library=True,
        alone=True,
    ),
    Part(
        "the client in Python",
        [*OF_CLIENT_IN_PYTHON, *tests("client", "*"), *OF_CLIENTS],
        tests("client", "test_cases", "test_hostile", "test_auditors", "test_memory", "test_verdicts", "test_service"),
        library=True,
    ),
    Part(
        "successions",
        [*package("succession", "policy", "client"), *OF_CLIENTS, "cases/second/convicts"],
        tests("client", "test_successions"),
        library=True,
    ),
    Part(
        "interrupts of the client in Python",
        [*OF_CLIENT_IN_PYTHON, *tests("client", "made")],
        tests("client", "test_broken_off"),
        library=True,
    ),
    Part(
        "alterations, walks and all short histories of the client in Python",
        [*OF_CLIENT_IN_PYTHON, *tests("client", "*"), *OF_CLIENTS],
        tests("client", "test_alterations", "test_walks", "test_search", "test_alarm_worlds", "test_alarm_walks"),
        library=True,
    ),
    Part(
        "auditors",
        [
            *package("audit", "_ending", "succession", "notes", "_http", "_telling", "commands"),
            *tests("audit", "*"),
            "embed/python/bin/coniks-audit",
            "cases/second/convicts",
            FORMATS,
        ],
        tests("audit", "test_audit", "test_audit_verdicts", "test_endings", "test_ending_worlds", "test_next", "test_notes"),
        library=True,
    ),
    Part(
        "coniks-client",
        [
            *OF_CONTACTS,
            *package("_client_state", "_http", "client", "notes", "audit"),
            *tests("contacts", "*"),
            "embed/python/bin/coniks-client",
            FORMATS,
        ],
        tests(
            "contacts",
            "test_contacts",
            "test_confirming",
            "test_going_on",
            "test_marks",
            "test_resets",
            "test_telling",
            "test_trust",
        ),
        library=True,
    ),
    Part(
        "a state on another device",
        [
            *package("_moving", "_client_state", "_files", "contacts"),
            *tests("contacts", "conftest", "directories", "people"),
            *(f"cases/second/{it}" for it in ("exports", "exported.py", "argon2id.py", "secretbox.py")),
            "cases/exports.jsonl",
            STORED,
        ],
        tests("contacts", "test_moving"),
        library=True,
    ),
    Part(
        "coniks-client and a hostile service",
        [*OF_CONTACTS, *tests("contacts", "schedules")],
        tests("contacts", "test_schedules"),
        ["--schedules", "20"],
        library=True,
    ),
    Part(
        "records of owners",
        [
            *package("vouching", "policy"),
            *tests("contacts", "*"),
            *(f"cases/second/{it}" for it in ("vouched.py", "policy.py", "convicts")),
            "cases/records.jsonl",
            FORMATS,
        ],
        tests("contacts", "test_vouching", "test_reset_schedules"),
        library=True,
    ),
]

SHARED_BY_SERVICES = [
    f"examples/tests/{it}.py" for it in ("conftest", "services", "facts", "loads", "denials", "holders", "auditing")
]
SERVICE = [
    Part(
        f"the service: {name}",
        ["examples/service/**", *SHARED_BY_SERVICES, *package(*modules.split()), *([LINES] if name == "signers" else [])],
        [f"examples/tests/test_service_{name}.py"],
        library=True,
        alone=name in ("operation", "load", "denial"),
    )
    for name, modules in {
        "replies": "names _replies",
        "life": "provider _host log",
        "queue": "provider",
        "attacks": "",
        "audit": "audit notes",
        "clients": "contacts _person _own_names _confirming vouching names",
        "records": "vouching",
        "resets": "vouching",
        "succession": "succession _engine _snapshot_lines",
        "drill": "succession _going_on _ending audit",
        "rotation": "succession _going_on",
        "operation": "log guard",
        "alarms": "audit",
        "load": "",
        "denial": "_children _replies",
        "signers": "_ecvrf guard",
    }.items()
]

LANGUAGES = [
    Part(
        "the library for C",
        ["embed/c/*", "embed/build", "embed/install", "scripts/need-rt", *OF_SIDES],
        ["embed/tests/test_c_library.py"],
        ["--proofs", "500", "--calls", "2000"],
        library=True,
    ),
    Part(
        "the client in C",
        ["embed/c/client*", "embed/tests/native_clients.py", "include/*"],
        ["embed/tests/test_client_in_c.py"],
        library=True,
    ),
    Part(
        "the package in Python",
        [*package("__init__"), "embed/python/*", "embed/python/src/coniks/py.typed", *OF_SIDES],
        ["embed/tests/test_side_in_python.py", "embed/tests/test_python_values.py"],
        library=True,
    ),
    Part(
        "the package in Go",
        [f"embed/go/{it}" for it in ("*", "example/*", "internal/**", "testdata/*")] + [*OF_SIDES, FORMATS],
        ["embed/tests/test_side_in_go.py"],
        library=True,
    ),
    Part("the client in Go", ["embed/go/client/**", FORMATS, STORED], ["embed/tests/test_client_in_go.py"], library=True),
    Part("the client in Java", [*OF_JAVA, "embed/go/testdata/*"], ["embed/tests/test_client_in_java.py"], library=True),
    Part(
        "the client in C for ARM",
        ["embed/c/client*", "embed/tests/native_clients.py", "embed/build", "scripts/unproved-library", *OF_CLIENTS],
        ["embed/tests/test_client_on_arm.py"],
    ),
    Part(
        "the core of a client in C",
        ["include/coniks_core.h", "embed/c/core_stack.c", "embed/c/painted.h", *package("_core"), *CORE_TESTS, *OF_CLIENTS],
        [f"embed/tests/test_core{it}.py" for it in ("", "_quorum", "_state_bytes", "_states", "_succeed")],
        ["--alterations", "100"],
        library=True,
    ),
    Part(
        "the core in all that can happen",
        ["include/coniks_core.h", "include/coniks_guard.h", "embed/c/core_worlds.c", *package("_core", "_guarding")],
        ["embed/tests/test_core_worlds.py", "embed/tests/test_core_header.py"],
        library=True,
    ),
    Part(
        "the guard in C",
        [
            *package("_guarding"),
            "include/coniks_guard.h",
            "embed/c/guard_stack.c",
            "embed/c/painted.h",
            "cases/second/guard.py",
            STORED,
        ],
        ["embed/tests/test_guard_calls.py"],
        library=True,
    ),
    Part("the package in Rust", ["embed/rust/**", *OF_SIDES], ["embed/tests/test_side_in_rust.py"], library=True),
    # Java is a part of the name of JavaScript.
    *[
        Part(
            f"cases of the client in {language}",
            [*of, *OF_CLIENTS],
            ["embed/tests/test_clients.py"],
            ["-k", f"{language} and not {language}Script", "--alterations", "40"],
            library=language != "JavaScript",
            module=language == "JavaScript",
        )
        for language, of in {
            "Go": ["embed/go/client/**"],
            "Rust": ["embed/rust/**"],
            "JavaScript": ["web/src/*", "web/client_answers.mjs"],
            "C": ["embed/c/client*", "embed/tests/native_clients.py"],
            "Java": OF_JAVA,
        }.items()
    ],
    Part(
        "the module for web projects",
        ["web/src/*", "web/build", "web/*.ts", "web/*.json", "web/*.mjs", *OF_SIDES],
        ["embed/tests/test_side_in_javascript.py"],
        library=True,
        module=True,
    ),
    Part(
        "the modules in JavaScript",
        [
            "web/src/*",
            "web/telling.mjs",
            "web/build",
            "cases/client/*",
            "cases/records.jsonl",
            "web/tests/proofs.json",
            FORMATS,
            STORED,
        ],
        [
            f"web/tests/{it}.test.mjs"
            for it in ("arguments", "client", "client_arguments", "following", "keys", "page", "rows", "sayings", "verdicts")
        ],
        module=True,
    ),
]

# What the tests of pages share, and what each page is made of.
OF_PAGES = [
    "web/frame.html",
    "web/style.css",
    "web/build",
    "web/src/elements.js",
    "web/src/words.js",
    "web/src/draw.js",
    "web/src/lines.js",
]
OF_PAGES += [f"web/page_tests/{it}.py" for it in ("conftest", "browser", "computing", "given")]
# Beside other tests the large inputs take minutes, and the page replies too late meanwhile.
PAGE_OPTIONS: dict[str, list[str]] = {"results": ["--lines", "100"], "deceptions": [], "ways": ["-k", "not long and not many"]}
PAGES = [
    *[
        Part(
            f"the page: {name}",
            ["web/page.html", "web/src/*", "web/cases/*", "web/page_tests/picture.py", *OF_PAGES],
            [f"web/page_tests/test_{name}.py"],
            options,
            module=True,
            alone=name == "ways",
        )
        for name, options in PAGE_OPTIONS.items()
    ],
    Part(
        "proofs and signatures in JavaScript",
        ["web/src/curve.js", "web/src/ecvrf.js", "web/src/schemes.js", "web/src/bytes.js", "web/ecvrf_answers.mjs"],
        ["web/page_tests/test_ecvrf.py"],
        ["--points", "100"],
    ),
    Part(
        "the form of names",
        [*package("names", "_folding"), "web/src/names.js", "web/src/folding.js", "web/build"],
        ["web/page_tests/test_names.py"],
    ),
    Part(
        "the page that follows a service",
        ["web/follow.html", "web/src/*", *OF_PAGES],
        ["web/page_tests/test_follow.py"],
        library=True,
        module=True,
    ),
    Part(
        "the page over a service",
        ["web/follow.html", "web/src/*", "examples/service/**", *OF_PAGES],
        ["web/page_tests/test_follow_service.py"],
        library=True,
        module=True,
    ),
]

# The tables of cases that each second program passes.
SECOND = {"keydir": ["run", "check", "audit", "monitor"], "provider": ["provider", "replay"]}
CASES = [
    *[
        Part(
            f"{what} {program}",
            [*(f"cases/{it}.jsonl" for it in tables), "cases/case_rows.py", "cases/limited.py"],
            [script, place],
        )
        for what, script in (("the cases over", "cases/compare"), ("the streams of", "cases/streams"))
        for program, place, tables in (
            ("keydir", KEYDIR, ["run", "check", "audit", "monitor", "words"]),
            ("provider", PROVIDER, ["provider", "provider-words", "replay"]),
        )
    ],
    Part("the hashed byte lists", ["cases/bytes.json"], ["cases/bytes", KEYDIR]),
    Part("wrong programs", ["cases/wrong/*"], ["cases/wrong/told-apart", KEYDIR]),
    Part("provider beside keydir", ["cases/limited.py"], ["cases/like-run", PROVIDER]),
    Part("many epochs", ["cases/limited.py"], ["cases/epochs", PROVIDER]),
    Part("a long page", ["cases/limited.py", "cases/size_lines.py"], ["cases/long-page", PROVIDER]),
    Part("a directory of 100,000 names", ["cases/size.json", "cases/size_lines.py", "cases/limited.py"], ["cases/size", KEYDIR]),
    Part("a restored directory", ["cases/restored.json", "cases/limited.py", "cases/size_lines.py"], ["cases/restored", PROVIDER]),
    *[
        Part(
            f"{program} in Python",
            ["cases/second/*", *(f"cases/{it}.jsonl" for it in tables)],
            ["cases/compare", f"cases/second/{program}", *tables],
        )
        for program, tables in SECOND.items()
    ],
    Part("the second directory at size", ["cases/second/*", "cases/size.json"], ["cases/second/at-size", "--check"]),
    Part("the rows of cases", ["cases/case_rows.py", "cases/compare", "cases/second/row"], ["cases/tests/test_rows.py"]),
    Part(
        "programs that hang",
        [*(f"cases/{it}" for it in ("bytes", "compare", "epochs", "like-run", "limited.py", "restored", "streams"))],
        ["cases/tests/test_late.py"],
    ),
    Part("forks", ["cases/second/*", "cases/evidence.jsonl"], ["cases/second/forks", "--check"]),
    Part("the cases of clients", ["cases/second/*", "cases/client/*"], ["cases/second/clients", "--check"]),
    Part("exported states", ["cases/second/*", "cases/exports.jsonl"], ["cases/second/exports", "--check"]),
    Part("the cases of records", ["cases/second/*", "cases/records.jsonl"], ["cases/second/records", "--check"]),
]

REST = [
    Part("the examples", ["examples/*.*", "examples/compare"], ["examples/compare"]),
    Part("the library example", ["examples/library/*", "crates/library_example/**"], ["examples/library/compare"]),
    Part(
        "examples/provider",
        ["examples/provider/*", "cases/second/supplied.py", *package("provider", "guard", "client")],
        ["examples/tests/test_provider_example.py"],
        library=True,
    ),
    Part(
        "the README and the guide",
        [
            *("README.md", "docs/GUIDE.md", ".gitignore", "examples/*.*", "examples/tests/checkouts.py"),
            *("examples/provider/*", "examples/service/*"),
            *package("audit", "contacts"),
        ],
        ["examples/tests/test_readme.py"],
        library=True,
    ),
    Part(
        "the runbook",
        [
            "examples/service/**",
            "scripts/install",
            *SHARED_BY_SERVICES,
            *(f"examples/tests/{it}" for it in ("checkouts.py", "machines.py", "systemctl")),
            *package("audit", "contacts", "log", "guard"),
        ],
        ["examples/tests/test_runbook.py"],
        library=True,
    ),
    Part(
        "a year by the runbook",
        [
            "examples/service/**",
            *(f"examples/tests/{it}" for it in ("checkouts.py", "machines.py", "systemctl", "test_runbook.py")),
            *package("provider", "guard", "log", "audit", "contacts"),
        ],
        ["examples/tests/test_year.py"],
        ["--days", "2"],
        library=True,
    ),
    Part("documents", ["**/*.md", "*.md", "docs/**", "crates.txt", "crates/**"], ["docs/draw", "--check"]),
    Part("linters", ["**"], ["scripts/lint"]),
    Part(
        "launchers",
        [
            "keydir",
            "provider",
            *(f"scripts/{it}" for it in ("launch", "built", "need-rt", "processor", "compile-unproved", "kit")),
        ],
        ["scripts/tests/test_launcher.py"],
    ),
    Part(
        "scripts/install",
        ["scripts/install", "docs/man/*", "docs/completion/*"],
        ["scripts/tests/test_install.py"],
        library=True,
    ),
    Part("scripts/crates", ["scripts/crates", "crates.txt"], ["scripts/tests/test_crates.py"]),
    Part(
        "formats.toml",
        [
            *("docs/FORMATS.md", "docs/LINES.md", "docs/STORED.md"),
            *("formats.toml", "scripts/tables", "crates/coniks_c/*/*", "crates/coniks_programs/*/*", "include/*"),
            *("embed/python/src/coniks/*", "embed/go/*", "embed/go/client/*", "embed/rust/src/**", "embed/java/src/main/**"),
            *("embed/c/client*", "web/src/formats.js", "web/coniks.d.ts"),
        ],
        ["scripts/tests/test_tables.py"],
    ),
    Part(
        "the library without a proof",
        [
            "scripts/unproved-library",
            "scripts/kit",
            "scripts/unproved-tests",
            "scripts/compile-unproved",
            "crates/coniks_c/src/*",
            "include/*",
        ],
        ["scripts/tests/test_unproved.py"],
    ),
    Part("scripts/price", ["scripts/price", "scripts/minutes.py"], ["scripts/tests/test_price.py"]),
    Part("scripts/processor", ["scripts/processor"], ["scripts/tests/test_processor.py"]),
    Part(
        "the gate",
        [
            "gate",
            ".ci/*",
            "scripts/*",
            "scripts/tests/conftest.py",
            "conftest.py",
            "pyproject.toml",
            "**/test_*.py",
            "**/*.test.mjs",
        ],
        ["scripts/tests/test_gate.py", "scripts/tests/test_parts.py"],
    ),
    Part("faults", ["faults/*"], ["faults/test_faults.py"]),
]

PARTS = [*PYTHON, *SERVICE, *LANGUAGES, *PAGES, *CASES, *REST]


def whole() -> list[Part]:
    """The parts whose tests are all tests, each once: some parts have one file of tests with other options."""
    found: dict[tuple[str, ...], Part] = {}
    for it in PARTS:
        other = found.setdefault(tuple(it.tests), it)
        found[tuple(it.tests)] = replace(other, library=other.library or it.library, module=other.module or it.module)
    return [*found.values()]


def parts_of(files: Iterable[str]) -> list[Part]:
    """The parts that test one of these files."""
    changed = [*files]
    return [it for it in PARTS if any(map(it.has, changed))]
