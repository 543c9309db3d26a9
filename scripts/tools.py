#!/usr/bin/env python3
"""The tools that only some of the gate's tests need: which are missing, what is skipped without them, and what installs them.

    scripts/tools.py             prints the missing ones, and the command that installs them on Debian
    scripts/tools.py --install   runs this command, as root, if there is `apt-get`; the status is always 0
"""

from __future__ import annotations

import os
import shutil
import subprocess
import sys
from functools import cache
from pathlib import Path
from typing import Callable, Optional, Sequence

CC = os.environ.get("CC", "cc")
CHROMIUM = os.environ.get("CHROMIUM", "chromium")

# The folder with libsodium.a of Debian's libsodium-dev:arm64, which can be unpacked anywhere (dpkg-deb -x). It is no package of this
# machine, and the other tools for ARM are installed only if it is there.
SODIUM_FOR_ARM = Path(os.environ.get("SODIUM_FOR_ARM", "/usr/lib/aarch64-linux-gnu"))
HAS_SODIUM_FOR_ARM = (SODIUM_FOR_ARM / "libsodium.a").is_file()

# Debian's copy of a Go package, which embed/go/client/debian.mod names too.
GO_CURVE = Path("/usr/share/gocode/src/filippo.io/edwards25519")


def has_program(name: str) -> bool:
    return shutil.which(name) is not None


def path_of(name: str) -> str:
    """Where a program is, or its name if it isn't found."""
    return shutil.which(name) or name


def compiles(text: str, *words: str) -> bool:
    """Whether the C compiler takes a text."""
    if not has_program(CC):
        return False
    ran = subprocess.run([CC, *words, "-"], input=text.encode(), capture_output=True)
    return ran.returncode == 0


def python_with(*modules: str) -> Optional[str]:
    """A Python that imports some modules, or None. Debian's packages are those of Debian's Python alone."""
    for python in [sys.executable, "/usr/bin/python3"]:
        if not has_program(python):
            continue
        ran = subprocess.run([python, "-c", f"import {', '.join(modules)}"], capture_output=True)
        if ran.returncode == 0:
            return python
    return None


# What Python is for: the modules that it must import, and lists of fewer modules if none imports all.
PYTHONS: dict[str, Sequence[Sequence[str]]] = {
    # To make environments, and to build packages in them without a registry.
    "packages": [["ensurepip", "setuptools", "venv", "wheel"]],
    "signatures": [["nacl.bindings", "nacl.signing"]],
    "databases": [["psycopg", "nacl.signing"], ["psycopg"]],
    "tests": [
        ["pytest", "hypothesis", "psycopg", "nacl.signing", "selenium.webdriver"],
        ["pytest", "hypothesis", "psycopg", "nacl.signing"],
        ["pytest", "nacl.signing"],
        ["pytest"],
    ],
}


@cache
def python_for(what: str) -> Optional[str]:
    """The first Python that imports one of the lists of modules, or None. Each look starts a process."""
    return next((python for modules in PYTHONS[what] if (python := python_with(*modules))), None)


# A tool, whether it is there, its packages in Debian 12, if it has any, and what is skipped without it.
TOOLS: dict[str, tuple[Callable[[], bool], str, str]] = {
    "a C compiler": (lambda: has_program(CC), "gcc libc6-dev", "faults/run and embed/test"),
    "a C++ compiler": (lambda: compiles("", "-fsyntax-only", "-x", "c++"), "g++", "the header as C++"),
    "the headers of OpenSSL": (lambda: compiles("#include <openssl/evp.h>\n", "-E", "-x", "c"), "libssl-dev", "c/audit_signed.c"),
    "libsodium": (lambda: compiles("#include <sodium.h>\n", "-E", "-x", "c"), "libsodium-dev", "the clients in Rust, C and Java"),
    "a C compiler for ARM": (
        lambda: has_program("aarch64-linux-gnu-gcc"),
        "gcc-aarch64-linux-gnu libc6-dev-arm64-cross" if HAS_SODIUM_FOR_ARM else "",
        "the client in C for ARM",
    ),
    "libsodium for ARM": (lambda: HAS_SODIUM_FOR_ARM, "", "the client in C for ARM"),
    "qemu": (
        lambda: has_program("qemu-aarch64-static"),
        "qemu-user-static" if HAS_SODIUM_FOR_ARM else "",
        "the client in C for ARM",
    ),
    "pkg-config": (lambda: has_program("pkg-config"), "pkgconf", "embed/install"),
    "valgrind": (lambda: has_program("valgrind"), "valgrind", "answers under valgrind"),
    "cargo": (lambda: has_program("cargo"), "cargo-web", "the side in Rust"),
    "go": (lambda: has_program("go"), "golang-go", "the side in Go"),
    "javac": (lambda: has_program("javac") and has_program("java"), "openjdk-17-jdk-headless", "the client in Java"),
    "edwards25519 for Go": (lambda: has_program("go") and GO_CURVE.is_dir(), "golang-filippo-edwards25519-dev", "the client in Go"),
    "pip": (lambda: python_for("packages") is not None, "python3-venv python3-setuptools python3-wheel", "pip install"),
    "PyNaCl": (lambda: python_for("signatures") is not None, "python3-nacl", "signatures by Ed25519 and examples/provider"),
    "aiohttp": (lambda: python_with("aiohttp") is not None, "python3-aiohttp", "examples/service"),
    "prometheus_client": (lambda: python_with("prometheus_client") is not None, "python3-prometheus-client", "examples/service"),
    "jsonschema": (lambda: python_with("pytest", "jsonschema") is not None, "python3-jsonschema", "the members of openapi.json"),
    "systemd-analyze": (lambda: has_program("systemd-analyze"), "systemd", "the units of examples/service"),
    "nginx": (lambda: has_program("nginx") and has_program("openssl"), "nginx-light openssl", "the proxy of examples/service"),
    "promtool": (lambda: has_program("promtool"), "", "the rules for Prometheus as it reads them"),
    "PostgreSQL": (lambda: any(Path("/usr/lib/postgresql").glob("*/bin/initdb")), "postgresql", "a directory on several machines"),
    "psycopg": (lambda: python_for("databases") is not None, "python3-psycopg", "coniks.postgres and examples/cluster"),
    "pytest": (lambda: python_for("tests") is not None, "python3-pytest", "the tests in Python"),
    "hypothesis": (
        lambda: python_with("pytest", "hypothesis") is not None,
        "python3-hypothesis",
        "alterations and walks of clients",
    ),
    "mypy": (lambda: has_program("mypy"), "mypy", "the types of the side in Python"),
    "node": (lambda: has_program("node"), "nodejs", "the tests in JavaScript"),
    "wasm-opt": (lambda: has_program("wasm-opt"), "binaryen", "the page and the module for web projects"),
    "tsc": (lambda: has_program("tsc"), "node-typescript", "the types of the module for web projects"),
    "chromium": (
        lambda: has_program(CHROMIUM) and has_program("chromedriver"),
        "chromium chromium-driver",
        "the page in a browser",
    ),
    "selenium": (lambda: python_with("pytest", "selenium.webdriver") is not None, "python3-selenium", "the page in a browser"),
    "shellcheck": (lambda: has_program("shellcheck"), "shellcheck", "shellcheck in scripts/lint"),
    "ruff": (lambda: has_program("ruff"), "", "ruff in scripts/lint"),
    "black": (lambda: has_program("black"), "black", "black in scripts/lint"),
    "gofmt": (lambda: has_program("gofmt"), "golang-go", "gofmt in scripts/lint"),
    "rustfmt": (lambda: has_program("rustfmt"), "rustfmt", "rustfmt in scripts/lint"),
    "clang-format": (lambda: has_program("clang-format"), "clang-format", "clang-format in scripts/lint"),
}


def has(tool: str) -> bool:
    return TOOLS[tool][0]()


def lacking() -> list[str]:
    return [it for it in TOOLS if not has(it)]


def packages(tools: Sequence[str]) -> list[str]:
    return [package for it in tools for package in TOOLS[it][1].split()]


def reported(tools: Sequence[str]) -> list[str]:
    """The lines with the missing tools, what is skipped for each, and how to install them; none if nothing is missing."""
    if not tools:
        return []
    lines = [f"not here: {it}, so {TOOLS[it][2]} will be skipped" for it in tools]
    found = packages(tools)
    return [*lines, f"on Debian: apt-get install --no-install-recommends {' '.join(found)}"] if found else lines


def install(tools: Sequence[str]) -> None:
    """Installs what is missing, and prints the last line of what failed."""
    for words in [["update"], ["install", "-y", "--no-install-recommends", *packages(tools)]]:
        ran = subprocess.run(
            ["apt-get", *words], capture_output=True, text=True, env=os.environ | {"DEBIAN_FRONTEND": "noninteractive"}
        )
        if ran.returncode:
            last = (ran.stderr or ran.stdout).strip().splitlines()[-1:]
            print(f"apt-get {words[0]} failed: {' '.join(last)}", flush=True)


def main(words: list[str]) -> int:
    tools = lacking()
    if words == ["--install"]:
        if packages(tools) and os.geteuid() == 0 and has_program("apt-get"):
            install(tools)
        return 0
    print(*reported(tools), sep="\n", end="\n" if tools else "")
    return 0


if __name__ == "__main__":
    sys.exit(main(sys.argv[1:]))
