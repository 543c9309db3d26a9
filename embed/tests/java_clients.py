"""How the client in Java is built, and how its programs are run: each fails if the JVM warns of a call of JNI."""

from __future__ import annotations

from pathlib import Path
from typing import Optional

from running import EMBED, run

HOME = EMBED / "java"
TESTS = HOME / "src/test/java"


def done(*words: object, **more: object) -> str:
    """What a command prints, which ends with status 0."""
    ran = run(*map(str, words), **more)
    printed = (ran.stdout + ran.stderr).decode()
    assert ran.returncode == 0, printed[-3000:]
    return printed


def package(room: Path) -> Path:
    """The archive with the classes and the library, in a folder."""
    done(HOME / "build", room)
    return next(room.glob("coniks-*.jar"))


def compiled(room: Path, archive: Path, *sources: Path) -> str:
    """The class path of programs over the package: those of the tests, unless others are given."""
    classes = room / "classes"
    words = ["javac", "--release", "17", "-Xlint:all", "-Werror", "-d", classes, "-cp", archive]
    done(*words, *(sources or sorted(TESTS.rglob("*.java"))))
    return f"{archive}:{classes}"


def command(path: str, program: str, *more: str) -> list[str]:
    """The words that start a program."""
    return ["java", "-Xcheck:jni", *more, "-cp", path, program]


def answers(room: Path) -> list[str]:
    """The words that start the program of client_sides.py."""
    return command(compiled(room, package(room)), "org.coniks.tests.Answers")
