"""The client in Java: its calls, its example and its README, its documentation and its archive. Its cases are in test_clients.py."""

from __future__ import annotations

import hashlib
import json
import re
import shutil
import textwrap
import zipfile
from pathlib import Path
from xml.etree import ElementTree

import client as second
import java_clients
import pytest
import tools
from java_clients import HOME, command, compiled, done, package
from native_clients import check_example
from running import EMBED, INCLUDE, needs

pytestmark = pytest.mark.usefixtures("embedded")

EXAMPLES = EMBED / "go/testdata"
# The example's time: 60 seconds after its second epoch began.
NOW = 1767225600 + 3660
# A heap that does not grow, so that memory outside it is seen.
HEAP = ["-Xms128m", "-Xmx128m", "-XX:+AlwaysPreTouch"]


@pytest.fixture(autouse=True)
def _tools() -> None:
    needs("javac", "a C compiler", "libsodium")


@pytest.fixture(scope="module")
def archive(embedded: None, tmp_path_factory: pytest.TempPathFactory) -> Path:
    needs("javac", "a C compiler", "libsodium")
    return package(tmp_path_factory.mktemp("java"))


def examples(room: Path) -> Path:
    """The examples of docs/FORMATS.md as files of bytes."""
    wanted, policy = json.loads((EXAMPLES / "messages.json").read_text("utf-8")), (EXAMPLES / "policy.txt").read_bytes()
    watching = re.search(r'\bSTATE\[\] =((?:\s*"[0-9a-f]+")+);', (EMBED / "c/client_examples.h").read_text("utf-8"))
    assert watching
    digits = {it: wanted[it] for it in ("reply", "history", "state", "trust")}
    digits |= {"entries": "".join(wanted["entries"]), "index": wanted["indices"]["alice"]}
    digits |= {"watching": re.sub(r'[\s"]', "", watching[1]), "policy": policy.hex(), "digest": hashlib.sha256(policy).hexdigest()}
    room.mkdir()
    for name, text in digits.items():
        (room / name).write_bytes(bytes.fromhex(text))
    return room


def test_calls(archive: Path, tmp_path: Path) -> None:
    """All checks pass, and the JVM warns of nothing."""
    words = command(compiled(tmp_path, archive), "org.coniks.tests.Calls", *HEAP)
    printed = done(*words, examples(tmp_path / "examples"))
    reported = re.fullmatch(r"(\d+) checks passed, 0 failed\n", printed)
    assert reported and int(reported[1]) > 3000, printed[-2000:]


def test_example(archive: Path, tmp_path: Path) -> None:
    program = tmp_path / "lookup"
    words = command(compiled(tmp_path, archive, HOME / "example/Lookup.java"), "Lookup")
    program.write_text(f"#!/bin/sh\nexec {' '.join(words)} \"$@\"\n")
    program.chmod(0o755)
    check_example(program, tmp_path)


READING = """
import java.nio.file.*;
import java.util.*;
import org.coniks.*;

final class Readme {
    private static byte[] read(String name) throws Exception { return Files.readAllBytes(Path.of(name)); }

    public static void main(String[] words) throws Exception {
        byte[] document = read("policy"), catchUp = read("entries"), reply = read("reply"), myKey = {'k'};
CODE    }
}
"""


def test_readme(archive: Path, tmp_path: Path) -> None:
    """The code of the README does what it says, at the time of the example."""
    code = re.findall(r"```java\n(.*?)```", (HOME / "README.md").read_text("utf-8"), re.S)
    timed = code[0].replace("Policy.read(document))", f"Policy.read(document)).clock(() -> {NOW})")
    assert len(code) == 1 and timed != code[0]
    source = tmp_path / "Readme.java"
    source.write_text(READING.replace("CODE", textwrap.indent(timed, " " * 8)))
    room = examples(tmp_path / "examples")
    assert done(*command(compiled(tmp_path, archive, source), "Readme"), cwd=room) == "6b\n"
    state = (room / "alice.state").read_bytes()
    assert state[0] == 3 and b"\x01\x05alice" in state


def test_documentation(tmp_path: Path) -> None:
    """Each public item has a comment."""
    sources = sorted((HOME / "src/main/java").rglob("*.java"))
    done("javadoc", "-quiet", "-Xdoclint:all", "-Werror", "-d", tmp_path, *sources)


def test_causes() -> None:
    """The names and numbers are those of the second implementation."""
    text = (HOME / "src/main/java/org/coniks/Cause.java").read_text("utf-8")
    found = {name.title().replace("_", ""): int(number) for name, number in re.findall(r"^    ([A-Z_]+)\((\d+)\)[,;]$", text, re.M)}
    assert found == second.NUMBERS


def test_archive(archive: Path, tmp_path: Path) -> None:
    """The archive has the same bytes in another folder. Without the library in it, one of java.library.path is loaded."""
    again = package(tmp_path / "another")
    assert again.read_bytes() == archive.read_bytes()
    names = zipfile.ZipFile(archive).namelist()
    library = [it for it in names if it.endswith("/libconiks_java.so")]
    assert len(library) == 1 and all(it.startswith("org/coniks/") for it in names)
    zipfile.ZipFile(archive).extractall(tmp_path / "classes")
    shutil.move(tmp_path / "classes" / library[0], tmp_path / "libconiks_java.so")
    words = ["javac", "-d", tmp_path / "tests", "-cp", tmp_path / "classes", *java_clients.TESTS.rglob("Answers.java")]
    done(*words)
    answers = command(f"{tmp_path / 'classes'}:{tmp_path / 'tests'}", "org.coniks.tests.Answers", f"-Djava.library.path={tmp_path}")
    assert done(*answers, input=b"now 1\n") == "set\n"


def test_description() -> None:
    """The description for Maven has the version of the library."""
    pom = ElementTree.parse(HOME / "pom.xml").getroot()
    values = {it.tag.rpartition("}")[2]: it.text for it in pom}
    assert f'#define CONIKS_VERSION "{values["version"]}"' in (INCLUDE / "coniks.h").read_text("utf-8")
    assert (values["groupId"], values["artifactId"]) == ("org.coniks", "coniks")
    if tools.has_program("mvn"):
        done("mvn", "-o", "-q", "-f", HOME / "pom.xml", "validate")
