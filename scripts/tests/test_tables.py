"""`scripts/tables`: what is generated is what formats.toml says, and a file that was edited by hand is found."""

from __future__ import annotations

import re
import shutil
import subprocess
import tomllib
from functools import cache
from pathlib import Path

import pytest

TOP = Path(__file__).resolve().parents[2]
# The files in which single numbers are written.
IN_PLACE = tomllib.loads((TOP / "formats.toml").read_text("utf-8"))["in_place"]
NOTED = re.compile(r"formats\.toml: (?!end)\w+|[Gg]enerated from formats\.toml")


def listed() -> list[str]:
    """The files that git knows or would add, without what is about the generator itself."""
    words = ["git", "ls-files", "--cached", "--others", "--exclude-standard"]
    named = subprocess.run(words, cwd=TOP, capture_output=True, text=True, check=True).stdout.splitlines()
    return [it for it in named if (TOP / it).is_file() and not it.startswith(("scripts/", "docs/MAP"))]


@cache
def generated() -> list[str]:
    """The files of which some part says that it is generated."""
    return [it for it in listed() if NOTED.search((TOP / it).read_bytes().decode("utf-8", "replace"))]


@pytest.fixture
def room(tmp_path: Path) -> Path:
    for it in {*generated(), *IN_PLACE, "formats.toml", "scripts/tables"}:
        (tmp_path / it).parent.mkdir(parents=True, exist_ok=True)
        shutil.copy(TOP / it, tmp_path / it)
    return tmp_path


def tables(room: Path, *words: str) -> tuple[int, str]:
    ran = subprocess.run([room / "scripts/tables", *words], capture_output=True, text=True)
    return ran.returncode, ran.stdout + ran.stderr


def replace(file: Path, old: str, new: str) -> None:
    text = file.read_text("utf-8")
    assert old in text
    file.write_text(text.replace(old, new), "utf-8")


def test_unchanged(room: Path) -> None:
    assert tables(room, "--check") == (0, "")
    assert tables(room) == (0, "")


@pytest.mark.parametrize("file", [it for it in generated() if it != "formats.toml"])
def test_edited(room: Path, file: str) -> None:
    """A number, a name or a text that was edited in one of the files is found, and written again."""
    text = (room / file).read_text("utf-8")
    mark = NOTED.search(text)
    assert mark
    at = text.index("\n", mark.end())
    while not text[at + 1 : text.index("\n", at + 1)].strip():
        at += 1
    place = text.index("\n", at + 1)
    (room / file).write_text(f"{text[:place]}x{text[place:]}", "utf-8")
    assert tables(room, "--check") == (1, f"{file} differs from formats.toml: run scripts/tables\n")
    assert tables(room) == (0, f"{file}\n")
    assert tables(room, "--check") == (0, "")


def test_a_status_more(room: Path) -> None:
    """A row of the table reaches all languages: each file that has the last cause of lookups has the new one then."""
    row = 'VrfProof = { number = 87, text = "the VRF proof is not one of this name", do = "ask for the reply again" }\n'
    replace(room / "formats.toml", row, f'{row}NewMoon = {{ number = 88, text = "the moon is new", do = "wait for light" }}\n')
    before = {it for it in generated() if re.search("vrf_?proof", (room / it).read_text("utf-8"), re.I)}
    assert tables(room)[0] == 0
    after = {it for it in generated() if re.search("new_?moon", (room / it).read_text("utf-8"), re.I)}
    languages = {".py", ".go", ".rs", ".java", ".js", ".ts", ".h", ".c", ".rt", ".antt"}
    assert {Path(it).suffix for it in after} == languages, "each language has it"
    assert after >= {it for it in before if it.endswith(tuple(languages))}


def test_a_longer_part(room: Path) -> None:
    """Lengths and places follow from the lengths of the parts."""
    replace(room / "formats.toml", "signature = { length = 64,", "signature = { length = 114,")
    assert tables(room)[0] == 0
    assert "CONIKS_ENTRY_BYTES = 259," in (room / "include/coniks.h").read_text("utf-8")
    assert "SIGNATURE = slice(145, 259)" in (room / "embed/python/src/coniks/_formats.py").read_text("utf-8")


def test_a_shorter_name(room: Path) -> None:
    """A limit reaches code, definitions and texts."""
    replace(room / "formats.toml", "name = { value = 255,", "name = { value = 254,")
    assert tables(room)[0] == 0
    for file, line in {
        "crates/coniks_proof/src/values.rt": "pub const MAX_NAME: usize = 254;\n",
        "crates/coniks_proof/specs/Limits.antt": "longest_name = 254\n",
        "crates/coniks_c/specs/Texts.antt": 'codes "the name is empty or longer than 254 bytes"\n',
        "include/coniks.h": "CONIKS_MAX_NAME = 254, ",
        "embed/python/src/coniks/_formats.py": "MAX_NAME = 254\n",
        "docs/LINES.md": "- `NameLength`: the name is empty or longer than 254 bytes\n",
    }.items():
        assert line in (room / file).read_text("utf-8"), file


@pytest.mark.parametrize("file", IN_PLACE)
def test_numbers_in_place(room: Path, file: str) -> None:
    """A number that was edited is found, and a line that is lost is an error."""
    around = next(iter(IN_PLACE[file]))
    front, end = around.split("@")
    text = (room / file).read_text("utf-8")
    found = re.search(rf"^{re.escape(front)}([\w.]+){re.escape(end)}$", text, re.M)
    assert found
    (room / file).write_text(f"{text[: found.start(1)]}7{text[found.end(1) :]}", "utf-8")
    assert tables(room, "--check") == (1, f"{file} differs from formats.toml: run scripts/tables\n")
    assert tables(room) == (0, f"{file}\n")
    assert (room / file).read_text("utf-8") == text
    (room / file).write_text(text.replace(found[0], ""), "utf-8")
    assert tables(room) == (1, f"scripts/tables: not one line `{around}`\n")


@pytest.mark.parametrize("end", ["formats.toml: end", "formats.toml: statuses"])
def test_lost_marks(room: Path, end: str) -> None:
    """A file that lost the lines around its generated part is an error, and stays."""
    header = room / "include/coniks_guard.h"
    replace(header, end, "")
    text = header.read_text("utf-8")
    assert tables(room) == (1, "scripts/tables: no part `formats.toml: statuses`\n")
    assert header.read_text("utf-8") == text


def test_usage(room: Path) -> None:
    assert tables(room, "--what")[0] == 2
