"""Tests scripts/install, and compares the manual pages with the programs.

It installs from a small tree, in which scripts are in the place of the proved programs: into a folder that is then moved, over an
older installation, and where a program must be built first. If `keydir` and `provider` are built from the present sources, these
are installed too, and what is installed is run. The options and statuses of the manual pages must be those of the help.
"""

from __future__ import annotations

import os
import re
import shutil
import subprocess
import sys
import tempfile
from pathlib import Path
from typing import Iterator, NamedTuple, Optional, Union

import pytest

TOP = Path(__file__).resolve().parents[2]
PROGRAMS = ["keydir", "provider"]
FILES = [*PROGRAMS, "scripts/install", "scripts/launch", "scripts/crates", "scripts/built", "scripts/kit", "scripts/need-rt"]
FILES += ["scripts/processor"]
FOLDERS = ["docs/man", "docs/completion", "embed/python/bin", "embed/python/src/coniks"]
# The commands of the Python package, and the manual pages.
COMMANDS = ["coniks-audit", "coniks-client"]
PAGES = [*PROGRAMS, *COMMANDS]
SITE = "lib/python3/site-packages"
PACKAGE = f"{SITE}/coniks"
SECONDS = 60

# The sections of a manual page, and the programs that set one: each prints its warnings.
SECTIONS = ["NAME", "SYNOPSIS", "DESCRIPTION", "OPTIONS", "EXIT STATUS", "EXAMPLES", "SEE ALSO", "CAVEATS"]
SETTERS = [["groff", "-mandoc", "-ww", "-z", "-Tutf8"], ["mandoc", "-T", "lint", "-W", "warning"]]

# In the place of `rt`: it makes a program that prints its name and its version, or fails if the file `broken` names the crate. It
# notes the processors that it is asked for.
FAKE_RT = """#!/bin/sh
[ "$2" != --cpu ] || echo "$3" >>ROOM/asked
if [ "$(cat ROOM/broken)" = "${PWD##*/}" ]; then
    echo "error: broken"
    exit 1
fi
mkdir -p out
printf '#!/bin/sh\\necho "%s 0.2.0"\\n' "${PWD##*/}" >"out/${PWD##*/}"
chmod +x "out/${PWD##*/}"
"""


class Option(NamedTuple):
    """An option: its letter and the name of its value, each empty if it has none."""

    name: str
    letter: str
    value: str


def run(*words: Union[str, Path], home: Path = Path("/"), **more: str) -> subprocess.CompletedProcess[str]:
    """Runs a command in a folder, with more variables in its environment."""
    return subprocess.run(words, capture_output=True, text=True, env=os.environ | more, timeout=SECONDS, cwd=home)


def is_built(file: Path) -> bool:
    return run(TOP / "scripts/built", "is", file).returncode == 0


def processor() -> str:
    """What the launchers build for here."""
    return run(TOP / "scripts/processor").stdout.strip()


def write_program(room: Path, file: Path, text: str) -> None:
    """Writes what is in the place of a proved file, and notes it as built."""
    file.parent.mkdir(parents=True, exist_ok=True)
    file.write_text(text)
    file.chmod(0o755)
    for word in ["begin", "end"]:
        run(room / "scripts/built", word, file, PATH=search_path(room)).check_returncode()


def search_path(room: Path) -> str:
    return f"{room}/kit/bin:{os.environ['PATH']}"


def lay_out_tree(room: Path) -> Path:
    """Writes a tree with all that is installed, and with scripts as its programs."""
    for folder in FOLDERS:
        shutil.copytree(TOP / folder, room / folder, ignore=shutil.ignore_patterns("__pycache__"))
    (room / "scripts").mkdir()
    for file in FILES:
        shutil.copy(TOP / file, room / file)
    (room / "crates.txt").write_text("keydir: sha2\nprovider: sha2\n")
    (room / "kit/bin").mkdir(parents=True)
    (room / "kit/KIT-ID").write_text("a-kit logic 1\n")
    (room / "broken").write_text("")
    (room / "kit/bin/rt").write_text(FAKE_RT.replace("ROOM", str(room)))
    (room / "kit/bin/rt").chmod(0o755)
    for name in PROGRAMS:
        write_program(room, room / f"crates/{name}/out/{name}", f"#!/bin/sh\necho '{name} 0.1.0'\n")
    return room


def install(room: Path, *words: Union[str, Path], **more: str) -> subprocess.CompletedProcess[str]:
    return run(room / "scripts/install", *words, home=room, PATH=search_path(room), **more)


def files(prefix: Path) -> dict[str, int]:
    """The files below a folder, and who may do what with each."""
    return {str(it.relative_to(prefix)): it.stat().st_mode & 0o777 for it in prefix.rglob("*") if it.is_file()}


def wanted() -> dict[str, int]:
    """The files of an installation without the library."""
    modules = [it.name for it in (TOP / "embed/python/src/coniks").iterdir() if it.suffix in (".py", ".typed")]
    programs = {f"bin/{it}": 0o755 for it in [*PROGRAMS, *COMMANDS]} | {f"share/man/man1/{it}.1": 0o644 for it in PAGES}
    completions = {"share/bash-completion/completions/coniks-client": 0o644, "share/zsh/site-functions/_coniks-client": 0o644}
    return programs | completions | {f"{PACKAGE}/{it}": 0o644 for it in modules}


def outdate(room: Path, broken: str) -> None:
    """Makes the programs of a tree those of other sources, and has the build of one of them fail."""
    (room / "crates/provider/src").mkdir()
    (room / "crates/provider/src/main.rt").write_text("// a source\n")
    (room / "broken").write_text(broken)


@pytest.fixture
def room(tmp_path: Path) -> Path:
    """A small tree."""
    return lay_out_tree(tmp_path / "tree")


@pytest.fixture
def prefix(tmp_path: Path) -> Path:
    """A folder that isn't there yet."""
    return tmp_path / "a folder"


@pytest.mark.parametrize("words", [[], [""], ["--help"], ["one", "two"]])
def test_usage(room: Path, words: list[str]) -> None:
    """Anything but one folder is refused in one line, with status 2. Nothing can be installed, whatever is taken as a folder."""
    outdate(room, "keydir")
    printed = "install: expected a folder: scripts/install PREFIX\n"
    ran = install(room, *words)
    assert (ran.returncode, ran.stdout, ran.stderr) == (2, "", printed)


def check_moved(what: str, prefix: Path) -> None:
    """What is installed works where it was moved to: the programs, the package and the manual pages."""
    moved = prefix.rename(prefix.parent / "another folder")
    for name in PROGRAMS:
        ran = run(moved / "bin" / name, "--version")
        assert ran.returncode == 0 and ran.stdout.startswith(f"{name} "), f"{what}: {name}: {ran}"
        if shutil.which("man"):
            found = run("man", "-M", moved / "share/man", "-w", name)
            assert found.stdout == f"{moved}/share/man/man1/{name}.1\n", f"{what}: man {name}: {found}"
    words = "import coniks.provider; print(coniks.__version__, coniks.__file__)"
    ran = run(sys.executable, "-B", "-c", words, PYTHONPATH=f"{moved}/{SITE}")
    assert ran.stdout.endswith(f" {moved}/{PACKAGE}/__init__.py\n"), f"{what}: the package: {ran}"


def test_first(room: Path, prefix: Path) -> None:
    """The files of an installation, into a folder that isn't there yet."""
    prefix = prefix / "below"
    ran = install(room, prefix)
    what = f"keydir and provider for {processor()}, their manual pages, and coniks for Python"
    printed = f"{prefix}: {what} without libconiks.so, which embed/build makes\n"
    assert (ran.returncode, ran.stdout, ran.stderr) == (0, printed, ""), f"install: {ran}"
    assert files(prefix) == wanted(), f"its files: {files(prefix)}"
    check_moved("a moved folder", prefix)


def test_umask(room: Path, prefix: Path) -> None:
    """Everyone can read an installation, whatever the umask of its caller is."""
    ran = run("sh", "-c", 'umask 077; exec "$0" "$1"', room / "scripts/install", prefix, home=room, PATH=search_path(room))
    folders = {it.stat().st_mode & 0o777 for it in [prefix, *prefix.rglob("*")] if it.is_dir()}
    assert (ran.returncode, folders, files(prefix)) == (0, {0o755}, wanted())


def test_again(tmp_path: Path, room: Path, prefix: Path) -> None:
    """An older installation is replaced file by file, and none is written in place."""
    install(room, prefix)
    for file in ["older.py", "libconiks.so"]:
        (prefix / PACKAGE / file).write_text("older")
    older = {it: (prefix / it).read_bytes() for it in files(prefix)}
    for at, file in enumerate(older):
        os.link(prefix / file, tmp_path / f"{at}")
    write_program(room, room / "crates/keydir/out/keydir", "#!/bin/sh\necho 'keydir 0.3.0'\n")
    (room / "embed/python/src/coniks/log.py").write_text("# newer\n")
    ran = install(room, prefix)
    assert ran.returncode == 0 and files(prefix) == wanted(), ("install again", f"{ran} {files(prefix)}")
    changed = [file for at, (file, text) in enumerate(older.items()) if (tmp_path / f"{at}").read_bytes() != text]
    assert not changed, ("install again: files are renamed", f"written in place: {changed}")
    newer = [(prefix / "bin/keydir").read_text(), (prefix / PACKAGE / "log.py").read_text()]
    assert newer == ["#!/bin/sh\necho 'keydir 0.3.0'\n", "# newer\n"], f"install again: newer files: {newer}"


def test_library(room: Path, prefix: Path) -> None:
    """The package has the library of embed/out, if that is of the present sources."""
    write_program(room, room / "crates/coniks_c/out/libconiks_c.a", "archive")
    write_program(room, room / "embed/out/libconiks.a", "archive")
    (room / "embed/out/libconiks.so").write_text("library")
    file = prefix / PACKAGE / "libconiks.so"
    ran = install(room, prefix)
    is_well = ran.stdout.endswith(" with libconiks.so\n") and files(prefix) == wanted() | {f"{PACKAGE}/libconiks.so": 0o755}
    assert is_well and file.read_text() == "library", f"the library: {ran}"
    (room / "embed/out/libconiks.a").write_text("archive of other sources")
    ran = install(room, prefix)
    assert " without libconiks.so" in ran.stdout and not file.exists(), f"a library of other sources: {ran}"


def test_build(room: Path, prefix: Path) -> None:
    """Programs of other sources are built first. If that fails for one, nothing is installed."""
    outdate(room, "provider")
    ran = install(room, prefix)
    assert (ran.returncode, prefix.exists()) == (70, False), f"a failed build: {ran}"
    (room / "broken").write_text("")
    ran = install(room, prefix)
    texts = [run(prefix / "bin" / it).stdout for it in PROGRAMS]
    assert texts == ["keydir 0.2.0\n", "provider 0.2.0\n"] and ran.returncode == 0, ("a build", f"{texts} {ran}")


def test_unproved(room: Path, prefix: Path) -> None:
    """A program that isn't proved is not installed, and nothing is built without being asked for."""
    assert install(room, prefix, CONIKS_UNPROVED="1").returncode == 0, "the proved programs are there"
    (room / "crates/provider/out/provider").unlink()
    ran = install(room, prefix.parent / "other", CONIKS_UNPROVED="1")
    printed = "install: provider isn't proved, and CONIKS_UNPROVED is 1: unset it, and the proofs begin\n"
    assert (ran.returncode, ran.stdout, ran.stderr) == (1, "", printed), f"install: {ran}"
    assert not (prefix.parent / "other").exists() and not (room / "out/unproved").exists(), "nothing is made"


def test_processor(room: Path, prefix: Path) -> None:
    """CONIKS_CPU names what the programs are built for, and another value than two installs nothing."""
    ran = install(room, prefix, CONIKS_CPU="x86-64-v4")
    printed = 'processor: CONIKS_CPU is "x86-64-v4", expected x86-64-v2 or x86-64-v3\n'
    assert (ran.returncode, ran.stdout, ran.stderr, prefix.exists()) == (2, "", printed, False)
    for cpu in ["x86-64-v2", "x86-64-v3"]:
        # As if nothing were built, for whichever processor.
        shutil.rmtree(room / "out/built")
        ran = install(room, prefix, CONIKS_CPU=cpu)
        assert (ran.returncode, ran.stdout.partition(",")[0]) == (0, f"{prefix}: keydir and provider for {cpu}"), ran
        assert (room / "asked").read_text().split()[-2:] == [cpu, cpu]


@pytest.fixture(scope="module")
def proved() -> Iterator[Path]:
    """An installation of the proved programs, over a running one, which was moved."""
    lacking = [it for it in PROGRAMS if not is_built(TOP / f"crates/{it}/out/{it}")]
    if lacking:
        pytest.skip(f"{' and '.join(lacking)} aren't built from these sources")
    with tempfile.TemporaryDirectory() as name:
        prefix = Path(name) / "a folder"
        first = run(TOP / "scripts/install", prefix)
        pipe = subprocess.PIPE
        with subprocess.Popen([prefix / "bin/provider"], stdin=pipe, stdout=pipe, text=True) as running:
            second = run(TOP / "scripts/install", prefix)
            output = running.communicate('{"cmd":"latest"}\n', SECONDS)[0]
        assert [first.returncode, second.returncode] == [0, 0], f"{first} {second}"
        assert (output, running.returncode) == ('{"fault":"NotOpen"}\n', 1), "a program that runs"
        check_moved("the proved programs", prefix)
        yield Path(name) / "another folder"


def test_proved_library(proved: Path) -> None:
    """The installed package calls the library beside it, if embed/out had one of the present sources."""
    if not (proved / PACKAGE / "libconiks.so").exists():
        pytest.skip("embed/out has no library of these sources")
    words = "import coniks; print(coniks.library_version() == coniks.__version__)"
    ran = run(sys.executable, "-B", "-c", words, PYTHONPATH=f"{proved}/{SITE}")
    assert ran.stdout == "True\n", ran


@pytest.mark.parametrize("name", PROGRAMS)
def test_proved_examples(proved: Path, name: str) -> None:
    """The examples of a manual page, over the files of the repository: each prints lines, and no error."""
    for line in re.findall(r"^\.Dl \$ (.*)$", page_of(name), re.M):
        command = line.replace(r"\(dq", '"')
        ran = run("bash", "-o", "pipefail", "-c", command, home=TOP / "examples", PATH=f"{proved}/bin:{os.environ['PATH']}")
        assert ran.returncode in (0, 1) and ran.stdout and not ran.stderr, f"{command}: {ran}"


def page_of(name: str) -> str:
    return (TOP / f"docs/man/{name}.1").read_text("utf-8")


def section(name: str, title: str) -> str:
    """A section of a manual page."""
    found = re.search(rf"^\.Sh {title}\n(.*?)(?=^\.Sh |\Z)", page_of(name), re.M | re.S)
    return found[1] if found else ""


def page_options(name: str) -> set[Option]:
    """The options that a manual page explains."""
    found = re.findall(r"^\.It Fl (?:(\w) , Fl )?-([a-z-]+)(?: Ar (\S+))?$", section(name, "OPTIONS"), re.M)
    return {Option(long, letter, value) for letter, long, value in found}


def page_forms(name: str) -> dict[str, set[tuple[str, str, bool]]]:
    """The forms of a manual page's synopsis by the subcommand: each option with its value, and whether it must be given."""
    forms = {}
    for form in section(name, "SYNOPSIS").split(".Nm\n")[1:]:
        command = re.search(r"^\.Cm (\S+)$", form, re.M)
        found = re.findall(r"^\.(Op |)Fl -([a-z-]+) Ar (\S+)$", form, re.M)
        if found or command:
            forms[command[1] if command else ""] = {(long, value, not optional) for optional, long, value in found}
    return forms


def page_statuses(name: str) -> dict[str, str]:
    found = re.findall(r"^\.It (\d+)\n(.*?)(?=^\.It |^\.El)", section(name, "EXIT STATUS"), re.M | re.S)
    return {number: " ".join(text.split()) for number, text in found}


def help_options(text: str) -> set[Option]:
    """The options of a help."""
    found = re.findall(r"^ +(?:-(\w), )?--([a-z-]+)(?: <(\S+?)>)?(?:  |$)", text, re.M)
    return {Option(long, letter, value) for letter, long, value in found}


def help_form(text: str) -> set[tuple[str, str, bool]]:
    """The options with a value that a help's usage takes, and whether each must be given."""
    usage = re.search(r"^Usage: .*$", text, re.M)
    needed = re.findall(r"--([a-z-]+) <", usage[0] if usage else "")
    return {(it.name, it.value, it.name in needed) for it in help_options(text) if it.value}


def help_statuses(text: str) -> dict[str, str]:
    found = re.findall(r"^  (\d+)  (.*)$", text.partition("\nStatus:\n")[2], re.M)
    return {number: f"{text[:1].upper()}{text[1:]}." for number, text in found}


def program_of(name: str) -> Optional[Path]:
    """A program that is built from the present sources, with a proof or without one."""
    built = [it for it in [TOP / f"crates/{name}/out/{name}", TOP / f"out/unproved/{name}"] if is_built(it)]
    return built[0] if built else None


@pytest.mark.parametrize("name", PROGRAMS)
def test_page(name: str) -> None:
    """A manual page has the subcommands, the options and the statuses of the help."""
    program = program_of(name)
    if program is None:
        pytest.skip(f"{name} isn't built from these sources")
    text = run(program, "--help").stdout
    listed = re.findall(r"^  (\w+)  ", text.partition("\nCommands:\n")[2].partition("\n\n")[0], re.M)
    commands = [it for it in listed if it != "help"]
    helps = {it: run(program, it, "--help").stdout for it in commands} or {"": text}
    assert page_options(name) == help_options(text).union(*map(help_options, helps.values()))
    assert page_forms(name) == {command: help_form(it) for command, it in helps.items()}
    assert page_statuses(name) == help_statuses(text) != {}
    explained = re.findall(r"^\.It Cm (\w+)$", section(name, "DESCRIPTION"), re.M)
    assert explained == (listed or re.findall(r"\w+", text.partition("\nline: ")[2].partition("(")[0])) != []


def test_command(room: Path, prefix: Path) -> None:
    """The commands of the package run where they are installed, and the manual page and the completions have what the help has."""
    if run("/usr/bin/python3", "-c", "import nacl.signing").returncode:
        pytest.skip("PyNaCl is missing")
    install(room, prefix)
    helps = {it: run(prefix / "bin" / it, "--help", COLUMNS="200") for it in COMMANDS}
    assert all(it.returncode == 0 and not it.stderr for it in helps.values()), helps
    commands = re.findall(r"^    (\w+)(?:  |$)", helps["coniks-client"].stdout, re.M)
    assert re.findall(r"^\.It Cm (\w+)$", section("coniks-client", "DESCRIPTION"), re.M) == commands != []
    options = set[str]()
    for it in commands:
        options |= {*re.findall(r"^  (?:-h, )?--([a-z-]+)", run(prefix / "bin/coniks-client", it, "--help").stdout, re.M)}
    assert {*re.findall(r"^\.It Fl (?:h , Fl )?-([a-z-]+)", section("coniks-client", "OPTIONS"), re.M)} == options
    for file in ["share/bash-completion/completions/coniks-client", "share/zsh/site-functions/_coniks-client"]:
        text = (prefix / file).read_text()
        assert {*re.findall(r"--([a-z][a-z-]*)", text)} == options and " ".join(commands) in text, file


def test_audit(room: Path, prefix: Path) -> None:
    """The manual page of coniks-audit has the options of its help."""
    if run("/usr/bin/python3", "-c", "import nacl.signing").returncode:
        pytest.skip("PyNaCl is missing")
    install(room, prefix)
    helped = {*re.findall(r"^  (?:-h, )?--([a-z-]+)", run(prefix / "bin/coniks-audit", "--help", COLUMNS="200").stdout, re.M)}
    assert {*re.findall(r"^\.It Fl (?:h , Fl )?-([a-z-]+)", section("coniks-audit", "OPTIONS"), re.M)} == helped != set()


@pytest.mark.parametrize(
    "word, wanted",
    [
        ("re", "register reset"),
        (
            "",
            "begin register keep close reset adopt lookup fingerprint verify watch compare evidence note succeed trust set export import "
            "--help --version",
        ),
    ],
)
def test_completion(word: str, wanted: str) -> None:
    """Bash completes the commands."""
    script = f'. docs/completion/coniks-client.bash; COMP_WORDS=(coniks-client "{word}") COMP_CWORD=1; _coniks_client; echo "${{COMPREPLY[*]}}"'
    assert run("bash", "-c", script, home=TOP).stdout == f"{wanted}\n"


@pytest.mark.parametrize("name", PROGRAMS)
def test_sections(name: str) -> None:
    assert re.findall(r"^\.Sh (.*)$", page_of(name), re.M) == SECTIONS


@pytest.mark.parametrize("name", PAGES)
def test_set(name: str) -> None:
    """A manual page is set without warnings."""
    setters = [it for it in SETTERS if shutil.which(it[0])]
    if not setters:
        pytest.skip("groff is missing")
    for words in setters:
        ran = run(*words, TOP / f"docs/man/{name}.1")
        assert (ran.returncode, ran.stdout, ran.stderr) == (0, "", ""), words
