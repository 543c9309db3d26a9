"""The pages that docs/draw makes from the sources, the definitions and the lemmas, and what the other pages cite and link."""

from __future__ import annotations

import re
import subprocess
from pathlib import Path
from typing import Sequence

TOP = Path(__file__).resolve().parent.parent
CRATES = TOP / "crates"

USED = re.compile(r"^(?:pub )?use Rattle\.(\w+)\.proofs\.(\w+)\.\{", re.M)
GIVEN = re.compile(r"#\[tactic\(auto, using\((.*?)\)\)\](.*?)fn (\w+)", re.S)
DEFINED = re.compile(r"\s*(?:(?:abbrev|unfoldable) pub|pub (?:data|record)) (\S+)")

# What pages have in code spans beside names: commands, and parts of the names of files and crates.
NO_NAMES = {"ci", "plant", "memcpy", "memmove", "memset", "FUNCTION", "METHOD", "MODULE", "TYPE", "_tests", "coniks_"}

LEMMAS = """\
# Lemmas

The lemma files of each crate (`proofs/*.antt`), what each contains, and the proofs that cite it.
"""

DEFINITIONS = """\
# Definitions

The definitions that contracts cite, module by module, with the comments of `specs/`. `docs/draw` writes this page. A name in a
contract is one of these, and links to its line; [PROMISES.md](../docs/PROMISES.md) has the contracts.
"""


def crates() -> dict[str, list[str]]:
    """Each crate of the repository with what it depends on."""
    lines = subprocess.run([TOP / "scripts/crates"], stdout=subprocess.PIPE, text=True, check=True).stdout.splitlines()
    return {name: below for name, *below in map(str.split, lines)}


def function_of(file: Path, home: Path) -> str:
    """The function whose proof this file is of: `Type::name` or `name`."""
    parts = [it.removeprefix("+") for it in file.relative_to(home).parts[:-1]]
    return "::".join(parts[-2:]) if len(parts) > 1 and parts[-2][0].isupper() else parts[-1]


def served(crate: str) -> dict[str, tuple[set[str], set[str]]]:
    """The lemma files of a crate, each with the functions and the other lemma files whose proofs cite it."""
    home = CRATES / crate / "proofs"
    files: dict[str, tuple[set[str], set[str]]] = {}
    for file in home.glob("*.antt"):
        if file.stem not in ["Lib", "Lemmas", "Words"]:
            files[file.stem] = set(), set()
    for file in home.rglob("*.antt"):
        cited = {name for of, name in USED.findall(file.read_text("utf-8")) if of == crate}
        for name in cited.intersection(files):
            if file.parent == home:
                if file.stem in files:
                    files[name][1].add(file.stem)
            else:
                files[name][0].add(function_of(file, home))
    for file in (CRATES / crate / "src").rglob("*.rt"):
        for given, _, function in GIVEN.findall(file.read_text("utf-8")):
            for name in re.findall(r"crate::proofs::(\w+)::", given):
                files[name][0].add(function)
    return files


def is_passed_on(crate: str, name: str) -> bool:
    shown = CRATES / crate / "proofs/Lemmas.antt"
    return shown.is_file() and f".proofs.{name}." in shown.read_text("utf-8")


def lemmas_page() -> str:
    lines = [LEMMAS.rstrip("\n")]
    for crate in crates():
        files = served(crate)
        if files:
            lines += ["", f"## `{crate}`", "", "| File | Contents | Cited by the proofs of |", "|---|---|---|"]
        for name in sorted(files):
            functions, others = files[name]
            head = (CRATES / crate / "proofs" / f"{name}.antt").read_text("utf-8").splitlines()[0].removeprefix("-- ")
            by = [f"`{it}`" for it in sorted(functions)] + sorted(others) + ["crates above"] * is_passed_on(crate, name)
            lines += [f"| `{name}` | {head} | {', '.join(by)} |"]
    return "\n".join(lines) + "\n"


def modules(crate: str) -> list[Path]:
    """The modules of a crate's definitions, in the order in which it lists them."""
    home = CRATES / crate / "specs"
    if not home.is_dir() or crate.endswith("_tests"):
        return []
    listed = re.findall(r"^pub mod (\w+)$", (home / "Lib.antt").read_text("utf-8"), re.M)
    return [home / f"{it}.antt" for it in listed]


def comment_from(lines: Sequence[str], at: int) -> tuple[str, int]:
    """The text of the comment that begins at a line, and the line after it."""
    words = []
    while at < len(lines) and lines[at].lstrip().startswith("--"):
        words.append(lines[at].lstrip().removeprefix("--").strip())
        at += 1
    return " ".join(words), at


def definitions_in(lines: Sequence[str], start: int) -> list[tuple[str, list[tuple[str, int]]]]:
    """The public definitions of a module from a line on: for each comment its text and the names that it is about, each with the
    number of its line."""
    found: list[tuple[str, list[tuple[str, int]]]] = []
    at = start
    while at < len(lines):
        comment, after = comment_from(lines, at)
        following = lines[after] if after < len(lines) else ""
        name = DEFINED.match(following)
        if comment and (name or following.lstrip().startswith("module ")):
            found.append((comment, []))
        if name:
            if not found:
                found.append(("", []))
            found[-1][1].append((name[1], after + 1))
        at = after + 1
    return [it for it in found if it[1]]


def definitions_page() -> str:
    lines = [DEFINITIONS.rstrip("\n")]
    for crate in crates():
        files = modules(crate)
        if files:
            lines += ["", f"## `{crate}`"]
        for file in files:
            text = file.read_text("utf-8").splitlines()
            head, after = comment_from(text, 0)
            lines += ["", f"### {file.stem}", "", head, ""]
            for comment, names in definitions_in(text, after):
                shown = ", ".join(f"[`{it}`](../{file.relative_to(TOP)}#L{line})" for it, line in names)
                lines += [f"- {shown}: {comment}" if comment else f"- {shown}"]
    return "\n".join(lines) + "\n"


def words_of(file: Path) -> set[str]:
    return set(re.findall(r"\w+", file.read_text("utf-8")))


def listed() -> list[str]:
    """The files that git knows or would add."""
    words = ["git", "ls-files", "-z", "--cached", "--others", "--exclude-standard"]
    named = subprocess.run(words, cwd=TOP, capture_output=True, check=True).stdout.decode().split("\0")
    return sorted(it for it in set(named) if (TOP / it).is_file())


def known_names() -> set[str]:
    """The names in the sources, and the parts of the names of all files."""
    known = {part for it in listed() for part in re.findall(r"\w+", it)}
    for it in listed():
        if it.endswith((".rt", ".antt", ".h", ".py", ".go")):
            known |= words_of(TOP / it)
    return known


def unknown_names(pages: Sequence[str]) -> list[str]:
    """The names in code spans of these pages that no source contains, each with its page."""
    known, found = known_names() | NO_NAMES, []
    for page in pages:
        text = (TOP / "docs" / page).read_text("utf-8")
        cited = {name for it in re.findall(r"`([^`]+)`", text) for name in re.findall(r"[A-Za-z_]\w*", it)}
        found += [f"docs/{page}: {it}" for it in sorted(cited - known)]
    return found


def without_code(page: str) -> str:
    """A page without its blocks of code and its code spans."""
    text = re.sub(r"^```.*?^```|^    .*?$", "", (TOP / page).read_text("utf-8"), flags=re.M | re.S)
    return re.sub(r"`[^`\n]+`", "", text)


def headings(page: str) -> list[str]:
    return re.findall(r"^#+ (.*)$", re.sub(r"^```.*?^```", "", (TOP / page).read_text("utf-8"), flags=re.M | re.S), re.M)


def anchors(page: str) -> set[str]:
    """The anchors of a page's headings, as the services that show the pages make them."""
    return {re.sub(r"[^\w\- ]", "", it.lower()).replace(" ", "-") for it in headings(page)}


def broken_links() -> list[str]:
    """The links of all pages to no file or heading, and the sections of pages in docs/ that files name and no page has."""
    files, found = listed(), []
    for page in (it for it in files if it.endswith(".md")):
        for link in re.findall(r"\]\(([^)\s]+)\)", without_code(page)):
            target, _, anchor = link.partition("#")
            to = (TOP / page).parent / target if target else TOP / page
            if not link.startswith("https://") and not (to.exists() and (not anchor or anchor in anchors(str(to)))):
                found.append(f"{page}: {link}")
    for file in files:
        text = re.sub(r"\s*\n[\s/*#!-]*", " ", (TOP / file).read_bytes().decode("utf-8", "replace"))
        for page, section in re.findall(r"(docs/\w+\.md)`?,? \(?\"(\w[^\"\\]*)\"", text):
            if not (TOP / page).is_file() or section not in headings(page):
                found.append(f'{file}: {page}, "{section}"')
    return found
