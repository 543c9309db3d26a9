"""The rows of the cases: which ones exist, and what a case expects of a run."""

from __future__ import annotations

import hashlib
import json
from functools import cache
from pathlib import Path
from typing import Any, Iterable

HERE = Path(__file__).resolve().parent

# The tables of each program.
TABLES = {
    "keydir": ["run", "check", "audit", "monitor", "words"],
    "provider": ["provider", "provider-words", "replay"],
}
# The members of a row, and of what type each is. A row has one member of each of the pairs.
MEMBERS: dict[str, tuple[type, ...]] = {
    **dict.fromkeys(["name", "as"], (str,)),
    **dict.fromkeys(["words", "in", "out", "holds", "err"], (list,)),
    **{"make": (str, list, dict), "turns": (bool,), "status": (int,)},
}
PAIRS = [("in", "make"), ("out", "holds")]


class Unknown(LookupError):
    """What no case or table is named."""


def program_at(path: str) -> str:
    """Which program a file is by its name: `keydir` if it has another name than these."""
    name = Path(path).name
    return name if name in TABLES else "keydir"


class Case:
    """A case by its table and the members of its row, with those of the row that it is as."""

    def __init__(self, table: str, members: dict[str, Any]) -> None:
        self.table = table
        self.members = members
        self.name = f"{table}/{members['name']}"

    def has(self, member: str) -> bool:
        return member in self.members

    def read(self, member: str) -> bytes:
        """The lines of a member, each with its newline."""
        return b"".join(made(it) + b"\n" for it in self.members[member])

    def given(self) -> bytes:
        """The bytes of standard input."""
        return self.read("in") if self.has("in") else made(self.members["make"])

    def words(self) -> list[bytes]:
        return [made(it) for it in self.members["words"]]

    def status(self) -> int:
        status: int = self.members["status"]
        return status


def made(part: Any, number: int = 0) -> bytes:
    """The bytes of a part, within a count in its turn of this number."""
    if isinstance(part, str):
        return part.encode("utf-8")
    if isinstance(part, list):
        return b"".join(made(it, number) for it in part)
    if "repeat" in part:
        times: int = part["times"]
        return made(part["repeat"], number) * times
    if "count" in part:
        numbers = range(part["from"], part["to"] + 1, part.get("step", 1))
        return b"".join(made(part["count"], it) for it in numbers)
    if "number" in part:
        return {10: b"%d", 16: b"%x"}[part["number"]] % number
    if "sha256" in part:
        return hashlib.sha256(made(part["sha256"], number)).hexdigest().encode()
    return bytes.fromhex(part["hex"])


def members_of(pairs: list[tuple[str, Any]]) -> dict[str, Any]:
    """The members of an object, none of which may occur twice."""
    members = dict(pairs)
    if len(members) < len(pairs):
        raise ValueError("a member occurs twice")
    return members


def faults_of(members: dict[str, Any]) -> list[str]:
    """What is wrong with the members of a row."""
    wrong = [f"no member of a case: {it}" for it in members if it not in MEMBERS]
    typed = [it for it in members if it in MEMBERS and not isinstance(members[it], MEMBERS[it])]
    wrong += [f"a wrong type of {it}" for it in typed]
    wrong += [f"no {it}" for it in ("words", "status") if it not in members]
    return wrong + [f"not one of {one} and {other}" for one, other in PAIRS if (one in members) == (other in members)]


def case_of(table: str, line: bytes, cases: dict[str, Case]) -> Case:
    """The case of a row. A row that is as an earlier one has the members of that one that it doesn't have itself."""
    members = json.loads(line, object_pairs_hook=members_of)
    if not isinstance(members, dict) or not isinstance(members.get("name"), str):
        raise ValueError("no object with a name")
    if "as" in members:
        earlier = cases.get(f"{table}/{members['as']}")
        if earlier is None:
            raise ValueError(f"no earlier row {members['as']}")
        members = {**earlier.members, **members}
    wrong = faults_of(members)
    if f"{table}/{members['name']}" in cases:
        wrong.append("its name occurs twice")
    if wrong:
        raise ValueError(f"{members['name']}: {', '.join(wrong)}")
    return Case(table, members)


@cache
def cases_of(path: Path) -> tuple[dict[str, Case], list[str]]:
    """The cases of a table by their names, and what is wrong with its rows."""
    cases: dict[str, Case] = {}
    wrong: list[str] = []
    for number, line in enumerate(path.read_bytes().splitlines(), 1):
        try:
            case = case_of(path.stem, line, cases)
            cases[case.name] = case
        except ValueError as fault:
            wrong.append(f"{path.name}, row {number}: {fault}")
    return cases, wrong if cases else [*wrong, f"{path.name}: no case"]


def chosen(names: Iterable[str]) -> tuple[list[Case], list[str]]:
    """The cases that the names say, and what is wrong with rows."""
    cases: dict[str, Case] = {}
    wrong: list[str] = []
    for name in names:
        table, _, one = name.rstrip("/").partition("/")
        if not any(table in it for it in TABLES.values()):
            raise Unknown(f"no table of cases: {table}")
        found, faults = cases_of(HERE / f"{table}.jsonl")
        if not one:
            cases.update(found)
            wrong += faults
        elif name not in found:
            raise Unknown(f"no case: {name}")
        else:
            cases[name] = found[name]
    return list(cases.values()), wrong
