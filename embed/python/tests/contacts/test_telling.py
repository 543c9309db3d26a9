"""All verdicts of `coniks-client`: a run tells each of them with the status, the sentence and the JSON that are written by hand beside it,
and no other module has a status or a sentence."""

from __future__ import annotations

import ast
import re
from pathlib import Path
from typing import Any

import pytest

pytest.importorskip("nacl.signing")

import ending_runs
import moving_runs
import verdict_runs
from people import FORKS, WORLD
from rooms import Room
from coniks import _telling, contacts
from coniks._telling import Telling, Verdict

RUNS = {**verdict_runs.RUNS, **moving_runs.RUNS, **ending_runs.RUNS}
# Verdicts that print nothing, with their statuses: all is well, an interrupt, and a reader that went away. `test_contacts.py` has runs of
# the latter two.
SILENT = {"AUDITED": 0, "INTERRUPTED": 130, "UNREAD": 3}


@pytest.fixture
def reported(monkeypatch: pytest.MonkeyPatch) -> list[tuple[str, dict[str, Any]]]:
    """The names of the verdicts that a run tells, with their values."""
    found, call = list[tuple[str, dict[str, Any]]](), Telling.__call__

    def noting(self: Telling, verdict: Verdict, *more: Any, **values: Any) -> None:
        found.append((verdict.name, values))
        call(self, verdict, *more, **values)

    monkeypatch.setattr(Telling, "__call__", noting)
    return found


def placed(room: Room, value: Any) -> Any:
    """A text with the places of this room, or what a call says of the room."""
    places = {"SERVICE": room.directory.url, "STATE": str(room.person.state), "ROOM": str(room.person.room)}
    for name, text in places.items() if isinstance(value, str) else ():
        value = value.replace(name, text)
    return value(room) if callable(value) else value


@pytest.mark.parametrize("name", RUNS)
def test_verdict(name: str, room: Room, reported: list[tuple[str, dict[str, Any]]], capsys: pytest.CaptureFixture[str]) -> None:
    """A verdict is reported with its status, sentence and members, in JSON and in words, without colours. The run ends with its status."""
    run = RUNS[name]
    run.prepare(room)
    reported.clear()
    given = [placed(room, it) for it in run.words]
    status, lines = room.person.run(given[0], *given[1:])
    assert len(reported) == len(lines)
    members = {it: placed(room, value) for it, value in run.members.items()}
    wanted = {"text": placed(room, run.text), "status": run.status if run.line is None else run.line, **members}
    places = [at for at, it in enumerate(lines) if it == wanted]
    assert places and [reported[it][0] for it in places] == [name] * len(places), (wanted, lines)
    assert status == run.status, lines
    tell = Telling(False)
    tell(Verdict[name], **reported[places[0]][1])
    assert capsys.readouterr().out == f"coniks-client: {wanted['text']}\n" and wanted["text"].isprintable()
    assert tell.status == run.status


def test_evidence_in_words(room: Room, capsys: pytest.CaptureFixture[str]) -> None:
    """Without --json the parts of what was found follow its sentence."""
    room.begin()
    room.fork()
    room.run("compare")
    assert contacts.main(["evidence", "--state", str(room.person.state)]) == 1
    sentence = "keys.example.com: two signed entries that one chain can't have convict the directory"
    assert capsys.readouterr().out == "".join(f"{it}\n" for it in [sentence, f"  {WORLD[2].hex()}", f"  {FORKS[0][2].hex()}"])


def test_each_verdict() -> None:
    """Each verdict of `coniks-client` has a run, or prints nothing."""
    names = {it.name for it in Verdict if not it.name.startswith("AUDIT_")}
    assert names == {*RUNS} | {*SILENT} and not {*RUNS} & {*SILENT}
    assert {name: (Verdict[name].status, Verdict[name].text) for name in SILENT} == {name: (it, "") for name, it in SILENT.items()}


# The modules of both programs beside the table, and their parts whose texts are of the command line.
SOURCES = Path(_telling.__file__).parent
MODULES = [
    "contacts",
    "_moving",
    "_going_on",
    "_person",
    "_own_names",
    "_confirming",
    "_client_state",
    "_http",
    "audit",
    "_ending",
    "commands",
]
OF_COMMAND_LINES = {"_COMMANDS", "parsed", "name_of", "key_of", "url_of", "epochs_of", "wanted_of", "address_of"}


def name_of(part: ast.stmt) -> str:
    """The name of a function, a class, or what a statement assigns."""
    if isinstance(part, ast.Assign):
        return ast.unparse(part.targets[0])
    return part.name if isinstance(part, (ast.FunctionDef, ast.ClassDef)) else ""


def reported_elsewhere(text: str) -> list[str]:
    """The sentences, the statuses and the colours in a module's text."""
    tree = ast.parse(text)
    parts = [
        it for it in tree.body if not {getattr(it, "name", ""), *map(ast.unparse, getattr(it, "targets", []))} & OF_COMMAND_LINES
    ]
    nodes: list[Any] = [node for it in parts for node in ast.walk(it)]
    documented = (ast.Module, ast.ClassDef, ast.FunctionDef)
    docs = {id(it.body[0].value) for it in [tree, *nodes] if isinstance(it, documented) and isinstance(it.body[0], ast.Expr)}
    plain = [it.value for it in nodes if isinstance(it, ast.Constant) and isinstance(it.value, str) and id(it) not in docs]
    formatted = [
        " ".join(str(part.value) for part in it.values if isinstance(part, ast.Constant))
        for it in nodes
        if isinstance(it, ast.JoinedStr)
    ]
    returned = [it.value for it in nodes if isinstance(it, ast.Return)]
    given = [value for it in nodes if isinstance(it, ast.Call) and ast.unparse(it.func).endswith("exit") for value in it.args]
    found = [it for it in plain + formatted if sum(map(str.isalpha, it.split())) > 2 or "\x1b" in it]
    return found + [str(it.value) for it in returned + given if isinstance(it, ast.Constant) and type(it.value) is int]


@pytest.mark.parametrize("module", MODULES)
def test_no_other_place(module: str) -> None:
    """No other module has a sentence, a status or a colour."""
    text = (SOURCES / f"{module}.py").read_text("utf-8")
    assert reported_elsewhere(text) == [] and len(text) > 500
    statuses = {"ALARM", "UNVERIFIED", "ABSENT", "STOPPED"}
    assert not statuses & {*re.findall(r"\w+", "".join(re.findall(r"^from \._telling import (.*)$", text, re.M)))}


@pytest.mark.parametrize(
    "line", ['tell("all is well here")', 'x = f"{name} has no {key} here"', "return 3", "sys.exit(1)", "print('\\x1b[31m')"]
)
def test_other_places(line: str) -> None:
    """What the test above looks for is found."""
    assert reported_elsewhere(f'"""A text of a module."""\ndef call():\n    """Of a function."""\n    {line}\n')
