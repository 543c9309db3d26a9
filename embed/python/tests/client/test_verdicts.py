"""Each verdict on a signature or a VRF proof is made in `coniks._verdicts`. The core is called by `coniks.client` alone, which passes
these verdicts on and makes none."""

from __future__ import annotations

import ast
import re
from pathlib import Path
from typing import Iterator

import coniks

PACKAGE = Path(coniks.__file__).parent
# What the verdicts of these calls are named.
TAKES = {"feed": "received", "start": "received", "evidence": "received"}
TAKES |= {"lookup": "verdicts", "history": "verdicts", "state_read": "verdicts"}


def test_calls_of_the_core() -> None:
    callers = [it.name for it in PACKAGE.glob("*.py") if "coniks_core_" in it.read_text("utf-8")]
    assert sorted(callers) == ["_core.py", "client.py"]


def test_no_other_verdict() -> None:
    for file in PACKAGE.glob("*.py"):
        text = file.read_text("utf-8")
        assert all((f"_core.{it}(" in text) == (file.name == "_verdicts.py") for it in ("Received", "Verdicts")), file.name
        if file.name in ("client.py", "_core.py", "_memory.py", "_messages.py"):
            assert not re.search(r"\.verify\(|is_signed\(|_ecvrf|\.index\(|\.signature\b", text), file.name


def assigned(tree: ast.AST) -> Iterator[tuple[str, str]]:
    """Names, and what is assigned to them."""
    for it in ast.walk(tree):
        if isinstance(it, ast.Assign):
            target, value = it.targets[0], it.value
            is_several = isinstance(target, ast.Tuple) and isinstance(value, ast.Tuple)
            pairs = zip(target.elts, value.elts) if is_several else [(target, value)]  # type: ignore[attr-defined]
            yield from ((ast.unparse(name), ast.unparse(given)) for name, given in pairs)


def test_what_is_passed() -> None:
    """Each call that takes a verdict is given one that was just made."""
    seen = set[str]()
    for function in ast.walk(ast.parse((PACKAGE / "client.py").read_text("utf-8"))):
        if not isinstance(function, ast.FunctionDef):
            continue
        made = [value for name, value in assigned(function) if name in TAKES.values()]
        calls = [it for it in ast.walk(function) if isinstance(it, ast.Call) and "library.coniks_core_" in ast.unparse(it.func)]
        for call in calls:
            name, words = ast.unparse(call.func).partition("coniks_core_")[2], [ast.unparse(it) for it in call.args]
            if name in TAKES:
                seen.add(name)
                assert TAKES[name] in words and len(made) == 1 and made[0].startswith("self._verifier.of_"), (name, words, made)
    assert seen == TAKES.keys()
