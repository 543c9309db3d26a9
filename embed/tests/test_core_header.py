"""The examples in the heads of include/coniks_core.h and coniks_guard.h, and the bindings of these headers in Python."""

from __future__ import annotations

import ctypes
import re
from pathlib import Path

import pytest
import tools
from coniks import _core, _formats, _guarding
from running import INCLUDE, WARNED, needs, run

HEADERS = {name: (INCLUDE / f"coniks_{name}.h").read_text("utf-8") for name in ("core", "guard")}
BINDINGS = {"core": _core, "guard": _guarding}

# What the examples take as given, how many parts they have, and a call of the first and the last part.
CORE = """
#include "coniks_core.h"

extern uint32_t my_verify(const uint8_t *entry), my_alarm(size_t place), my_wait(size_t place);
extern uint32_t my_vrf(const uint8_t *name, size_t name_length, const uint8_t *proof, size_t length, coniks_bytes32 *index);
extern uint64_t my_time(void);
extern const uint8_t *name, *reply, *state;
extern size_t name_length, reply_length, state_length, auditors, faulty, place;
extern uint64_t epoch;
extern coniks_bytes32 link;

uint32_t example(coniks_core core);

uint32_t example(coniks_core core)
{
    coniks_found found = {0};
    coniks_why why = {0};
    coniks_report report;
    uint32_t status, verdicts_[16], *verdicts = verdicts_;
    size_t k;
    %s
    return status;
}
"""
GUARD = """
#include "coniks_guard.h"

extern uint32_t my_refusal(void);
extern void my_replace(const coniks_guard_record *record, const coniks_bytes145 *abandoned, size_t count);
extern void my_read(coniks_guard_record *record, coniks_bytes145 *abandoned, size_t *count);
extern void my_sign(const coniks_bytes145 *body, coniks_bytes64 *signature), my_return(const coniks_bytes64 *signature);

uint32_t example(coniks_guard_record record, coniks_bytes145 *abandoned, size_t room, size_t count, uint32_t may_begin,
                 coniks_bytes145 body);

uint32_t example(coniks_guard_record record, coniks_bytes145 *abandoned, size_t room, size_t count, uint32_t may_begin,
                 coniks_bytes145 body)
{
    coniks_bytes64 signature;
    uint32_t status;
    %s
    return status;
}
"""
AROUND = {
    "core": (CORE, 3, "coniks_core_lookup(", "coniks_core_state_read("),
    "guard": (GUARD, 1, "coniks_guard_ask(", "coniks_guard_sign("),
}


@pytest.mark.parametrize("name", HEADERS)
def test_example_compiles(tmp_path: Path, name: str) -> None:
    """Each part of the example is C, and takes what the calls take."""
    needs("a C compiler")
    head = HEADERS[name].split("*/")[0]
    around, count, first, last = AROUND[name]
    parts = re.findall(r"(?:^ \*     .*\n)+", head, re.M)
    assert len(parts) == count and first in parts[0] and last in parts[-1]
    source = tmp_path / "example.c"
    source.write_text(around % "\n".join("{" + re.sub(r"^ \*", "", it, flags=re.M) + "}" for it in parts))
    ran = run(tools.CC, "-std=c99", *WARNED, "-fsyntax-only", source)
    assert ran.returncode == 0, ran.stderr.decode()


def snake(name: str) -> str:
    return re.sub("(?<=[a-z])(?=[A-Z])", "_", name).lower()


@pytest.mark.parametrize("of", HEADERS)
def test_structs_in_python(tmp_path: Path, of: str) -> None:
    """Each struct of the header has its members in Python, in their places."""
    needs("a C compiler")
    binding = BINDINGS[of]
    structs = {f"coniks_{snake(name)}": it for name, it in vars(binding).items() if isinstance(it, type(ctypes.Structure))}
    structs = {name: it for name, it in structs.items() if it.__module__ == binding.__name__}
    assert sorted(structs) == sorted(re.findall(r"^} (coniks_\w+);", HEADERS[of], re.M))
    # `from` is a word of Python.
    renamed = {"first": "from", "last": "to"}
    lines, wanted = list[str](), list[int]()
    for name, it in structs.items():
        members = [member[0] for member in it._fields_]
        lines += [f"sizeof({name})", *(f"offsetof({name}, {renamed.get(member, member)})" for member in members)]
        wanted += [ctypes.sizeof(it), *(getattr(it, member).offset for member in members)]
    prints = "".join(f'    printf("%zu\\n", {it});\n' for it in lines)
    source, program = tmp_path / "places.c", tmp_path / "places"
    source.write_text(
        f'#include "coniks_{of}.h"\n#include <stddef.h>\n#include <stdio.h>\n\nint main(void)\n{{\n{prints}    return 0;\n}}\n'
    )
    ran = run(tools.CC, "-std=c99", *WARNED, "-o", program, source)
    assert ran.returncode == 0, ran.stderr.decode()
    found = [int(it) for it in run(program).stdout.split()]
    assert dict(zip(lines, found)) == dict(zip(lines, wanted))


def kind_of(argument: str) -> str:
    """The type of an argument in the header, as Python names it."""
    words = re.sub(r"\bconst\b|\w+$", "", argument).split()
    name = {"size_t": "c_ulong", "uint32_t": "c_uint", "uint64_t": "c_ulong", "uint8_t": "bytes"}.get(words[0], words[0])
    return name if words[1:] != ["*"] or name == "bytes" else f"LP_{name}"


def kind_in_python(kind: type) -> str:
    """The same of one in Python."""
    if kind in (ctypes.c_char_p, ctypes.c_void_p):
        return "bytes"
    name = kind.__name__.replace("LP__", "LP_")
    return re.sub("(?<=LP_)[A-Z].*", lambda it: f"coniks_{snake(it[0])}", name)


@pytest.mark.parametrize("of", HEADERS)
def test_calls_in_python(of: str) -> None:
    """Each call of the header is bound, with the arguments that it has."""
    found = re.findall(rf"^(?:uint32_t|size_t) (coniks_{of}_\w+)\(([^)]*)\);", HEADERS[of], re.M)
    wanted = {name: [kind_of(it) for it in arguments.split(",")] for name, arguments in found}
    assert {name: [kind_in_python(it) for it in arguments] for name, _, arguments in BINDINGS[of]._exports} == wanted


def test_misuses_in_python() -> None:
    """Each misuse of the core has a number."""
    misuses = re.findall(r"^    CONIKS_CORE_E_(\w+) = (1[34][0-9])\b", HEADERS["core"], re.M)
    assert {it.name: str(it.value) for it in _formats.Misuse} == dict(misuses)
