"""Tests how `compare` reads the rows of a table, and that `second/row` prints such a row."""

from __future__ import annotations

import shutil
import subprocess
from pathlib import Path

import case_rows
import pytest

CASES = Path(__file__).resolve().parents[1]
ROW = CASES / "second/row"

# Inputs that a row describes by lines, or by parts: none, no last newline, bytes that are not UTF-8, other ends of lines.
GIVEN = [b"", b"\n", b'{}\n\n"\\"\n', b"{}", b"\xff", b"a\xff\xfe\xc3b\n\xc3\xa9\n", b"a\xc3", b"\r\n\x00\x7f\xe2\x80\xa8\n"]


@pytest.mark.parametrize("given", GIVEN)
def test_printed_row(given: bytes) -> None:
    """A printed row has the bytes that its program was given, and those that it printed."""
    ran = subprocess.run([ROW, "check", "new", "check"], input=given, capture_output=True, check=True)
    case = case_rows.case_of("check", ran.stdout, {})
    assert ran.stdout.isascii() and case.given() == given and case.words() == [b"check"]
    again = subprocess.run([CASES / "second/keydir", "check"], input=given, capture_output=True)
    assert (case.read("out"), case.status(), case.has("err")) == (again.stdout, again.returncode, False)


def test_printed_bytes() -> None:
    """The input and the output of a case are printed to the byte."""
    case = case_rows.chosen(["check/byte-ff"])[0][0]
    for option, wanted in [("--in", case.given()), ("--out", case.read("out"))]:
        assert subprocess.run([ROW, option, case.name], stdout=subprocess.PIPE, check=True).stdout == wanted
    assert subprocess.run([ROW, "--in", "check/no-such-case"], capture_output=True).returncode == 2


@pytest.mark.parametrize(
    ("part", "wanted"),
    [
        ("a\u00e9", b"a\xc3\xa9"),
        (["a", {"hex": "ff00"}, []], b"a\xff\x00"),
        ({"repeat": ["a", {"hex": "fe"}], "times": 3}, b"a\xfea\xfea\xfe"),
        ({"count": ["n", {"number": 10}, ","], "from": 9, "to": 11}, b"n9,n10,n11,"),
        ({"count": {"repeat": {"number": 16}, "times": 2}, "from": 8, "to": 16, "step": 7}, b"88ff"),
        ({"sha256": "abc"}, b"ba7816bf8f01cfea414140de5dae2223b00361a396177a9cb410ff61f20015ad"),
        ({"count": {"sha256": ["ab", {"number": 16}]}, "from": 12, "to": 12}, case_rows.made({"sha256": "abc"})),
    ],
)
def test_parts(part: object, wanted: bytes) -> None:
    assert case_rows.made(part) == wanted


GOOD = '{"name":"good","words":["check"],"in":[],"out":[],"status":0}'
WRONG = [
    (GOOD, "its name occurs twice"),
    ("[]", "no object with a name"),
    ('{"words":[],"in":[],"out":[],"status":0}', "no object with a name"),
    ("{", "Expecting"),
    ('{"name":"b","words":[],"in":[],"out":[],"status":0,"status":1}', "a member occurs twice"),
    ('{"name":"b","words":[],"in":[],"out":[],"status":0,"turn":true}', "no member of a case: turn"),
    ('{"name":"b","words":[],"in":"{}","out":[],"status":0}', "a wrong type of in"),
    ('{"name":"b","in":[],"out":[],"status":0}', "no words"),
    ('{"name":"b","words":[],"in":[],"out":[]}', "no status"),
    ('{"name":"b","words":[],"out":[],"status":0}', "not one of in and make"),
    ('{"name":"b","words":[],"in":[],"make":"","out":[],"status":0}', "not one of in and make"),
    ('{"name":"b","words":[],"in":[],"status":0}', "not one of out and holds"),
    ('{"name":"b","as":"c"}', "no earlier row c"),
]


@pytest.mark.parametrize(("row", "fault"), WRONG)
def test_wrong_rows(tmp_path: Path, row: str, fault: str) -> None:
    """A row that is no case is reported, beside those that are."""
    table = tmp_path / "check.jsonl"
    table.write_text(f'{GOOD}\n{{"name":"same","as":"good"}}\n{row}\n')
    cases, wrong = case_rows.cases_of(table)
    assert [*cases] == ["check/good", "check/same"]
    assert len(wrong) == 1 and wrong[0].startswith("check.jsonl, row 3: ") and fault in wrong[0]


@pytest.mark.parametrize(
    ("rows", "reported"),
    [
        (f"{GOOD}\n[]\n", "check.jsonl, row 2: no object with a name\n1 passed, 1 failed\n"),
        ("", "check.jsonl: no case\n0 passed, 1 failed\n"),
    ],
)
def test_wrong_tables(tmp_path: Path, rows: str, reported: str) -> None:
    """`compare` fails on a row that is no case, and on a table without one."""
    for name in ["compare", "case_rows.py", "limited.py"]:
        shutil.copy(CASES / name, tmp_path)
    (tmp_path / "check.jsonl").write_text(rows)
    ran = subprocess.run([tmp_path / "compare", CASES / "second/keydir", "check"], capture_output=True, text=True)
    assert (ran.stdout, ran.returncode) == (reported, 1)
