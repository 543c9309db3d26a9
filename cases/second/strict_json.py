"""JSON (RFC 8259) as the lines have it: UTF-8, nested at most 127 deep, the last of members of one name.

An object is read as a dict, an array as a list, a text as a str and a number as a Number, which keeps how it is written.
"""

from __future__ import annotations

import re
from typing import Union

DEEPEST = 127
SPACE = re.compile(r"[ \t\n\r]*")
NUMBER = re.compile(r"-?(0|[1-9][0-9]*)(\.[0-9]+)?([eE][-+]?[0-9]+)?")
PLAIN = re.compile(r'[^"\\\x00-\x1f]*')
ESCAPE = re.compile(r'\\(?:(["\\/bfnrt])|u([0-9A-Fa-f]{4}))')
SHORT = {'"': '"', "\\": "\\", "/": "/", "b": "\b", "f": "\f", "n": "\n", "r": "\r", "t": "\t"}
WORDS = {"true": True, "false": False, "null": None}


class NotJson(Exception):
    pass


class Number:
    def __init__(self, written: str) -> None:
        self.written = written


Json = Union[None, bool, str, Number, "list[Json]", "dict[str, Json]"]


class Reader:
    def __init__(self, text: str) -> None:
        self.text = text
        self.at = 0

    def take(self, pattern: re.Pattern[str]) -> re.Match[str]:
        found = pattern.match(self.text, self.at)
        if found is None:
            raise NotJson
        self.at = found.end()
        return found

    def has(self, mark: str) -> bool:
        """Whether the mark comes next, after white space; if so it is passed."""
        self.take(SPACE)
        if not self.text.startswith(mark, self.at):
            return False
        self.at += len(mark)
        return True

    def must_have(self, mark: str) -> None:
        if not self.has(mark):
            raise NotJson

    def whole(self) -> Json:
        value = self.value(0)
        self.take(SPACE)
        if self.at != len(self.text):
            raise NotJson
        return value

    def value(self, depth: int) -> Json:
        if self.has("{"):
            return self.object(depth + 1)
        if self.has("["):
            return self.array(depth + 1)
        if self.has('"'):
            return self.rest_of_text()
        for word, value in WORDS.items():
            if self.has(word):
                return value
        return self.number()

    def object(self, depth: int) -> dict[str, Json]:
        if depth > DEEPEST:
            raise NotJson
        members: dict[str, Json] = {}
        if self.has("}"):
            return members
        while True:
            self.must_have('"')
            name = self.rest_of_text()
            self.must_have(":")
            members[name] = self.value(depth)
            if self.has("}"):
                return members
            self.must_have(",")

    def array(self, depth: int) -> list[Json]:
        if depth > DEEPEST:
            raise NotJson
        elements: list[Json] = []
        if self.has("]"):
            return elements
        while True:
            elements.append(self.value(depth))
            if self.has("]"):
                return elements
            self.must_have(",")

    def number(self) -> Number:
        written = self.take(NUMBER).group()
        if float(written) in (float("inf"), float("-inf")):
            raise NotJson
        return Number(written)

    def rest_of_text(self) -> str:
        """A text after its first quotation mark. Halves of a pair of surrogates are joined, and a half alone is none."""
        pieces = []
        while True:
            pieces.append(self.take(PLAIN).group())
            if self.text.startswith('"', self.at):
                self.at += 1
                return "".join(pieces)
            pieces.append(self.escape())

    def escape(self) -> str:
        unit = self.code_unit()
        if 0xDC00 <= unit <= 0xDFFF:
            raise NotJson
        if 0xD800 <= unit <= 0xDBFF:
            second = self.code_unit()
            if not 0xDC00 <= second <= 0xDFFF:
                raise NotJson
            unit = 0x10000 + (unit - 0xD800) * 0x400 + (second - 0xDC00)
        return chr(unit)

    def code_unit(self) -> int:
        short, digits = self.take(ESCAPE).groups()
        return ord(SHORT[short]) if short else int(digits, 16)


def object_of(line: bytes) -> dict[str, Json]:
    """The object that the bytes of a line hold."""
    try:
        value = Reader(line.decode("utf-8")).whole()
    except UnicodeDecodeError:
        raise NotJson
    if not isinstance(value, dict):
        raise NotJson
    return value
