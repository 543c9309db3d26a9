"""How both programs read their command line and reply to the lines of standard input."""

from __future__ import annotations

import json
import sys
from typing import Callable, Protocol, Sequence, Union, runtime_checkable

from members import Fault


@runtime_checkable
class Engine(Protocol):
    """What replies to a line, which has no newline. A member of bytes is the last one, and its text."""

    def answer(self, line: bytes) -> dict[str, object]:
        ...


class WholeInput(Protocol):
    """What reads all lines, and then prints one."""

    def take(self, line: bytes) -> None:
        """Takes a line, unless an earlier one was refused."""

    def end(self) -> dict[str, object]:
        ...


class Refused(Exception):
    """Arguments that are refused, with the reason."""


class Requested(Exception):
    """A text that the command line asks for; it is printed and nothing is run."""


def options_of(words: Sequence[str], names: Sequence[str], flags: Sequence[str] = ()) -> dict[str, str]:
    """The values of options, each as `--name value` or `--name=value`. That of a flag, which takes none, is empty."""
    values: dict[str, str] = {}
    rest = iter(words)
    for word in rest:
        name, equals, value = word.partition("=")
        if name not in (*names, *flags) or name in values or (name in flags and equals):
            raise Refused("bad words")
        if name in flags:
            values[name] = ""
            continue
        try:
            values[name] = value if equals else next(rest)
        except StopIteration:
            raise Refused("bad words")
    return values


def check_range(values: dict[str, str], name: str, least: int, most: int) -> None:
    value = values.get(name, str(least))
    if not value.isdecimal() or not least <= int(value) <= most:
        raise Refused("bad words")


def check_workers_and_depth(values: dict[str, str]) -> None:
    check_range(values, "--workers", 1, 64)
    check_range(values, "--depth", 0, 12)


def check_text(words: Sequence[str], reason: str) -> None:
    try:
        "".join(words).encode("utf-8")
    except UnicodeEncodeError:
        raise Refused(reason)


def printed(answer: dict[str, object]) -> bytes:
    """The line of a reply."""
    raw = {name: value for name, value in answer.items() if isinstance(value, bytes)}
    others = {name: value for name, value in answer.items() if name not in raw}
    text = json.dumps(others, ensure_ascii=False, separators=(",", ":"), sort_keys=True).encode("utf-8")
    for name, value in raw.items():
        text = b'%s,"%s":%s}' % (text[:-1], name.encode(), value)
    return text + b"\n"


def say(answer: dict[str, object]) -> None:
    sys.stdout.buffer.write(printed(answer))
    sys.stdout.buffer.flush()


def answer_lines(engine: Engine) -> bool:
    """Replies to each line of standard input at once. Returns whether all were accepted and showed the expected key."""
    all_well = True
    for line in sys.stdin.buffer:
        try:
            answer = engine.answer(line.removesuffix(b"\n"))
        except Fault as fault:
            answer = fault.answer
        say(answer)
        all_well = all_well and "fault" not in answer and answer.get("seen", "same") == "same"
    return all_well


def read_all(whole: WholeInput) -> bool:
    """Reads all lines of standard input, and replies at their end. Returns whether all were accepted."""
    for line in sys.stdin.buffer:
        whole.take(line.removesuffix(b"\n"))
    answer = whole.end()
    say(answer)
    return "refused" not in answer


def run(program: str, words: list[str], engine_of: Callable[[list[str]], Union[Engine, WholeInput]], not_text: str) -> int:
    """Runs the engine that the command line chooses over standard input. Returns the status.

    `not_text` is the error text for an argument that isn't UTF-8.
    """
    try:
        check_text(words, not_text)
        engine = engine_of(words)
    except Requested as requested:
        print(requested)
        return 0
    except Refused as refused:
        print(f"{program}: {refused}", file=sys.stderr)
        return 2
    is_well = answer_lines(engine) if isinstance(engine, Engine) else read_all(engine)
    return 0 if is_well else 1
