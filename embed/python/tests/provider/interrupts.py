"""Interrupts a call at chosen bytecodes of the package."""

from __future__ import annotations

import sys
from concurrent.futures import ThreadPoolExecutor
from types import FrameType
from typing import Any, Callable, Optional

from stand_ins import PACKAGE
from coniks.provider import LogFailed


class Interrupt(BaseException):
    """Ends a call as Ctrl-C does."""


class Injected:
    """Raises an exception at some bytecodes of the package: the first number counts from the call on, the second from the first
    call or return after that exception."""

    def __init__(self, *numbers: int) -> None:
        self._left, self._count, self.raised = list(numbers), 0, 0

    def __enter__(self) -> Injected:
        # A generator that is closed by an exception can be interrupted too, where nobody sees it.
        sys.unraisablehook = lambda _: None
        sys.settrace(self._traced)
        if len(self._left) > 1:
            sys.setprofile(self._profiled)
        return self

    def __exit__(self, *_: object) -> None:
        sys.setprofile(None)
        sys.settrace(None)
        sys.unraisablehook = sys.__unraisablehook__

    def _traced(self, frame: FrameType, event: str, _: object) -> Any:
        if not frame.f_code.co_filename.startswith(PACKAGE):
            return None
        frame.f_trace_opcodes = True
        if event == "opcode":
            self._count += 1
            if self._left and self._count == self._left[0]:
                del self._left[0]
                self.raised, self._count = self.raised + 1, 0
                raise Interrupt()
        return self._traced

    def _profiled(self, frame: Optional[FrameType], event: str, _: object) -> None:
        """Python stops tracing after an exception of the tracer: this begins again, in the frames that are left."""
        if self.raised == 1 and sys.gettrace() is None:
            while frame:
                if frame.f_code.co_filename.startswith(PACKAGE):
                    frame.f_trace, frame.f_trace_opcodes = self._traced, True
                frame = frame.f_back
            sys.settrace(self._traced)


def interrupted(call: Callable[[], object], *numbers: int) -> tuple[int, bool]:
    """Makes a call that is interrupted at these bytecodes. Returns how often it was, and whether the call returned."""
    has_returned = False
    with Injected(*numbers) as injected:
        try:
            call()
            has_returned = True
        except (Interrupt, LogFailed):
            pass
    return injected.raised, has_returned


def interrupted_apart(call: Callable[[], object], *numbers: int) -> int:
    """Makes a call that is interrupted at these bytecodes, and returns how often it was. It has a thread of its own: a real
    signal comes at fewer bytecodes, and some of the others would leave an exception behind in the thread."""
    with ThreadPoolExecutor(1) as pool:
        return pool.submit(interrupted, call, *numbers).result()[0]
