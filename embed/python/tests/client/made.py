"""Clients of the directory that client_attacks.py describes, and what they refuse."""

from __future__ import annotations

from typing import Any, Callable, Optional

from case_runner import Clock
from client_attacks import WORLD
from client_world import POLICY, SIGNING_KEY, VRF_KEY, hour
import coniks
from coniks.client import Client, Refusal


THREE = WORLD.entries(1, 2, 3)
DIRECTORY = coniks.Policy.read(POLICY.encode())


def made(state: Optional[bytes] = None, now: int = hour(3), fed: bool = True, **more: Any) -> Client:
    """A client at a time, which is fed the first three entries."""
    clock = Clock()
    clock.now = now
    client = Client(SIGNING_KEY, VRF_KEY, DIRECTORY, state, clock=clock, **more)
    if fed and state is None:
        client.feed(THREE)
    return client


def raised(call: Callable[[], object]) -> object:
    """The cause of a refusal, else the class of an exception, or None."""
    try:
        call()
    except Refusal as error:
        return error.cause
    except Exception as error:
        return type(error)
    return None
