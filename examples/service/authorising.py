"""Who may register a name, change its key, and see its old keys. The service calls one function for it: replace `Tokens` by yours."""

from __future__ import annotations

import hashlib
import logging
import re
import threading
from dataclasses import dataclass
from pathlib import Path
from typing import Callable, Collection, Mapping, Optional

from coniks import Policy
from coniks.provider import Operation
from coniks.vouching import Place, Value, is_allowed

LOG = logging.getLogger("service")
# The most characters of a token.
_LONGEST_TOKEN = 1024


@dataclass(frozen=True)
class Request:
    """What someone asks for: an operation, with the name's present key, None if it has none; or to see epochs of a name that are
    not recent, without an operation. `headers` are the request's. `epoch` is the one that has the operation at the earliest, and
    `is_operators` whether it comes from `serve reset` and not from a request."""

    name: str
    operation: Optional[Operation]
    present: Optional[bytes]
    headers: Mapping[str, str]
    epoch: int = 0
    is_operators: bool = False


# Returns whether that may be done. It is called in a thread, so it may wait.
Authorise = Callable[[Request], bool]


class Vouched:
    """Refuses what may not follow a name's present key, whoever asks, as a policy with `records vouched` promises (`coniks.vouching`): each
    key that isn't a record of the name's owner, or after a notice of the one whom it announces. Only the operator may announce a reset,
    and take that back, and nothing else. Another function decides the rest. Raises ValueError for a policy without that line."""

    def __init__(self, policy: Policy, other: Authorise):
        if not policy.records_vouched:
            raise ValueError("the policy does not promise records of owners, so nothing may ask for them: leave Vouched out")
        self.policy, self._other = policy, other

    def __call__(self, request: Request) -> bool:
        operation, place = request.operation, Place.of(self.policy, request.name)
        if operation is None:
            return self._other(request)
        if not is_allowed(place, request.present, operation.key, request.epoch):
            return False
        return is_notice(request.present, operation.key) is request.is_operators and (request.is_operators or self._other(request))


def is_notice(present: Optional[bytes], key: bytes) -> bool:
    """Whether bytes in the place of a name's present ones announce a reset, or take that back: their record is the present one."""
    before, after = Value.read(present), Value.read(key)
    return before is not None and after is not None and after.record == before.record


def authoriser(policy: Policy, other: Authorise) -> Authorise:
    """Returns the function that a service with a policy calls: records of owners are asked for exactly if the policy promises them."""
    if policy.records_vouched:
        return Vouched(policy, other)
    return other


def check_promise(policy: Policy, authorise: Authorise) -> None:
    """Checks that a service keeps what its policy promises of records. Raises ValueError."""
    if policy.records_vouched and not (isinstance(authorise, Vouched) and authorise.policy == policy):
        raise ValueError(
            "the policy says `records vouched`, and this service would take keys that their owners did not sign, which convict it: "
            "pass what authorises to `authoriser`"
        )


class Tokens:
    """Lets each bearer token (RFC 6750) do what is asked of one name, or of all names. The file has a line for each token: the
    SHA-256 of the token in hexadecimal digits, a space, and the name, or `*`. So it has no token. Without a file nobody writes.

    The file is read when it changes. What is then no such file is logged, and the tokens stay as they were. One that is removed leaves
    no token. Raises ValueError and OSError for a file that is none at the start.
    """

    def __init__(self, path: Optional[Path]):
        self._path, self._reading = path, threading.Lock()
        self._stamp: Optional[tuple[int, ...]] = None
        # The names that each token's digest is for.
        self._names: Mapping[bytes, Collection[str]] = {}
        if path is not None:
            self._stamp, self._names = _stamp_of(path), names_in(path.read_text("utf-8"))

    def __call__(self, request: Request) -> bool:
        scheme, _, token = request.headers.get("Authorization", "").partition(" ")
        if scheme.lower() != "bearer" or not 0 < len(token) <= _LONGEST_TOKEN:
            return False
        names = self._current().get(hashlib.sha256(token.encode("utf-8", "surrogateescape")).digest(), ())
        return "*" in names or request.name in names

    def _current(self) -> Mapping[bytes, Collection[str]]:
        """The tokens that the file has now."""
        with self._reading:
            if self._path is not None and (stamp := _stamp_of(self._path)) != self._stamp:
                self._stamp = stamp
                try:
                    self._names = names_in(self._path.read_text("utf-8")) if stamp else {}
                except (OSError, ValueError) as error:
                    LOG.error("tokens", extra={"members": {"error": f"{type(error).__name__}: {error}"}})
            return self._names


def _stamp_of(path: Path) -> Optional[tuple[int, ...]]:
    """What tells whether a file has changed, None if there is none."""
    try:
        found = path.stat()
    except FileNotFoundError:
        return None
    return found.st_dev, found.st_ino, found.st_size, found.st_mtime_ns


def names_in(text: str) -> dict[bytes, set[str]]:
    """The names that each digest of a file is for. Raises ValueError for a line that is none, whose text it doesn't show."""
    found = dict[bytes, set[str]]()
    for number, line in enumerate(text.splitlines(), 1):
        digest, _, name = line.partition(" ")
        if not re.fullmatch("[0-9a-f]{64}", digest) or not name:
            raise ValueError(f"line {number} of the tokens is not a SHA-256 in hexadecimal digits, a space, and a name or *")
        found.setdefault(bytes.fromhex(digest), set()).add(name)
    return found
