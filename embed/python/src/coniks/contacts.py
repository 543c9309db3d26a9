"""The keys of one's contacts and of one's own names: the command `coniks-client`.

    coniks-client begin --service https://keys.example.com --policy policy --auditor https://audit.example.org audit.example.org+.. ..
    coniks-client register alice 'age1..'          register a name of yours, and watch it from then on
    coniks-client lookup bob                       a contact's key
    coniks-client fingerprint alice                what you tell others of your key
    coniks-client verify bob 12345 67890 ..        whether it is the key whose fingerprint bob has told you
    coniks-client watch                            whether your names have your keys at each epoch
    coniks-client note alice                       take note of its alarms, which are reported no more then
    coniks-client export FILE                      and import FILE on another device, under a passphrase

Each command first takes and verifies all new entries, and compares the chain with a quorum of the auditors. A contact's key is that
of the latest epoch which they confirm. The key of a name is in a record that its owner signs (`coniks.vouching`). Status 0: all is
well; 1: a key is another one, or something convicts the directory; 2: a wrong command line; 3: something could not be verified now;
4: the name has no key.
"""

from __future__ import annotations

import argparse
import base64
import io
import os
import sys
from contextlib import closing, suppress
from dataclasses import dataclass
from pathlib import Path
from typing import Any, Callable, Optional, Sequence
from urllib.parse import urlsplit

from . import Body, Policy, __version__, _moving
from ._client_state import StateFile
from ._confirming import Agreement, Confirming, settle
from ._going_on import GoingOn, policy_in
from ._http import check_token
from ._messages import Reply
from ._own_names import OwnNames
from ._person import Person, bare, key_text
from ._telling import WELL, Telling, Unusable, Verdict, printable
from .names import BadName, canonical
from .notes import Auditor
from .trust import Trust
from .client import Found
from .vouching import MOST_KEY, Change, Value, fingerprint

__all__ = ["main"]

_COMMANDS = {
    "begin": "begin with a directory",
    "register": "register a name of yours with a key, or change its key, and watch it from then on",
    "keep": "take back the notice that a name of yours is reset",
    "close": "close a name of yours: it never has a key again",
    "reset": "take part in the reset of a name of yours whose secret key is lost",
    "adopt": "go on from a record that another device of yours has signed",
    "lookup": "tell a contact's key, and whether it is the one before",
    "fingerprint": "tell the fingerprint of the key of a name, which people compare",
    "verify": "tell whether a contact has the key whose fingerprint, or which, the contact has told you",
    "watch": "verify that your names have your keys at each epoch",
    "compare": "compare the chain with the heads of your auditors",
    "evidence": "print what convicts the directory",
    "note": "take note of the alarms of a name of yours, which are reported no more then",
    "succeed": "go on in the directory that goes on after this one",
    "trust": "tell the fingerprint of your auditors, and write their trust document",
    "set": "change the service, the token or the auditors, or watch a name no more",
    "export": "write the whole state to a file under a passphrase, for another device",
    "import": "make the state from a file that export wrote",
}
# The method of a command whose name is a word of Python.
_METHODS = {"import": "bring"}
_KINDS = {
    "entries": Verdict.FOUND_ENTRIES,
    "unvouched": Verdict.FOUND_UNVOUCHED,
    "changed": Verdict.FOUND_CHANGED,
    "successions": Verdict.FOUND_SUCCESSIONS,
    "void": Verdict.FOUND_VOID,
    "head": Verdict.FOUND_HEAD,
}
# The verdicts on the key of an accepted name, and what they are if no quorum confirms it.
_UNCONFIRMED = {
    Verdict.KEY: Verdict.KEY_UNCONFIRMED,
    Verdict.KEY_VOUCHED: Verdict.KEY_VOUCHED_UNCONFIRMED,
    Verdict.FINGERPRINT: Verdict.FINGERPRINT_UNCONFIRMED,
}
_NEVER = "never"
# The arguments of the commands, in the order in which their calls have them.
_ARGUMENTS = ("name", "key", "notice", "wanted", "file", "anew")


@dataclass(frozen=True)
class Wanted:
    """What an owner has told of a key: its fingerprint in digits, or the key itself."""

    digits: str
    key: Optional[bytes] = None

    def is_of(self, name: str, value: bytes) -> bool:
        """Whether a name's bytes are the wanted ones."""
        return bare(value) == self.key if self.key is not None else fingerprint(name, value).replace(" ", "") == self.digits


class Commands:
    """The commands, over what a run has. Those that ask the service begin with the new entries, and end with what the auditors confirm."""

    def __init__(self, person: Person):
        self._person, self._auditors, self._own = person, Confirming(person), OwnNames(person)
        self._going_on = GoingOn(person, self._own)

    def _follow(self) -> None:
        """Takes the new entries, of the directory that goes on if this one has ended."""
        self._going_on.run()
        self._person.follow()

    def _begun(self) -> Agreement:
        self._follow()
        agreement = self._auditors.agreed(self._own.clients)
        # A service that goes on after the end shows no succession, but auditors do.
        if agreement.verdict is Verdict.FEW and self._going_on.run(are_auditors_asked=True):
            self._person.follow()
            agreement = self._auditors.agreed(self._own.clients)
        return agreement

    def _ended(self, agreement: Agreement) -> None:
        """Tells what the auditors confirm, and drops the entries that all of them have."""
        self._person.tell(agreement.verdict, **agreement.values)
        settle(self._person.chain, agreement.heads, agreement.is_enough, self._own.clients)
        self._own.save()

    def compare(self) -> None:
        self._ended(self._begun())

    def begin(self) -> None:
        self.compare()
        self.trust()

    def trust(self, file: Optional[Path] = None) -> None:
        """Tells the fingerprint of the auditors, and writes their trust document."""
        person, trust = self._person, self._person.trust
        if not trust:
            return person.tell(Verdict.TRUST_UNWRITTEN if file else Verdict.TRUST_NONE)
        if file:
            file.write_bytes(bytes(trust))
        person.tell(Verdict.TRUST, fingerprint=trust.fingerprint)

    def succeed(self, is_anew: bool) -> None:
        self._going_on.run_once(is_anew)
        self.compare()

    def register(self, name: str, key: bytes, notice: Optional[int] = None) -> None:
        self._own_change(lambda: self._own.register(name, key, notice))

    def reset(self, name: str, key: bytes, notice: Optional[int] = None) -> None:
        self._own_change(lambda: self._own.reset(name, key, notice))

    def keep(self, name: str) -> None:
        self._own_change(lambda: self._own.keep_record(name))

    def close(self, name: str) -> None:
        self._own_change(lambda: self._own.close(name))

    def adopt(self, name: str) -> None:
        self._own_change(lambda: self._own.adopt(name))

    def _own_change(self, call: Callable[[], None]) -> None:
        """Makes a call that may send a record of an own name, and then watches."""
        self._follow()
        is_done = self._person.tried(call)
        agreement = self._begun()
        if is_done and self._own.names:
            self._own.watch(agreement)
        self._ended(agreement)

    def watch(self) -> None:
        agreement = self._begun()
        self._own.watch(agreement)
        self._ended(agreement)

    def note(self, name: str) -> None:
        self._own.note(name)

    def lookup(self, name: str, wanted: Optional[Wanted] = None) -> None:
        """Tells a contact's key. `wanted` is what the owner has told of it."""
        agreement = self._begun()
        self._person.tried(lambda: self._tell_key(name, wanted, agreement))
        self._ended(agreement)

    verify = lookup

    def fingerprint(self, name: str) -> None:
        agreement = self._begun()
        self._person.tried(lambda: self._tell_key(name, None, agreement, is_fingerprint=True))
        self._ended(agreement)

    def _found(self, name: str, agreement: Agreement) -> tuple[Found, bytes, Verdict]:
        """What the latest confirmed epoch shows of a name, and who confirms that. Of an own name the latest epoch counts."""
        person, seen = self._person, self._person.state["seen"].get(name)
        is_by_quorum = agreement.verdict is Verdict.CONFIRMED and name not in self._own.names
        # What was accepted is not taken from an earlier epoch than before.
        accepted = epoch_of(seen["reply"]) if seen and policy_in(seen["reply"]) == person.policy.digest else None
        epochs = [person.chain.confirmed, accepted] if is_by_quorum else []
        found, reply = person.look(name, max(filter(None, epochs), default=None))
        by = Verdict.FEW if is_by_quorum and not person.chain.is_relied(found) else agreement.verdict
        return found, reply, by

    def _tell_key(self, name: str, wanted: Optional[Wanted], agreement: Agreement, is_fingerprint: bool = False) -> None:
        """Tells the key of a name, or its fingerprint, and accepts it unless it takes the place of another one without the owner's word."""
        person, seen = self._person, self._person.state["seen"].get(name)
        found, reply, by = self._found(name, agreement)
        change, is_verified = person.judge(name, found.key, reply), wanted is not None or bool(seen and seen["verified"])
        verdict = self._judged(name, found.key, change, wanted)
        if verdict is Verdict.KEY_NOT_YOURS:
            self._own.keep(name, found.key, reply)
        if is_fingerprint and verdict in _UNCONFIRMED:
            verdict = Verdict.FINGERPRINT
        is_accepted, values = verdict in _UNCONFIRMED or verdict is Verdict.KEY_CLOSED, self._values(name, found)
        if is_accepted and by.status == WELL:
            person.accept(name, found.key or b"", reply, is_verified)
        elif is_accepted:
            verdict = _UNCONFIRMED.get(verdict, verdict)
        reported: dict[str, Any] = {"change": change and change.value, "by": by, "is_verified": is_verified}
        person.tell(verdict, **values, **reported)
        if is_accepted:
            self._tell_announced(name, Value.read(found.key))

    def _values(self, name: str, found: Found) -> dict[str, Any]:
        """What sentences about a key have of it, and of the one that was accepted before."""
        seen = self._person.state["seen"].get(name)
        before = seen and bytes.fromhex(seen["value"])
        key, earlier = (None if it is None else key_text(it) or None for it in (found.key, before))
        told = fingerprint(name, found.key) if found.key else ""
        notice = self._noticed(Value.read(before), Value.read(found.key))
        return {
            "name": name,
            "epoch": found.epoch,
            "epochs": [found.epoch],
            "key": key,
            "before": earlier,
            "fingerprint": told,
            "notice": notice,
        }

    def _noticed(self, before: Optional[Value], now: Optional[Value]) -> Optional[int]:
        """How many seconds the notice of a reset was, if the record that was reset is known."""
        period = self._person.policy.epoch_period
        if before is None or now is None or period is None or now.record.number != before.record.number + 1:
            return None
        return before.record.notice * period

    def _tell_announced(self, name: str, value: Optional[Value]) -> None:
        """Tells that a reset of a name is announced."""
        if value is None or value.notice is None:
            return
        effect = value.notice.effect
        verdict = Verdict.OWN_ANNOUNCED if name in self._own.names else Verdict.KEY_ANNOUNCED
        self._person.tell(verdict, name=name, effect=effect, time=self._person.time_of(effect), voucher=value.notice.voucher.hex())

    def _judged(self, name: str, value: Optional[bytes], change: Optional[Change], wanted: Optional[Wanted]) -> Verdict:
        """Returns the verdict on the key of a name. `change` is what it is to the key before, None if none was accepted."""
        own = self._own.names.get(name)
        if own and not own.is_resetting and not own.is_ours(value) and (value is not None or own.value):
            return Verdict.OWN_TWIN if own.is_twins(self._person.place(name), value) else Verdict.KEY_NOT_YOURS
        if value is None and change:
            return Verdict.KEY_GONE
        if value is None:
            return Verdict.KEY_ABSENT if wanted is None else Verdict.KEY_LACKING
        return verdict_on(name, value, change, wanted)

    def evidence(self) -> None:
        """Tells all that was kept, with what convicts the directory for anyone who has its policy."""
        tell, state = self._person.tell, self._person.state
        found = [(its["policy"], it) for its in [*state["before"], state] for it in its["found"]]
        for policy, it in found:
            tell(_KINDS[it["kind"]], policy=policy, **it)
            for part in [] if tell.is_json else it["evidence"]:
                tell.line(f"  {part}")
        if not found:
            tell(Verdict.FOUND_NOTHING)

    def export(self, given: argparse.Namespace) -> None:
        _moving.export(self._person, given.file, given.passphrase)

    def bring(self, given: argparse.Namespace) -> None:
        _moving.store(self._person, given.state)

    def set(self, given: argparse.Namespace) -> None:
        """Changes what `begin` has set. Nothing is asked of the service."""
        person, state = self._person, self._person.state
        auditors = [it for it in state["auditors"] if it[0] not in given.remove_auditor]
        if len(auditors) + len(given.remove_auditor) > len(state["auditors"]):
            raise Unusable(Verdict.AUDITOR_UNKNOWN, urls=", ".join(url for url, _ in state["auditors"]))
        service, token = given.service or state["service"], token_of(given.token) if given.token else state["token"]
        check_token(service, token)
        auditors, faulty = trusted(given, person.policy, auditors + given.auditor, state["faulty"])
        goes_on = goes_on_of(given, person.policy, state["goes_on"])
        is_alone = not auditors and (given.without_auditors or state["alone"])
        check_auditors(person.policy, auditors, faulty, is_alone)
        for name in given.unwatch:
            if name not in self._own.names:
                raise Unusable(Verdict.OWN_UNWATCHED, name=name)
            state["past"][name] = self._own.names.pop(name).members()
        state |= {"auditors": auditors, "faulty": faulty, "alone": is_alone, "service": service, "token": token, "goes_on": goes_on}
        self._own.save()
        person.tell(Verdict.SET, service=service, auditors=", ".join(url for url, _ in auditors) or "none", faulty=faulty)


def verdict_on(name: str, value: bytes, change: Optional[Change], wanted: Optional[Wanted]) -> Verdict:
    """Returns the verdict on bytes that a name has. `change` is what they are to those before, None if none were accepted."""
    if change is Change.UNVOUCHED:
        return Verdict.KEY_UNVOUCHED
    if wanted is not None and not wanted.is_of(name, value):
        return Verdict.KEY_OTHER
    if wanted is None and change in (Change.UNKNOWN, Change.RESET):
        return Verdict.KEY_UNKNOWN if change is Change.UNKNOWN else Verdict.KEY_RESET
    if not bare(value):
        return Verdict.KEY_CLOSED
    return Verdict.KEY_VOUCHED if change is Change.VOUCHED else Verdict.KEY


def epoch_of(reply: str) -> int:
    """The epoch of a reply in hexadecimal digits."""
    return Body.of_entry(Reply.read(bytes.fromhex(reply)).entry).epoch


def token_of(path: Optional[Path]) -> str:
    return path.read_text().strip() if path else ""


def trusted(given: argparse.Namespace, policy: Policy, named: list[list[str]], faulty: int) -> tuple[list[list[str]], int]:
    """The auditors with their URLs, and how many may lie: those of a trust document if one is given, else those that are named. An auditor
    of the document whose URL isn't named has its name as host."""
    faulty = faulty if given.faulty is None else given.faulty
    if given.trust is None:
        return named, faulty
    try:
        trust, urls = Trust.read(given.trust.read_bytes()), {key: url for url, key in named}
    except ValueError as error:
        raise Unusable(Verdict.UNUSABLE, reason=error) from error
    if trust.policy != policy.digest:
        raise Unusable(Verdict.TRUST_OF_OTHER_POLICY)
    if {key for _, key in given.auditor} - set(map(str, trust.auditors)):
        raise Unusable(Verdict.TRUST_LACKS)
    return [[urls.get(str(it), f"https://{it.name}"), str(it)] for it in trust.auditors], trust.faulty


def goes_on_of(given: argparse.Namespace, policy: Policy, before: bool) -> bool:
    """Whether the state goes on by a succession without a word of its user: as a trust document says, or the command line."""
    if given.trust is None:
        return before or given.go_on
    named = Trust.read(given.trust.read_bytes()).successor_key
    if named not in (None, policy.successor_key):
        raise Unusable(Verdict.TRUST_OF_OTHER_POLICY)
    return named is not None


def check_auditors(policy: Policy, auditors: Sequence[Sequence[str]], faulty: int, is_alone: bool) -> None:
    """Raises `Unusable` for auditors of whom no quorum can be formed."""
    try:
        if len({url_of(url) for url, _ in auditors}) < len(auditors):
            raise Unusable(Verdict.AUDITOR_TWICE)
        if len(auditors) == 1 or not (auditors or is_alone):
            raise Unusable(Verdict.AUDITORS_FEW)
        if auditors:
            Trust(policy.digest, tuple(Auditor.read(key) for _, key in auditors), faulty)
    except (ValueError, argparse.ArgumentTypeError) as error:
        raise Unusable(Verdict.UNUSABLE, reason=error) from error


def begun(file: StateFile, given: argparse.Namespace) -> dict[str, Any]:
    """The members of a state without entries. It is stored once the service has shown an entry."""
    if file.path.exists():
        raise Unusable(Verdict.STATE_THERE, path=file.path)
    try:
        policy, token = Policy.read(given.policy.read_bytes()), token_of(given.token)
    except ValueError as error:
        raise Unusable(Verdict.UNUSABLE, reason=error) from error
    check_token(given.service, token)
    auditors, faulty = trusted(given, policy, given.auditor, 0)
    check_auditors(policy, auditors, faulty, given.without_auditors)
    goes_on = goes_on_of(given, policy, False)
    members = {
        "service": given.service,
        "auditors": auditors,
        "faulty": faulty,
        "alone": given.without_auditors,
        "goes_on": goes_on,
    }
    return {"policy": bytes(policy).decode(), "chain": "", "own": {}, "seen": {}, "found": [], "token": token, **members}


def members(file: StateFile, given: argparse.Namespace) -> dict[str, Any]:
    """The members of the state that a command begins with."""
    if given.command == "begin":
        return begun(file, given)
    if given.command != "import":
        return file.read()
    if file.path.exists():
        raise Unusable(Verdict.STATE_THERE, path=file.path)
    return _moving.members(given.file, given.passphrase)


def name_of(text: str) -> str:
    """The canonical form of a name of the command line."""
    try:
        return canonical(text)
    except BadName as error:
        raise argparse.ArgumentTypeError(str(error)) from None


def key_of(text: str) -> bytes:
    """A key of the command line: text, or `base64:` and the base64 of bytes."""
    with suppress(ValueError):
        key = base64.b64decode(text[7:], validate=True) if text.startswith("base64:") else text.encode()
        if 1 <= len(key) <= MOST_KEY:
            return key
    raise argparse.ArgumentTypeError(f"a key is text in UTF-8, or base64: and bytes in base64, of 1 to {MOST_KEY} bytes")


def epochs_of(text: str) -> int:
    """For how many epochs a reset must be announced, by the command line."""
    if text == _NEVER:
        return 0
    if text.isascii() and text.isdigit() and 0 < int(text) < 1 << 32:
        return int(text)
    raise argparse.ArgumentTypeError("say never, or a number of epochs from 1 on")


def wanted_of(given: argparse.Namespace, parser: Parser) -> Wanted:
    """What `verify` compares: the words of a fingerprint, or a key."""
    digits = "".join("".join(given.fingerprint).split())
    if given.told is not None and not digits:
        return Wanted("", given.told)
    if given.told is None and len(digits) == 40 and digits.isascii() and digits.isdigit():
        return Wanted(digits)
    parser.error("give a fingerprint, which has 40 digits, or --key KEY")


def url_of(text: str) -> str:
    """A URL of the command line."""
    with suppress(ValueError):
        parts = urlsplit(text)
        is_whole = parts.scheme in ("http", "https") and parts.hostname and (parts.port is None or parts.port > 0)
        if is_whole and not parts.query and not parts.fragment:
            return text.rstrip("/")
    raise argparse.ArgumentTypeError("a URL begins with http:// or https://, and has a host")


class Parser(argparse.ArgumentParser):
    """A parser whose errors show no argument as it is."""

    def _print_message(self, message: str, file: Any = None) -> None:
        super()._print_message("\n".join(map(printable, message.split("\n"))), file)


def parsed(words: Optional[Sequence[str]]) -> argparse.Namespace:
    version: dict[str, Any] = {"action": "version", "version": f"coniks-client {__version__}", "help": "print the version"}
    shared, state = Parser(add_help=False), Path.home() / ".coniks-client"
    shared.add_argument("--state", type=Path, default=state, metavar="FILE", help="what is kept (default: ~/.coniks-client)")
    shared.add_argument("--json", action="store_true", help="print a JSON object on each line")
    shared.add_argument("--version", **version)
    parser = Parser(prog="coniks-client", description="The keys of your contacts and of your own names.")
    parser.add_argument("--version", **version)
    commands = parser.add_subparsers(dest="command", required=True, metavar="COMMAND")
    made = {name: commands.add_parser(name, parents=[shared], help=text, description=text) for name, text in _COMMANDS.items()}
    begin, change = made["begin"].add_argument, made["set"].add_argument
    pair: dict[str, Any] = {"nargs": 2, "action": "append", "default": [], "metavar": ("URL", "KEY")}
    begin("--service", required=True, type=url_of, metavar="URL", help="the directory's service")
    begin("--policy", required=True, type=Path, metavar="FILE", help="the policy document, not from the service itself")
    begin("--auditor", **pair, help="an auditor: name at least two")
    change("--service", type=url_of, metavar="URL", help="the directory's service")
    change("--add-auditor", **pair, dest="auditor", help="one auditor more")
    change("--remove-auditor", type=url_of, action="append", default=[], metavar="URL", help="an auditor less")
    change(
        "--unwatch", type=name_of, action="append", default=[], metavar="NAME", help="watch a name no more; its secret key stays"
    )
    for command in ("begin", "set"):
        made[command].add_argument("--without-auditors", action="store_true", help="rely on the directory alone")
        made[command].add_argument("--faulty", type=int, metavar="N", help="how many auditors may lie (at first: 0)")
        made[command].add_argument("--trust", type=Path, metavar="FILE", help="a trust document, which has auditors and --faulty")
        made[command].add_argument("--go-on", action="store_true", help="go on in a next directory without a word of yours")
        made[command].add_argument("--token", type=Path, metavar="FILE", help="the token by which the service lets you write")
    for name in ("register", "keep", "close", "reset", "adopt", "lookup", "fingerprint", "verify", "note"):
        made[name].add_argument("name", type=name_of, metavar="NAME", help="a name")
    for name in ("register", "reset"):
        made[name].add_argument("key", type=key_of, metavar="KEY", help="text, or base64: and bytes in base64")
        made[name].add_argument(
            "--reset",
            type=epochs_of,
            dest="notice",
            metavar="N",
            help="never, or for how many epochs a reset must be announced (at first: 7 days)",
        )
    made["verify"].add_argument("fingerprint", nargs="*", default=[], metavar="FINGERPRINT", help="40 digits, in groups or not")
    made["verify"].add_argument("--key", type=key_of, dest="told", metavar="KEY", help="the key in place of its fingerprint")
    made["succeed"].add_argument("--anew", action="store_true", help="also if its end is another one than you were shown")
    made["trust"].add_argument("file", type=Path, nargs="?", metavar="FILE", help="where the trust document is written")
    for command in ("export", "import"):
        made[command].add_argument("file", type=Path, metavar="FILE", help="the file for the other device")
        made[command].add_argument("--passphrase", type=Path, metavar="FILE", help="a file that has the passphrase")
    given = parser.parse_args(words)
    if given.command == "verify":
        given.wanted = wanted_of(given, made["verify"])
    if given.command in ("begin", "set") and given.trust and (given.faulty is not None or given.without_auditors):
        parser.error("a trust document has the auditors, and how many of them may lie")
    if given.command == "begin" and not given.trust and (len(given.auditor) == 1 or not (given.auditor or given.without_auditors)):
        parser.error("name at least two auditors by --auditor, or give --without-auditors: then nobody notices another chain")
    return given


def run(given: argparse.Namespace, tell: Telling) -> None:
    """Runs a command once."""
    try:
        with closing(StateFile(given.state)) as file:
            person = Person(file, members(file, given), tell)
            call: Callable[..., None] = getattr(Commands(person), _METHODS.get(given.command, given.command))
            parts = [vars(given)[it] for it in _ARGUMENTS if it in given]
            words = [given] if given.command in ("set", "export", "import") else parts
            person.tried(lambda: call(*words))
            if person.state["found"] and given.command != "evidence":
                tell(Verdict.FOUND)
    except Unusable as error:
        tell(error.verdict, **error.values)
    except OSError as error:
        tell(Verdict.UNUSABLE, reason=error)


def main(words: Optional[Sequence[str]] = None) -> int:
    """Runs the command."""
    if isinstance(sys.stdout, io.TextIOWrapper):
        sys.stdout.reconfigure(errors="backslashreplace")
    given = parsed(words)
    tell = Telling(given.json)
    try:
        run(given, tell)
    except BrokenPipeError:
        os.dup2(os.open(os.devnull, os.O_WRONLY), sys.stdout.fileno())
        return Verdict.UNREAD.status
    except KeyboardInterrupt:
        return Verdict.INTERRUPTED.status
    except Exception as error:
        tell(Verdict.PROGRAM, kind=type(error).__name__, reason=error)
    return tell.status


if __name__ == "__main__":
    sys.exit(main())
