"""The form of names, which a service and its clients share: a name is brought to it before the VRF and before a lookup."""

from __future__ import annotations

import unicodedata

from ._folding import FOLDED
from ._formats import MAX_NAME

__all__ = ["BadName", "canonical", "shown"]

LONGEST = MAX_NAME
# Control characters, lone surrogates, and code points that a later version of Unicode may give another form.
_REFUSED = {"Cc", "Cs", "Cn"}


class BadName(ValueError):
    """Text that is no name."""


def _folded(character: str) -> str:
    """A character without case, as Unicode folds it."""
    for first, last, folded in FOLDED:
        if first <= character <= last:
            return folded[:-1] + chr(ord(folded[-1]) + ord(character) - ord(first))
    return character.upper().lower()


def _canonical(text: str) -> str:
    if any(unicodedata.category(it) in _REFUSED for it in text):
        raise BadName("a name is Unicode without control characters, unassigned code points and lone surrogates")
    # Canonical caseless matching (Unicode, D145), and then NFC.
    return unicodedata.normalize("NFC", "".join(map(_folded, unicodedata.normalize("NFD", text))))


def canonical(text: str) -> str:
    """Returns the one form of a name: Unicode NFC, without case. It has 1 to 255 bytes of UTF-8. Raises `BadName` for text with a lone
    surrogate, a control character or an unassigned code point."""
    name = text.lower() if text.isascii() and text.isprintable() else _canonical(text)
    if not 1 <= len(name.encode()) <= LONGEST:
        raise BadName(f"a name has 1 to {LONGEST} bytes in its form NFC without case")
    return name


def shown(name: str) -> str:
    """Returns a name in quotation marks, for a terminal. What isn't seen or changes the direction is written out, and the code points
    of a name beyond ASCII follow it, since other letters can look the same."""
    seen = "".join(it if it.isprintable() and it not in '"\\' else f"\\u{{{ord(it):x}}}" for it in name)
    return f'"{seen}"' if name.isascii() else f'"{seen}" ({" ".join(f"U+{ord(it):04X}" for it in name)})'
