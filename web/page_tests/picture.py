"""The colours in a picture of a part of the page, which is read as PNG (ISO/IEC 15948): 8 bits of RGB or RGBA, not interlaced."""

from __future__ import annotations

import zlib
from collections import Counter
from typing import Iterator

from browser import Browser, place

Colour = tuple[int, int, int]
SIGNATURE = b"\x89PNG\r\n\x1a\n"


def chunks(png: bytes) -> Iterator[tuple[bytes, bytes]]:
    """The chunks of a picture, each with its type."""
    if not png.startswith(SIGNATURE):
        raise ValueError("this is no PNG")
    at = len(SIGNATURE)
    while at < len(png):
        size = int.from_bytes(png[at : at + 4], "big")
        yield png[at + 4 : at + 8], png[at + 8 : at + 8 + size]
        at += size + 12


def paeth(a: int, b: int, c: int) -> int:
    """The predictor of filter 4."""
    pa, pb, pc = abs(b - c), abs(a - c), abs(a + b - 2 * c)
    return a if pa <= pb and pa <= pc else b if pb <= pc else c


def rows(data: bytes, width: int, channels: int) -> Iterator[bytearray]:
    """The rows of the pixels, with their filters undone."""
    size, before = width * channels, bytearray(width * channels)
    for start in range(0, len(data), size + 1):
        kind, row = data[start], bytearray(data[start + 1 : start + 1 + size])
        for i in range(size if kind else 0):
            a, b, c = row[i - channels] if i >= channels else 0, before[i], before[i - channels] if i >= channels else 0
            row[i] = (row[i] + [0, a, b, (a + b) // 2, paeth(a, b, c)][kind]) % 256
        yield row
        before = row


def pixels(png: bytes) -> Counter[Colour]:
    """How often each colour occurs."""
    parts = list(chunks(png))
    header = next(data for kind, data in parts if kind == b"IHDR")
    width, depth, colours = int.from_bytes(header[:4], "big"), header[8], header[9]
    if depth != 8 or colours not in (2, 6):
        raise ValueError("this picture has another form")
    channels = 3 if colours == 2 else 4
    data = zlib.decompress(b"".join(data for kind, data in parts if kind == b"IDAT"))
    found: Counter[Colour] = Counter()
    for row in rows(data, width, channels):
        found.update(zip(row[0::channels], row[1::channels], row[2::channels]))
    return found


def seen(browser: Browser, selector: str) -> Counter[Colour]:
    """The colours in the picture of the first such element."""
    at = place(browser, selector)
    assert at, selector
    return pixels(browser.picture(clip={**at, "scale": 1}))


def is_green(colour: Colour) -> bool:
    """Whether a reader would call a colour green: it has clearly more green than red and than blue."""
    red, green, blue = colour
    return green > red + 30 and green > blue + 15


def shows_green(browser: Browser, selector: str) -> bool:
    """Whether some of an element is green."""
    return sum(many for colour, many in seen(browser, selector).items() if is_green(colour)) > 8
