"""The worked examples of docs/FORMATS.md and docs/STORED.md."""

from __future__ import annotations

import re

from stand_ins import TOP


def page_of(section: str) -> str:
    """A section of one of the two pages."""
    pages = [it.read_text("utf-8") for it in (TOP / "docs/FORMATS.md", TOP / "docs/STORED.md")]
    page = next(it for it in pages if f"\n## {section}\n" in it)
    return page[page.index(f"\n## {section}\n") :].split("\n## ")[1]


def worked_example(section: str, number: int = 0) -> str:
    """A block of indented lines in a section, the first one by default."""
    blocks = re.findall(r"(?:^    .*\n)+", page_of(section), re.M)
    return re.sub("^    ", "", blocks[number], flags=re.M)
