"""What may follow what, from docs/FORMATS.md, over records without bytes, in a small world: all that a name can show after what it shows
at an epoch. It shares no code with `coniks.vouching` and `cases/second`."""

from __future__ import annotations

from dataclasses import dataclass
from itertools import product
from typing import Iterator, NamedTuple, Optional, Sequence

OWNER, FINDER, THIRD = "owner", "finder", "third"
VOUCHERS = (OWNER, FINDER, THIRD)


class Shown(NamedTuple):
    """What a name shows: the number of its record, the voucher, for how many epochs a reset is announced, the effect, whether it has a key,
    and voucher and effect of a notice."""

    number: int
    voucher: str
    notice: int
    effect: int
    has_key: bool
    asked: Optional[tuple[str, int]] = None


@dataclass(frozen=True)
class Small:
    """A small world: for how many epochs resets may be announced, whether there is a clock, and the last effect."""

    notices: Sequence[int]
    has_clock: bool
    last: int

    def start(self) -> Iterator[Shown]:
        """What a name may show first, also what no honest service shows."""
        asked = [None, *product(VOUCHERS, range(1, self.last + 1))]
        for notice, has_key, it in product([0, *self.notices], (True, False), asked):
            yield Shown(1, OWNER, notice, 0, has_key, it)

    def all(self, most: int) -> Iterator[Shown]:
        """All that a name could show with a record of a number up to `most`. With a notice, the record has no other oddity."""
        for number, voucher, effect, has_key in product(range(2, most + 1), VOUCHERS, range(self.last + 1), (True, False)):
            plain = Shown(number, voucher, self.notices[-1], effect, has_key)
            yield plain
            yield replace_asked(plain, None, 0)
            yield from (replace_asked(plain, it, plain.notice) for it in product(VOUCHERS, range(1, self.last + 1)))
            yield replace_asked(plain, (THIRD if voucher == FINDER else FINDER, self.last), 0)

    def is_resettable(self, it: Shown, voucher: str) -> bool:
        return it.notice > 0 and self.has_clock and voucher != it.voucher

    def after(self, it: Shown, epoch: int) -> Iterator[tuple[bool, Shown]]:
        """By one step at an epoch, with whether it is a reset."""
        bare = it._replace(asked=None)
        yield False, bare
        for voucher, effect in product(VOUCHERS, range(epoch + it.notice, self.last + 1)):
            if self.is_resettable(it, voucher):
                yield False, bare._replace(asked=(voucher, effect))
        for notice, has_key in product([0, *self.notices], (True, False)):
            if it.has_key or not has_key:
                yield False, Shown(it.number + 1, it.voucher, notice, 0, has_key)
            if it.asked and it.asked[1] <= epoch and self.is_resettable(it, it.asked[0]):
                yield True, Shown(it.number + 1, it.asked[0], notice, it.asked[1], has_key)

    def reached(self, start: Shown, epochs: Sequence[int]) -> dict[Shown, bool]:
        """All that is shown after the last epoch, with whether a reset must be before it."""
        found = {start: False}
        for epoch in epochs:
            later = dict(found)
            for it, was_reset in found.items():
                for is_reset, following in self.after(it, epoch):
                    later[following] = later.get(following, True) and (was_reset or is_reset)
            found = later
        return found


def replace_asked(it: Shown, asked: Optional[tuple[str, int]], notice: int) -> Shown:
    return it._replace(asked=asked, notice=notice)


def result(start: Shown, later: Shown, reached: dict[Shown, bool]) -> str:
    """What later bytes are, by all that can be reached."""
    if later not in reached:
        return "unvouched"
    if later.number == start.number:
        return "same"
    return "reset" if reached[later] else "vouched"
