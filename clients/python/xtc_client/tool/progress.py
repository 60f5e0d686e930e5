"""A bar for long work, on standard error where that is a terminal."""

from __future__ import annotations

import sys
from typing import Iterator, Sequence, TypeVar

T = TypeVar("T")
WIDTH = 30


def progress(items: Sequence[T], what: str, is_shown: bool | None = None) -> Iterator[T]:
    """The items one after the other, with a bar of how many are done."""
    shown = sys.stderr.isatty() if is_shown is None else is_shown
    for done, item in enumerate(items):
        if shown:
            _draw(done, len(items), what)
        yield item
    if shown and items:
        _draw(len(items), len(items), what)
        sys.stderr.write("\n")


def _draw(done: int, count: int, what: str) -> None:
    full = WIDTH * done // count
    sys.stderr.write("\r%s [%s%s] %d of %d" % (what, "#" * full, "." * (WIDTH - full), done, count))
    sys.stderr.flush()
