"""The errors that refusals become."""

from typing import Optional


class HotError(RuntimeError):
    """A call was refused, and changed nothing."""


class FullError(HotError, MemoryError):
    """The map has no room for a change, and may not grow."""

    number: Optional[int] = None
    """The number of the pair, from 0 on, if it was one of sorted=True."""


class LoadError(ValueError):
    """A pair of sorted=True was refused, and no map is made: its key isn't above the
    one before, or is too long."""

    number: int
    """The pair's number, from 0 on."""
