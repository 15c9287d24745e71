"""What a fork does to maps: a thread may be in a call of one, and in the child that
thread is gone. So there the maps of a parent with threads are refused."""

import os
import sys

from . import _hot

_had_threads = False


def _before() -> None:
    global _had_threads
    _had_threads = len(sys._current_frames()) > 1


def _after_in_child() -> None:
    if _had_threads:
        _hot.forked()


def watch() -> None:
    """Looks at each fork from now on."""
    os.register_at_fork(before=_before, after_in_child=_after_in_child)
