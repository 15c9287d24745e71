"""No work on a large map keeps the server's main thread from its other clients for more than 5 ms.

ORDERED_MAP_PRELOAD is what watches that thread, if ORDERED_MAP_WATCHED is 1. With ORDERED_MAP_LONG=1 in the environment the maps are large.
"""
import contextlib
import math
import mmap
import os
import struct
import tempfile
import time
import unittest
from collections.abc import Callable, Iterable, Iterator
from pathlib import Path

from plain import UNDER_WAY, Plain, packed
from servers import Server

IS_WATCHED = os.environ.get("ORDERED_MAP_WATCHED") == "1"
IS_LONG = os.environ.get("ORDERED_MAP_LONG") == "1"
COUNT = 1_000_000 if IS_LONG else 60_000
# Milliseconds.
MOST = 5


def field(at: int) -> bytes:
    return b"f%07d" % (at * 7919 % COUNT)


def text(at: int) -> bytes:
    return b"%d" % at if at % 2 == 0 else b"a value of more than seven bytes %d" % at


def pairs(count: int = 1) -> "Iterable[bytes]":
    """Commands that fill a map, with so many pairs each."""
    for begin in range(0, COUNT, count):
        yield packed("OM.SET", "m", *[word for at in range(begin, begin + count) for word in (field(at), text(at))])


def fields(name: str, count: int) -> "Iterable[bytes]":
    """Commands with so many fields each."""
    for begin in range(0, COUNT, count):
        yield packed(name, "m", *[field(at) for at in range(begin, begin + count)])


# What is done with a full map, one after another: commands of few words, and what is read or goes by them.
TAKES: "list[tuple[object, ...]]" = [
    ("OM.RANGE", "m", "-", "+", "WITHVALUES"),
    ("OM.RANGE", "m", "-", "+", "REV"),
    ("OM.RANGE", "m", "-", "+", "LIMIT", COUNT * 9 // 10, 5),
    ("OM.PREFIX", "m", "f"),
    ("OM.COUNT", "m", "-", "+"),
    ("OM.POPMIN", "m", COUNT // 10),
    ("OM.POPMAX", "m", COUNT // 10),
    ("OM.DELRANGE", "m", "(a", "+", "LIMIT", COUNT // 10),
    ("OM.DELRANGE", "m", "-", b"(f%07d" % (COUNT * 8 // 10)),
]
# What is done with a map of short values, and a few of 1 MB behind them.
LONG = [b"x%02d" % at for at in range(24)]
LONG_TAKES: "list[tuple[object, ...]]" = [
    ("OM.RANGE", "l", "[x", "+", "WITHVALUES"),
    ("OM.RANGE", "l", "-", "+", "REV", "LIMIT", 0, 900, "WITHVALUES"),
    ("OM.MGET", "l", *LONG),
    ("OM.POPMAX", "l", 8),
    ("OM.DELRANGE", "l", "[x", "+", "LIMIT", 8),
    ("OM.DEL", "l", *LONG),
]
ENDS = [("UNLINK", "m"), ("DEL", "m"), ("SET", "m", "text"), ("FLUSHALL", "ASYNC"), ("FLUSHALL", "SYNC"), ("OM.DELRANGE", "m", "-", "+")]


@unittest.skipUnless(IS_WATCHED, "nothing watches the main thread")
class Stalls(unittest.TestCase):
    def setUp(self) -> None:
        self.folder = tempfile.TemporaryDirectory()
        figures = Path(self.folder.name) / "stalls"
        figures.write_bytes(bytes(16))
        with open(figures, "r+b") as file:
            self.figures = mmap.mmap(file.fileno(), 16)
        self.server = Server(ORDERED_MAP_STALLS=str(figures))
        self.client = Plain(self.server.port)
        # The least of all times that a work was done: milliseconds of a processor, and by the clock.
        self.least: "dict[str, tuple[float, float]]" = {}

    def tearDown(self) -> None:
        self.client.close()
        self.server.end()
        self.figures.close()
        self.folder.cleanup()

    @contextlib.contextmanager
    def watched(self, work: str) -> "Iterator[None]":
        """Notes how long the main thread was at a work in one go, until its jobs have ended."""
        self.server.client.ping()
        self.figures[:] = bytes(16)
        yield
        time.sleep(0.5 if IS_LONG else 0.1)
        self.server.client.ping()
        found = [figure / 1e6 for figure in struct.unpack("qq", self.figures[:])]
        before = self.least.get(work, (math.inf, math.inf))
        self.least[work] = (min(before[0], found[0]), min(before[1], found[1]))

    def watch(self, work: str, commands: "Iterable[bytes]", under_way: int = UNDER_WAY) -> None:
        with self.watched(work):
            self.client.run_all(commands, under_way)

    def leave(self) -> None:
        """Clients ask for all pairs, and leave before these come, while they come or when they have come."""
        for seconds in (0, 0.02, 0.1, 0.5):
            other = Plain(self.server.port)
            other.socket.sendall(packed("OM.RANGE", "m", "-", "+", "WITHVALUES"))
            time.sleep(seconds)
            other.close()

    def work(self) -> None:
        self.server.client.delete("m")
        self.watch("growth", pairs())
        self.watch("new values", pairs())
        with self.watched("clients that leave"):
            self.leave()
        for words in TAKES:
            self.watch(" ".join(str(word) for word in words), [packed(*words)])
        for words in ENDS:
            self.server.client.delete("m")
            self.client.run_all(pairs(100))
            self.watch(" ".join(words), [packed(*words)])
        self.client.run_all(pairs(100))
        for count, under_way in ((100, 4), (1_000, 1)):
            self.watch(f"{count} pairs a command", pairs(count), under_way)
            self.watch(f"{count} look-ups a command", fields("OM.MGET", count), under_way)
            self.watch(f"{count} removals a command", fields("OM.DEL", count), under_way)
            self.server.client.delete("m")
            self.watch(f"{count} new pairs a command", pairs(count), under_way)
        for name in ("OM.MGET", "OM.DEL"):
            self.watch(f"{name} of 10,000 fields", fields(name, 10_000), 1)

    def test_first_index(self) -> None:
        """Nor does it wait for the system where a server has its first index."""
        with self.watched("first"):
            self.client.run("OM.SET", "m", *[word for at in range(300) for word in (field(at), text(at))])
        used, spent = self.least["first"]
        self.assertLessEqual(spent - used, MOST)

    def work_on_long_values(self) -> None:
        self.client.run("OM.SET", "l", *[word for at in range(5_000) for word in (field(at), at)])
        for long in LONG:
            self.client.run("OM.SET", "l", long, b"x" * 1_000_000)
        for words in LONG_TAKES:
            self.watch(" ".join(str(word) for word in words[:4]), [packed(*words)])

    def longest(self, work: "Callable[[], None]") -> "tuple[float, str]":
        """A work that took longer is done again: something else may have been at the processor's caches."""
        for _ in range(3):
            work()
            name, (used, _) = max(self.least.items(), key=lambda it: it[1])
            if used <= MOST:
                break
        self.assertLessEqual(used, MOST, self.least)
        return used, name

    def work_at_one_moment(self) -> None:
        self.client.run_all(pairs(100))
        self.watch("range", [packed("OM.RANGE", "m", "-", "+", "WITHVALUES", "ATOMIC")])
        self.watch("count", [packed("OM.COUNT", "m", "-", "+", "ATOMIC")])
        self.watch("values", [packed("OM.MGET", "m", "ATOMIC", "FIELDS", COUNT, *[field(at) for at in range(COUNT)])])

    def test_reads_at_one_moment(self) -> None:
        """They keep it as long as they have pairs: 5 ms for 1,000 at most."""
        self.work_at_one_moment()
        used, work = max((used, work) for work, (used, _) in self.least.items())
        self.assertLessEqual(used, MOST * COUNT / 1000, self.least)
        print(f"\nlongest read at one moment: {used * 1e6 / COUNT:.0f} ns a pair ({work})", end=" ")

    def test_long_values(self) -> None:
        self.longest(self.work_on_long_values)

    def test_large_maps(self) -> None:
        used, work = self.longest(self.work)
        print(f"\nlongest stay of the main thread: {used * 1000:.0f} us of a processor ({work})", end=" ")


if __name__ == "__main__":
    unittest.main()
