"""A log-structured store, whose key directory is a SortedMap. Values lie in a log, which
only grows; the map has the place of each key's last record: twice its offset, and one
more if the record deletes the key. Several threads may write and read at once.

Standard input has commands, a line each: put KEY VALUE, get KEY, del KEY, list PREFIX,
fill COUNT.

A put is in the log when it returns; a store that must outlive the machine calls
os.fdatasync, too.
"""

import argparse
import itertools
import os
import struct
import sys
import threading
import zlib
from collections.abc import Callable, Iterator
from concurrent.futures import ThreadPoolExecutor
from typing import NamedTuple, Optional

from hot import SortedMap

# No record goes from one block of the log into the next, so that threads can read the
# blocks of a log side by side.
BLOCK = 1 << 16
# A sum of what follows, the lengths of key and value, and whether the key is deleted.
HEAD = struct.Struct("<IIII")


class Record(NamedTuple):
    """A record of the log."""

    key: bytes
    value: bytes
    is_deletion: bool = False

    def to_bytes(self) -> bytes:
        numbers = len(self.key), len(self.value), self.is_deletion
        rest = HEAD.pack(0, *numbers)[4:] + self.key + self.value
        return struct.pack("<I", zlib.crc32(rest)) + rest


def read_record(block: bytes, at: int) -> tuple[Optional[Record], int]:
    """The record at a place of a block, if it is whole, and where it ends."""
    start = at + HEAD.size
    if start > len(block):
        return None, at
    check, key, value, is_deletion = HEAD.unpack_from(block, at)
    end = start + key + value
    if not key or end > len(block) or zlib.crc32(block[at + 4 : end]) != check:
        return None, at
    middle = start + key
    return Record(block[start:middle], block[middle:end], bool(is_deletion)), end


class Store:
    """A store, whose calls any thread may make."""

    def __init__(self, path: str, threads: int) -> None:
        self.file = os.open(path, os.O_RDWR | os.O_CREAT, 0o666)
        self.directory: SortedMap[bytes] = SortedMap(keys=bytes, threads=threads)
        self.pool = ThreadPoolExecutor(threads)
        self.threads = threads
        self.end = 0
        self.append = threading.Lock()
        blocks = itertools.count()
        self.side_by_side(lambda _: self.recover(blocks))

    def side_by_side(self, work: Callable[[int], None]) -> None:
        """Has each thread do its part, which is told by its number."""
        list(self.pool.map(work, range(self.threads)))

    def put(self, key: bytes, value: bytes) -> None:
        self.change(Record(key, value))

    def delete(self, key: bytes) -> None:
        self.change(Record(key, b"", True))

    def get(self, key: bytes) -> Optional[bytes]:
        place = self.directory.get(key)
        if place is None or place % 2:
            return None
        record, _ = read_record(os.pread(self.file, BLOCK, place // 2), 0)
        if record is None:
            raise OSError("the log is damaged")
        return record.value

    def list(self, prefix: bytes) -> Iterator[bytes]:
        """The keys with a prefix, in order."""
        pairs = self.directory.prefix_items(prefix)
        return (key for key, place in pairs if place % 2 == 0)

    def change(self, record: Record) -> None:
        text = record.to_bytes()
        if not 0 < len(record.key) <= 240 or len(text) > BLOCK:
            raise ValueError("a key or value of this length can't be kept")
        with self.append:
            is_whole = self.end % BLOCK + len(text) <= BLOCK
            offset = self.end if is_whole else (self.end // BLOCK + 1) * BLOCK
            os.pwrite(self.file, text, offset)
            self.end = offset + len(text)
        self.point(record, offset)

    def point(self, record: Record, offset: int) -> None:
        """Lets the directory have a key's record at this place, unless it has a later
        one. So it makes no difference in which order threads come here."""
        place = 2 * offset + record.is_deletion
        had = self.directory.setdefault(record.key, place)
        while had < place and not self.directory.exchange(record.key, had, place):
            had = self.directory[record.key]

    def recover(self, blocks: Iterator[int]) -> None:
        """Takes block after block that no other thread has taken, and brings its records
        into the directory: up to one that was torn."""
        for number in blocks:
            block = os.pread(self.file, BLOCK, number * BLOCK)
            record, end = read_record(block, 0)
            at = 0
            while record is not None:
                self.point(record, number * BLOCK + at)
                at = end
                record, end = read_record(block, at)
            with self.append:
                self.end = max(self.end, number * BLOCK + at if at else 0)
            if not block:
                return


def fill(store: Store, count: int) -> None:
    """Puts so many keys, of which each thread has its share."""

    def work(part: int) -> None:
        for number in range(part, count, store.threads):
            store.put(b"fill/%06d" % number, b"value %d" % number)

    store.side_by_side(work)


def answer(store: Store, line: bytes) -> None:
    """Runs a command."""
    verb, *words = line.rstrip(b"\n").split(b" ", 2)
    key = words[0]
    if verb == b"put":
        store.put(key, words[1])
    elif verb == b"del":
        store.delete(key)
    elif verb == b"get":
        value = store.get(key)
        print("absent" if value is None else value.decode())
    elif verb == b"list":
        for it in store.list(key):
            print(it.decode())
    elif verb == b"fill":
        fill(store, int(key))
    else:
        raise ValueError("unknown command")


def main() -> None:
    words = argparse.ArgumentParser(description=__doc__)
    words.add_argument("log", metavar="LOG", help="the file, which is made if need be")
    words.add_argument("threads", type=int, metavar="THREADS", help="that read the log")
    given = words.parse_args()
    store = Store(given.log, given.threads)
    for line in sys.stdin.buffer:
        answer(store, line)


if __name__ == "__main__":
    main()
