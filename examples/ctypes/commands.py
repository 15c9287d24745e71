#!/usr/bin/env python3
"""A key-value loop by ctypes: reads commands, a line each, and answers them.

    put KEY NUMBER     get KEY     del KEY     list
"""
import argparse
import ctypes
import sys
from ctypes import POINTER, byref, c_char_p, c_size_t, c_uint8, c_uint32, c_uint64, c_void_p

MAX_KEY, PAGE = 240, 64
FOUND, WAS, REMOVED, BUSY, NO_MEMORY, EXCHANGED, DIFFERS, HELD_BACK = 1, 6, 7, 8, 15, 16, 17, 18


class Handle(ctypes.Structure):
    """struct hot_handle. It must not be copied: an array of them stays where it is, and calls take byref of a place."""

    _fields_ = [("tag", c_uint32), ("slot", c_void_p), ("place", c_void_p)]


class Stock(ctypes.Structure):
    """struct hot_stock: how many node records an index has, and how many leaf records of each size."""

    _fields_ = [(name, c_uint32) for name in ("nodes", "short", "medium", "large", "wide", "long")]


class Pair(ctypes.Structure):
    """struct hot_pair."""

    _fields_ = [("key", c_uint8 * MAX_KEY), ("length", c_uint32), ("value", c_uint64)]


class Head(ctypes.Structure):
    """struct hot_head: how many bytes a packed pair's key has, and its value."""

    _fields_ = [("length", c_uint8), ("value", c_uint64)]


class Lookup(ctypes.Structure):
    """struct hot_lookup: a key, and what was found of it."""

    _fields_ = [("key", c_char_p), ("length", c_size_t), ("value", c_uint64), ("status", c_uint32)]


class States(ctypes.Structure):
    """struct hot_states: how many records of one size are in each state."""

    _fields_ = [(name, c_uint32) for name in ("free", "held", "live", "obsolete")]


class Counts(ctypes.Structure):
    """struct hot_counts: what an index holds."""

    _fields_ = [(name, States) for name, _ in Stock._fields_] + [("bytes", c_size_t)]


def load(path: str) -> ctypes.CDLL:
    """The library, with the types of the calls that are used here. A call lets Python's other threads run."""
    hot = ctypes.CDLL(path)
    handle, key, number = POINTER(Handle), [c_char_p, c_size_t], POINTER(c_uint64)
    types = {
        "create_with": [POINTER(Stock), handle, c_size_t],
        "stock_bytes": [POINTER(Stock), c_size_t, POINTER(c_size_t)],
        "destroy": [handle],
        "get": [handle, *key, number],
        "get_many": [handle, POINTER(Lookup), c_size_t],
        "upsert": [handle, *key, c_uint64, number],
        "remove": [handle, *key, number],
        "exchange": [handle, *key, c_uint64, c_uint64, number],
        "remove_if": [handle, *key, c_uint64, number],
        "scan_packed": [handle, *key, *key, POINTER(c_uint8), c_size_t, POINTER(Head), c_size_t, POINTER(c_size_t), POINTER(c_uint32)],
        "census": [handle, POINTER(Counts)],
        "after": [*key, POINTER(c_uint8), POINTER(c_size_t)],
        "scan_reverse": [handle, *key, *key, POINTER(Pair), c_size_t, POINTER(c_size_t), POINTER(c_uint32)],
        "scan_last": [handle, *key, *key, POINTER(Pair), c_size_t, POINTER(c_size_t), POINTER(c_uint32)],
        "before": [*key, POINTER(c_uint8), POINTER(c_size_t)],
    }
    for name, words in types.items():
        call = getattr(hot, f"hot_{name}")
        call.argtypes, call.restype = words, c_uint32
    hot.hot_stock_for_keys.argtypes, hot.hot_stock_for_keys.restype = [c_uint32, c_size_t, POINTER(Stock)], None
    hot.hot_status_text.argtypes, hot.hot_status_text.restype = [c_uint32], c_char_p
    return hot


def stock_for_keys(hot: ctypes.CDLL, keys: int, longest: int) -> Stock:
    """A stock for so many keys of at most so many bytes each."""
    stock = Stock()
    hot.hot_stock_for_keys(keys, longest, stock)
    return stock


class Index:
    """An index with this stock of records and handles for so many threads; `size` is how many bytes it takes. Each call is made with
    the handle of the number that it is given."""

    def __init__(self, hot: ctypes.CDLL, stock: Stock, threads: int = 1):
        self.hot, self.handles = hot, (Handle * threads)()
        size = c_size_t()
        self.check(hot.hot_stock_bytes(stock, threads, size))
        self.check(hot.hot_create_with(stock, self.handles, threads))
        self.size = size.value

    def check(self, status: int) -> int:
        """The status, unless it is a refusal."""
        if BUSY <= status <= NO_MEMORY or status >= HELD_BACK:
            raise RuntimeError(self.hot.hot_status_text(status).decode())
        return status

    def close(self) -> None:
        for handle in self.handles:
            self.hot.hot_destroy(handle)

    def get(self, key: bytes, thread: int = 0) -> int | None:
        value = c_uint64()
        status = self.check(self.hot.hot_get(self.handles[thread], key, len(key), value))
        return value.value if status == FOUND else None

    def get_many(self, keys: list[bytes], thread: int = 0) -> list[int | None]:
        """The values of keys, in turn."""
        lookups = (Lookup * len(keys))(*[(key, len(key)) for key in keys])
        self.check(self.hot.hot_get_many(self.handles[thread], lookups, len(keys)))
        return [it.value if it.status == FOUND else None for it in lookups]

    def census(self, thread: int = 0) -> Counts:
        """How many records of each size are in each state."""
        counts = Counts()
        self.check(self.hot.hot_census(self.handles[thread], counts))
        return counts

    def upsert(self, key: bytes, value: int, thread: int = 0) -> int | None:
        """Gives a key a value; the one that it had, if it had one."""
        had = c_uint64()
        status = self.check(self.hot.hot_upsert(self.handles[thread], key, len(key), value, had))
        return had.value if status == WAS else None

    def remove(self, key: bytes, thread: int = 0) -> int | None:
        """Makes a key absent; the value that it had, if it had one."""
        had = c_uint64()
        status = self.check(self.hot.hot_remove(self.handles[thread], key, len(key), had))
        return had.value if status == REMOVED else None

    def exchange(self, key: bytes, expected: int, value: int, thread: int = 0) -> int | None:
        """Gives a key a value if it has the expected one. Returns the value that it had, which it keeps if that is another."""
        had = c_uint64(expected)
        status = self.check(self.hot.hot_exchange(self.handles[thread], key, len(key), expected, value, had))
        return had.value if status in (EXCHANGED, DIFFERS) else None

    def remove_if(self, key: bytes, expected: int, thread: int = 0) -> int | None:
        """Makes a key absent if it has the expected value. Returns the value that it had, which it keeps if that is another."""
        had = c_uint64()
        status = self.check(self.hot.hot_remove_if(self.handles[thread], key, len(key), expected, had))
        return had.value if status in (REMOVED, DIFFERS) else None

    def scan(self, start: bytes = b"", end: bytes = b"\xff" * MAX_KEY, thread: int = 0):
        """The keys from one to another, both included, with their values, in order; asked for by pages."""
        heads, keys, count, more = (Head * PAGE)(), (c_uint8 * (PAGE * MAX_KEY))(), c_size_t(), c_uint32(1)
        key, length = (c_uint8 * MAX_KEY)(), c_size_t()
        while more.value:
            handle, rooms = self.handles[thread], (keys, len(keys), heads, PAGE)
            self.check(self.hot.hot_scan_packed(handle, start, len(start), end, len(end), *rooms, byref(count), byref(more)))
            text, at = bytes(keys), 0
            for head in heads[: count.value]:
                yield text[at : at + head.length], head.value
                at += head.length
            if more.value:
                self.hot.hot_after(text[at - head.length : at], head.length, key, length)
                start = bytes(key[: length.value])

    def scan_reverse(self, start: bytes = b"", end: bytes = b"\xff" * MAX_KEY, thread: int = 0):
        """The same from the last one downwards."""
        pairs, count, more = (Pair * PAGE)(), c_size_t(), c_uint32(1)
        key, length = (c_uint8 * MAX_KEY)(), c_size_t()
        while more.value:
            handle = self.handles[thread]
            self.check(self.hot.hot_scan_reverse(handle, start, len(start), end, len(end), pairs, PAGE, byref(count), byref(more)))
            for pair in pairs[: count.value]:
                yield bytes(pair.key[: pair.length]), pair.value
            if more.value:
                self.hot.hot_before(bytes(pair.key), pair.length, key, length)
                end = bytes(key[: length.value])

    def scan_last(self, count: int, start: bytes = b"", end: bytes = b"\xff" * MAX_KEY, thread: int = 0) -> list[tuple[bytes, int]]:
        """The last `count` of these keys, with their values, in order."""
        pairs, listed, more = (Pair * count)(), c_size_t(), c_uint32()
        handle = self.handles[thread]
        self.check(self.hot.hot_scan_last(handle, start, len(start), end, len(end), pairs, count, byref(listed), byref(more)))
        return [(bytes(pair.key[: pair.length]), pair.value) for pair in pairs[: listed.value]]


def shown(value: int | None) -> str:
    return "absent" if value is None else str(value)


def answer(index: Index, line: str) -> list:
    """The lines that a command is answered."""
    match line.split():
        case ["put", key, number]:
            had = index.upsert(key.encode(), int(number))
            return [] if had is None else [had]
        case ["get", key]:
            return [shown(index.get(key.encode()))]
        case ["del", key]:
            return [shown(index.remove(key.encode()))]
        case ["list"]:
            return [f"{key.decode()} {value}" for key, value in index.scan()]
    return ["unknown command"]


def main() -> None:
    words = argparse.ArgumentParser(description=__doc__, formatter_class=argparse.RawDescriptionHelpFormatter)
    words.add_argument("library", nargs="?", metavar="LIBRARY", default="libhot.so.3", help="where it lies, if not in the loader's folders")
    hot = load(words.parse_args().library)
    index = Index(hot, stock_for_keys(hot, 16384, MAX_KEY))
    for line in sys.stdin:
        try:
            for told in answer(index, line):
                print(told)
        except RuntimeError as refusal:
            print(f"refused: {refusal}")
    index.close()


if __name__ == "__main__":
    main()
