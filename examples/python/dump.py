"""Dumps a map to a file, makes a map of the file again, and prints what that has. The
file is as examples/c/dump.c has it, which reads and writes the same."""

import argparse
import os
from collections.abc import Iterator
from typing import BinaryIO

from hot import SortedMap

END, VALUE = 255, 8


def write_dump(index: SortedMap[bytes], name: str) -> int:
    """Writes all pairs to a new file, which takes the name once it is whole. Other
    threads may change the map meanwhile."""
    count = 0
    with open(f"{name}.new", "wb") as file:
        for key, value in index.items():
            file.write(bytes([len(key)]) + key + value.to_bytes(VALUE, "big"))
            count += 1
        file.write(bytes([END]) + count.to_bytes(VALUE, "big"))
        file.flush()
        os.fsync(file.fileno())
    os.replace(f"{name}.new", name)
    return count


def exactly(file: BinaryIO, size: int) -> bytes:
    """The next bytes, which must be so many."""
    found = file.read(size)
    if len(found) < size:
        raise ValueError("it is no whole dump")
    return found


def read_pairs(file: BinaryIO) -> Iterator[tuple[bytes, int]]:
    """The pairs of a file, in the order of their keys."""
    count = 0
    while (length := exactly(file, 1)[0]) != END:
        key = exactly(file, length)
        yield key, int.from_bytes(exactly(file, VALUE), "big")
        count += 1
    if int.from_bytes(exactly(file, VALUE), "big") != count:
        raise ValueError("it is no whole dump")


def read_dump(name: str) -> SortedMap[bytes]:
    """A map of the pairs of a file."""
    with open(name, "rb") as file:
        return SortedMap(read_pairs(file), keys=bytes, sorted=True)


def main() -> None:
    words = argparse.ArgumentParser(description=__doc__)
    words.add_argument("file", metavar="FILE", help="the dump, which is replaced")
    words.add_argument("keys", type=int, nargs="?", metavar="KEYS", default=1_000_000)
    given = words.parse_args()
    name: str = given.file
    keys: int = given.keys
    index = SortedMap(
        ((b"user:%d" % number, number) for number in range(keys)),
        keys=bytes,
        capacity=keys,
    )
    print(write_dump(index, name), "keys dumped")
    restored = read_dump(name)
    differ = sum(index.get(key) != value for key, value in restored.items())
    print(f"{len(restored)} keys restored, {differ} differ")
    for key, value in restored.peekitem(0), restored.peekitem():
        print(key.decode(), value)


if __name__ == "__main__":
    main()
