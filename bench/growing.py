#!/usr/bin/env python3
"""Measures how long Python takes to set new keys of a map that nobody has told how many there will be: a SortedMap, and a SortedDict of
sortedcontainers. Each is done three times, by turns, in a process of its own; the median counts, in nanoseconds of a processor for each key. A line
has four cells, as bench/room.py reads them. `bench/run growing` runs it."""
import statistics
import subprocess
import sys

TIMES = 3
MAPS = {"SortedMap": "from hot import SortedMap as Map", "SortedDict": "from sortedcontainers import SortedDict as Map"}
PROGRAM = """
{of}
from time import process_time_ns
keys = [f"key{{i * 7919 % 1000003:09}}" for i in range({count})]
m = Map()
began = process_time_ns()
for k in keys: m[k] = 1
print((process_time_ns() - began) / {count})
"""


def each(of: str, count: int) -> float:
    """The time of a key of one map, by a process of its own."""
    said = subprocess.run([sys.executable, "-c", PROGRAM.format(of=of, count=count)], capture_output=True, text=True, check=False)
    if said.returncode:
        sys.exit(f"growing: a run failed\n{said.stdout}{said.stderr}")
    return float(said.stdout)


def main() -> None:
    for count in [int(word) for word in sys.argv[1:]] or [1_000_000]:
        found = [{name: each(of, count) for name, of in MAPS.items()} for _ in range(TIMES)]
        for name in MAPS:
            print(f"new keys from Python, {name}\tkeys of 12 characters\t{count}\t{statistics.median(it[name] for it in found):.1f}", flush=True)


if __name__ == "__main__":
    main()
