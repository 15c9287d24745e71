#!/usr/bin/env python3
"""Makes tables and CSVs of the lines that bench/index.c and bench/latency.c write where they measure the index beside its peers.

usage: peers.py FOLDER     FOLDER/peers.csv is to have the medians of each map, and FOLDER/latency.csv the latencies; bench/pages reads such
"""
import argparse
import csv
import statistics
import sys
from datetime import datetime
from pathlib import Path

from table import LINES, Column, origin

# What is told of where and when, before the columns of each CSV; a run is told from others of its day by the time at its end.
ORIGIN = ["date", "processor", "compiler", "commit", "run"]

# The columns of both.
CALLS = ["keys", "count", "call", "map", "ns"]
LATENCIES = ["map", "threads", "upserts", "call", "p50", "p99", "p999"]


class Measured:
    """What was measured: the nanoseconds of calls, by keys, count, call and map, and latencies, by map, threads, upserts and call."""

    def __init__(self):
        self.calls: list = []
        self.latencies: dict = {}
        self.kind = ""
        self.column = Column(1, 0, 0)

    def close_column(self) -> None:
        """Adds the medians of a column that is complete."""
        names = dict.fromkeys(name for name, _ in self.column.rates)
        for call, works in LINES:
            for name in names:
                time = self.column.nanoseconds(name, works, statistics.median)
                if time is not None:
                    self.calls.append([self.kind, self.column.keys, call, name, f"{time:.1f}"])
        self.column = Column(1, 0, 0)

    def read(self, line: str) -> None:
        """Takes a line of one of the programs."""
        fields = line.rstrip("\n").split("\t")
        word, _, rest = line.rstrip("\n").partition(" ")
        if fields[0] == "latency":
            self.latencies.setdefault(tuple(fields[1:5]), []).append([int(it) for it in fields[5:]])
        elif word == "kind":
            self.close_column()
            self.kind = rest
        elif word == "column":
            self.close_column()
            self.column = Column(int(rest.split()[0]), 0, 0)
        elif word == "rate":
            *name, work, calls, used, passed = rest.split(" ")
            self.column.add(" ".join(name), work, int(calls), int(used), int(passed))
        elif word == "the":
            self.close_column()
            print(line, end="", flush=True)

    def latency_rows(self) -> list:
        """The rows of latencies: of each figure the median."""
        return [[*case, *(f"{statistics.median(it):.0f}" for it in zip(*times))] for case, times in self.latencies.items()]


def write(file: Path, columns: list, rows: list) -> None:
    """Writes a CSV."""
    begins = [*origin(), f"{datetime.now():%H:%M}"]
    with open(file, "w", newline="") as opened:
        written = csv.writer(opened, lineterminator="\n")
        written.writerow([*ORIGIN, *columns])
        written.writerows([*begins, *row] for row in rows)


def show(measured: Measured) -> None:
    """Prints what was measured: the nanoseconds of each map, the index first."""
    maps = list(dict.fromkeys(name for *_, name, _ in measured.calls))
    print(f"{'nanoseconds a call':<60}" + "".join(f"{name:>10}" for name in maps))
    cells = {(kind, count, call, name): time for kind, count, call, name, time in measured.calls}
    for kind, count, call in dict.fromkeys((kind, count, call) for kind, count, call, *_ in measured.calls):
        times = [cells.get((kind, count, call, name), "-") for name in maps]
        print(f"{count:>8} {kind:<26}{call:<25}" + "".join(f"{time:>10}" for time in times))
    print("latencies: map, threads, upserts of a hundred calls, call; p50, p99, p99.9 in nanoseconds")
    for row in measured.latency_rows():
        print("".join(f"{it:>12}" for it in row))


def main() -> None:
    words = argparse.ArgumentParser(description=__doc__.partition("\n")[0])
    words.add_argument("folder", type=Path, help="where peers.csv and latency.csv are written")
    folder, measured = words.parse_args().folder, Measured()
    for line in sys.stdin:
        measured.read(line)
    write(folder / "peers.csv", CALLS, measured.calls)
    write(folder / "latency.csv", LATENCIES, measured.latency_rows())
    show(measured)


if __name__ == "__main__":
    main()
