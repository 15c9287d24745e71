#!/usr/bin/env python3
"""Makes a table of the lines that bench/room.c, own.c, counter.c and others write, and `bench/run count`, as they come on standard input: what memory
an index takes, its calls beside others, or their instructions. It makes a CSV of the same figures, which bench/pages reads."""
import argparse
import csv
import sys

from table import origin

# The columns of the CSV.
FIELDS = ["date", "commit", "what", "keys", "count", "figure"]


def main() -> None:
    words = argparse.ArgumentParser(description=__doc__)
    words.add_argument("file", metavar="FILE", help="the CSV")
    day, _, _, commit = origin()
    with open(words.parse_args().file, "w", newline="") as file:
        rows = csv.writer(file, lineterminator="\n")
        rows.writerow(FIELDS)
        for line in sys.stdin:
            what, keys, count, figure = line.rstrip("\n").split("\t")
            rows.writerow([day, commit, what, keys, count, figure])
            file.flush()
            print(f"{what:<52}{keys:<26}{int(count):>12,}{float(figure):>16,.1f}", flush=True)


if __name__ == "__main__":
    main()
