#!/usr/bin/env python3
"""Makes a table of the lines that bench/churn.c writes, as they come on standard input: the keys for each node, fresh and over the turns,
how look-ups are then beside a fresh index, and how often a call was refused. Behind these: the keys for each node when one in a hundred
is left, and the most nodes after times up and down between a tenth and all, beside a fresh index's. Of the same figures it makes a CSV.
"""
import argparse
import csv
import sys

from table import origin

# The columns of the CSV.
FIELDS = ["date", "processor", "compiler", "commit", "count", "threads", "keys", "turns", "fresh", "mean", "least", "look_ups", "refused", "shrunk", "times", "most"]


def show(row: list) -> None:
    """Writes the line of a kind of keys: what its row has behind what all rows begin with."""
    keys, turns, fresh, mean, least, look_ups, refused, shrunk, times, most = row
    rest = f"{shrunk:>8}{most:>8}" if times else ""
    print(f"{keys:<44}{fresh:>8}{mean:>8}{least:>8}{look_ups:>10}{refused:>9}{rest}", flush=True)


def main() -> None:
    words = argparse.ArgumentParser(description=__doc__)
    words.add_argument("file", metavar="FILE", help="the CSV, which bench/pages reads")
    begins, row = origin(), []
    with open(words.parse_args().file, "w", newline="") as file:
        rows = csv.writer(file, lineterminator="\n")
        rows.writerow(FIELDS)

        def keep() -> None:
            """Writes a row that is whole, with nothing where the index didn't shrink."""
            if row:
                show(row + [""] * (10 - len(row)))
                rows.writerow([*begins, *row, *[""] * (10 - len(row))])
                file.flush()

        for line in sys.stdin:
            word, *words = line.rstrip("\n").split("\t")
            if word == "keys":
                begins += words
                print(f"{words[0]} keys, of which a fifth goes and comes at each turn; threads: {words[1]}")
                print(f"{'keys for each node:':<44}{'fresh':>8}{'mean':>8}{'least':>8}{'look-ups':>10}{'refused':>9}{'shrunk':>8}{'most':>8}")
            elif word == "churn":
                keep()
                row = words
            elif word == "shrinks":
                row = [*row[:-1], str(int(row[-1]) + int(words[3])), *words[:3]]
        keep()


if __name__ == "__main__":
    main()
