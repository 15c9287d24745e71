#!/usr/bin/env python3
"""Counts the instructions of calls from Python and of statements of SQLite, by valgrind's callgrind, beside a SortedDict (of sortedcontainers)
and beside an ordinary table in memory. `bench/run bindings [KEYS]` builds the module and the table, and runs it.

A run of 2,000 calls is subtracted from one of 12,000, and what the loop itself takes from both. How busy the machine is changes nothing. The
figures go to a CSV, too, beside the folder of the module and the table; bench/pages reads such.
"""
import argparse
import csv
import os
import re
import subprocess
import sys
import tempfile
from concurrent.futures import ThreadPoolExecutor
from pathlib import Path

from table import origin

FEW, MANY = 2_000, 12_000

# The calls from Python: a loop over them has the keys that are there, and others, and beside them the items of a range, or nothing.
NOTHING, RANGE, OF_RANGE = "repeat(None)", "m.irange(keys[0])", "row or item of a range"
PYTHON = {
    "": ("pass", NOTHING),
    "look-up": ("m[k]", NOTHING),
    "new value": ("m[k] = 1", NOTHING),
    "insert": ("m[n] = 1", NOTHING),
    "removal": ("del m[k]", NOTHING),
    OF_RANGE: ("pass", RANGE),
}
MAPS = {"hot": "from hot import SortedMap as Map", "SortedDict": "from sortedcontainers import SortedDict as Map"}
PROGRAM = """
from itertools import repeat
{of}
keys = [f"key{{i * 7919 % 1000003:09}}" for i in range({keys})]
m = Map()
for i, k in enumerate(keys): m[k] = i
new = [f"new{{k[3:]}}" for k in keys]
for k, n, _ in zip(keys[:{calls}], new, {items}): {call}
"""

# The statements of SQLite, over the first numbers; the first one is all that the others have around their calls.
KEY, NEW = ["printf('%s%%09d', x * 7919 %% 1000003)" % it for it in ("key", "new")]
SQL = {
    "": f"SELECT count({KEY}) FROM n",
    "look-up": f"SELECT count((SELECT value FROM t WHERE key = {KEY})) FROM n",
    "new value": f"INSERT OR REPLACE INTO t SELECT {KEY}, x + 1 FROM n",
    "insert": f"INSERT INTO t SELECT {NEW}, x FROM n",
    "removal": f"DELETE FROM t WHERE key IN (SELECT {KEY} FROM n)",
    OF_RANGE: f"SELECT sum(value) FROM (SELECT value FROM t WHERE key >= 'key' LIMIT (SELECT count({KEY}) FROM n))",
}
TABLES = {"hot": "VIRTUAL TABLE t USING hot(keys=100000, longest=12)", "ordinary": "TABLE t(key TEXT PRIMARY KEY, value INTEGER) WITHOUT ROWID"}
NUMBERS = "WITH RECURSIVE n(x) AS (SELECT 0 UNION ALL SELECT x + 1 FROM n LIMIT {})"

# The columns of the CSV: which language, which call, and its instructions by the index and by what it stands beside.
FIELDS = ["date", "commit", "language", "call", "hot", "beside"]


def counted(*command: str) -> int:
    """How many instructions a command takes: in each run of Python keys have the same hashes, by which tables grow or not."""
    with tempfile.NamedTemporaryFile() as file:
        run = ["valgrind", "--tool=callgrind", f"--callgrind-out-file={file.name}", *command]
        said = subprocess.run(run, capture_output=True, text=True, check=False, env={**os.environ, "PYTHONHASHSEED": "0"})
    found = re.search(r"Collected : (\d+)", said.stderr)
    if said.returncode or not found:
        sys.exit(f"bindings: a run failed\n{said.stdout}{said.stderr}")
    return int(found[1])


def each(command) -> float:
    """The instructions of one call, of the commands that make so many of them."""
    return (counted(*command(MANY)) - counted(*command(FEW))) / (MANY - FEW)


def python(of: str, keys: int, call: str, items: str):
    """The command that makes so many calls from Python."""
    return lambda calls: [sys.executable, "-c", PROGRAM.format(of=of, keys=keys, calls=calls, call=call, items=items)]


def sql(folder: Path, table: str, keys: int, statement: str):
    """The command that runs a statement of SQLite over so many numbers."""
    first = [f".load {folder}/hot_table.so", f"CREATE {table};", f"{NUMBERS.format(keys)} INSERT INTO t SELECT {KEY}, x FROM n;"]
    return lambda calls: ["sqlite3", "-batch", "-bail", ":memory:", *first, f"{NUMBERS.format(calls)} {statement};"]


def show(file, title: str, kinds: dict, sides: dict, command) -> None:
    """Writes the instructions of each kind of calls, without the loop around them, and a row of the CSV for each."""
    print(f"{title:<28}" + "".join(f"{side:>12}" for side in sides), flush=True)
    day, _, _, commit = origin()
    with ThreadPoolExecutor(os.cpu_count()) as pool:
        counts = {(kind, side): pool.submit(each, command(of, call)) for kind, call in kinds.items() for side, of in sides.items()}
    for kind in kinds:
        if kind:
            found = [round(counts[kind, side].result() - counts["", side].result()) for side in sides]
            print(f"{kind:<28}" + "".join(f"{it:>12,}" for it in found), flush=True)
            csv.writer(file, lineterminator="\n").writerow([day, commit, title, kind, *found])
            file.flush()


def main() -> None:
    words = argparse.ArgumentParser(description=__doc__, formatter_class=argparse.RawDescriptionHelpFormatter)
    words.add_argument("folder", type=Path, metavar="FOLDER", help="that has the module and the table")
    words.add_argument("keys", type=int, nargs="?", metavar="KEYS", default=20_000, help=f"of 12 characters: {MANY:,} or more (%(default)s)")
    given = words.parse_args()
    folder, keys = given.folder, given.keys
    if keys < MANY:
        words.error(f"{MANY:,} keys or more")
    with open(folder.parent / "bindings.csv", "w", newline="") as file:
        csv.writer(file, lineterminator="\n").writerow(FIELDS)
        show(file, "Python", PYTHON, MAPS, lambda of, call: python(of, keys, *call))
        show(file, "SQLite", SQL, TABLES, lambda of, statement: sql(folder, of, keys, statement))


if __name__ == "__main__":
    main()
