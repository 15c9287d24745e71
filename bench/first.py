#!/usr/bin/env python3
"""How long first answers and installations take in fresh clones of the commit, without the Rattle kit in the PATH, and how large the archives of
prebuilt/ are: lines for bench/room.py, with the median of three clones."""
import os
import shutil
import statistics
import subprocess
import tempfile
import time
from pathlib import Path

ROOT = Path(__file__).resolve().parent.parent
CLONES = 3
SCRIPT = b"insert 61 5\ninsert 61 6\nget 61\n"
ANSWER = b"inserted\nexists 5\nvalue 5\n"
# So many seconds after the last change hot-run keeps in mind that its program stands.
SETTLED = 2.5


def milliseconds(clone: Path, words: list, wanted: bytes | None = None) -> float:
    """How long a command takes in a clone, which writes what is wanted."""
    path = os.pathsep.join(it for it in os.environ["PATH"].split(os.pathsep) if not os.access(f"{it}/rt", os.X_OK))
    begun = time.monotonic()
    ran = subprocess.run(words, cwd=clone, env=os.environ | {"PATH": path}, input=SCRIPT, stdout=subprocess.PIPE, check=True)
    took = 1000 * (time.monotonic() - begun)
    if wanted is not None and ran.stdout != wanted:
        raise SystemExit(f"first.py: {words} wrote {ran.stdout!r}")
    return took


def try_clone(room: Path) -> dict:
    """How long each takes in a clone."""
    clone, took = room / "clone", {}
    subprocess.run(["git", "clone", "-q", ROOT, clone], check=True)
    took["first answer of hot-run, ms"] = milliseconds(clone, ["./hot-run"], ANSWER)
    time.sleep(SETTLED)
    milliseconds(clone, ["./hot-run"], ANSWER)
    took["later answers of hot-run, ms"] = milliseconds(clone, ["./hot-run"], ANSWER)
    took["c/run install, ms"] = milliseconds(clone, ["c/run", "install", room / "at"])
    return took


def main() -> None:
    rounds = []
    for _ in range(CLONES):
        room = Path(tempfile.mkdtemp())
        rounds.append(try_clone(room))
        shutil.rmtree(room)
    for what in rounds[0]:
        print(what, "", 1, f"{statistics.median(it[what] for it in rounds):.1f}", sep="\t", flush=True)
    for archive in sorted((ROOT / "prebuilt").glob("*.tar.xz")):
        print("bytes", archive.name, 1, archive.stat().st_size, sep="\t", flush=True)


if __name__ == "__main__":
    main()
