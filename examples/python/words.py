"""Counts the words of standard input with several threads, and lists them in order."""

import argparse
import re
import sys
from concurrent.futures import ThreadPoolExecutor

from hot import SortedMap

LONGEST = 240


def count(counts: SortedMap[bytes], text: bytes) -> None:
    """Counts the words of a part of the text."""
    for word in re.finditer(rb"[A-Za-z]+", text):
        counts.fetch_add(word[0][:LONGEST])


def parts(text: bytes, wanted: int) -> list[bytes]:
    """Cuts a text in so many parts, none within a word."""
    size, places = len(text) // wanted, [0]
    for at in range(1, wanted):
        end = re.compile(rb"[^A-Za-z]|\Z").search(text, max(at * size, places[-1]))
        assert end is not None
        places.append(end.start())
    return [text[at:upto] for at, upto in zip(places, [*places[1:], len(text)])]


def main() -> None:
    words = argparse.ArgumentParser(description=__doc__)
    words.add_argument("threads", type=int, metavar="THREADS", help="how many threads")
    threads: int = words.parse_args().threads
    counts: SortedMap[bytes] = SortedMap(keys=bytes, threads=threads)
    with ThreadPoolExecutor(threads) as pool:
        texts = parts(sys.stdin.buffer.read(), threads)
        for done in [pool.submit(count, counts, text) for text in texts]:
            done.result()
    for word, times in counts.items():
        print(word.decode(), times)


if __name__ == "__main__":
    main()
