#!/usr/bin/env python3
"""Tests of examples/ctypes/commands.py: indexes with stocks, what they take and what they refuse; scans over several pages."""
import argparse

from commands import MAX_KEY, PAGE, Index, Stock, load, stock_for_keys

FULL_LEAVES, OUT_OF_RANGE = 10, 14


def refusal(call, *words) -> str | None:
    """What a call is refused for, if it is."""
    try:
        call(*words)
    except RuntimeError as refused:
        return str(refused)
    return None


def main() -> None:
    words = argparse.ArgumentParser(description=__doc__)
    words.add_argument("library", metavar="LIBRARY", help="where libhot.so lies")
    hot = load(words.parse_args().library)
    stock = stock_for_keys(hot, 7, 8)
    assert (stock.nodes, stock.short, stock.medium, stock.long) == (3, 10, 0, 0)
    assert refusal(Index, hot, stock, 1025) == refusal(Index, hot, Stock(1)) == hot.hot_status_text(OUT_OF_RANGE).decode()
    assert Index(hot, stock).size == 2688
    index = Index(hot, stock_for_keys(hot, 500, 8))
    for number in range(PAGE * 3):
        assert index.upsert(number.to_bytes(8, "big"), number) is None
    assert list(index.scan()) == [(number.to_bytes(8, "big"), number) for number in range(PAGE * 3)]
    assert list(index.scan_reverse()) == list(index.scan())[::-1]
    assert [value for _, value in index.scan_reverse(bytes(7) + b"\1", bytes(7) + b"\3z")] == [3, 2, 1]
    assert index.scan_last(2) == list(index.scan())[-2:] and index.scan_last(9, end=bytes(7) + b"\2") == list(index.scan())[:3]
    # A key's value changes only if it is the expected one.
    key = bytes(8)
    assert index.exchange(key, 1, 2) == 0 and index.exchange(key, 0, 2) == 0 and index.get(key) == 2
    assert index.remove_if(key, 0) == 2 and index.remove_if(key, 2) == 2 and index.get(key) is None
    assert index.remove_if(key, 2) is None and index.exchange(key, 2, 3) is None
    index.close()
    # A key takes the smallest leaf that has room for it and is free.
    index = Index(hot, Stock(nodes=8, short=1, long=1), 2)
    assert index.upsert(b"a" * MAX_KEY, 1) is None and index.upsert(b"b", 2, 1) is None
    full = hot.hot_status_text(FULL_LEAVES).decode()
    assert refusal(index.upsert, b"c", 3) == full
    assert index.remove(b"b") == 2 and refusal(index.upsert, b"c" * 9, 3) == full
    short = index.census().short
    assert (short.free, short.held, short.live, short.obsolete) == (1, 0, 0, 0)
    assert index.upsert(b"c", 3) is None and index.get(b"c", 1) == 3 and index.get(b"b") is None
    assert index.get_many([b"c", b"b", b"a" * MAX_KEY], 1) == [3, None, 1] and index.get_many([]) == []
    index.close()
    print("the Python test passed")


if __name__ == "__main__":
    main()
