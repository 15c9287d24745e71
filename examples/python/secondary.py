"""An index of rows by a value that several rows may have. A key is the value and the
row's number, so the keys of one value are together, in the order of the rows, and no two
rows have the same key."""

from collections.abc import Iterable

from hot import Codec, SortedMap


def show(what: str, pairs: Iterable[tuple[tuple[float, int], int]]) -> None:
    print(f"{what}:", *(row for _, row in pairs))


def main() -> None:
    rows = [21.5, -3, 21.5, 0, -3, 30.25]
    by_value: SortedMap[tuple[float, int]] = SortedMap(keys=Codec.of(float, int))
    by_value.update(((value, row), row) for row, value in enumerate(rows))
    show("-3", by_value.prefix_items((-3,)))
    below = by_value.irange_items((-3,), (21.5,), (True, False))
    show("from -3 and below 21.5", below)
    # The greatest value, read from its key.
    (value, row), _ = by_value.peekitem()
    print(f"the greatest: {value} of row {row}")
    # Row 2 gets the value -3. It has both keys for a moment, so that no reader misses it.
    by_value[-3, 2] = 2
    del by_value[rows[2], 2]
    show("-3 later", by_value.prefix_items((-3,)))
    show("21.5 later", by_value.prefix_items((21.5,)))


if __name__ == "__main__":
    main()
