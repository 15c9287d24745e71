"""What a type checker knows of maps: nothing here is annotated that a program needn't,
and no expression is Any."""

from typing import Optional, Union

from hot import SortedMap

words = SortedMap()
numbers = SortedMap(keys=int)
codes = SortedMap({b"a": 1}, keys=bytes, capacity=10)


def of_each(m: SortedMap[str]) -> None:
    found: Optional[int] = m.get("a")
    either: Union[int, str] = m.get("a", "none")
    value: int = m.get("a", 0) + m.pop("a") + m.setdefault("a", 1)
    taken: Union[int, None] = m.pop("a", None)
    first: tuple[str, int] = m.items()[0]
    last: tuple[str, int] = m.popitem()
    keys: list[str] = [*m, *m.keys()[1:], *reversed(m.keys())]
    values: list[int] = [*m.values(), *m.values()[:2], m.values()[-1]]
    for key, number in m.items():
        value += len(key) + number + m.items().index((key, number))
    print(found, either, taken, first, last, keys, values)


of_each(words)
of_each(SortedMap({"a": 1}))
at: int = next(iter(numbers.items()))[0] + sum(numbers.irange(1, 2))
code: bytes = next(codes.irange()) + codes.irange_pop()[0]
