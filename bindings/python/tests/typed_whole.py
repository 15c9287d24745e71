"""What a type checker knows of maps that a class makes, and of subclasses."""

import hot
from hot import Codec, SortedMap


class Named(SortedMap[int]):
    def __init__(self, name: str) -> None:
        super().__init__(keys=int)
        self.name = name


words: SortedMap[str] = SortedMap.fromkeys(["a"], 1)
numbers: SortedMap[int] = SortedMap.fromkeys([1], 1, keys=int, threads=2)
of_class: SortedMap[int] = SortedMap[int].fromkeys([1], 1, keys=int)
pairs: SortedMap[tuple[str, int]] = SortedMap.fromkeys(
    [("a", 1)], 1, keys=Codec.of(str, int)
)
named: Named = Named("a").copy() | {1: 2}
versions: str = named.name + hot.__version__ + hot.library_version()
