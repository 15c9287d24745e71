"""SortedMap: a mapping in the order of its keys, with the names of sortedcontainers."""

from __future__ import annotations

from collections.abc import Collection, ItemsView, Iterable, Iterator, KeysView, Mapping
from collections.abc import MutableMapping, ValuesView
from itertools import chain, islice
from operator import index as int_of
from sys import maxsize
from typing import TYPE_CHECKING, Any, Generic, NamedTuple, Optional, TypeVar, Union
from typing import overload

from ._errors import FullError
from ._hot import CODES, ITEMS, KEYS, MAX_KEY, VALUES, Map
from .codec import Codec

K = TypeVar("K")
N = TypeVar("N")
T = TypeVar("T", covariant=True)
Self = TypeVar("Self", bound="SortedMap[Any]")

# An end of a range: a key, or of a map with Codec.of the first values of one.
Bound = Union[K, tuple[Any, ...]]


ALL = LEAST, GREATEST = b"", b"\xff" * MAX_KEY


def after(key: bytes) -> Optional[bytes]:
    """The least key above this one."""
    if len(key) < MAX_KEY:
        return key + b"\0"
    key = key.rstrip(b"\xff")
    return key[:-1] + bytes([key[-1] + 1]) if key else None


def before(key: bytes) -> Optional[bytes]:
    """The greatest key below this one."""
    if key.endswith(b"\0"):
        return key[:-1]
    if not key:
        return None
    return (key[:-1] + bytes([key[-1] - 1])).ljust(MAX_KEY, b"\xff")


class Stats(NamedTuple):
    """How often tries to change a map's index were refused. A change tries again as
    long as another is in its way or holds records back, and each try counts."""

    busy: int
    """Another call was in the way."""
    held_back: int
    """Too few records were free, but some might come back."""
    full: int
    """Too few records were free, and none came back: in one that grows, never."""


class SortedMap(Map[K], MutableMapping[K, int], Generic[K]):
    """A mapping from str keys to ints, in the order of the keys. With keys=bytes,
    keys=int (of 64 bits), keys=Codec.of(str, float) for tuples or keys=Codec(encode,
    decode) it has other keys.

    A key has at most 240 bytes; a value is from 0 to 2**64 - 1.

    Threads may use a map at the same time, at most `threads` of them in calls that wait
    or look up many keys. A map has room for `capacity` keys of at most `longest` bytes.
    It grows beyond that, while other threads go on; with grow=False it raises FullError
    when it is full. Where the data is a SortedMap with the same keys, or sorted=True
    says that its keys rise, all goes in at once. A key that isn't above the one before,
    or is too long, raises LoadError then, which is a ValueError with the pair's number.

    An iterator lists what is there all along, and may list or miss
    what is set or deleted meanwhile. In the child of a process that forks while it has
    threads the maps of the parent raise HotError.
    """

    @overload
    def __init__(
        self: SortedMap[str],
        data: Union[Mapping[str, int], Iterable[tuple[str, int]]] = ...,
        /,
        *,
        capacity: Optional[int] = ...,
        longest: int = ...,
        threads: int = ...,
        grow: bool = ...,
        sorted: bool = ...,
    ) -> None: ...

    @overload
    def __init__(
        self,
        data: Union[Mapping[K, int], Iterable[tuple[K, int]]] = ...,
        /,
        *,
        keys: Union[type[K], Codec],
        capacity: Optional[int] = ...,
        longest: int = ...,
        threads: int = ...,
        grow: bool = ...,
        sorted: bool = ...,
    ) -> None: ...

    def __init__(
        self,
        data: Any = (),
        /,
        *,
        keys: Any = str,
        capacity: Optional[int] = None,
        longest: int = 24,
        threads: int = 8,
        grow: bool = True,
        sorted: bool = False,
    ) -> None:
        kind: Union[type, Codec] = keys if isinstance(keys, type) else Codec(*keys)
        super().__init__(kind, capacity, longest, threads, grow)
        self._options: dict[str, Any] = {"keys": keys, "threads": threads, "grow": grow}
        if not grow:
            # A copy has the same room. One that grows takes what its keys need.
            self._options.update(capacity=capacity, longest=longest)
        # isinstance believes what an object says of its class.
        if issubclass(type(data), SortedMap) and data._options["keys"] == keys:
            self._copy_of(data)
        elif sorted:
            self._load(data.items() if isinstance(data, Mapping) else data)
        else:
            self.update(data)

    if TYPE_CHECKING:

        def setdefault(self, key: K, default: Optional[int] = None) -> int: ...

    def _copy_of(self, other: SortedMap[K]) -> None:
        """Takes the pairs of a map with the same keys."""
        try:
            self._load_map(other)
        except FullError:
            # Pairs that are put in one by one may take fewer records.
            self.update(other)

    def _list(
        self, what: int, bounds: Optional[tuple[bytes, bytes]], reverse: bool = False
    ) -> Iterator[Any]:
        """The keys, values or pairs from one key's bytes to another's."""
        return iter(()) if bounds is None else self._pairs(*bounds, reverse, what)

    def _end(self, key: Any) -> bytes:
        """The bytes of an end of a range: for an int of more than 64 bits, where ints are
        keys, bytes below or above those of all keys."""
        try:
            return self._encode(key)
        except OverflowError:
            if self._options.get("keys") is not int:
                raise
            return LEAST if key < 0 else GREATEST

    def _bounds(
        self, minimum: Any, maximum: Any, inclusive: tuple[bool, bool]
    ) -> Optional[tuple[bytes, bytes]]:
        """The bytes of the least and greatest key of a range, if it may have keys."""
        start: Optional[bytes] = LEAST
        end: Optional[bytes] = GREATEST
        if minimum is not None:
            code = self._end(minimum)
            is_inside = inclusive[0] and len(code) <= MAX_KEY
            start = code if is_inside else after(code[:MAX_KEY])
        if maximum is not None:
            code = self._end(maximum)
            is_inside = inclusive[1] or len(code) > MAX_KEY
            end = code[:MAX_KEY] if is_inside else before(code)
        if start is None or end is None or start > end:
            return None
        return start, end

    def _prefix_bounds(self, prefix: Any) -> Optional[tuple[bytes, bytes]]:
        """The bytes of the least and greatest key with a prefix, if it may have keys."""
        code = self._encode(prefix)
        return (code, code.ljust(MAX_KEY, b"\xff")) if len(code) <= MAX_KEY else None

    # ---- Order ----

    def irange(
        self,
        minimum: Optional[Bound[K]] = None,
        maximum: Optional[Bound[K]] = None,
        inclusive: tuple[bool, bool] = (True, True),
        reverse: bool = False,
    ) -> Iterator[K]:
        """The keys from one to another, or from the end of that range downwards."""
        return self._list(KEYS, self._bounds(minimum, maximum, inclusive), reverse)

    def irange_items(
        self,
        minimum: Optional[Bound[K]] = None,
        maximum: Optional[Bound[K]] = None,
        inclusive: tuple[bool, bool] = (True, True),
        reverse: bool = False,
    ) -> Iterator[tuple[K, int]]:
        """The pairs whose keys `irange` lists."""
        return self._list(ITEMS, self._bounds(minimum, maximum, inclusive), reverse)

    def count_range(
        self,
        minimum: Optional[Bound[K]] = None,
        maximum: Optional[Bound[K]] = None,
        inclusive: tuple[bool, bool] = (True, True),
    ) -> int:
        """How many keys `irange` lists: few of them are read."""
        bounds = self._bounds(minimum, maximum, inclusive)
        return 0 if bounds is None else self._count(*bounds)

    def values_range(
        self,
        minimum: Optional[Bound[K]] = None,
        maximum: Optional[Bound[K]] = None,
        inclusive: tuple[bool, bool] = (True, True),
    ) -> list[int]:
        """The values of the keys that `irange` lists, in that order, by one scan that
        copies no key."""
        bounds = self._bounds(minimum, maximum, inclusive)
        return [] if bounds is None else self._values(*bounds)

    def prefix_items(
        self, prefix: Bound[K], reverse: bool = False
    ) -> Iterator[tuple[K, int]]:
        """The pairs whose keys begin with the prefix."""
        return self._list(ITEMS, self._prefix_bounds(prefix), reverse)

    def count_prefix(self, prefix: Bound[K]) -> int:
        """How many keys begin with the prefix: few of them are read."""
        bounds = self._prefix_bounds(prefix)
        return 0 if bounds is None else self._count(*bounds)

    def irange_pop(
        self,
        minimum: Optional[Bound[K]] = None,
        maximum: Optional[Bound[K]] = None,
        inclusive: tuple[bool, bool] = (True, True),
        reverse: bool = False,
    ) -> tuple[K, int]:
        """Deletes the first pair whose key `irange` lists, and returns it. No two calls
        get the same pair."""
        bounds = self._bounds(minimum, maximum, inclusive)
        pair = None if bounds is None else self._pop(*bounds, reverse)
        if pair is None:
            raise KeyError("irange_pop(): there is no such pair")
        return pair

    def irange_clear(
        self,
        minimum: Optional[Bound[K]] = None,
        maximum: Optional[Bound[K]] = None,
        inclusive: tuple[bool, bool] = (True, True),
    ) -> None:
        """Deletes the keys that `irange` lists."""
        bounds = self._bounds(minimum, maximum, inclusive)
        if bounds is not None:
            self._clear(*bounds)

    def floor_item(
        self, key: Bound[K], inclusive: bool = True
    ) -> Optional[tuple[K, int]]:
        """The last pair whose key is at most this one, or below it."""
        return next(self.irange_items(None, key, (True, inclusive), True), None)

    def ceiling_item(
        self, key: Bound[K], inclusive: bool = True
    ) -> Optional[tuple[K, int]]:
        """The first pair whose key is at least this one, or above it."""
        return next(self.irange_items(key, None, (inclusive, True)), None)

    def peekitem(self, index: int = -1) -> tuple[K, int]:
        """The pair of this place. It takes a walk from the nearer end that is named:
        from the first pair on, or for a negative place from the last one back."""
        pairs: Iterator[tuple[K, int]] = self._from_place(ITEMS, index)
        for pair in pairs:
            return pair
        raise IndexError("list index out of range")

    def _from_place(self, what: int, index: int) -> Iterator[Any]:
        """What is listed from a place on, or for a negative one from there back."""
        place = int_of(index)
        at = min(-1 - place if place < 0 else place, maxsize)
        return islice(self._list(what, ALL, place < 0), at, None)

    def popitem(self, index: int = -1) -> tuple[K, int]:
        """Deletes the pair of this place, and returns it."""
        while True:
            bounds: Optional[tuple[bytes, bytes]] = ALL
            if index not in (0, -1):
                code = next(self._from_place(CODES, index), None)
                bounds = None if code is None else (code, code)
            pair = None if bounds is None else self._pop(*bounds, index < 0)
            if pair is not None:
                return pair
            if bounds is None or bounds is ALL:
                raise KeyError("popitem(): there is no such pair")

    def islice(
        self,
        start: Optional[int] = None,
        stop: Optional[int] = None,
        reverse: bool = False,
    ) -> Iterator[K]:
        """The keys from one place up to another. It takes a walk."""
        first, last, _ = slice(start, stop).indices(len(self))
        keys = islice(self, first, last)
        return reversed(list(keys)) if reverse else keys

    def __iter__(self) -> Iterator[K]:
        return self._list(KEYS, ALL)

    def __reversed__(self) -> Iterator[K]:
        return self._list(KEYS, ALL, True)

    def keys(self) -> SortedKeysView[K]:
        """A view of the keys."""
        return SortedKeysView(self)

    def items(self) -> SortedItemsView[K]:
        """A view of the pairs."""
        return SortedItemsView(self)

    def values(self) -> SortedValuesView:
        """A view of the values, in the order of their keys."""
        return SortedValuesView(self)

    def stats(self) -> Stats:
        """How often tries were refused since the map was made, also before it grew or
        was cleared. The numbers are of no single moment while other threads change
        it."""
        return Stats(*self._stats())

    # ---- All keys ----

    def __bool__(self) -> bool:
        return next(iter(self), None) is not None

    def update(self, other: Any = (), /, **more: Any) -> None:
        """Sets keys to the values that a mapping or pairs give them, and those named.
        Of a mapping it asks for pairs: a key may be deleted before its value is asked
        for."""
        if isinstance(other, Mapping):
            pairs = iter(other.items())
        elif hasattr(other, "keys"):
            pairs = ((key, other[key]) for key in other.keys())
        else:
            pairs = iter(other)
        for key, value in chain(pairs, more.items()):
            self[key] = value

    def copy(self: Self) -> Self:
        """A map of its own with the same pairs. One of a subclass has the same
        attributes, and isn't made by its __init__."""
        return _made(type(self), self._options, vars(self), self)

    __copy__ = copy

    @overload
    @classmethod
    def fromkeys(
        cls: type[Self],
        iterable: Iterable[Any],
        value: int,
        *,
        capacity: Optional[int] = ...,
        longest: int = ...,
        threads: int = ...,
        grow: bool = ...,
    ) -> Self: ...

    @overload
    @classmethod
    def fromkeys(
        cls,
        iterable: Iterable[N],
        value: int,
        *,
        keys: Union[type[N], Codec],
        capacity: Optional[int] = ...,
        longest: int = ...,
        threads: int = ...,
        grow: bool = ...,
    ) -> SortedMap[N]: ...

    @classmethod
    def fromkeys(
        cls, iterable: Iterable[Any], value: Any = None, **options: Any
    ) -> Any:
        """A map that gives each key the value."""
        made = cls(**options)
        for key in iterable:
            made[key] = value
        return made

    def __or__(self: Self, other: object) -> Self:
        if not isinstance(other, Mapping):
            return NotImplemented
        both = self.copy()
        both.update(other)
        return both

    def __ror__(self: Self, other: object) -> Self:
        if not isinstance(other, Mapping):
            return NotImplemented
        both = _made(type(self), self._options, vars(self))
        both.update(other)
        both.update(self)
        return both

    def __ior__(self: Self, other: Any) -> Self:  # type: ignore[misc]
        self.update(other)
        return self

    def __repr__(self) -> str:
        pairs = ", ".join(f"{key!r}: {value!r}" for key, value in self.items())
        keys = self._options["keys"]
        name = keys.__name__ if isinstance(keys, type) else repr(keys)
        kind = "" if keys is str else f", keys={name}"
        return f"{type(self).__name__}({{{pairs}}}{kind})"

    def __reduce__(self) -> tuple[Any, ...]:
        # From Python 3.11 on each object has a __getstate__.
        state = self.__getstate__() if hasattr(self, "__getstate__") else vars(self)
        return _made, (type(self), self._options), state, None, iter(self.items())


def _made(
    kind: type[Self], options: dict[str, Any], attributes: Any = (), data: Any = ()
) -> Self:
    """A map that was not made by the __init__ of a subclass."""
    made = kind.__new__(kind)
    vars(made).update(attributes)
    SortedMap.__init__(made, data, **options)
    return made


def _rebuilt(kind: Any, data: Any, options: dict[str, Any]) -> Any:
    """What a pickle of a version before 3.1 calls."""
    return kind(data, **options)


class _SortedView(Collection[T]):
    """What the views add to those of the standard library: both orders, and places,
    each found by a walk."""

    _mapping: SortedMap[Any]
    _what: int

    def __iter__(self) -> Iterator[T]:
        return self._mapping._list(self._what, ALL)

    def __reversed__(self) -> Iterator[T]:
        return self._mapping._list(self._what, ALL, True)

    @overload
    def __getitem__(self, index: int) -> T: ...

    @overload
    def __getitem__(self, index: slice) -> list[T]: ...

    def __getitem__(self, index: Any) -> Any:
        if isinstance(index, slice):
            return list(self)[index]
        pair = self._mapping.peekitem(index)
        return pair if self._what == ITEMS else pair[self._what]

    def index(self, value: object) -> int:
        """The first place of a value."""
        for at, it in enumerate(self):
            if it == value:
                return at
        raise ValueError(f"{value!r} is not in the view")

    def count(self, value: object) -> int:
        """At how many places a value is."""
        return sum(it == value for it in self)


class SortedKeysView(_SortedView[K], KeysView[K]):
    """The keys of a map, in order."""

    _what = KEYS


class SortedItemsView(_SortedView[tuple[K, int]], ItemsView[K, int]):
    """The pairs of a map, in the order of their keys."""

    _what = ITEMS


class SortedValuesView(_SortedView[int], ValuesView[int]):
    """The values of a map, in the order of their keys."""

    _what = VALUES

    def __contains__(self, value: object) -> bool:
        return any(it is value or it == value for it in self)
