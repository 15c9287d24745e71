"""Keys from values: bytes that have the order of numbers, texts, and tuples of them."""

from __future__ import annotations

from functools import lru_cache
from typing import Any, Callable, NamedTuple, Union

from ._hot import Kinds

# bool, int (of 64 bits), float, str, bytes; or a name: "bool", "u8" to "u64", "i8" to
# "i64", "f32", "f64", "text".
Kind = Union[type, str]


class Codec(NamedTuple):
    """How keys become bytes, whose order is then that of the keys, and back again.
    What the functions raise goes on, also where a map looks a key up."""

    encode: Callable[[Any], bytes]
    decode: Callable[[bytes], Any]

    @staticmethod
    def of(*kinds: Kind) -> Codec:
        """A codec for tuples of values of these kinds, or for the values themselves if
        there is one kind. A tuple may have fewer values, as for a prefix.

        Kinds are bool, int, float, str and bytes; or names of numbers that take less:
        "u8", "u16", "u32", "u64", "i8", "i16", "i32", "f32". An int takes 8 bytes, as
        "i64" does. bindings/keys.txt has the bytes, the same in each language.

        The same kinds give the same codec: a map with it takes another's pairs at once.
        """
        return _codec_of(*kinds)


class _CodecOf(Codec):
    """A codec that can be printed and pickled: `Codec.of` of its kinds."""

    kinds: tuple[Kind, ...]

    def __new__(cls, *kinds: Kind) -> _CodecOf:
        both = Kinds(kinds)
        made = super().__new__(cls, both.encode, both.decode)
        made.kinds = kinds
        return made

    def __repr__(self) -> str:
        names = (it.__name__ if isinstance(it, type) else repr(it) for it in self.kinds)
        return f"Codec.of({', '.join(names)})"

    def __reduce__(self) -> tuple[Any, ...]:
        return Codec.of, self.kinds


_codec_of = lru_cache(maxsize=None)(_CodecOf)


def values_of(key: bytes, *kinds: Kind) -> tuple[Any, ...]:
    """The values of a key that was made from values of these kinds, as in `Codec.of`.
    ValueError, if it is no such key."""
    return Kinds(kinds).values(key)
