"""SortedMap beside dict by random calls, what it refuses, and growth."""

import copy
import os
import pickle
import random
import subprocess
import sys
import unittest
import weakref
from pathlib import Path

import hot
from hot import Codec, FullError, LoadError, SortedMap

from apart import run_apart

LETTERS = {bytes: [0, 1, 97, 254, 255], str: ["a", "b", "é", "\U0001f600", "\0"]}


def inside(key, minimum, maximum, inclusive):
    """Whether a key is in a range, as sorted lists have it."""
    if minimum is not None and (key < minimum or key == minimum and not inclusive[0]):
        return False
    return not (
        maximum is not None and (key > maximum or key == maximum and not inclusive[1])
    )


class Model:
    """A SortedMap and a dict that have the same calls made."""

    def __init__(self, case, kind, seed):
        self.case, self.kind, self.draw = case, kind, random.Random(seed)
        self.mine, self.other = SortedMap(keys=kind, threads=1), {}

    def key(self):
        draw = self.draw
        if self.kind is int:
            small = draw.randrange(-40, 40)
            return draw.choice([small, small, 2**63 - 1, -(2**63)])
        length = draw.choice([0, 1, 2, 3, 4, 40, 240 if self.kind is bytes else 60])
        parts = draw.choices(LETTERS[self.kind], k=length)
        return bytes(parts) if self.kind is bytes else "".join(parts)

    def change(self):
        key, value, what = self.key(), self.draw.randrange(5), self.draw.randrange(5)
        mine, other = self.mine, self.other
        if what < 2:
            mine[key] = other[key] = value
        elif what == 2:
            self.case.assertEqual(mine.pop(key, None), other.pop(key, None))
        elif what == 3:
            self.case.assertEqual(
                mine.setdefault(key, value), other.setdefault(key, value)
            )
        else:
            had = other.get(key)
            self.case.assertEqual(mine.exchange(key, value, 7), had == value)
            if had == value:
                other[key] = 7
            self.case.assertEqual(mine.remove_if(key, 3), other.get(key) == 3)
            if other.get(key) == 3:
                del other[key]
        self.case.assertEqual(len(mine), len(other))

    def look(self):
        equal, mine, other = self.case.assertEqual, self.mine, self.other
        keys, one, two = sorted(other), self.key(), self.key()
        ends = self.draw.choice([(one, two), (None, two), (one, None), (None, None)])
        both = (self.draw.random() < 0.5, self.draw.random() < 0.5)
        wanted = [key for key in keys if inside(key, *ends, both)]
        equal(list(mine.irange(*ends, both)), wanted)
        equal(list(mine.irange(*ends, both, reverse=True)), wanted[::-1])
        equal(mine.count_range(*ends, both), len(wanted))
        equal(mine.values_range(*ends, both), [other[key] for key in wanted])
        wanted = [(key, other[key]) for key in keys if key <= one]
        equal(mine.floor_item(one), wanted[-1] if wanted else None)
        wanted = [(key, other[key]) for key in keys if key > one]
        equal(mine.ceiling_item(one, inclusive=False), wanted[0] if wanted else None)
        equal(
            mine.get_many([one, two, one]), [other.get(key) for key in (one, two, one)]
        )
        if self.kind is not int:
            wanted = [(key, other[key]) for key in keys if key.startswith(one[:2])]
            equal(list(mine.prefix_items(one[:2])), wanted)
            equal(mine.count_prefix(one[:2]), len(wanted))
            equal(list(mine.prefix_items(one[:2], reverse=True)), wanted[::-1])

    def end(self):
        equal, mine, other = self.case.assertEqual, self.mine, self.other
        keys = sorted(other)
        equal(list(mine.keys()), keys)
        equal(list(mine.items()), [(key, other[key]) for key in keys])
        equal(list(mine.values()), [other[key] for key in keys])
        equal(mine, other)
        for start, stop in ((None, None), (2, -2), (-3, None), (5, 2)):
            equal(list(mine.islice(start, stop)), keys[start:stop])
            equal(list(mine.islice(start, stop, reverse=True)), keys[start:stop][::-1])
        for at in range(-len(keys), len(keys)):
            equal(mine.peekitem(at), (keys[at], other[keys[at]]))
        while keys:
            key = keys.pop(self.draw.choice([0, -1, len(keys) // 2]))
            equal(mine.popitem(sorted(other).index(key)), (key, other.pop(key)))
        self.case.assertFalse(mine)
        self.case.assertRaises(KeyError, mine.popitem)


class Random(unittest.TestCase):
    def test_beside_dict(self):
        for kind in (bytes, str, int):
            with self.subTest(keys=kind):
                model = Model(self, kind, 7)
                for turn in range(1500):
                    model.change()
                    if turn % 4 == 0:
                        model.look()
                model.end()

    def test_grows(self):
        """Beyond what it began with, with keys of each size."""
        draw = random.Random(3)
        mine, other = SortedMap(keys=bytes), {}
        for number in range(6000):
            key = draw.randbytes(draw.choice([3, 8, 20, 50, 80, 200]))
            mine[key] = other[key] = number
        self.assertEqual(len(mine), len(other))
        self.assertEqual(list(mine.items()), sorted(other.items()))
        self.assertEqual(list(reversed(mine.items())), sorted(other.items())[::-1])
        keys = draw.sample(sorted(other), 3000) + [b"absent", b"x" * 241]
        self.assertEqual(mine.get_many(keys), [other.get(key) for key in keys])

    def test_grows_by_nodes(self):
        """With keys of which few share a node: a number, and one bit."""
        keys = run_apart("""
            import random
            from hot import SortedMap

            draw, mine, other = random.Random(4), SortedMap(keys=int), set()
            for _ in range(40000):
                key = draw.randrange(5000) << 32 | 1 << draw.randrange(32)
                mine[key] = 1
                other.add(key)
            assert list(mine) == sorted(other)
            print(len(mine))
        """)
        self.assertGreater(int(keys), 30000)

    def test_pages(self):
        """Keys of each length, ASCII and else, by pages that end around each number."""
        plain = [f"{at:04}{'k' * (at * 7 % 237)}" for at in range(700)]
        others = ["", "0000\x7f", "0016\u20ac", "0336\xe9", "0500\ud800", "\U0001f600"]
        for other in others:
            for count in (0, 1, 16, 17, 80, 81, 336, 337, 700):
                with self.subTest(other=other, count=count):
                    keys = sorted({*plain[:count], other})
                    pairs = [(key, at) for at, key in enumerate(keys)]
                    mine = SortedMap(pairs)
                    self.assertEqual([*mine], keys)
                    self.assertEqual([*reversed(mine)], keys[::-1])
                    self.assertEqual([*mine.items()], pairs)
                    self.assertEqual([*mine.irange_items(reverse=True)], pairs[::-1])
                    self.assertEqual([*mine.values()], [*range(len(keys))])

    def test_iterator_while_it_grows(self):
        mine = SortedMap({"b": 1, "c": 2})
        keys = iter(mine)
        self.assertEqual(next(keys), "b")
        mine.update((f"d{number:05}", number) for number in range(3000))
        self.assertGreaterEqual({*keys}, {"c"})


class Words(unittest.TestCase):
    def test_names(self):
        """Words of calls may be named, and are as many as they take."""
        mine = SortedMap({"a": 1})
        self.assertEqual(mine.get("b", default=2), mine.get(default=2, key="b"))
        self.assertEqual(
            (mine.get(key="a"), mine.get("b"), mine.pop("b", 3)), (1, None, 3)
        )
        self.assertEqual((mine.setdefault("", default=5), mine.pop(key="")), (5, 5))
        self.assertTrue(mine.exchange("a", value=2, expected=1))
        self.assertFalse(mine.remove_if(expected=1, key="a"))
        self.assertEqual((mine.add("a", number=3), mine.fetch_add(key="c")), (2, 0))
        for call, words, names in [
            (mine.get, (), {}),
            (mine.get, (), {"default": 1}),
            (mine.get, ("a", 1, 2), {}),
            (mine.get, ("a",), {"key": "a"}),
            (mine.get, ("a",), {"other": 1}),
            (mine.get, ("a",), {"key\0": 1}),
            (mine.pop, (), {}),
            (mine.setdefault, ("a", 1), {"default": 1}),
            (mine.exchange, ("a", 2), {}),
            (mine.exchange, ("a", 2), {"expected": 3}),
            (mine.remove_if, ("a",), {"number": 3}),
            (mine.fetch_add, (), {"number": 3}),
        ]:
            self.assertRaises(TypeError, call, *words, **names)
        self.assertEqual(mine, {"a": 5, "c": 1})


class Refusals(unittest.TestCase):
    def test_values(self):
        mine = SortedMap({"a": 1})
        for value, why in (
            (-1, OverflowError),
            (2**64, OverflowError),
            ("1", TypeError),
            (None, TypeError),
            (1.0, TypeError),
        ):
            with self.assertRaises(why):
                mine["b"] = value
            with self.assertRaises(why):
                mine.setdefault("b", value)
            with self.assertRaises(why):
                mine.exchange("a", 1, value)
            with self.assertRaises(why):
                mine.exchange("a", value, 1)
        for add in (mine.add, mine.fetch_add):
            self.assertRaises(OverflowError, add, "a", -2)
            self.assertRaises(TypeError, add, "a", 1.0)
            self.assertRaises(TypeError, add, b"a")
        self.assertRaises(OverflowError, mine.fetch_add, "b", -1)
        self.assertEqual(mine, {"a": 1})
        mine["b"] = 2**64 - 1
        self.assertEqual(mine["b"], 2**64 - 1)

    def test_keys(self):
        mine = SortedMap({"a": 1})
        for key in (b"a", 1, None, ("a",)):
            self.assertNotIn(key, mine)
            self.assertIsNone(mine.get(key))
            self.assertEqual(mine.get_many([key, "a"]), [None, 1])
            self.assertRaises(KeyError, mine.__getitem__, key)
            self.assertRaises(KeyError, mine.__delitem__, key)
            self.assertRaises(TypeError, mine.__setitem__, key, 1)
            self.assertRaises(TypeError, mine.exchange, key, 1, 2)
        self.assertRaises(TypeError, mine.irange, 1)
        self.assertRaises(TypeError, mine.prefix_items, b"a")
        self.assertRaises(TypeError, mine.__getitem__, [])
        self.assertRaises(TypeError, SortedMap, keys=float)
        numbers = SortedMap(keys=int)
        self.assertNotIn(2**63, numbers)
        self.assertRaises(OverflowError, numbers.__setitem__, 2**63, 1)

    def test_beyond_64_bits(self):
        """Ends of ranges and places may be any ints."""
        mine = SortedMap({1: 1, 2: 2}, keys=int)
        for ends in (0, 2**70), (-(2**70), None), (-(2**63) - 1, 2**63):
            self.assertEqual([*mine.irange(*ends, (False, False))], [1, 2])
        self.assertEqual([*mine.irange(2**63), *mine.irange(None, -(2**70))], [])
        self.assertEqual(mine.floor_item(2**63, inclusive=False), (2, 2))
        for place in 2**63, -(2**63) - 2:
            self.assertRaises(IndexError, mine.peekitem, place)
            self.assertRaises(IndexError, mine.keys().__getitem__, place)
            self.assertRaises(KeyError, mine.popitem, place)
        self.assertRaises(TypeError, mine.keys().__getitem__, 1.0)
        with self.assertRaises(OverflowError):
            SortedMap(keys=Codec.of("u8")).irange(256)

    def test_long_keys(self):
        mine = SortedMap({"x" * 240: 1})
        self.assertNotIn("x" * 241, mine)
        self.assertEqual(mine.get_many(["x" * 241, "x" * 240]), [None, 1])
        self.assertRaises(ValueError, mine.__setitem__, "x" * 241, 1)
        self.assertRaises(KeyError, mine.pop, "x" * 241)
        self.assertRaises(KeyError, mine.add, "x" * 241)
        self.assertRaises(ValueError, mine.fetch_add, "x" * 241)
        self.assertEqual(list(mine.irange("x" * 241)), [])
        self.assertEqual(list(mine.irange(None, "x" * 241, (True, False))), ["x" * 240])
        self.assertEqual(list(mine.prefix_items("x" * 241)), [])
        self.assertEqual(mine.count_prefix("x" * 241), 0)

    def test_full(self):
        mine = SortedMap(capacity=0, longest=8, grow=False)
        with self.assertRaises(FullError):
            mine.update((str(number), number) for number in range(10000))
        self.assertEqual(list(mine), sorted(str(number) for number in range(len(mine))))
        self.assertGreater(len(mine), 500)
        told = mine.stats()
        self.assertGreater(told.full, 0)
        mine.irange_clear()
        self.assertFalse(mine)
        mine.clear()
        mine["a"] = 1
        self.assertEqual((mine, mine.stats()), ({"a": 1}, told))

    def test_stats(self):
        """No index of unknown size is too small, and no other thread was in the way."""
        mine = SortedMap(longest=8)
        self.assertEqual(mine.stats(), (0, 0, 0))
        mine.update((str(number), number) for number in range(5000))
        self.assertEqual(mine.stats(), (0, 0, 0))

    def test_options(self):
        """The one that is refused is named."""
        for name, value in [
            ("threads", 0),
            ("threads", 1025),
            ("capacity", -1),
            ("capacity", 2**64),
            ("longest", 241),
        ]:
            with self.assertRaisesRegex(ValueError, f"^{name} "):
                SortedMap(**{"capacity": 1, name: value})


SCARCE = """
import resource
from hot import SortedMap

most = resource.getrlimit(resource.RLIMIT_AS)[1]
size = int(open("/proc/self/statm").read().split()[0]) * resource.getpagesize()
resource.setrlimit(resource.RLIMIT_AS, (size + 2**24, most))
mine, count = SortedMap(keys=int), 0
try:
    while count < 10**7:
        mine[count] = count
        count += 1
except MemoryError:
    resource.setrlimit(resource.RLIMIT_AS, (most, most))
assert 1000 < count < 10**7 and list(mine.items()) == [(at, at) for at in range(count)]
mine.clear()
mine.update((at, at) for at in range(2 * count))
assert len(mine) == 2 * count
"""


class Memory(unittest.TestCase):
    @unittest.skipUnless(sys.platform == "linux", "it reads /proc")
    @unittest.skipIf("ASAN_OPTIONS" in os.environ, "a sanitizer ends without memory")
    def test_scarce(self):
        """Where there are few addresses for a map, nothing is lost."""
        subprocess.run([sys.executable, "-c", SCARCE], check=True)


class Named(SortedMap):
    """A map whose __init__ is its own, and which has an attribute."""

    def __init__(self, name):
        super().__init__(keys=int, capacity=9, grow=False)
        self.name = name


class Whole(unittest.TestCase):
    """Calls that make, copy and show whole maps."""

    def test_versions(self):
        self.assertEqual(hot.library_version(), hot.__version__)

    def test_copies_of_subclass(self):
        mine = Named(["a name"])
        mine[1] = 2
        made = [copy.copy(mine), mine.copy(), mine | {3: 4}, {3: 4} | mine]
        made += [copy.deepcopy(mine)]
        made += [pickle.loads(pickle.dumps(mine, way)) for way in range(6)]
        for other in made:
            self.assertIs(type(other), Named)
            self.assertEqual((other.name, other[1]), (["a name"], 2))
            with self.assertRaises(FullError):
                other.update((at, at) for at in range(20000))
        self.assertIs(made[0].name, mine.name)
        self.assertIsNot(made[4].name, mine.name)

    def test_pickle_of_earlier_version(self):
        with_pair = (
            b"\x80\x04\x95k\x00\x00\x00\x00\x00\x00\x00\x8c\rhot.sortedmap\x94\x8c\x08"
            b"_rebuilt\x94\x93\x94h\x00\x8c\tSortedMap\x94\x93\x94}\x94K\x01K\x02s}\x94(\x8c"
            b"\x04keys\x94\x8c\x08builtins\x94\x8c\x03int\x94\x93\x94\x8c\x07threads\x94K\x08"
            b"\x8c\x04grow\x94\x88u\x87\x94R\x94."
        )
        self.assertEqual(repr(pickle.loads(with_pair)), "SortedMap({1: 2}, keys=int)")

    def test_copies(self):
        mine = SortedMap({b"b": 2, b"a": 1}, keys=bytes)
        for other in (mine.copy(), copy.copy(mine), pickle.loads(pickle.dumps(mine))):
            self.assertEqual(list(other.items()), [(b"a", 1), (b"b", 2)])
            other[b"c"] = 3
            self.assertNotIn(b"c", mine)
        self.assertEqual(mine | {b"c": 3}, {b"a": 1, b"b": 2, b"c": 3})
        self.assertEqual({b"a": 5} | mine, {b"a": 1, b"b": 2})
        mine |= {b"a": 7}
        self.assertEqual(mine[b"a"], 7)

    def test_copies_of_fixed(self):
        """They have room for the same keys, and for no more."""
        pairs = [(str(at), at) for at in range(5000)]
        mine = SortedMap(pairs, capacity=5000, grow=False)
        pickled = pickle.loads(pickle.dumps(mine))
        for other in (mine.copy(), pickled, mine | {}, {} | mine):
            self.assertEqual(other, mine)
            with self.assertRaises(FullError):
                other.update((f"more {at}", at) for at in range(20000))

    def assert_refuses(self, number, error, pairs, longest=None) -> None:
        """Refuses the pair of this number, in a map for few keys if a length is given."""
        size = (
            {} if longest is None else {"capacity": 7, "longest": longest, "threads": 1}
        )
        with self.assertRaises(error) as raised:
            SortedMap(pairs, sorted=True, grow=longest is None, **size)
        self.assertEqual(raised.exception.number, number)
        self.assertIn(f"pair {number}: ", str(raised.exception))

    def test_loads(self) -> None:
        pairs = [(f"{at:05}", at) for at in range(3000)]
        for data in pairs, dict(pairs), iter(pairs):
            m = SortedMap(data, sorted=True)
            self.assertEqual([*m.items()], pairs)
        self.assertEqual((m["00007"], m.setdefault("1", 2), len(m)), (7, 2, 3001))
        self.assertEqual(m.pop("00000"), 0)
        self.assertEqual(SortedMap(sorted=True), {})
        lengths = SortedMap({"": 0, "a" * 9: 1, "b" * 240: 2}, sorted=True, longest=1)
        self.assertEqual([*lengths.values()], [0, 1, 2])
        for wrong in [("a", 1), ("a", 2)], [("b", 1), ("a", 2)]:
            with self.assertRaisesRegex(ValueError, "^pair 1: the key is not above"):
                SortedMap(wrong, sorted=True)
        self.assert_refuses(1, LoadError, [("a", 1), ("a", 2)])
        self.assert_refuses(2, LoadError, [("a", 1), ("b", 1), ("c" * 241, 1)])
        self.assert_refuses(1, LoadError, [("a", 1), ("b" * 9, 1)], 8)
        self.assert_refuses(10, FullError, pairs, 8)
        for wrong, error in [
            ([("a" * 241, 1)], ValueError),
            ([("a",)], ValueError),
            ([("a", -1)], OverflowError),
            ([(1, 1)], TypeError),
            ([1], TypeError),
        ]:
            with self.assertRaises(error):
                SortedMap(wrong, sorted=True)  # type: ignore[arg-type]
        full = SortedMap(keys=int, capacity=0, threads=1, grow=False)
        with self.assertRaises(FullError) as raised:
            full.update((at, at) for at in range(3000))
        self.assertIsNone(raised.exception.number)
        with self.assertRaises(TypeError):
            m._load_map({})  # type: ignore[arg-type]

    def test_loads_map(self) -> None:
        m = SortedMap(((f"{at:05}" * (1 + at % 40), at) for at in range(3000)))
        copy = SortedMap(m, threads=2)
        self.assertEqual([*copy.items()], [*m.items()])
        copy["a"] = 1
        self.assertEqual((len(copy), len(m), "a" in m), (3001, 3000, False))
        numbers = SortedMap({-1: 1, 1: 2}, keys=int)
        self.assertEqual([*SortedMap(numbers, keys=int).items()], [(-1, 1), (1, 2)])
        names = SortedMap({b"b": 1, b"a": 2}, keys=bytes)
        with self.assertRaises(TypeError):
            SortedMap(names)
        many = SortedMap(((at, at) for at in range(3000)), keys=int)
        with self.assertRaises(FullError):
            SortedMap(many, keys=int, grow=False)

    def test_loads_no_pretender(self) -> None:
        class Pretender:
            """What says that it is a map, and has bytes where a map has its store."""

            __slots__ = ("first", "second")
            __class__ = SortedMap  # type: ignore[assignment]
            _options = {"keys": str}

            def items(self) -> list[tuple[str, int]]:
                return [("a", 1)]

            def keys(self) -> list[str]:
                return ["a"]

            def __getitem__(self, key: str) -> int:
                return 1

        m, pretender = SortedMap({"a": 1}), Pretender()
        pretender.first = pretender.second = bytes(4000)
        for data in weakref.proxy(m), pretender:
            self.assertIsInstance(data, SortedMap)
            self.assertEqual([*SortedMap(data).items()], [("a", 1)])
            self.assertEqual([*SortedMap(data, sorted=True).items()], [("a", 1)])
            with self.assertRaises(TypeError):
                m._load_map(data)
        self.assertFalse(any(pretender.first))
        for other in 1, Pretender, SortedMap, type(iter(m)):
            with self.assertRaises(TypeError):
                m._load_map(other)  # type: ignore[arg-type]

        class Own(SortedMap[str]):
            pass

        self.assertEqual([*SortedMap(Own(m)).items()], [("a", 1)])
        self.assertEqual([*m.items()], [("a", 1)])

    def test_repr(self):
        self.assertEqual(
            repr(SortedMap({"b": 2, "a": 1})), "SortedMap({'a': 1, 'b': 2})"
        )
        self.assertEqual(repr(SortedMap(keys=int)), "SortedMap({}, keys=int)")

    def test_views(self):
        mine = SortedMap({"b": 2, "a": 1, "c": 2})
        keys, values, items = mine.keys(), mine.values(), mine.items()
        self.assertEqual([*keys, *values], ["a", "b", "c", 1, 2, 2])
        self.assertEqual([*reversed(keys), *reversed(values)], ["c", "b", "a", 2, 2, 1])
        self.assertEqual((keys[0], values[-1], items[1]), ("a", 2, ("b", 2)))
        self.assertEqual((keys[1:], items[::-2]), (["b", "c"], [("c", 2), ("a", 1)]))
        self.assertEqual((keys.index("c"), values.count(2), len(values)), (2, 2, 3))
        self.assertEqual((keys & {"a", "z"}, keys | {"z"}), ({"a"}, {*"abcz"}))
        self.assertIn(("a", 1), items)
        self.assertNotIn(("a", 2), items)
        self.assertRaises(IndexError, keys.__getitem__, 3)
        self.assertRaises(ValueError, values.index, 9)

    def test_readme(self):
        text = (Path(__file__).parent.parent / "README.md").read_text()
        exec(text.partition("```python")[2].partition("```")[0], {})

    def test_codec(self):
        """Keys of two parts, in their order."""
        codec = Codec(
            lambda key: key[0].encode() + b"\0" + key[1].to_bytes(4, "big"),
            lambda key: (key[:-5].decode(), int.from_bytes(key[-4:], "big")),
        )
        keys = [("a", 2), ("a", 256), ("aa", 1), ("b", 0)]
        mine = SortedMap.fromkeys(keys[::-1], 1, keys=codec)
        self.assertEqual(list(mine), keys)
        self.assertEqual(
            list(mine.irange(("a", 3), ("b", 0), (True, False))), keys[1:3]
        )


if __name__ == "__main__":
    unittest.main()
