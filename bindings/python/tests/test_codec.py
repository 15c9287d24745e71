"""Keys from values: the examples that all languages share, and maps of such keys."""

import math
import pickle
import random
import unittest
from decimal import Decimal
from fractions import Fraction
from pathlib import Path

from hot import Codec, SortedMap, key_of, values_of

EXAMPLES = Path(__file__).parents[1] / "keys.txt"


def value_of(kind, text):
    """The value of an example."""
    if kind == "bool":
        return text == "true"
    if kind == "text":
        return text[1:-1].replace("\\0", "\0")
    return float(text) if kind.startswith("f") else int(text)


class Examples(unittest.TestCase):
    def test_each(self):
        """What is written, and read again; and that lines of the same types rise."""
        lines = [line.split() for line in EXAMPLES.read_text().splitlines()]
        count, last = 0, ([], b"")
        for types, texts, code in (line for line in lines if line[0] != "#"):
            kinds, key = types.split(","), bytes.fromhex(code)
            values = tuple(map(value_of, kinds, texts.split(",")))
            whole = values[0] if len(kinds) == 1 else values
            self.assertEqual(Codec.of(*kinds).encode(whole), key)
            read = values_of(key, *kinds)
            self.assertEqual(Codec.of(*kinds, "u8").encode(read), key)
            self.assertEqual([*map(type, read)], [*map(type, values)])
            for wrong in (key[:-1], key + b"0"):
                self.assertRaises(ValueError, values_of, wrong, *kinds)
            is_zero = types[0] == "f" and values == (0.0,)
            self.assertTrue(types != last[0] or last[1] < key or is_zero)
            last, count = (types, key), count + 1
        self.assertGreater(count, 80)


class Number:
    """What raises as it is asked which it is."""

    def __init__(self, error):
        self.error = error

    def __index__(self):
        raise self.error


class Values(unittest.TestCase):
    def test_types(self):
        key = key_of("oak", -2, 1.5, True, b"a\0")
        kinds = (str, int, float, bool, bytes)
        self.assertEqual(values_of(key, *kinds), ("oak", -2, 1.5, True, b"a\0"))
        self.assertEqual(key_of(), b"")
        self.assertTrue(key.startswith(key_of("oak", -2)))
        self.assertTrue(math.isnan(values_of(key_of(-math.nan), float)[0]))
        self.assertEqual(Codec.of("f32").encode(-1e-60), Codec.of("f32").encode(0))

    def test_what_is_no_value(self):
        for kind, value, error in [
            ("u8", 256, OverflowError),
            ("u8", -1, OverflowError),
            ("i8", 128, OverflowError),
            (int, 2**63, OverflowError),
            (int, 1.0, TypeError),
            (int, "1", TypeError),
            (float, "1", TypeError),
            (float, 10**400, OverflowError),
            ("f32", 1e39, OverflowError),
            (bool, 1, TypeError),
            (str, b"a", TypeError),
            (bytes, "a", TypeError),
        ]:
            codec = Codec.of(kind)
            self.assertRaises(error, codec.encode, value)
            self.assertNotIn(value, SortedMap(keys=codec))
        self.assertRaises(
            ZeroDivisionError, Codec.of(int).encode, Number(ZeroDivisionError())
        )
        for key in ("a", ["a", 1], ("a", 1, 2), (1,)):
            self.assertRaises(TypeError, Codec.of(str, int).encode, key)
        for kinds in ([complex], ["u128"], [None]):
            self.assertRaises(TypeError, Codec.of, *kinds)
        self.assertRaises(TypeError, key_of, None)

    def test_long(self):
        """Keys that are longer than a map's have all their bytes, too."""
        for text in ("x" * 238, "x" * 239, "\0" * 120, "é" * 500):
            code = text.encode().replace(b"\0", b"\0\1") + b"\0\0\1\xff"
            self.assertEqual(Codec.of(str, "u16").encode((text, 511)), code)
            self.assertEqual(Codec.of(str, "u16").decode(code), (text, 511))
            mine = SortedMap(keys=Codec.of(str, "u16"))
            self.assertNotIn((text, 511), mine)
            self.assertEqual([*mine.irange((text,), (text, 511))], [])
            self.assertRaises(ValueError, mine.__setitem__, (text, 511), 1)

    def test_equal_numbers(self):
        """A float's key is that of an int that is equal to it, or rounded to it."""
        mine = SortedMap({1: 1, 2**53 + 1: 2}, keys=Codec.of(float))
        self.assertEqual((mine[1.0], mine[2**53]), (1, 2))
        self.assertNotIn(1.0, SortedMap({1: 1}, keys=int))
        self.assertIn(True, SortedMap({1: 1}, keys=int))

    def test_other_numbers(self):
        """A number of another type is the float that it is equal to, as in a dict."""
        keys = {0.1: 1, 0.5: 2}
        for kind in float, "f32":
            mine = SortedMap(keys, keys=Codec.of(kind))
            for number in Decimal("0.5"), Fraction(1, 2):
                self.assertEqual((mine[number], keys[number]), (2, 2))
            for number in Decimal("0.1"), Fraction(1, 10), Decimal("NaN"):
                self.assertNotIn(number, mine)
                self.assertIsNone(mine.get(number))
                self.assertRaises(ValueError, mine.__setitem__, number, 3)
            self.assertNotIn(0.5j, mine)

    def test_faults(self):
        """What a Codec raises goes on where a key is looked up, as what a key raises."""
        fault = TypeError("a fault")
        for keys, key in [
            (Codec(lambda key: key.encode() + 1, bytes), "a"),
            (Codec(lambda key: "text", bytes), "a"),
            (Codec.of(int), Number(fault)),
            (Codec.of(float), Number(fault)),
            (Codec.of(str, int), ("a", Number(fault))),
        ]:
            mine = SortedMap(keys=keys)
            for call in mine.get, mine.__contains__, mine.__getitem__, mine.pop:
                self.assertRaises(TypeError, call, key)
            for call in (
                mine.__delitem__,
                mine.setdefault,
                lambda it: mine.get_many([it]),
            ):
                self.assertRaises(TypeError, call, key)

    def test_what_is_no_key(self):
        for key, kind in [
            (b"\2", bool),
            (b"\x7f\xff\xff\xff", "f32"),
            (b"\xff\xf8" + b"\0" * 5 + b"\1", float),
            (b"a", str),
            (b"a\0", str),
            (b"a\0\2\0\0", str),
            (b"\xff\0\0", str),
        ]:
            self.assertRaises(ValueError, values_of, key, kind)


class Maps(unittest.TestCase):
    def test_tuples(self):
        """They have the order of tuples, prefixes among them."""
        draw = random.Random(3)
        texts = ["", "a", "a\0", "a\0\1", "b", "é", "\ud800"]
        keys = {
            (draw.choice(texts), draw.randrange(-3, 3), draw.choice([-1.5, 0.0, 2e300]))
            for _ in range(200)
        }
        keys |= {key[:2] for key in keys} | {key[:1] for key in keys}
        mine = SortedMap.fromkeys(keys, 1, keys=Codec.of(str, int, float))
        self.assertEqual(list(mine), sorted(keys))
        with_a = [key for key in sorted(keys) if key[0] == "a"]
        self.assertEqual([key for key, _ in mine.prefix_items(("a",))], with_a)
        self.assertEqual(mine.count_prefix(("a",)), len(with_a))
        after = [key for key in sorted(keys) if ("a", 1) <= key < ("b",)]
        self.assertEqual(list(mine.irange(("a", 1), ("b",), (True, False))), after)

    def test_one_kind(self):
        mine = SortedMap({2: 1, -1: 2, 0.5: 3}, keys=Codec.of(float))
        self.assertEqual(list(mine.items()), [(-1.0, 2), (0.5, 3), (2.0, 1)])

    def test_copies(self):
        codec = Codec.of(int, "u8", str)
        self.assertEqual(repr(codec), "Codec.of(int, 'u8', str)")
        for other in (Codec.of(int, "u8", str), pickle.loads(pickle.dumps(codec))):
            self.assertEqual(other, codec)
        self.assertNotEqual(Codec.of(int, "u16", str), codec)
        mine = SortedMap({(1, 2, "a"): 3}, keys=codec)
        self.assertEqual(repr(mine), f"SortedMap({{(1, 2, 'a'): 3}}, keys={codec!r})")
        for other in (mine.copy(), pickle.loads(pickle.dumps(mine))):
            other[1, 2, "b"] = 4
            self.assertEqual(list(other.items()), [((1, 2, "a"), 3), ((1, 2, "b"), 4)])


class Ranges(unittest.TestCase):
    def test_taken(self):
        mine = SortedMap(((number, number) for number in range(300)), keys=int)
        self.assertEqual(mine.irange_pop(10), (10, 10))
        self.assertEqual(mine.irange_pop(10, 290, (True, False), True), (289, 289))
        self.assertRaises(KeyError, mine.irange_pop, 10, 10)
        mine.irange_clear(20, 280, (False, True))
        left = [*range(10), *range(11, 21), *range(281, 289), *range(290, 300)]
        self.assertEqual(list(mine), left)
        mine.irange_clear()
        self.assertRaises(KeyError, mine.irange_pop)

    def test_codec_that_loses(self):
        """One that gives back other keys than it took, or none: bytes are taken."""
        codec = Codec(str.encode, lambda code: code.decode().upper())
        mine = SortedMap.fromkeys("abcde", 1, keys=codec)
        mine.irange_clear("b", "c")
        self.assertEqual([*mine], ["A", "D", "E"])
        self.assertEqual(mine.irange_pop(), ("A", 1))
        self.assertEqual(mine.popitem(1), ("E", 1))
        self.assertEqual(mine.popitem(), ("D", 1))
        self.assertRaises(KeyError, mine.popitem)
        mine = SortedMap({b"a": 1}, keys=Codec(bytes, lambda code: 1 // 0))
        for pop in mine.irange_pop, mine.popitem:
            self.assertRaises(ZeroDivisionError, pop)
        self.assertEqual(len(mine), 1)


if __name__ == "__main__":
    unittest.main()
