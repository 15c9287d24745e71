"""SortedMap beside sortedcontainers' SortedDict: random calls do the same to both. They
need sortedcontainers."""

import random
import unittest
from itertools import islice

from hot import Codec, SortedMap

from test_threads import together

try:
    from sortedcontainers import SortedDict
except ImportError:
    raise unittest.SkipTest("there is no sortedcontainers") from None

PAIRS = Codec(
    lambda key: key[0].to_bytes(2, "big") + key[1].encode(),
    lambda code: (int.from_bytes(code[:2], "big"), code[2:].decode()),
)


def words(draw):
    length = draw.choice([0, 1, 2, 3, 5, 9, 30, 60])
    return "".join(draw.choices("ab\0é\ud800\uffff\U0001f600", k=length))


KEYS = {
    "str": (str, words),
    "bytes": (bytes, lambda draw: words(draw).encode("utf-8", "surrogatepass")),
    "int": (int, lambda draw: draw.randrange(-300, 300) << draw.randrange(50)),
    "pairs": (PAIRS, lambda draw: (draw.randrange(30), str(draw.randrange(99)))),
}


def outcome(call, *words):
    """What a call returns, or which error it raises: a place that is not there may be
    either of two."""
    try:
        return call(*words)
    except LookupError:
        return LookupError
    except ValueError:
        return ValueError


class Both:
    """A SortedMap and a SortedDict, and calls that both understand."""

    def __init__(self, kind, key, seed, **options):
        self.draw, self.draw_key = random.Random(seed), key
        self.mine, self.other = SortedMap(keys=kind, **options), SortedDict()

    def key(self):
        """Every other time one that is there."""
        if self.other and self.draw.random() < 0.5:
            return self.draw.choice(self.other.keys())
        return self.draw_key(self.draw)

    def calls(self):
        draw, key, value = self.draw, self.key(), self.draw.randrange(2**64)
        at = draw.randrange(-len(self.other) - 2, len(self.other) + 2)
        ends = sorted([key, self.key()]) if draw.random() < 0.9 else [key, self.key()]
        span = ends + [(draw.random() < 0.5, draw.random() < 0.5), draw.random() < 0.5]
        pairs = [(self.key(), draw.randrange(2**64)) for _ in range(20)]
        return [
            lambda it: it.__setitem__(key, value),
            lambda it: it.__setitem__(key, value),
            lambda it: it.__delitem__(key),
            lambda it: it.pop(key),
            lambda it: it.pop(key, value),
            lambda it: it.get(key, value),
            lambda it: it[key],
            lambda it: key in it,
            lambda it: it.setdefault(key, value),
            lambda it: it.popitem(at),
            lambda it: it.peekitem(at),
            lambda it: it.update(pairs),
            lambda it: it.update(dict(pairs)),
            lambda it: [*islice(it.irange(*span), 40)],
            lambda it: [*islice(it.islice(at, None), 40)],
            lambda it: [*islice(reversed(it), 40)],
            lambda it: [*islice(it.items(), 40)],
            lambda it: it.keys()[at],
            lambda it: it.values()[at],
            lambda it: it.items()[at : at + 9],
            lambda it: key in it.keys() and (key, it[key]) in it.items(),
            lambda it: it.keys() & {key for key, _ in pairs},
            lambda it: dict(it.copy().items()) == dict(it.items()),
            lambda it: len(it),
            lambda it: bool(it),
        ]

    def turn(self):
        call = self.draw.choice(self.calls())
        return outcome(call, self.mine), outcome(call, self.other)

    def whole(self):
        return [*self.mine.items()], [*self.other.items()]


class Oracle(unittest.TestCase):
    def run_beside(self, kind, key, seed, turns, **options):
        both = Both(kind, key, seed, **options)
        for turn in range(turns):
            self.assertEqual(*both.turn(), (seed, turn))
            if turn % 500 == 0:
                self.assertEqual(*both.whole())
                self.assertEqual(len(both.mine), len(both.other))
            if both.draw.random() < 0.0005:
                both.mine.clear()
                both.other.clear()
        self.assertEqual(*both.whole())

    def test_each_kind(self):
        for name, (kind, key) in KEYS.items():
            with self.subTest(keys=name):
                self.run_beside(kind, key, name, 1500)

    def test_one_handle(self):
        self.run_beside(*KEYS["int"], 1, 1500, threads=1)

    def test_threads(self):
        """Each thread has keys of its own, and is exact in them; the whole is in order
        whoever changes it."""
        mine = SortedMap(keys=int, threads=2)

        def work(thread):
            both = Both(int, None, thread)
            both.mine = mine
            for turn in range(2000):
                key = both.draw.randrange(700) * 4 + thread
                value = both.draw.randrange(1000)
                calls = [
                    lambda it: it.__setitem__(key, value),
                    lambda it: it.pop(key, None),
                    lambda it: it.get(key),
                    lambda it: it.setdefault(key, value),
                    lambda it: key in it,
                ]
                call = both.draw.choice(calls)
                self.assertEqual(call(mine), call(both.other))
                if turn % 200 == 0:
                    keys = [*mine.irange(key, key + 800)]
                    self.assertEqual(keys, sorted({*keys}))
                    own = [it for it in keys if it % 4 == thread]
                    self.assertEqual(own, [*both.other.irange(key, key + 800)])
                    own = range(thread, 2800, 4)
                    self.assertEqual(mine.get_many(own), [*map(both.other.get, own)])
            others.append(both.other)

        others = []
        together(4, work)
        every = SortedDict()
        for other in others:
            every.update(other)
        self.assertEqual([*mine.items()], [*every.items()])
        self.assertEqual(len(mine), len(every))


if __name__ == "__main__":
    unittest.main()
