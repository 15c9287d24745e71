"""The tests that sortedcontainers has for SortedDict, run on SortedMap.

They come with Debian's source package python3-sortedcontainers, and are not here:
SORTEDCONTAINERS_TESTS names their folder. LEFT_OUT says which are not run.
"""

import os
import re
import sys
import types
import unittest
from functools import partial
from pathlib import Path

from objects import Objects, encode

KEY_FUNCTION = "it has a key function: a Codec says the order, by bytes"
PLACE = "it asks at which place a key is: the index has no counts, and would walk"
PAIRS = "its keys are pairs"
SET = "it relies on an order of `keys & other`: set operations of views give sets"
LEFT_OUT = {
    "test_init_key": KEY_FUNCTION,
    "test_iter_key": KEY_FUNCTION,
    "test_reversed_key": KEY_FUNCTION,
    "test_irange_key": KEY_FUNCTION,
    "test_index_key": KEY_FUNCTION,
    "test_bisect_key": KEY_FUNCTION,
    "test_bisect_key2": KEY_FUNCTION,
    "test_repr_recursion": KEY_FUNCTION,
    "test_pickle": KEY_FUNCTION,
    "test_index": PLACE,
    "test_bisect": PLACE,
    "test_iloc": PLACE,
    "test_fromkeys": PAIRS,
    "test_keysview": SET,
    "test_itemsview": SET,
    "test_notgiven": "it reads a private name",
    "test_ref_counts": "it counts the collector's objects, and tables of values",
}
FILES = ("test_coverage_sorteddict.py", "test_stress_sorteddict.py")


class SortedDict(Objects):
    """SortedMap in the signatures of SortedDict."""

    key = None

    def __init__(self, *words, **more):
        super().__init__(*[word for word in words if word is not None], **more)

    def popitem(self, index=-1):
        return super(Objects, self).popitem(index)

    def _reset(self, load):
        """Its tests set how many keys a list has."""

    def _check(self):
        keys = list(self)
        assert keys == sorted(keys, key=encode) and len(keys) == len(self)
        assert keys[::-1] == list(reversed(self))


class Raises(unittest.TestCase):
    """What the tests have of pytest, where it is not installed."""

    @staticmethod
    def raises(kind):
        return Raises().assertRaises(kind)


def tests_of(folder, name):
    """The tests of a file of sortedcontainers, over SortedDict as it is here."""
    text = (folder / name).read_text()
    text = re.sub(
        r"(?m)^(from \.context|from sortedcontainers|import pytest).*$", "", text
    )
    module = types.ModuleType(name)
    module.__dict__.update(SortedDict=SortedDict, pytest=Raises)
    exec(compile(text, name, "exec"), module.__dict__)
    tests = {key: it for key, it in vars(module).items() if key.startswith("test_")}
    if "test_stress" in tests:
        tests["test_stress"] = partial(tests["test_stress"], repeat=100)
    return tests


def load_tests(loader, standard_tests, pattern):
    folder = os.environ.get("SORTEDCONTAINERS_TESTS")
    if not folder:
        why = "SORTEDCONTAINERS_TESTS is not set: sortedcontainers' own tests"
        print(f"not tried, since {why}", file=sys.stderr)
        return standard_tests
    suite = unittest.TestSuite()
    for name in FILES:
        for test, call in tests_of(Path(folder), name).items():
            if test not in LEFT_OUT:
                suite.addTest(
                    unittest.FunctionTestCase(call, description=f"{name} {test}")
                )
    return suite


if __name__ == "__main__":
    unittest.main()
