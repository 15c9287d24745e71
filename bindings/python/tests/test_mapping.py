"""CPython's own tests of mappings: as they are with any values, and with ints."""

import unittest

from hot import SortedMap

from objects import Objects

try:
    from test import mapping_tests
except ImportError:
    raise unittest.SkipTest("this Python has no test.mapping_tests") from None


class AnyMapping(mapping_tests.TestMappingProtocol):
    type2test = Objects


class Basic(mapping_tests.BasicTestMappingProtocol):
    type2test = SortedMap

    def _reference(self):
        return {"1": 2, "key1": 11, "key2": 123}

    def test_popitem(self):
        """As in SortedDict, an argument is a place."""
        self.assertRaises(KeyError, self._empty_mapping().popitem)
        self.assertRaises(KeyError, self._empty_mapping().popitem, 42)

    def test_update(self):
        """The original has values that are str."""
        made = self._empty_mapping()
        made.update(self.reference.items())
        self.assertEqual(made, self.reference)
        self.assertRaises(TypeError, made.update, {"a": "a"})
        self.assertRaises(TypeError, made.update, 42)
        self.assertEqual(made, self.reference)


class OfBytes(Basic):
    def type2test(self, *words):
        return SortedMap(*words, keys=bytes)

    def _reference(self):
        return {b"1": 2, b"key1": 11, b"\xff\x00": 123}


class OfInts(Basic):
    def type2test(self, *words):
        return SortedMap(*words, keys=int)

    def _reference(self):
        return {1: 2, -5: 11, 9: 123}

    def test_update(self):
        made = self._empty_mapping()
        made.update(self.reference)
        self.assertEqual(made, self.reference)


if __name__ == "__main__":
    unittest.main()
