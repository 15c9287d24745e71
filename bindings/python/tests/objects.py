"""A SortedMap of any values, for tests that were written for dicts of any values."""

from hot import Codec, SortedMap
from hot._hot import ITEMS, KEYS


def encode(key):
    """int before str, since those tests have both."""
    if isinstance(key, int):
        return b"i" + (key + 2**63).to_bytes(8, "big")
    if isinstance(key, str):
        return b"s" + key.encode()
    raise TypeError(key)


def decode(key):
    return (
        int.from_bytes(key[1:], "big") - 2**63
        if key[:1] == b"i"
        else key[1:].decode()
    )


class Objects(SortedMap):
    """A map whose values are places in a list, with dict's signatures where SortedDict
    has others."""

    def __init__(self, data=(), /, **more):
        self.held, self.places = [], {}
        super().__init__(keys=Codec(encode, decode), threads=2)
        self.update(data)
        self.update(more)

    def place(self, value):
        # A value is kept, so that no other one gets its id.
        if id(value) not in self.places:
            self.places[id(value)] = len(self.held)
            self.held.append(value)
        return self.places[id(value)]

    def __getitem__(self, key):
        return self.held[super().__getitem__(key)]

    def __setitem__(self, key, value):
        super().__setitem__(key, self.place(value))

    def get(self, key, default=None):
        at = super().get(key)
        return default if at is None else self.held[at]

    def setdefault(self, key, default=None):
        return self.held[super().setdefault(key, self.place(default))]

    def pop(self, key, *default):
        return self.held[super().pop(key, *map(self.place, default))]

    def _pop(self, *words):
        pair = super()._pop(*words)
        return pair and (pair[0], self.held[pair[1]])

    def popitem(self):
        return SortedMap.popitem(self)

    def _list(self, what, *words):
        found = super()._list(what, *words)
        if what == KEYS:
            return found
        if what == ITEMS:
            return ((key, self.held[at]) for key, at in found)
        return map(self.held.__getitem__, found)

    def __repr__(self):
        return f"{type(self).__name__}({dict(self)!r})"
