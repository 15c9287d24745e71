"""Random commands on a map beside a dict, with reloads in every form between them.

model.py COMMANDS [SEED]    starts a server of its own
"""
import argparse
import bisect
import random
from collections import Counter

import redis

from servers import Server, flat

NAME = "m"
LIMITS = [-1, 0, 1, 5, 100, 127, 128, 129, 256, 1000, 3000]
EDGES = [b"", b"0", b"-0", b"00", b" 1", b"+1", b"9" * 19, b"9" * 40, b"%d" % 2**61, b"%d" % -(2**61), b"%d" % (2**61 - 1)]
EDGES += [b"%d" % (-(2**61) - 1), b"%d" % (2**63 - 1), b"%d" % -(2**63), b"%d" % 2**63, b"-"]


def number_of(value: bytes) -> "int | None":
    """The integer of 64 bits that the value is written as, if it is one."""
    try:
        number = int(value)
    except ValueError:
        return None
    return number if -(2**63) <= number < 2**63 and b"%d" % number == value else None


class Model:
    """The map beside its model. Small maps and large ones come by turns, and of these every other one has values too long for blocks."""

    def __init__(self, server: Server, seed: int):
        self.server = server
        self.random = random.Random(seed)
        self.pairs: "dict[bytes, bytes]" = {}
        self.is_small = True
        self.has_long = False
        self.made: Counter[str] = Counter()
        server.run("DEL", NAME)

    # ---- What commands are made of ----

    def field(self) -> bytes:
        some = self.random
        kind = some.random()
        if self.is_small:
            return b"%d" % some.randrange(400) if kind < 0.7 else bytes(some.choice(b"ab\x00\xff") for _ in range(some.randrange(4)))
        if kind < 0.3:
            return b"%d" % some.randrange(3000)
        if kind < 0.5:
            return bytes(some.choice(b"ab\x00\xff") for _ in range(some.randrange(6)))
        if kind < 0.8:
            return b"user:%06d" % some.randrange(5000)
        if kind < 0.9:
            return b"p" * some.choice([1, 8, 9, 23, 24, 25, 55, 56, 57, 87, 88, 89, 239, 240])
        return some.randbytes(some.randrange(241))

    def value(self) -> bytes:
        some = self.random
        kind = some.random()
        if kind < 0.4:
            return b"%d" % (some.randrange(-(2**63), 2**63) >> some.randrange(64))
        if kind < 0.5:
            return some.choice(EDGES)
        if self.has_long and kind < 0.52:
            return some.randbytes(20_000)
        return some.randbytes(some.choice([0, 1, 6, 7, 8, 9, 20, 63, 64, 245, 246, 300]))

    def held(self) -> bytes:
        """A field that may be there."""
        return self.random.choice(list(self.pairs)) if self.pairs and self.random.random() < 0.5 else self.field()

    def bound(self) -> "tuple[bytes, bytes]":
        kind = self.random.choice([b"[", b"(", b"-", b"+"])
        return kind, self.held() if kind in b"[(" else b""

    def within(self, least: "tuple[bytes, bytes]", most: "tuple[bytes, bytes]") -> "list[bytes]":
        """The fields of a range."""
        fields = sorted(self.pairs)
        begin, end = 0, len(fields)
        if least[0] in b"[(":
            begin = (bisect.bisect_left if least[0] == b"[" else bisect.bisect_right)(fields, least[1])
        if most[0] in b"[(":
            end = (bisect.bisect_right if most[0] == b"[" else bisect.bisect_left)(fields, most[1])
        return [] if least[0] == b"+" or most[0] == b"-" else fields[begin:end]

    def check(self, words: "list[object]", expected: object) -> None:
        try:
            said: object = self.server.run(*words)
        except redis.ResponseError:
            said = "refused"
        assert said == expected, f"{words!r:.300}: {said!r:.300}, not {expected!r:.300}"

    # ---- Commands ----

    def set(self, count: int = 1) -> None:
        pairs = [(self.held(), self.value()) for _ in range(count)]
        which = self.random.choice(["", "", "", "NX", "XX"])
        new = done = 0
        for field, value in pairs:
            is_there = field in self.pairs
            if (which == "NX" and is_there) or (which == "XX" and not is_there):
                continue
            new += not is_there
            done += 1
            self.pairs[field] = value
        self.check(["OM.SET", NAME, *flat(pairs), *([which] if which else [])], done if which == "XX" else new)

    def set_many(self) -> None:
        self.set(self.random.randrange(1, 150 if self.is_small else 300))

    def get(self) -> None:
        field = self.held()
        self.check(["OM.GET", NAME, field], self.pairs.get(field))

    def exists(self) -> None:
        field = self.held()
        self.check(["OM.EXISTS", NAME, field], int(field in self.pairs))

    def get_many(self) -> None:
        fields = [self.held() for _ in range(self.random.choice([1, 5, 20, 600]))]
        self.check(["OM.MGET", NAME, *fields], [self.pairs.get(field) for field in fields])

    def remove(self) -> None:
        fields = [self.held() for _ in range(self.random.randrange(1, 20 if self.is_small else 200))]
        self.check(["OM.DEL", NAME, *fields], sum(self.pairs.pop(field, None) is not None for field in fields))

    def name_many(self) -> None:
        """So many fields that a job looks them up, and that they go in portions."""
        fields = self.random.choices([*self.pairs, self.field()], k=1_500)
        self.check(["OM.MGET", NAME, *fields], [self.pairs.get(field) for field in fields])
        if self.random.random() < 0.3:
            self.check(["OM.DEL", NAME, *fields], sum(self.pairs.pop(field, None) is not None for field in fields))

    def add(self) -> None:
        field, more = self.held(), self.random.choice([1, -1, self.random.randrange(-(2**63), 2**63)])
        number = number_of(self.pairs.get(field, b"0"))
        summed = None if number is None or not -(2**63) <= number + more < 2**63 else number + more
        self.check(["OM.ADD", NAME, field, more], "refused" if summed is None else summed)
        if summed is not None:
            self.pairs[field] = b"%d" % summed

    def exchange(self) -> None:
        field, value = self.held(), self.value()
        expected = self.pairs.get(field, b"?") if self.random.random() < 0.7 else self.value()
        held = self.pairs.get(field)
        self.check(["OM.CAS", NAME, field, expected, value], None if held is None else int(held == expected))
        if held == expected:
            self.pairs[field] = value

    def length(self) -> None:
        self.check(["OM.LEN", NAME], len(self.pairs))

    def listed(self, words: "list[object]", fields: "list[bytes]") -> None:
        """A range in any of its forms."""
        some = self.random
        if some.random() < 0.5:
            words.append("REV")
            fields.reverse()
        if some.random() < 0.5:
            skip, limit = some.choice([0, some.randrange(1500)]), some.choice(LIMITS)
            words += ["LIMIT", skip, limit]
            fields = fields[skip:] if limit < 0 else fields[skip : skip + limit]
        expected = fields
        if some.random() < 0.7:
            words.append("WITHVALUES")
            expected = flat([(field, self.pairs[field]) for field in fields])
        if some.random() < 0.1:
            with self.server.client.pipeline(transaction=True) as together:
                together.execute_command(*words)
                assert together.execute() == [expected], f"{words!r:.300} in MULTI"
            return
        self.check(words, expected)

    def range(self) -> None:
        least, most = self.bound(), self.bound()
        if self.random.random() < 0.2:
            least, most = (b"-", b""), (b"+", b"")
        self.listed(["OM.RANGE", NAME, b"".join(least), b"".join(most)], self.within(least, most))

    def prefix(self) -> None:
        begin = self.held()[: self.random.randrange(8)]
        self.listed(["OM.PREFIX", NAME, begin], sorted(field for field in self.pairs if field.startswith(begin)))

    def count(self) -> None:
        least, most = self.bound(), self.bound()
        self.check(["OM.COUNT", NAME, b"".join(least), b"".join(most)], len(self.within(least, most)))

    def scan(self) -> None:
        begin = self.held()[: self.random.randrange(3)]
        expected = sorted(field for field in self.pairs if field.startswith(begin))
        cursor, found, count = b"0", [], self.random.choice([1, 10, 128, 1000])
        if count == 1:
            cursor = b"(" + self.held()
            said = self.server.run("OM.SCAN", NAME, cursor, "COUNT", 1, "PREFIX", begin)
            assert said[1][::2] == [field for field in expected if field > cursor[1:]][:1], (cursor, begin, said)
            return
        while True:
            cursor, pairs = self.server.run("OM.SCAN", NAME, cursor, "COUNT", count, "PREFIX", begin)
            found += pairs
            if cursor == b"0":
                break
        assert found == flat([(field, self.pairs[field]) for field in expected]), f"OM.SCAN {begin!r}"

    def pop(self) -> None:
        count, is_last = self.random.choice([0, 1, 2, 5, 1, 2, 5, 10 if self.is_small else 200, 1500]), self.random.random() < 0.5
        fields = sorted(self.pairs, reverse=is_last)[: min(count, 1000)]
        expected = flat([(field, self.pairs.pop(field)) for field in fields])
        self.check(["OM.POPMAX" if is_last else "OM.POPMIN", NAME, count], expected)

    def remove_range(self) -> None:
        least, most = self.bound(), self.bound()
        if not self.is_small and b"" in (least[1], most[1]) and self.random.random() < 0.8:
            return
        fields = self.within(least, most)
        words: "list[object]" = ["OM.DELRANGE", NAME, b"".join(least), b"".join(most)]
        if self.random.random() < 0.7:
            limit = self.random.choice([0, 1, 10, 200, 1500])
            words += ["LIMIT", limit]
            fields = fields[:limit]
        for field in fields:
            del self.pairs[field]
        self.check(words, len(fields))

    def reload(self) -> None:
        """The map comes back out of a payload, a file or a copy, and is the same."""
        if not self.pairs:
            return
        client, before = self.server.client, self.server.run("DEBUG", "DIGEST-VALUE", NAME)
        how = self.random.choice(["copy", "dump", "dump", "reload", "append-only"])
        if how == "copy":
            client.copy(NAME, "other", replace=True)
            client.unlink(NAME)
            client.rename("other", NAME)
        elif how == "dump":
            payload = client.dump(NAME)
            client.delete(NAME)
            client.restore(NAME, 0, payload)
        elif how == "reload":
            self.server.run("DEBUG", "RELOAD")
        else:
            before = self.rewrite()
        if self.server.run("DEBUG", "DIGEST-VALUE", NAME) != before:
            raise AssertionError(f"{self.server.unwritten() or how}: {self.difference()}\n{self.server.log()}")
        self.made[how] += 1

    def difference(self) -> object:
        """What the map has that its model hasn't, and the other way round."""
        said = self.server.run("OM.RANGE", NAME, "-", "+", "WITHVALUES")
        held = dict(zip(said[::2], said[1::2]))
        return sorted(held.items() - self.pairs.items())[:5], sorted(self.pairs.items() - held.items())[:5]

    def rewrite(self) -> object:
        """Loads an append-only file, rewritten in one of its forms, with a change behind it. Returns the digest of before."""
        self.server.rewrite(self.random.choice(["yes", "no"]))
        self.set_many()
        digest = self.server.run("DEBUG", "DIGEST-VALUE", NAME)
        self.server.run("DEBUG", "LOADAOF")
        self.server.client.config_set("appendonly", "no")
        return digest

    def change_size(self) -> None:
        self.is_small = not self.is_small
        self.has_long = not self.is_small and self.random.random() < 0.5
        if self.is_small:
            self.server.client.delete(NAME)
            self.pairs.clear()

    def step(self) -> None:
        often = [self.set] * 6 + [self.set_many] * 2 + [self.get, self.exists, self.get_many, self.remove, self.add, self.add, self.exchange]
        often += [self.range, self.range, self.prefix, self.count, self.scan, self.pop, self.length]
        rare = self.random.random()
        if rare < 0.004:
            self.reload()
        elif rare < 0.006:
            self.change_size()
        elif rare < 0.007:
            self.name_many()
        elif rare < 0.02:
            self.remove_range()
        else:
            self.random.choice(often)()


def run(commands: int, seed: int) -> "Counter[str]":
    with Server() as server:
        model = Model(server, seed)
        for _ in range(commands):
            model.step()
        assert server.run("OM.RANGE", NAME, "-", "+", "WITHVALUES") == flat(sorted(model.pairs.items()))
        return model.made


def main() -> None:
    parser = argparse.ArgumentParser(description=__doc__)
    parser.add_argument("commands", type=int)
    parser.add_argument("seed", type=int, nargs="?", default=1)
    words = parser.parse_args()
    print(f"{words.commands} commands are right: {dict(run(words.commands, words.seed))}")


if __name__ == "__main__":
    main()
