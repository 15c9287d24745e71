"""Each command by examples: replies, words that are refused, events, access."""
import contextlib
import unittest
from typing import Any

import redis

from plain import Plain
from servers import Server, flat

# Of each command its least words, its arity, and its flags.
COMMANDS: "dict[str, tuple[tuple[object, ...], int, set[str]]]" = {
    "OM.SET": (("m", "a", 1), -4, {"write", "denyoom", "fast"}),
    "OM.GET": (("m", "a"), 3, {"readonly", "fast"}),
    "OM.MGET": (("m", "a"), -3, {"readonly", "blocking"}),
    "OM.DEL": (("m", "a"), -3, {"write", "fast", "blocking"}),
    "OM.ADD": (("m", "a", 1), 4, {"write", "denyoom", "fast"}),
    "OM.CAS": (("m", "a", 1, 2), 5, {"write", "denyoom", "fast"}),
    "OM.EXISTS": (("m", "a"), 3, {"readonly", "fast"}),
    "OM.LEN": (("m",), 2, {"readonly", "fast"}),
    "OM.RANGE": (("m", "-", "+"), -4, {"readonly", "blocking"}),
    "OM.PREFIX": (("m", "a"), -3, {"readonly", "blocking"}),
    "OM.COUNT": (("m", "-", "+"), -4, {"readonly", "blocking"}),
    "OM.SCAN": (("m", 0), -3, {"readonly", "blocking"}),
    "OM.POPMIN": (("m",), -2, {"write"}),
    "OM.POPMAX": (("m",), -2, {"write"}),
    "OM.DELRANGE": (("m", "-", "+"), -4, {"write", "blocking"}),
    "OM.STAT": (("m",), 2, {"readonly", "fast"}),
}


def paired(words: "list[Any]") -> "dict[Any, Any]":
    return dict(zip(words[::2], words[1::2]))


class Commands(unittest.TestCase):
    server: Server

    @classmethod
    def setUpClass(cls) -> None:
        cls.server = Server()

    @classmethod
    def tearDownClass(cls) -> None:
        cls.server.end()

    def setUp(self) -> None:
        self.server.client.flushall()

    def said(self, *words: object) -> Any:
        try:
            return self.server.run(*words)
        except redis.ResponseError as error:
            return str(error)

    def test_sets(self) -> None:
        self.assertEqual(self.said("OM.SET", "m", "a", "1", "b", "two"), 2)
        self.assertEqual(self.said("OM.SET", "m", "a", "2", "c", "3"), 1)
        self.assertEqual(self.said("OM.SET", "m", "a", "9", "d", "4", "NX"), 1)
        self.assertEqual(self.said("OM.SET", "m", "a", "5", "e", "5", "xx"), 1)
        self.assertEqual(self.said("OM.RANGE", "m", "-", "+", "WITHVALUES"), [b"a", b"5", b"b", b"two", b"c", b"3", b"d", b"4"])
        self.assertEqual(self.said("OM.SET", "none", "a", "1", "XX"), 0)
        self.assertEqual(self.server.client.exists("none"), 0)

    def test_single_fields(self) -> None:
        self.said("OM.SET", "m", "a", "1", "", "empty")
        self.assertEqual(self.said("OM.GET", "m", ""), b"empty")
        self.assertIsNone(self.said("OM.GET", "m", "b"))
        self.assertIsNone(self.said("OM.GET", "none", "b"))
        self.assertEqual(self.said("OM.MGET", "m", "a", "b", ""), [b"1", None, b"empty"])
        self.assertEqual(self.said("OM.MGET", "none", "a"), [None])
        self.assertEqual([self.said("OM.EXISTS", name, "a") for name in ("m", "none")], [1, 0])
        self.assertEqual([self.said("OM.LEN", name) for name in ("m", "none")], [2, 0])
        self.assertEqual(self.said("OM.DEL", "m", "a", "a", "b"), 1)
        self.assertEqual(self.said("OM.DEL", "m", ""), 1)
        self.assertEqual(self.server.client.exists("m"), 0)

    def test_additions(self) -> None:
        most = 2**63 - 1
        self.assertEqual(self.said("OM.ADD", "m", "a", 5), 5)
        self.assertEqual(self.said("OM.ADD", "m", "a", -7), -2)
        self.assertEqual(self.said("OM.ADD", "m", "b", most), most)
        self.assertEqual(self.said("OM.ADD", "m", "b", 1), "increment or decrement would overflow")
        self.assertEqual(self.said("OM.GET", "m", "b"), b"%d" % most)
        self.said("OM.SET", "m", "c", "one")
        self.assertEqual(self.said("OM.ADD", "m", "c", 1), "the value is not an integer")
        self.assertEqual(self.said("OM.ADD", "m", "a", "x"), "value is not an integer or out of range")

    def test_exchanges(self) -> None:
        self.said("OM.SET", "m", "a", "1")
        self.assertEqual([self.said("OM.CAS", "m", "a", old, new) for old, new in [("2", "3"), ("1", "2"), ("2", "x" * 300)]], [0, 1, 1])
        self.assertEqual(self.said("OM.GET", "m", "a"), b"x" * 300)
        self.assertIsNone(self.said("OM.CAS", "m", "b", "1", "2"))
        self.assertIsNone(self.said("OM.CAS", "none", "b", "1", "2"))

    def test_ranges(self) -> None:
        self.said("OM.SET", "m", *[word for at in "abcde" for word in (at, at.upper())])
        self.assertEqual(self.said("OM.RANGE", "m", "[b", "(d"), [b"b", b"c"])
        self.assertEqual(self.said("OM.RANGE", "m", "(b", "[d", "REV"), [b"d", b"c"])
        self.assertEqual(self.said("OM.RANGE", "m", "-", "+", "REV", "LIMIT", 1, 2, "WITHVALUES"), [b"d", b"D", b"c", b"C"])
        self.assertEqual(self.said("OM.RANGE", "m", "+", "-"), [])
        self.assertEqual(self.said("OM.RANGE", "m", "[d", "[b"), [])
        self.assertEqual(self.said("OM.COUNT", "m", "[b", "+"), 4)
        self.assertEqual(self.said("OM.COUNT", "none", "-", "+"), 0)
        self.said("OM.SET", "m", "ba", "1", "b\xff", "2")
        self.assertEqual(self.said("OM.PREFIX", "m", "b"), [b"b", b"ba", "b\xff".encode()])
        self.assertEqual(self.said("OM.PREFIX", "m", "", "LIMIT", 0, 1), [b"a"])

    def test_reads_at_one_moment(self) -> None:
        """They say the same. Fields of OM.MGET may have those names."""
        self.said("OM.SET", "m", *[word for at in range(3000) for word in ("f%04d" % at, at)], "ATOMIC", "1", "FIELDS", "2", "2", "3")
        fields = ["f%04d" % at for at in range(0, 3000, 2)]
        for words in [("RANGE", "-", "+"), ("RANGE", "-", "+", "REV", "WITHVALUES", "LIMIT", 1, 2000), ("PREFIX", "f"), ("COUNT", "-", "+")]:
            self.assertEqual(self.said(f"OM.{words[0]}", "m", *words[1:], "ATOMIC"), self.said(f"OM.{words[0]}", "m", *words[1:]))
        self.assertEqual(self.said("OM.MGET", "m", "atomic", "FIELDS", len(fields), *fields), self.said("OM.MGET", "m", *fields))
        self.assertEqual(self.said("OM.MGET", "m", "ATOMIC", "FIELDS", "2"), [b"1", b"2", b"3"])
        self.assertEqual(self.said("OM.MGET", "m", "ATOMIC", "FIELDS", 1, "2"), [b"3"])
        self.assertEqual(self.said("OM.COUNT", "m", "-", "+", "NOW"), "syntax error")

    def test_cursors(self) -> None:
        self.said("OM.SET", "m", *[word for at in range(25) for word in ("f%02d" % at, at)])
        cursor, pairs = self.server.run("OM.SCAN", "m", 0)
        self.assertEqual((cursor, len(pairs)), (b"(f09", 20))
        cursor, pairs = self.server.run("OM.SCAN", "m", cursor, "COUNT", 100, "PREFIX", "f1")
        self.assertEqual((cursor, pairs[::2]), (b"0", [b"f%02d" % at for at in range(10, 20)]))
        self.assertEqual(self.said("OM.SCAN", "none", 0), [b"0", []])
        self.assertEqual(self.said("OM.SCAN", "m", "7"), "invalid cursor")

    def test_removals_of_ranges(self) -> None:
        self.said("OM.SET", "m", *[word for at in "abcdefg" for word in (at, at.upper())])
        self.assertEqual(self.said("OM.POPMIN", "m"), [b"a", b"A"])
        self.assertEqual(self.said("OM.POPMAX", "m", 2), [b"g", b"G", b"f", b"F"])
        self.assertEqual(self.said("OM.POPMIN", "none"), [])
        self.assertEqual(self.said("OM.DELRANGE", "m", "[b", "[d", "LIMIT", 2), 2)
        self.assertEqual(self.said("OM.RANGE", "m", "-", "+"), [b"d", b"e"])
        self.assertEqual(self.said("OM.DELRANGE", "m", "-", "+"), 2)
        self.assertEqual(self.server.client.exists("m"), 0)

    def test_pops_of_many(self) -> None:
        """Each takes a thousand pairs at most, or all that come to 1 MB. In MULTI it takes all."""
        pairs = [(b"%06d" % at, b"%d" % at) for at in range(5_000)]
        long = [(b"x%d" % at, b"%d" % at * 400_000) for at in range(6)]
        self.said("OM.SET", "m", *flat(pairs))
        self.said("OM.SET", "m", *flat(long))
        self.assertEqual(self.said("OM.POPMAX", "m", 100), flat(long[:2:-1]))
        self.assertEqual(self.said("OM.POPMIN", "m", 10**9), flat(pairs[:1_000]))
        self.assertEqual(self.said("OM.POPMAX", "m", 4), flat(long[2::-1]))
        with self.server.client.pipeline() as pipe:
            pipe.execute_command("OM.POPMIN", "m", 10**9)
            self.assertEqual(pipe.execute(), [flat(pairs[1_000:])])
        self.assertEqual(self.server.client.exists("m"), 0)

    def test_refusals(self) -> None:
        self.server.client.set("s", "text")
        self.assertTrue(str(self.said("OM.GET", "s", "a")).startswith("WRONGTYPE"))
        self.assertTrue(str(self.said("OM.SET", "s", "a", "1")).startswith("WRONGTYPE"))
        self.said("OM.SET", "m", "a", "1")
        self.assertTrue(str(self.said("GET", "m")).startswith("WRONGTYPE"))
        long = "x" * 241
        wrong: "dict[tuple[object, ...], str]" = {
            ("OM.SET", "m", long, "1"): "a field has more than 240 bytes",
            ("OM.GET", "m", long): "a field has more than 240 bytes",
            ("OM.MGET", "m", "a", long): "a field has more than 240 bytes",
            ("OM.DEL", "m", long): "a field has more than 240 bytes",
            ("OM.ADD", "m", long, "1"): "a field has more than 240 bytes",
            ("OM.PREFIX", "m", long): "a prefix has more than 240 bytes",
            ("OM.RANGE", "m", "a", "+"): "min or max is not -, +, [field or (field of at most 240 bytes",
            ("OM.COUNT", "m", "-", "[" + long): "min or max is not -, +, [field or (field of at most 240 bytes",
            ("OM.RANGE", "m", "-", "+", "LIMIT", "0"): "syntax error",
            ("OM.RANGE", "m", "-", "+", "LIMIT", "-1", "1"): "value is not an integer or out of range",
            ("OM.RANGE", "m", "-", "+", "UP"): "syntax error",
            ("OM.SET", "m", "a", "1", "YY"): "syntax error",
            ("OM.POPMIN", "m", "-1"): "value is out of range, must be positive",
            ("OM.SCAN", "m", "0", "COUNT", "0"): "value is not an integer or out of range",
        }
        for words, text in wrong.items():
            self.assertEqual(self.said(*words), text, words)
        self.assertEqual(self.said("OM.RANGE", "m", "-", "+", "WITHVALUES"), [b"a", b"1"])

    def test_words(self) -> None:
        """Each command wants its words and a key that has no other type. A key that isn't there is an empty map, which no read makes."""
        client = self.server.client
        client.set("text", "x")
        for name, (words, arity, _) in COMMANDS.items():
            wrong = [words[:-1]] + ([(*words, "more")] if arity > 0 else [])
            for less_or_more in wrong:
                self.assertIn("wrong number of arguments", str(self.said(name, *less_or_more)), name)
            self.assertTrue(str(self.said(name, "text", *words[1:])).startswith("WRONGTYPE"), name)
            self.assertNotIsInstance(self.said(name, *words), str, name)
            self.assertEqual(client.delete("m"), int(name in ("OM.SET", "OM.ADD")), name)
        self.assertEqual(client.get("text"), b"x")

    def test_what_is_said_of_commands(self) -> None:
        """The server knows of each how many words it has, where its key is, and what it does. Redis 7.0 has no categories of a module's commands."""
        client = self.server.client
        has_categories = not client.info("server")["redis_version"].startswith("7.0.")
        for kind in ("read", "write", "fast", "slow"):
            client.acl_setuser(kind, categories=["-@all", f"+@{kind}"], keys=["*"])
        for name, (words, arity, flags) in COMMANDS.items():
            said = client.execute_command("COMMAND", "INFO", name)[name.lower()]
            self.assertEqual((said["arity"], said["first_key_pos"], said["last_key_pos"], said["step_count"]), (arity, 1, 1, 1), name)
            self.assertEqual(set(said["flags"]), flags | {"module"}, name)
            docs = self.documented(name)
            self.assertEqual((docs[b"since"], docs[b"arguments"][0][b"type"]), (b"1.0.0", b"key"), name)
            self.assertEqual(len(docs[b"arguments"]) > 1, arity != 2 or name.startswith("OM.POP"), name)
            [[key, uses]] = client.execute_command("COMMAND GETKEYSANDFLAGS", name, *words)
            self.assertEqual((key, b"RW" in uses), (b"m", "write" in flags), name)
            for kind, is_in in [("write", "write" in flags), ("read", "readonly" in flags), ("fast", "fast" in flags), ("slow", "fast" not in flags)]:
                allowed = self.server.run("ACL", "DRYRUN", kind, name, *words)
                self.assertEqual(allowed == b"OK", is_in and has_categories, (name, kind, allowed))
        client.acl_deluser("read", "write", "fast", "slow")

    def documented(self, name: str) -> "dict[bytes, Any]":
        """What the server tells of a command."""
        docs = paired(self.server.run("COMMAND DOCS", name)[1])
        docs[b"arguments"] = [paired(it) for it in docs[b"arguments"]]
        return docs

    def test_arguments(self) -> None:
        """Tools learn which words a command takes."""
        arguments = {it[b"name"]: it for it in self.documented("OM.RANGE")[b"arguments"]}
        self.assertEqual(list(arguments), [b"key", b"min", b"max", b"rev", b"limit", b"withvalues", b"atomic"])
        self.assertEqual((arguments[b"limit"][b"token"], arguments[b"limit"][b"flags"]), (b"LIMIT", [b"optional"]))
        self.assertEqual([paired(it)[b"name"] for it in arguments[b"limit"][b"arguments"]], [b"offset", b"count"])

    def test_maps(self) -> None:
        """In the protocol's third version pairs are a map, in their order."""
        pairs = [(b"%04d" % at, b"%d" % at) for at in range(3_000)]
        self.said("OM.SET", "m", *flat(pairs))
        with contextlib.closing(Plain(self.server.port)) as client:
            client.run("HELLO", 3)
            for words, count in [
                (("OM.RANGE", "m", "-", "+", "WITHVALUES"), 3_000),
                (("OM.RANGE", "m", "-", "+", "WITHVALUES", "LIMIT", 0, 2), 2),
                (("OM.PREFIX", "m", "00", "WITHVALUES"), 100),
                (("OM.POPMIN", "m"), 1),
                (("OM.POPMIN", "none"), 0),
                (("OM.STAT", "m"), 5),
            ]:
                self.assertTrue(client.run(*words).startswith(b"%%%d\r\n" % count), words)
            self.assertTrue(client.run("OM.SCAN", "m", 0).startswith(b"*2\r\n$5\r\n(0010\r\n%10\r\n$4\r\n0001\r\n$1\r\n1\r\n"))

    def forms(self, name: str = "m") -> "tuple[int, bool, bool]":
        """How many pairs a map has, whether it has an index, and whether it takes less than a block for each 100 pairs would."""
        fields, size, has_index = (self.said("OM.STAT", name)[at] for at in (1, 3, 5))
        return fields, bool(has_index), size < 40 * fields + 500

    def test_sizes(self) -> None:
        """A map is a row of blocks from its 257th pair on, has an index from its 8,193rd, and goes the way back with half as many."""
        for count, has_index in [(256, False), (257, False), (1_000, False), (8_192, False), (8_193, True)]:
            self.said("OM.SET", "m", *[word for at in range(count) for word in ("f%04d" % at, at)])
            self.assertEqual(self.forms(), (count, has_index, not has_index))
            self.assertEqual(self.said("OM.RANGE", "m", "(f0100", "[f0255", "REV", "LIMIT", 150, 2), [b"f0105", b"f0104"])
        for begin, end, has_index in [(0, 4_096, True), (4_096, 4_097, False), (4_097, 8_064, False), (8_064, 8_065, False)]:
            self.said("OM.DEL", "m", *["f%04d" % at for at in range(begin, end)])
            self.assertEqual(self.forms(), (8_193 - end, has_index, not has_index))
            self.assertEqual(self.said("OM.RANGE", "m", "-", "+"), [b"f%04d" % at for at in range(end, 8_193)])

    def test_long_values(self) -> None:
        """One of over 16 KB makes an index of a row, and that stays while there is such a value. So does 1 MB of pairs."""
        pairs = [word for at in range(1_000) for word in ("f%04d" % at, at)]
        for long in (["x" * 20_000], ["x" * 10_000] * 110):
            self.said("OM.SET", "m", *pairs)
            self.assertEqual(self.forms(), (1_000, False, True))
            self.assertEqual(self.said("OM.SET", "m", "z", "x" * 20_000, "XX"), 0)
            self.assertEqual(self.forms(), (1_000, False, True))
            self.said("OM.SET", "m", *[word for at, value in enumerate(long) for word in ("z%04d" % at, value)])
            self.assertEqual(self.said("OM.STAT", "m")[5], 1)
            self.assertEqual(self.said("OM.MGET", "m", "f0000", "z0000", "f0999"), [b"0", long[0].encode(), b"999"])
            self.said("OM.DEL", "m", *["z%04d" % at for at in range(len(long))])
            self.said("OM.DEL", "m", *["f%04d" % at for at in range(999)])
            self.assertEqual((self.said("OM.RANGE", "m", "-", "+", "WITHVALUES"), self.said("OM.STAT", "m")[5]), ([b"f0999", b"999"], 0))
            self.server.client.delete("m")
        self.said("OM.SET", "m", *[word for at in range(10) for word in ("f%04d" % at, "x" * 9_000)])
        self.assertEqual(self.said("OM.STAT", "m")[5], 0)
        self.said("OM.SET", "m", "a", 1, "long", "x" * 100_000)
        self.assertEqual(self.said("OM.STAT", "m")[5], 1)
        self.assertEqual(self.said("OM.GET", "m", "long"), b"x" * 100_000)
        self.assertEqual(self.server.client.unlink("m"), 1)

    def test_events(self) -> None:
        client = self.server.client
        client.config_set("notify-keyspace-events", "KEA")
        listener = client.pubsub()
        listener.psubscribe("__keyspace@0__:*")
        listener.get_message(timeout=5)
        self.said("OM.SET", "m", "a", "1")
        self.said("OM.CAS", "m", "a", "2", "3")
        self.said("OM.DEL", "m", "a")
        said = [listener.get_message(timeout=5)["data"] for _ in range(3)]
        self.assertEqual(said, [b"om.set", b"om.del", b"del"])
        listener.close()
        client.config_set("notify-keyspace-events", "")

    def test_transactions_and_scripts(self) -> None:
        """A refused exchange doesn't disturb who watches the key; a change does. A script sees its own changes, and long ranges at once."""
        self.said("OM.SET", "m", *[word for at in range(2000) for word in ("f%04d" % at, at)])
        with self.server.client.pipeline() as pipe:
            pipe.watch("m")
            self.said("OM.CAS", "m", "f0001", "no", "3")
            pipe.multi()
            pipe.execute_command("OM.RANGE", "m", "-", "+")
            self.assertEqual(len(pipe.execute()[0]), 2000)
            pipe.watch("m")
            self.said("OM.SET", "m", "a", "2")
            pipe.multi()
            pipe.execute_command("OM.LEN", "m")
            self.assertRaises(redis.WatchError, pipe.execute)
        script = "redis.call('OM.SET', KEYS[1], 'a', 'b'); return #redis.call('OM.RANGE', KEYS[1], '-', '+')"
        self.assertEqual(self.server.client.eval(script, 1, "m"), 2001)

    def test_access(self) -> None:
        """Users may read or write by commands and by keys."""
        client = self.server.client
        client.acl_setuser("reader", enabled=True, nopass=True, commands=["+om.get", "+om.set"], keys=[])
        self.server.run("ACL", "SETUSER", "reader", "%R~m", "~w")
        self.said("OM.SET", "m", "a", "1")
        other = redis.Redis(port=self.server.port, username="reader", password="any")
        self.assertEqual(other.execute_command("OM.GET", "m", "a"), b"1")
        self.assertEqual(other.execute_command("OM.SET", "w", "a", "1"), 1)
        for words in [("OM.SET", "m", "a", "2"), ("OM.GET", "x", "a"), ("OM.DEL", "w", "a")]:
            with self.assertRaises(redis.exceptions.NoPermissionError):
                other.execute_command(*words)
        other.close()
        self.assertIn("denyoom", client.execute_command("COMMAND", "INFO", "om.set")["om.set"]["flags"])
        self.assertEqual(client.execute_command("COMMAND GETKEYS", "OM.SET", "m", "a", "1"), ["m"])
        client.acl_deluser("reader")


if __name__ == "__main__":
    unittest.main()
