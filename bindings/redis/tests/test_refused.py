"""Memory and mappings are refused to the module, in the server and in its children: each command says so, and has changed nothing.

ORDERED_MAP is a module whose allocations are wrapped, and ORDERED_MAP_PRELOAD what refuses them, if ORDERED_MAP_WRAPPED is 1.
"""
import os
import tempfile
import unittest
from pathlib import Path

import redis

from servers import Server, fill, flat

IS_WRAPPED = os.environ.get("ORDERED_MAP_WRAPPED") == "1"


def numbers(count: int, begin: int = 0) -> "dict[bytes, bytes]":
    return {b"f%07d" % at: b"%d" % at for at in range(begin, begin + count)}


@unittest.skipUnless(IS_WRAPPED, "no module whose memory is refused")
class Refused(unittest.TestCase):
    def setUp(self) -> None:
        self.folder = tempfile.TemporaryDirectory()
        self.switch = Path(self.folder.name) / "refuses"
        self.server = Server(ORDERED_MAP_REFUSING=str(self.switch))

    def tearDown(self) -> None:
        self.server.end()
        self.folder.cleanup()

    def refused(self, *words: object) -> str:
        with self.assertRaises(redis.ResponseError) as said:
            self.server.run(*words)
        return str(said.exception)

    def all(self) -> object:
        return self.server.run("OM.RANGE", "m", "-", "+", "WITHVALUES")

    def test_first_index(self) -> None:
        """A row can't become an index."""
        pairs = numbers(8_192)
        fill(self.server, "m", pairs)
        self.switch.touch()
        self.assertIn("no more memory", self.refused("OM.SET", "m", "a", "1", "more", "2"))
        self.assertIn("no more memory", self.refused("OM.ADD", "m", "more", 1))
        self.assertEqual(self.all(), flat(sorted(pairs.items())))
        self.assertEqual(self.server.run("OM.SET", "m", "f0000001", "x"), 0)
        self.switch.unlink()
        self.assertEqual(self.server.run("OM.ADD", "m", "more", 1), 1)

    def test_growth(self) -> None:
        """An index that is there grows all the same. One that has few pairs left keeps its memory and its pairs."""
        pairs = numbers(9_000)
        fill(self.server, "m", pairs)
        self.switch.touch()
        fill(self.server, "m", numbers(91_000, 9_000))
        self.assertEqual(self.server.run("OM.DEL", "m", *numbers(90_000, 10_000)), 90_000)
        self.assertEqual(self.server.run("OM.LEN", "m"), 10_000)
        self.switch.unlink()
        self.assertEqual(self.all(), flat(list(numbers(10_000).items())))
        self.assertEqual(self.server.figure("ordered_map_trims"), 0)
        self.assertEqual(self.server.run("OM.DEL", "m", "f0009999"), 1)
        self.server.until("everything", "ordered_map_trims", 1)
        self.assertEqual(self.all(), flat(list(numbers(9_999).items())))

    def test_reads(self) -> None:
        fill(self.server, "m", numbers(10_000))
        before = self.server.run("DEBUG", "DIGEST-VALUE", "m")
        payload = self.server.client.dump("m")
        self.server.stop()
        self.server.start()
        self.server.client.restore("m", 0, payload)
        self.switch.touch()
        for words in [("OM.RANGE", "m", "-", "+"), ("OM.RANGE", "m", "-", "+", "LIMIT", 0, 5), ("OM.SCAN", "m", 0), ("OM.POPMIN", "m", 3)]:
            self.assertIn("no memory", self.refused(*words), words)
        self.assertIn("no memory", self.refused("OM.DELRANGE", "m", "-", "[f0000100"))
        self.refused("COPY", "m", "other")
        self.refused("RESTORE", "other", 0, payload)
        self.assertEqual(self.server.run("OM.GET", "m", "f0000005"), b"5")
        self.assertEqual(self.server.client.exists("other"), 0)
        self.switch.unlink()
        self.assertEqual(self.server.run("DEBUG", "DIGEST-VALUE", "m"), before)

    def test_child(self) -> None:
        """A child to which memory is refused ends, and the server says so and keeps its file."""
        fill(self.server, "m", numbers(10_000))
        self.server.client.save()
        # A handle keeps memory of a scan for the next one: so the map is loaded anew.
        self.server.stop()
        self.server.start()
        self.server.run("OM.SET", "m", "f0000001", "changed")
        self.switch.write_text("child")
        self.server.client.bgsave()
        self.server.until("persistence", "rdb_bgsave_in_progress", 0)
        self.assertEqual(self.server.client.info("persistence")["rdb_last_bgsave_status"], "err")
        self.assertIn("can't be saved: no memory", self.server.log())
        self.switch.unlink()
        self.server.client.bgsave()
        self.server.until("persistence", "rdb_bgsave_in_progress", 0)
        self.assertEqual(self.server.client.info("persistence")["rdb_last_bgsave_status"], "ok")
        self.assertEqual(self.server.run("OM.GET", "m", "f0000001"), b"changed")


if __name__ == "__main__":
    unittest.main()
