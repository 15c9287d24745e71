"""A map through all of the server's life: files of both kinds, replicas, kills, a cluster, eviction, jobs beside changes.

With ORDERED_MAP_LONG=1 in the environment each takes longer.
"""
import contextlib
import os
import random
import threading
import time
import unittest
from typing import Any, Callable

import redis

import damaged
import model
from servers import PRELOAD, Server, fill, flat

IS_LONG = os.environ.get("ORDERED_MAP_LONG") == "1"


def some_pairs(count: int, seed: int = 1) -> "dict[bytes, bytes]":
    some = random.Random(seed)
    return {b"user:%08d" % some.randrange(10**8): some.choice([b"%d" % at, b"a value of some length %d" % at]) for at in range(count)}


def digest(server: Server) -> object:
    return server.run("DEBUG", "DIGEST")


class Files(unittest.TestCase):
    def test_files(self) -> None:
        """The digest is the same after a file of either kind, and the changes behind a rewrite are there."""
        pairs = some_pairs(100_000 if IS_LONG else 10_000)
        with Server() as server:
            fill(server, "large", pairs)
            fill(server, "small", dict(list(pairs.items())[:100]))
            before = digest(server)
            server.client.save()
            server.stop()
            server.start()
            self.assertEqual(digest(server), before)
            for form in ("yes", "no"):
                server.rewrite(form)
                server.run("OM.DEL", "large", *list(pairs)[:100])
                server.run("OM.POPMIN", "large", 1_200)
                server.run("OM.ADD", "counter", "a", 5)
                server.run("OM.SET", "small", "x", "y" * 300, "z", -1)
                server.run("OM.DELRANGE", "large", "[user:5", "+", "LIMIT", 1_100)
                before = digest(server)
                server.stop()
                server.start("--appendonly", "yes", "--aof-use-rdb-preamble", form)
                self.assertEqual(digest(server), before, form)
                server.client.config_set("appendonly", "no")

    def test_replicated(self) -> None:
        """A change is replicated as it was written, or by what it came to. One that changed nothing isn't."""
        changes: "list[tuple[tuple[object, ...], str]]" = [
            (("OM.SET", "m", "a", 1, "b", 2, "NX"), "OM.SET m a 1 b 2 NX"),
            (("OM.SET", "m", "a", 5, "NX"), ""),
            (("OM.ADD", "m", "c", 3), "OM.ADD m c 3"),
            (("OM.ADD", "m", "c", "x"), ""),
            (("OM.CAS", "m", "c", 3, 4), "OM.CAS m c 3 4"),
            (("OM.CAS", "m", "c", 3, 5), ""),
            (("OM.DEL", "m", "b", "x"), "OM.DEL m b x"),
            (("OM.DEL", "m", "x"), ""),
            (("OM.POPMIN", "m"), "om.popmin m 1"),
            (("OM.POPMAX", "m", 0), ""),
            (("OM.SET", "m", "d", 1, "e", 2, "f", 3), "OM.SET m d 1 e 2 f 3"),
            (("OM.POPMAX", "m", 1), "om.popmax m 1"),
            (("OM.DELRANGE", "m", "[d", "(f", "LIMIT", 1), "om.delrange m [d (f LIMIT 1"),
            (("OM.DELRANGE", "m", "[x", "+"), ""),
            (("OM.RANGE", "m", "-", "+"), ""),
            (("OM.POPMIN", "m", 1_000), "om.popmin m 2"),
        ]
        with Server("--appendonly", "yes", "--appendfsync", "always") as server:
            for words, _ in changes:
                with contextlib.suppress(redis.ResponseError):
                    server.run(*words)
            [file] = server.folder.glob("appendonlydir/*.incr.aof")
            said = [line for line in file.read_bytes().decode().split("\r\n") if line[:1] not in ("*", "$")]
        self.assertEqual(" ".join(said).split(), " ".join(["SELECT 0", *(text for _, text in changes)]).split())

    def test_saved_beside_changes(self) -> None:
        """A background save has the pairs of one moment, while changes, a growth and a read by a job go on."""
        pairs = some_pairs(200_000 if IS_LONG else 20_000)
        with Server("--rdb-key-save-delay", "200000") as server:
            fill(server, "m", pairs)
            before = digest(server)
            server.client.bgsave()
            fill(server, "m", some_pairs(len(pairs), 2))
            self.assertGreaterEqual(len(server.run("OM.RANGE", "m", "-", "+")), len(pairs))
            server.client.config_set("rdb-key-save-delay", "0")
            server.until("persistence", "rdb_bgsave_in_progress", 0)
            self.assertEqual(server.client.info("persistence")["rdb_last_bgsave_status"], "ok")
            server.kill()
            server.start()
            self.assertEqual(digest(server), before)

    def test_full_disk(self) -> None:
        """Where a file can't be written, the server says so and keeps the one that it has. Once it can, no change is lost that it has replied to.

        A short write to the append-only file behind a rewrite that has failed is left out: neither Redis 7.0 nor Valkey 8.0 loads that file, also
        where it has hashes alone. Nor has DEBUG LOADAOF what the server could not write.
        """
        with Server("--appendonly", "yes") as server:
            fill(server, "m", some_pairs(10_000))
            server.limit_files(1_000 + max(file.stat().st_size for file in server.folder.glob("appendonlydir/*.incr.aof")))
            with self.assertRaisesRegex(redis.ResponseError, "Errors writing to the AOF"):
                for at in range(10_000):
                    server.run("OM.SET", "m", b"more %d" % at, at)
                    time.sleep(0.001)
            self.assertTrue(server.unwritten())
            server.limit_files()
            server.until("persistence", "aof_last_write_status", "ok")
            self.restart(server)
            server.limit_files(20_000)
            self.assertRaises(redis.ResponseError, server.client.save)
            with self.assertRaisesRegex(RuntimeError, "was not written"):
                server.rewrite("no")
            server.limit_files()
            self.restart(server)

    def restart(self, server: Server) -> None:
        before = digest(server)
        server.kill()
        server.start()
        self.assertEqual(digest(server), before)

    def test_kill(self) -> None:
        """Each write that was answered is there after kill -9, where each is synchronized."""
        answered = kills = 0
        with Server("--appendonly", "yes", "--appendfsync", "always") as server:
            while kills < 2 or answered < (10_000 if IS_LONG else 50):
                assert server.process is not None
                killer = threading.Timer(random.uniform(0.2, 2 if IS_LONG else 0.5), server.process.kill)
                killer.start()
                with self.assertRaises(redis.ConnectionError):
                    while True:
                        server.client.execute_command("OM.SET", "m", b"f%09d" % answered, answered)
                        answered += 1
                killer.join()
                server.process.wait()
                server.client.connection_pool.disconnect()
                server.start()
                kills += 1
                self.assertEqual(server.run("OM.COUNT", "m", "-", b"(f%09d" % answered), answered, f"kill {kills}")
                answered = server.run("OM.LEN", "m")
        print(f"\nkill -9: {answered} answered writes after {kills} kills, none lost", end=" ")


class Copies(unittest.TestCase):
    def test_replica(self) -> None:
        pairs = some_pairs(100_000 if IS_LONG else 10_000)
        with Server() as server, Server() as replica:
            fill(server, "m", pairs)
            replica.client.replicaof("127.0.0.1", server.port)
            replica.until("replication", "master_link_status", "up")
            fill(server, "m", some_pairs(2_000, 2))
            for words in [("OM.POPMAX", "m", 100), ("OM.ADD", "c", "a", 3), ("OM.CAS", "c", "a", 3, 7), ("OM.DELRANGE", "m", "-", "[user:2")]:
                server.run(*words)
            self.assertEqual(server.client.wait(1, 30_000), 1)
            self.assertEqual(digest(replica), digest(server))
            self.assertRaises(redis.ReadOnlyError, replica.run, "OM.SET", "m", "a", "1")
            server.client.flushall(asynchronous=True)
            server.client.wait(1, 30_000)
            self.assertEqual(replica.client.dbsize(), 0)

    def test_cluster(self) -> None:
        """Three masters; a slot with a map moves, and its digest is the same."""
        servers = [Server("--cluster-enabled", "yes", "--cluster-node-timeout", "5000") for _ in range(3)]
        try:
            self.move_slot(servers)
        finally:
            for server in servers:
                server.end()

    def move_slot(self, servers: "list[Server]") -> None:
        parts = [(0, 5460), (5461, 10922), (10923, 16383)]
        for server, (first, last) in zip(servers, parts):
            server.run("CLUSTER ADDSLOTSRANGE", first, last)
            server.run("CLUSTER MEET", "127.0.0.1", servers[0].port)
        for server in servers:
            while server.run("CLUSTER INFO")["cluster_state"] != "ok":
                time.sleep(0.05)
        slot = servers[0].run("CLUSTER KEYSLOT", "m")
        source = next(server for server, (first, last) in zip(servers, parts) if first <= slot <= last)
        target = servers[(servers.index(source) + 1) % 3]
        fill(source, "m", some_pairs(50_000 if IS_LONG else 10_000))
        before = source.run("DEBUG", "DIGEST-VALUE", "m")
        names = {server: server.run("CLUSTER MYID") for server in servers}
        target.run("CLUSTER SETSLOT", slot, "IMPORTING", names[source])
        source.run("CLUSTER SETSLOT", slot, "MIGRATING", names[target])
        source.run("MIGRATE", "127.0.0.1", target.port, "", 0, 60_000, "KEYS", "m")
        for server in servers:
            server.run("CLUSTER SETSLOT", slot, "NODE", names[target])
        self.assertEqual(target.run("DEBUG", "DIGEST-VALUE", "m"), before)
        with self.assertRaisesRegex(redis.ResponseError, "MOVED|" + str(target.port)):
            source.run("OM.LEN", "m")


class Portions(unittest.TestCase):
    """Removals of many pairs, which go in portions."""

    COUNT = 1_000_000 if IS_LONG else 60_000

    def fill(self, server: Server) -> None:
        fill(server, "m", {b"f%07d" % at: b"%d" % at for at in range(self.COUNT)})

    def remove_all(self, server: Server, *more: object) -> redis.Connection:
        """Has another client remove all fields, waits until it has begun, and returns its connection."""
        other = redis.Redis(port=server.port).connection_pool.get_connection("_")
        other.send_packed_command(other.pack_commands([("OM.DELRANGE", "m", "-", "(g"), *more]))
        while server.run("OM.LEN", "m") == self.COUNT:
            pass
        return other

    def test_at_once(self) -> None:
        """No command has the main thread go through more than a thousand pairs in one go."""
        works = [("OM.RANGE", "-", "+"), ("OM.RANGE", "-", "+", "REV", "LIMIT", 50_000, 5), ("OM.PREFIX", "f"), ("OM.COUNT", "-", "+")]
        works += [(name, *(b"f%07d" % (at * 7) for at in range(5_000))) for name in ("OM.MGET", "OM.DEL")]
        works += [("OM.POPMIN", 5_000), ("OM.POPMAX", 5_000), ("OM.DELRANGE", "(a", "+", "LIMIT", 30_000), ("OM.DELRANGE", "-", "(g")]
        with Server() as server:
            self.fill(server)
            for name, *words in works:
                server.run(name, "m", *words)
            self.assertEqual(server.client.exists("m"), 0)
            self.assertLessEqual(server.figure("ordered_map_most_pairs_at_once"), 1_000)

    def test_long_values(self) -> None:
        """They are fewer where values are long."""
        with Server() as server:
            fill(server, "m", {b"f%04d" % at: b"%d" % at * 10_000 for at in range(500)}, 50)
            self.assertEqual(len(server.run("OM.RANGE", "m", "-", "+", "WITHVALUES")), 1_000)
            popped = len(server.run("OM.POPMIN", "m", 400)) // 2
            self.assertEqual(server.run("OM.DELRANGE", "m", "-", "[f0498"), 499 - popped)
            self.assertLessEqual(server.figure("ordered_map_most_pairs_at_once"), 128)

    def test_few_long_values(self) -> None:
        """Nor through more than 1 MB of them, however short the others are."""
        long = {b"l%02d" % at: b"%02d" % at * 500_000 for at in range(12)}
        fields, pairs = list(long), flat(list(long.items()))
        short = {b"f%07d" % at: b"%d" % at for at in range(20_000)}
        reads: "list[tuple[tuple[object, ...], object]]" = [
            (("OM.RANGE", "m", "[l", "+", "WITHVALUES"), pairs),
            (("OM.RANGE", "m", "-", "(l05", "REV", "LIMIT", 2, 600, "WITHVALUES"), flat(list((short | long).items())[20_002:19_402:-1])),
            (("OM.PREFIX", "m", "l", "WITHVALUES", "LIMIT", 3, 2), pairs[6:10]),
            (("OM.SCAN", "m", 0, "COUNT", 100, "PREFIX", "l"), [b"0", pairs]),
            (("OM.MGET", "m", *fields), pairs[1::2]),
        ]
        with Server() as server:
            fill(server, "m", short | long)
            for words, expected in reads:
                self.assertEqual(server.run(*words), expected, words[:4])
            self.assertEqual(server.run("OM.POPMAX", "m", 3), flat(list(reversed(list(long.items())[-2:]))))
            self.assertEqual(server.run("OM.DELRANGE", "m", "[l", "[l04"), 5)
            self.assertEqual(server.run("OM.DEL", "m", *fields), 5)
            self.assertLessEqual(server.figure("ordered_map_most_pairs_at_once"), 2)
            self.assertEqual(server.figure("ordered_map_reads"), len(reads))

    def until_caught(self, attempt: "Callable[[], bool]") -> None:
        """Tries until a removal has not ended before what is to come between: on a busy machine it may have."""
        self.assertTrue(any(attempt() for _ in range(20)))

    def test_turns(self) -> None:
        """Between portions other clients have their commands run. What is set behind them stays, and what is set before them goes. A replica has
        the same, and the client's next command comes after all."""
        with Server() as server, Server() as replica:
            replica.client.replicaof("127.0.0.1", server.port)
            replica.until("replication", "master_link_status", "up")
            self.until_caught(lambda: self.take_turns(server))
            self.assertEqual(server.client.wait(1, 30_000), 1)
            self.assertEqual(digest(replica), digest(server))

    def take_turns(self, server: Server) -> bool:
        server.client.delete("m")
        self.fill(server)
        other, turns = self.remove_all(server, ("OM.LEN", "m")), 0
        is_between = server.run("OM.SET", "m", "fz", "1") == 1 and server.run("OM.EXISTS", "m", "f%07d" % (self.COUNT - 1))
        while is_between and server.run("OM.EXISTS", "m", "fz"):
            server.run("OM.SET", "m", "a%d" % turns, turns)
            turns += 1
        removed, left = other.read_response(), other.read_response()
        if is_between:
            self.assertEqual(removed, self.COUNT + 1)
            self.assertIn(left, [turns - 1, turns])
            self.assertEqual(server.run("OM.LEN", "m"), turns)
        return bool(is_between) and turns > 10

    def test_named(self) -> None:
        """Many named fields: all values come, also of fields that are absent or named twice. Then some go, and a replica has the same."""
        pairs = {b"f%05d" % at: b"a value of more than seven bytes %d" % at for at in range(10_000)}
        fields = random.Random(1).choices([*pairs, b"", b"none"], k=15_000)
        with Server() as server, Server() as replica:
            replica.client.replicaof("127.0.0.1", server.port)
            replica.until("replication", "master_link_status", "up")
            fill(server, "m", pairs)
            self.assertEqual(server.run("OM.MGET", "m", *fields), [pairs.get(field) for field in fields])
            self.assertEqual(server.run("OM.MGET", "none", *fields), [None] * len(fields))
            self.assertEqual(server.run("OM.DEL", "m", *fields[:5_000]), len(set(fields[:5_000]) & set(pairs)))
            self.assertEqual(server.client.wait(1, 30_000), 1)
            self.assertEqual(digest(replica), digest(server))
            self.assertEqual(server.run("OM.LEN", "m"), len(set(pairs) - set(fields[:5_000])))
            self.assertEqual(server.run("OM.DEL", "m", *pairs, *fields), len(set(pairs) - set(fields[:5_000])))
            self.assertEqual(server.client.exists("m"), 0)
            self.assertEqual(server.client.wait(1, 30_000), 1)
            self.assertEqual(replica.client.dbsize(), 0)

    def test_forms(self) -> None:
        """A removal goes on where its map has become small."""
        fields = [b"f%05d" % at for at in range(5_000)]
        with Server() as server:
            fill(server, "m", dict.fromkeys(fields, b"1"))
            names = [*fields[100:], *(b"absent %d" % at for at in range(3_000)), *fields[:100]]
            self.assertEqual(server.run("OM.DEL", "m", *names), 5_000)
            self.assertEqual(server.client.exists("m"), 0)

    def test_clients_that_go(self) -> None:
        """Once its client has left, a removal ends."""
        with Server() as server:
            self.until_caught(lambda: self.leave(server))
            left = server.run("OM.LEN", "m")
            time.sleep(0.1)
            self.assertEqual(server.run("OM.LEN", "m"), left)
            self.assertGreater(server.figure("ordered_map_clients_gone"), 0)

    def leave(self, server: Server) -> bool:
        self.fill(server)
        self.remove_all(server).disconnect()
        server.until("clients", "blocked_clients", 0)
        return bool(server.run("OM.LEN", "m"))

    def test_roles(self) -> None:
        """A server that makes no changes for a while takes no portion, nor does one that becomes a replica."""
        with Server() as server, Server() as first:
            fill(first, "m", some_pairs(1_000))
            self.until_caught(lambda: self.change_role(server, first))
            server.until("replication", "master_link_status", "up")
            server.until("clients", "blocked_clients", 0)
            self.assertEqual(digest(server), digest(first))

    def change_role(self, server: Server, first: Server) -> bool:
        self.fill(server)
        other = self.remove_all(server)
        server.run("CLIENT", "PAUSE", 60_000, "WRITE")
        left = server.run("OM.LEN", "m")
        time.sleep(0.1)
        self.assertEqual(server.run("OM.LEN", "m"), left)
        if left > 0:
            server.client.replicaof("127.0.0.1", first.port)
        server.run("CLIENT", "UNPAUSE")
        if left > 0:
            self.assertRaisesRegex(redis.ResponseError, "force unblock", other.read_response)
        return bool(left)

    def test_keys_that_go(self) -> None:
        """A removal ends where its key has another type, or is gone."""
        with Server() as server:
            for words, held in [(("SET", "m", "text"), 1), (("DEL", "m"), 0)]:
                self.until_caught(lambda words=words: self.take_key(server, words))
                self.assertEqual(server.client.exists("m"), held)

    def take_key(self, server: Server, words: "tuple[object, ...]") -> bool:
        server.client.delete("m")
        self.fill(server)
        other = self.remove_all(server)
        server.run(*words)
        return bool(other.read_response() < self.COUNT)

    def test_other_maps(self) -> None:
        """A removal ends where its key has another map, however that came there, and leaves that map as it is."""
        words = ["OM.SET", "m", *flat(list(self.OTHER.items()))]
        removals = [("OM.DELRANGE", "m", "[a", "+"), ("OM.DEL", "m", *self.MANY), ("OM.DELRANGE", "m", "-", "(z", "LIMIT", 10**6)]
        changes: "list[list[Any]]" = [[("RENAME", "other", "m")], [("COPY", "other", "m", "REPLACE")], [("SWAPDB", 0, 1)], [("FLUSHALL",), words]]
        with Server() as server:
            fill(server, "other", self.OTHER)
            changes.append([("RESTORE", "m", 0, server.client.dump("other"), "REPLACE")])
            works = [(removal, [("DEL", "m"), words]) for removal in removals] + [(removals[0], change) for change in changes]
            for removal, change in works:
                with self.subTest(removal=removal[0], change=change[0][0]):
                    self.until_caught(lambda removal=removal, change=change: self.change_map(server, removal, change))

    MANY = {b"f%07d" % at: b"%d" % at for at in range(20_000)}
    OTHER = {b"a": b"first", b"f0010000": b"between", b"f0019999": b"late", b"z": b"last"}

    def change_map(self, server: Server, removal: "tuple[object, ...]", change: "list[Any]") -> bool:
        """Has another client begin a removal, and gives its key another map."""
        server.client.flushall()
        fill(server, "m", self.MANY)
        fill(server, "other", self.OTHER)
        server.client.copy("other", "m", destination_db=1)
        other = redis.Redis(port=server.port).connection_pool.get_connection("_")
        other.send_command(*removal)
        while server.client.info("clients")["blocked_clients"] == 0 and not other.can_read(0.001):
            pass
        with server.client.pipeline(transaction=False) as pipe:
            for words in change:
                pipe.execute_command(*words)
            pipe.execute()
        if other.read_response() == len(self.MANY):
            return False
        self.assertEqual(server.run("OM.RANGE", "m", "-", "+", "WITHVALUES"), flat(list(self.OTHER.items())))
        return True

    def test_at_one_time(self) -> None:
        """In MULTI and in a script all goes at once."""
        with Server() as server:
            self.fill(server)
            with server.client.pipeline(transaction=True) as together:
                together.execute_command("OM.POPMIN", "m", 2_000)
                together.execute_command("OM.LEN", "m")
                self.assertEqual([len(together.execute()[0]), server.run("OM.LEN", "m")], [4_000, self.COUNT - 2_000])
            script = "return {redis.call('OM.DELRANGE', KEYS[1], '-', '(g'), redis.call('OM.LEN', KEYS[1])}"
            self.assertEqual(server.client.eval(script, 1, "m"), [self.COUNT - 2_000, 0])


class Memory(unittest.TestCase):
    def test_moves(self) -> None:
        """The server moves blocks together where others have gone, and maps are as before. Debian's servers have no such allocator."""
        with Server() as server:
            try:
                server.client.config_set("activedefrag", "yes")
            except redis.ResponseError:
                print("\nnot tried, since this server has no activedefrag: blocks that are moved", end=" ")
                self.skipTest("no activedefrag")
            server.client.config_set("activedefrag", "no")
            server.client.config_set("hz", 100)
            few, many = (flat(list(some_pairs(count).items())) for count in (20, 600))
            for at in range(2_000):
                server.run("OM.SET", f"m{at}", *(few if at % 9 else many))
            server.client.delete(*[f"m{at}" for at in range(2_000) if at % 4])
            before = digest(server)
            # The server looks at its allocator from time to time.
            time.sleep(0.5)
            frag = server.figure("allocator_frag_bytes")
            for name, value in [("ignore-bytes", 1), ("threshold-lower", 1), ("cycle-min", 90), ("cycle-max", 95)]:
                server.client.config_set(f"active-defrag-{name}", value)
            server.client.config_set("activedefrag", "yes")
            end = time.monotonic() + 15
            while server.figure("allocator_frag_bytes") > frag / 3 and time.monotonic() < end:
                time.sleep(0.1)
            self.assertLess(server.figure("allocator_frag_bytes"), frag / 3)
            self.assertEqual(digest(server), before)

    def test_usage(self) -> None:
        """The server knows what a map takes, and gets it back."""
        with Server() as server:
            before = server.figure("used_memory")
            fill(server, "m", some_pairs(50_000))
            # The server has a buffer for the client's commands.
            server.client.connection_pool.disconnect()
            server.client.ping()
            used = server.figure("used_memory") - before
            self.assertGreater(used, 50_000 * 30)
            self.assertGreater(server.client.memory_usage("m"), used * 0.7)
            server.client.unlink("m")
            end = time.monotonic() + 20
            while server.figure("ordered_map_indexes") > 0 and time.monotonic() < end:
                time.sleep(0.02)
            self.assertEqual(server.figure("ordered_map_index_bytes"), 0)
            self.assertLess(server.figure("used_memory") - before, used / 3)

    def test_trims(self) -> None:
        """An index gives memory back when few of its pairs are left. What changes meanwhile is not lost, in whichever part of it."""
        count = 1_000_000 if IS_LONG else 100_000
        pairs = {b"f%07d" % at: b"a value of more than seven bytes %d" % at if at % 2 else b"%d" % at for at in range(count)}
        left, some = dict(list(pairs.items())[: count // 10]), random.Random(1)
        with Server() as server:
            fill(server, "m", pairs)
            full = server.run("OM.STAT", "m")[3]
            server.run("OM.DELRANGE", "m", b"[f%07d" % len(left), "+")
            while server.figure("ordered_map_trims") == 0:
                field = b"f%07d" % some.randrange(len(left))
                if some.random() < 0.5:
                    left[field] = b"a value that is another one %d" % some.randrange(10**6)
                    server.run("OM.SET", "m", field, left[field])
                else:
                    self.assertEqual(server.run("OM.DEL", "m", field), left.pop(field, None) is not None)
            self.assertLess(server.run("OM.STAT", "m")[3], full / 4)
            server.until("everything", "ordered_map_indexes", 1)
            self.assertEqual(server.run("OM.RANGE", "m", "-", "+", "WITHVALUES"), flat(sorted(left.items())))

    def test_trims_that_end(self) -> None:
        """One ends where its key goes, gets another name or another map, or where the map grows again."""
        changes: "list[list[Any]]" = [[("DEL", "m")], [("RENAME", "m", "other")], [("SET", "m", "text")], [("FLUSHALL", "ASYNC")]]
        pairs = {b"f%07d" % at: b"a value of more than seven bytes %d" % at for at in range(100_000)}
        half = list(pairs.items())[:50_000]
        changes.append([("OM.SET", "m", *flat(half[begin : begin + 2_500])) for begin in range(0, 50_000, 2_500)])
        with Server() as server:
            for change in changes:
                server.client.flushall()
                fill(server, "m", pairs)
                with server.client.pipeline(transaction=True) as together:
                    together.execute_command("OM.DELRANGE", "m", "[f0012000", "+")
                    for words in change:
                        together.execute_command(*words)
                    together.execute()
                time.sleep(0.2)
                if change[0][0] == "RENAME":
                    self.assertEqual(server.run("OM.RANGE", "other", "-", "+", "WITHVALUES"), flat(half[:12_000]))
                if change[0][0] == "OM.SET":
                    self.assertEqual(server.run("OM.RANGE", "m", "-", "+", "WITHVALUES"), flat(half))
                self.assertEqual(server.figure("ordered_map_trims"), 0)
            server.client.flushall()
            server.until("everything", "ordered_map_indexes", 0)

    @unittest.skipIf(PRELOAD, "what stands before the server's libraries takes memory, too")
    def test_estimate(self) -> None:
        """The server counts what is resident, for fields of any length, and for few as well as many."""
        few, some, many = (100, 257), (30, 1_000), (1, 40_000)
        for length, (maps, count) in [(8, few), (8, some), (24, some), (90, some), (150, some), (24, many), (90, many), (150, many)]:
            with self.subTest(length=length, count=count), Server() as server:
                self.weigh(server, length, maps, count)

    def weigh(self, server: Server, length: int, maps: int, count: int) -> None:
        some = random.Random(length)
        server.run("MEMORY", "PURGE")
        used, resident = server.figure("used_memory"), server.resident()
        for at in range(maps):
            fill(server, f"m{at}", {some.randbytes(length): b"1" for _ in range(count)}, 100)
        server.client.connection_pool.disconnect()
        server.run("MEMORY", "PURGE")
        share = (server.figure("used_memory") - used) / (server.resident() - resident)
        self.assertTrue(0.7 < share < 1.3, share)

    def test_eviction(self) -> None:
        """Maps are evicted for their memory, and without eviction changes are refused."""
        with Server("--maxmemory", "24mb", "--maxmemory-policy", "allkeys-lru") as server:
            for at in range(40):
                fill(server, f"m{at}", some_pairs(10_000, at))
            self.assertLess(server.client.dbsize(), 40)
            self.assertGreater(server.figure("evicted_keys"), 0)
            server.client.config_set("maxmemory-policy", "noeviction")
            with self.assertRaisesRegex(redis.ResponseError, "OOM|maxmemory"):
                for at in range(40):
                    fill(server, f"n{at}", some_pairs(10_000, at))

    def test_limit(self) -> None:
        """The module's own limit refuses changes that take memory, and no others."""
        with Server("--ordered_map.memory-limit", "4mb") as server:
            with self.assertRaisesRegex(redis.ResponseError, "ordered maps have no more memory"):
                fill(server, "m", some_pairs(200_000))
            length = server.run("OM.LEN", "m")
            with self.assertRaises(redis.ResponseError):
                server.run("OM.ADD", "m", "more", 1)
            self.assertEqual(server.run("OM.LEN", "m"), length)
            self.assertEqual(len(server.run("OM.POPMIN", "m", 5)), 10)
            server.client.config_set("ordered_map.memory-limit", 0)
            self.assertEqual(server.run("OM.ADD", "m", "more", 1), 1)
            self.assertRaises(redis.ResponseError, server.client.config_set, "ordered_map.threads", 1)


    def test_limit_of_copies(self) -> None:
        """It bounds COPY and RESTORE, too. Small maps are copied. A file is loaded, and a replica takes what its server has."""
        limit = ("--ordered_map.memory-limit", "3mb")
        with Server(*limit, "--appendonly", "yes") as server, Server("--replicaof", f"127.0.0.1 {server.port}", *limit) as replica:
            fill(server, "m", some_pairs(20_000))
            fill(server, "small", some_pairs(100))
            payload = server.client.dump("m")
            with self.assertRaisesRegex(redis.ResponseError, "failed to copy"):
                for at in range(5):
                    server.client.copy("m", f"copy{at}")
            with self.assertRaisesRegex(redis.ResponseError, "Bad data"):
                for at in range(5):
                    server.client.restore(f"restored{at}", 0, payload)
            self.assertLess(server.figure("ordered_map_index_bytes"), 3 << 20)
            self.assertIn("no more memory", server.log())
            self.assertTrue(server.client.copy("small", "other"))
            self.assertTrue(server.client.restore("more", 0, server.client.dump("small")))
            server.client.config_set("ordered_map.memory-limit", 0)
            self.assertTrue(server.client.copy("m", "large"))
            self.assertTrue(server.client.restore("larger", 0, payload))
            before = digest(server)
            self.assertEqual(server.client.wait(1, 30_000), 1)
            self.assertEqual(digest(replica), before)
            server.stop()
            server.start()
            self.assertGreater(server.figure("ordered_map_index_bytes"), 3 << 20)
            self.assertEqual(digest(server), before)


class Jobs(unittest.TestCase):
    def test_reads_beside_changes(self) -> None:
        """Reads by jobs are in order, have each field that stays, and each value whole, while values are replaced and fields come and go, maps are
        copied, unlinked and saved."""
        seconds = 60 if IS_LONG else 4
        with Server() as server:
            Stress(server, time.monotonic() + seconds).run(self)
            self.assertGreater(server.figure("ordered_map_reads"), 0)

    def test_growth(self) -> None:
        count = 1_000_000 if IS_LONG else 60_000
        some, pairs = random.Random(3), {}
        with Server() as server:
            with server.client.pipeline(transaction=False) as pipe:
                for at in range(count):
                    field = b"u:%d" % some.randrange(count)
                    if some.random() < 0.8:
                        pairs[field] = some.choice([b"%d" % at, b"a value of more than seven bytes %d" % at])
                        pipe.execute_command("OM.SET", "m", field, pairs[field])
                    else:
                        pairs.pop(field, None)
                        pipe.execute_command("OM.DEL", "m", field)
                    if at % 300 == 299:
                        pipe.execute()
                pipe.execute()
            self.assertEqual(server.run("OM.RANGE", "m", "-", "+", "WITHVALUES"), flat(sorted(pairs.items())))

    def test_clients_that_go(self) -> None:
        """A read for a client that has left ends, and the map goes with it."""
        with Server("--ordered_map.threads", "1") as server:
            fill(server, "m", some_pairs(300_000 if IS_LONG else 60_000))
            for _ in range(20):
                other = redis.Redis(port=server.port).connection_pool.get_connection("_")
                for _ in range(3):
                    other.send_command("OM.RANGE", "m", "-", "+", "WITHVALUES")
                other.disconnect()
            end = time.monotonic() + 60
            while server.figure("blocked_clients") > 0 and time.monotonic() < end:
                time.sleep(0.02)
            self.assertEqual(server.figure("blocked_clients"), 0)
            self.assertGreater(server.figure("ordered_map_clients_gone"), 0)
            server.client.unlink("m")
            while server.figure("ordered_map_indexes") > 0 and time.monotonic() < end:
                time.sleep(0.02)
            self.assertEqual(server.figure("ordered_map_indexes"), 0)

    def test_without_threads(self) -> None:
        with Server("--ordered_map.threads", "0") as server:
            pairs = some_pairs(20_000)
            fill(server, "m", pairs)
            self.assertEqual(server.run("OM.RANGE", "m", "-", "+", "WITHVALUES"), flat(sorted(pairs.items())))


class Stress:
    """Readers of whole ranges beside a writer."""

    FIELDS = 20_000

    def __init__(self, server: Server, end: float):
        self.server, self.end = server, end
        self.wrong: "list[object]" = []

    @staticmethod
    def value(field: bytes) -> bytes:
        return field + b":" + random.randbytes(20).hex().encode()

    def read(self) -> None:
        client = redis.Redis(port=self.server.port)
        while time.monotonic() < self.end and not self.wrong:
            falls = random.random() < 0.3
            name = "m" if random.random() < 0.8 else "copy"
            words = ["OM.RANGE", name, "-", "+", "WITHVALUES"] + (["REV"] if falls else [])
            said = client.execute_command(*words)
            fields = said[::2]
            if not said and name == "copy":
                continue
            if fields != sorted(set(fields), reverse=falls):
                self.wrong.append("not in order")
            self.wrong += [pair for pair in zip(fields, said[1::2]) if not pair[1].startswith(pair[0] + b":")][:3]
            if sum(field.startswith(b"k:") and int(field[2:]) % 2 == 0 for field in fields) != self.FIELDS // 2:
                self.wrong.append("a field is missing")
            if client.execute_command("OM.COUNT", "m", "[k:", "(k;") < self.FIELDS // 2:
                self.wrong.append("a field isn't counted")

    def write(self) -> None:
        client, more = redis.Redis(port=self.server.port), 0
        while time.monotonic() < self.end and not self.wrong:
            with client.pipeline(transaction=False) as pipe:
                for _ in range(200):
                    field = b"k:%06d" % random.randrange(self.FIELDS)
                    if int(field[2:]) % 2 == 0 or random.random() < 0.5:
                        pipe.execute_command("OM.SET", "m", field, self.value(field))
                    else:
                        pipe.execute_command("OM.DEL", "m", field)
                for _ in range(20):
                    field = b"x:%08d" % more
                    more += 1
                    pipe.execute_command("OM.SET", "m", field, self.value(field))
                pipe.execute()
            self.change_maps(client, more)

    @staticmethod
    def change_maps(client: redis.Redis, more: int) -> None:
        rare = random.random()
        if rare < 0.02:
            client.copy("m", "copy", replace=True)
        elif rare < 0.03:
            client.unlink("copy")
        elif rare < 0.035:
            client.delete("copy")
        elif rare < 0.04:
            try:
                client.bgsave()
            except redis.ResponseError:
                pass
        elif rare < 0.043:
            client.execute_command("OM.DEL", "m", *[b"x:%08d" % at for at in range(more)])

    def run(self, test: unittest.TestCase) -> None:
        fields = [b"k:%06d" % at for at in range(0, self.FIELDS, 2)]
        fill(self.server, "m", {field: self.value(field) for field in fields})
        threads = [threading.Thread(target=self.read) for _ in range(2)] + [threading.Thread(target=self.write)]
        for thread in threads:
            thread.start()
        for thread in threads:
            thread.join()
        test.assertEqual(self.wrong[:3], [])


class AtRandom(unittest.TestCase):
    def test_model(self) -> None:
        count = 1_000_000 if IS_LONG else 10_000
        print(f"\nmodel: {count} commands, {dict(model.run(count, 1))}", end=" ")

    def test_damaged(self) -> None:
        count = 100_000 if IS_LONG else 1_000
        taken, refused = damaged.run(count, 1)
        self.assertGreater(refused, taken)
        print(f"\ndamaged payloads: {refused} refused, {taken} maps", end=" ")


if __name__ == "__main__":
    unittest.main()
