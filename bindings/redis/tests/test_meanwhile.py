"""Commands whose clients wait: meanwhile their key changes, or moves to another server of a cluster."""
import contextlib
import ctypes
import functools
import itertools
import os
import select
import socket
import time
import unittest
from collections.abc import Iterator
from pathlib import Path
from typing import Any

from plain import packed
from servers import Server, fill, flat

# Of <sys/ptrace.h> and <sys/wait.h>.
SEIZE, INTERRUPT, DETACH, ALL_THREADS = 0x4206, 0x4207, 17, 0x40000000
trace = ctypes.CDLL(None, use_errno=True).ptrace
trace.argtypes = [ctypes.c_long, ctypes.c_long, ctypes.c_void_p, ctypes.c_void_p]
trace.restype = ctypes.c_long


@functools.cache
def say_untraced() -> None:
    """Once for all tests."""
    print("\nnot tried, since no thread may be traced: what comes between a command and its reply")


@contextlib.contextmanager
def held(server: Server, name: str) -> "Iterator[None]":
    """A thread of the server stands still."""
    assert server.process is not None
    tasks = Path(f"/proc/{server.process.pid}/task").iterdir()
    thread = next(int(task.name) for task in tasks if (task / "comm").read_text() == name + "\n")
    if trace(SEIZE, thread, None, None) != 0:
        say_untraced()
        raise unittest.SkipTest(os.strerror(ctypes.get_errno()))
    try:
        trace(INTERRUPT, thread, None, None)
        os.waitpid(thread, ALL_THREADS)
        yield
    finally:
        trace(DETACH, thread, None, None)


class Client:
    """One that need not wait for its replies. It returns them as the server writes them, but for lists and texts."""

    def __init__(self, server: Server):
        self.socket = socket.create_connection(("127.0.0.1", server.port), timeout=120)
        self.replies = self.socket.makefile("rb")

    def send(self, *words: object) -> "Client":
        self.socket.sendall(packed(*words))
        return self

    def has_reply(self, seconds: float) -> bool:
        return bool(select.select([self.socket], [], [], seconds)[0])

    def reply(self) -> Any:
        line = self.replies.readline().rstrip()
        if line[:1] in (b"*", b"%", b">"):
            return [self.reply() for _ in range(int(line[1:]) * (1 + (line[:1] == b"%")))]
        if line[:1] == b"$" and line != b"$-1":
            return self.replies.read(int(line[1:]) + 2)[:-2]
        return line.decode()

    def run(self, *words: object) -> Any:
        return self.send(*words).reply()

    def close(self) -> None:
        self.replies.close()
        self.socket.close()


def numbers(count: int, begin: int = 0) -> "dict[bytes, bytes]":
    return {b"f%07d" % at: b"%d" % at for at in range(begin, begin + count)}


@contextlib.contextmanager
def clients_of(server: Server, count: int) -> "Iterator[list[Client]]":
    clients = [Client(server) for _ in range(count)]
    try:
        yield clients
    finally:
        for client in clients:
            client.close()


class Moments(unittest.TestCase):
    def test_atomic_reads(self) -> None:
        """A long read with that word never has one alone of two fields that one command sets, nor counts one of them."""
        pairs = numbers(20_000)
        reads = [("OM.RANGE", "m", "-", "+", "WITHVALUES"), ("OM.MGET", "m", "ATOMIC", "FIELDS", len(pairs) + 2, "a", *pairs, "z")]
        with Server() as server, clients_of(server, 2) as [reader, writer]:
            fill(server, "m", pairs)
            seen = {False}
            for turn in range(40):
                words = reads[turn % 2]
                for _ in range(100):
                    writer.send("OM.SET", "m", "a", turn, "z", turn)
                reader.send(*words, *["ATOMIC"] * (turn % 2 == 0))
                for at in range(1, 200):
                    writer.send("OM.SET", "m", "a", f"{turn}.{at}", "z", f"{turn}.{at}")
                said = reader.reply()
                seen.add(said[1 if turn % 2 == 0 else 0] != said[-1])
                for _ in range(299):
                    writer.reply()
            self.assertEqual(seen, {False})
            for turn in range(20):
                for name in ("OM.DEL", "OM.SET"):
                    reader.send("OM.COUNT", "m", "-", "+", "ATOMIC")
                    writer.run(name, "m", *(["a", "z"] if name == "OM.DEL" else ["a", turn, "z", turn]))
                    self.assertIn(reader.reply(), (":20000", ":20002"))


class Turns(unittest.TestCase):
    """A read that one thread can end at once goes before long ones."""

    SHORT: "tuple[object, ...]" = ("OM.RANGE", "m", "-", "+", "LIMIT", 0, 1_100)

    def ended_before(self, pairs: int, *words: object) -> int:
        """The number of clients, twelve at most, that have their replies when a short read ends that was sent after theirs."""
        with Server("--ordered_map.threads", "1") as server, clients_of(server, 13) as [short, *others]:
            fill(server, "m", numbers(pairs))
            for client in others:
                client.send(*words)
            self.assertEqual(len(short.run(*self.SHORT)), 1_100)
            ended = sum(client.has_reply(0) for client in others)
            self.assertEqual(len({str(client.reply()) for client in others}), 1)
        return ended

    def test_short_reads(self) -> None:
        # Twelve counts of 50,000 pairs may all end before the client looks.
        for name, pairs in (("OM.RANGE", 50_000), ("OM.COUNT", 500_000)):
            self.assertLess(self.ended_before(pairs, name, "m", "-", "+"), 4, name)


class Limits(unittest.TestCase):
    """A reply that another thread makes counts against the limit of its client, too."""

    LIMIT = 4 << 20

    def test_replies_under_way(self) -> None:
        values = {b"f%04d" % at: b"x" * 40_000 for at in range(1_500)}
        with Server("--client-output-buffer-limit", f"normal {self.LIMIT} 0 0") as server, clients_of(server, 20) as clients:
            fill(server, "m", numbers(5_000), 50)
            fill(server, "m", values, 50)
            server.client.config_resetstat()
            before = server.client.info("memory")["used_memory"]
            for client, words in zip(clients, itertools.cycle([("OM.RANGE", "m", "-", "+", "WITHVALUES"), ("OM.MGET", "m", *values)])):
                client.send(*words)
            for client in clients:
                with contextlib.suppress(OSError):
                    while client.socket.recv(1 << 20):
                        pass
            self.assertLess(server.client.info("memory")["used_memory_peak"] - before, 14 * self.LIMIT)
            self.assertIn("output buffer limits", server.log())


class Tracking(unittest.TestCase):
    def test_long_reads(self) -> None:
        """A client that tracks keys is told of a change behind what it has read before: else it would keep that for good."""
        pairs = numbers(5_000)
        with Server("--ordered_map.threads", "1") as server, clients_of(server, 1) as [client]:
            fill(server, "m", pairs | {b"long": b"x" * 2_000_000})
            client.run("HELLO", 3)
            client.run("CLIENT", "TRACKING", "ON")
            for words in [("RANGE", "-", "+"), ("PREFIX", "f"), ("COUNT", "-", "+"), ("MGET", *pairs), ("MGET", "long"), ("SCAN", 0, "PREFIX", "l")]:
                with held(server, "map_reader"):
                    client.send(f"OM.{words[0]}", "m", *words[1:])
                    while not client.has_reply(0.01) and not server.client.info("clients")["blocked_clients"]:
                        pass
                    server.run("OM.ADD", "m", "counter", 1)
                said = [client.reply(), client.reply()]
                self.assertEqual(said[1], [b"invalidate", [b"m"]], words[0])


class Failovers(unittest.TestCase):
    def test_pops(self) -> None:
        """Where a server becomes a replica, what a pop has removed has been replied."""
        pairs = numbers(60_000)
        with Server() as server, clients_of(server, 1) as [client]:
            fill(server, "m", pairs)
            client.send("OM.POPMIN", "m", len(pairs))
            while server.run("OM.LEN", "m") == len(pairs):
                pass
            server.run("REPLICAOF", "127.0.0.1", 1)
            left = server.run("OM.RANGE", "m", "-", "+", "WITHVALUES")
            self.assertEqual(client.reply() + left, flat(list(pairs.items())))


class Moves(unittest.TestCase):
    """A cluster of two servers, the first of which has all slots in the beginning."""

    COUNT = 60_000
    here: Server
    there: Server
    keys = 0

    @classmethod
    def setUpClass(cls) -> None:
        servers: "list[Server]" = []
        for _ in range(2):
            try:
                servers.append(Server("--cluster-enabled", "yes", "--cluster-node-timeout", "5000"))
            except RuntimeError as error:
                print("\nnot tried, since no cluster starts: a slot that moves while a removal is under way")
                raise unittest.SkipTest(str(error)) from error
            cls.addClassCleanup(servers[-1].end)
        cls.here, cls.there = servers
        cls.here.run("CLUSTER ADDSLOTSRANGE", 0, 16383)
        cls.here.run("CLUSTER MEET", "127.0.0.1", cls.there.port)
        end = time.monotonic() + 60
        for server in servers:
            while [server.run("CLUSTER INFO")[of] for of in ("cluster_state", "cluster_known_nodes")] != ["ok", "2"]:
                assert time.monotonic() < end, server.log()
                time.sleep(0.05)

    def new_key(self) -> str:
        """A key whose slot has not moved."""
        type(self).keys += 1
        return f"m{self.keys}"

    def begin_move(self, name: str) -> None:
        slot = self.here.run("CLUSTER KEYSLOT", name)
        self.there.run("CLUSTER SETSLOT", slot, "IMPORTING", self.here.run("CLUSTER MYID"))
        self.here.run("CLUSTER SETSLOT", slot, "MIGRATING", self.there.run("CLUSTER MYID"))

    def move(self, name: str) -> bool:
        """Moves the key itself: False if there is none."""
        return bool(self.here.run("MIGRATE", "127.0.0.1", self.there.port, name, 0, 60_000) == b"OK")

    def end_move(self, name: str) -> None:
        slot, to = self.here.run("CLUSTER KEYSLOT", name), self.there.run("CLUSTER MYID")
        self.there.run("CLUSTER SETSLOT", slot, "NODE", to)
        self.here.run("CLUSTER SETSLOT", slot, "NODE", to)

    def move_before(self, *words: object) -> "tuple[str, object] | None":
        """Begins a removal, moves the slot before its end, and returns its key and its reply; or None, if it has ended before."""
        name = self.new_key()
        fill(self.here, name, numbers(self.COUNT))
        with clients_of(self.here, 1) as [client]:
            client.send(words[0], name, *words[1:])
            while self.here.run("OM.LEN", name) == self.COUNT:
                pass
            self.begin_move(name)
            is_moved = self.move(name)
            self.end_move(name)
            reply = client.reply()
        return (name, reply) if is_moved else None

    def moved_before(self, *words: object) -> "tuple[str, object]":
        """Tries that until the removal hasn't ended: on a busy machine it may have."""
        for _ in range(20):
            found = self.move_before(*words)
            if found is not None:
                return found
        raise AssertionError("no slot moves before the end")

    def test_removals(self) -> None:
        """The rest of a removal has moved. It says so if it can be sent again: then that removes the rest."""
        for words in [("OM.DELRANGE", "-", "(g"), ("OM.DEL", *numbers(self.COUNT))]:
            name, reply = self.moved_before(*words)
            self.assertEqual(reply, "-TRYAGAIN the rest of the fields has moved", words[0])
            left = self.there.run("OM.LEN", name)
            self.assertEqual((self.there.run(words[0], name, *words[1:]), self.there.client.exists(name)), (left, 0), words[0])

    def test_removals_with_a_limit(self) -> None:
        """They reply with what they have removed."""
        name, reply = self.moved_before("OM.DELRANGE", "-", "+", "LIMIT", self.COUNT - 1)
        self.assertEqual(reply, f":{self.COUNT - self.there.run('OM.LEN', name)}")

    def test_removals_of_nothing(self) -> None:
        """They say so if nothing is left."""
        name = self.new_key()
        fill(self.here, name, numbers(self.COUNT))
        self.begin_move(name)
        with clients_of(self.here, 2) as [client, sleeping]:
            sleeping.send("DEBUG", "SLEEP", 0.3)
            time.sleep(0.1)
            client.send("OM.DELRANGE", name, "-", "(z")
            self.move(name)
            self.assertEqual(client.reply(), "-TRYAGAIN the rest of the fields has moved")
        self.end_move(name)
        self.assertEqual(self.there.run("OM.LEN", name), self.COUNT - 1_000)


if __name__ == "__main__":
    unittest.main()
