#!/usr/bin/env python3
"""Measures the ordered map for Redis beside HASH and ZSET, in one run: `bench/run redis [COUNT]` builds the module and runs it. It starts servers of
its own on loopback, and ends them.

What a command takes is the time of a processor that the server's main thread was at it, with a client that has 64 commands under way. Fields have 15
bytes, values are whole numbers of up to 9 digits, and a ZSET has the fields alone. `bytes a pair` are resident, and others used_memory. It prints a
line for each figure, which bench/room.py reads.
"""
import argparse
import os
import random
import re
import socket
import subprocess
import sys
import tempfile
import time
from pathlib import Path

sys.path.insert(0, str(Path(__file__).resolve().parent.parent / "bindings/redis/tests"))
from plain import Plain, packed

FIELDS = "fields of 15 bytes"
# How many pairs maps have whose memory is measured, and how long their fields are.
SIZES, LENGTHS = (300, 1_000, 10_000, 1_000_000), (8, 14, 40)
KINDS = {"map": "map", "HASH": "hash", "ZSET": "zset"}
SET = {"map": b"OM.SET", "HASH": b"HSET", "ZSET": b"ZADD"}
GET = {"map": b"OM.GET", "HASH": b"HGET", "ZSET": b"ZSCORE"}
WHOLE = {"map": [b"OM.RANGE", b"map", b"-", b"+", b"WITHVALUES"], "ZSET": [b"ZRANGEBYLEX", b"zset", b"-", b"+"]}
ROUNDS = 5


def field_of(at: int) -> bytes:
    return b"user:%010d" % (at * 0x9E3779B97F4A7C15 % 2**64 % 10_000_000_019 % 10**10)


def value_of(at: int) -> bytes:
    return b"%d" % (at * 2654435761 % 10**9)


def pair_of(kind: str, at: int) -> "list[bytes]":
    return [b"0", field_of(at)] if kind == "ZSET" else [field_of(at), value_of(at)]


class Server:
    """A server with the module, its main thread and a client."""

    def __init__(self, module: str):
        self.folder = tempfile.TemporaryDirectory(prefix="bench_redis_")
        with socket.socket() as free:
            free.bind(("127.0.0.1", 0))
            self.port = free.getsockname()[1]
        words = ["redis-server", "--port", str(self.port), "--bind", "127.0.0.1", "--dir", self.folder.name, "--save", ""]
        words += ["--enable-debug-command", "local", "--logfile", "log", "--loadmodule", module]
        self.process = subprocess.Popen(words)
        self.client = Plain(self.port)

    def __enter__(self) -> "Server":
        return self

    def __exit__(self, *_: object) -> None:
        self.process.terminate()
        self.process.wait()
        self.folder.cleanup()

    def used(self) -> int:
        """The nanoseconds that a processor was at the main thread."""
        pid = self.process.pid
        return int(Path(f"/proc/{pid}/task/{pid}/schedstat").read_text().split()[0])

    def resident(self) -> int:
        return 1024 * int(re.search(r"VmRSS:\s+(\d+)", Path(f"/proc/{self.process.pid}/status").read_text())[1])

    def figure(self, name: str) -> int:
        return int(re.search(rb"%s:(\d+)" % name.encode(), self.client.run(b"INFO", b"everything"))[1])

    def timed(self, commands: "list[bytes]") -> float:
        """The nanoseconds of one of the commands."""
        before = self.used()
        self.client.run_all(commands)
        return (self.used() - before) / len(commands)

    def alone(self, command: bytes) -> float:
        """The nanoseconds that the server was at one of the commands itself since its statistics began anew."""
        said = self.client.run(b"INFO", b"commandstats")
        calls, used = re.search(rb"cmdstat_%s:calls=(\d+),usec=(\d+)" % re.escape(command.lower()), said).groups()
        return 1000 * int(used) / int(calls)

    def saved(self) -> int:
        self.client.run(b"SAVE")
        return os.path.getsize(Path(self.folder.name) / "dump.rdb")


def tell(what: str, count: int, figure: float, fields: str = FIELDS) -> None:
    print(f"{what}\t{fields}\t{count}\t{figure:.2f}", flush=True)


def set_of(kind: str, at: int) -> bytes:
    return packed(SET[kind], KINDS[kind].encode(), *pair_of(kind, at))


def get_of(kind: str, at: int) -> bytes:
    return packed(GET[kind], KINDS[kind].encode(), field_of(at))


def range_of(kind: str, at: int) -> bytes:
    """A range of 100, of a map with its values."""
    words = WHOLE[kind][:2] + [b"[" + field_of(at), b"+", b"LIMIT", b"0", b"100"] + WHOLE[kind][4:]
    return packed(*words)


def measure_small(module: str) -> None:
    maps, fields = 5_000, 10
    for kind in KINDS:
        with Server(module) as server:
            before = server.figure("used_memory")
            commands = []
            for of in range(maps):
                pairs = [word for at in range(fields) for word in pair_of(kind, of * fields + at)]
                commands.append(packed(SET[kind], b"t:%d" % of, *pairs))
            tell(f"map of 10 fields, us: {kind}", maps, server.timed(commands) / 1000)
            tell(f"map of 10 fields, bytes: {kind}", maps, (server.figure("used_memory") - before) / maps)


def measure_sizes(module: str, most: int) -> None:
    """What a pair takes in maps of several sizes, which are filled in another order than that of their fields."""
    for length in LENGTHS:
        for size in (it for it in SIZES if it <= most):
            order = list(range(size))
            random.Random(size).shuffle(order)
            maps = max(1, min(200, 100_000 // size))
            for kind in KINDS:
                with Server(module) as server:
                    before = server.figure("used_memory")
                    for of in range(maps):
                        server.client.run_all(sets_of(kind, b"t:%d" % of, order, length))
                    time.sleep(1)
                    tell(f"used bytes a pair: {kind}", size, (server.figure("used_memory") - before) / maps / size, f"fields of {length} bytes")


def sets_of(kind: str, name: bytes, order: "list[int]", length: int) -> "list[bytes]":
    """Commands that fill a map with fields of a length, 100 a command."""
    made = []
    for begin in range(0, len(order), 100):
        words = []
        for at in order[begin : begin + 100]:
            field = (b"%08d" % (at * 7919 % 10**8)).rjust(length, b"u")
            words += [b"0", field] if kind == "ZSET" else [field, value_of(at)]
        made.append(packed(SET[kind], name, *words))
    return made


def measure_life(module: str) -> None:
    """What the main thread takes to make a map of 300 pairs and to drop it: by one command that sets them, and as a copy."""
    maps, size = 1_000, 300
    with Server(module) as server:
        for kind in KINDS:
            fills = [packed(SET[kind], b"t", *[word for at in range(size) for word in pair_of(kind, at)]), packed(b"DEL", b"t")]
            tell(f"map of {size} fields set and dropped, us: {kind}", maps, 2 * server.timed(fills * maps) / 1000)
            server.client.run_all(fills[:1])
            copies = [packed(b"COPY", b"t", b"u"), packed(b"DEL", b"u")]
            tell(f"map of {size} fields copied and dropped, us: {kind}", maps, 2 * server.timed(copies * maps) / 1000)
            server.client.run(b"DEL", b"t")


def measure_large(module: str, count: int) -> None:
    for kind in KINDS:
        with Server(module) as server:
            before = server.resident()
            tell(f"new pair, ns: {kind}", count, server.timed([set_of(kind, at) for at in range(count)]))
            time.sleep(2)
            tell(f"bytes a pair: {kind}", count, (server.resident() - before) / count)
            began = server.used()
            tell(f"bytes a pair, saved: {kind}", count, server.saved() / count)
            server.client.run(b"DEBUG", b"RELOAD", b"NOSAVE")
            tell(f"save and load of a pair, ns: {kind}", count, (server.used() - began) / count)


def measure_calls(server: Server, count: int) -> None:
    """The least of some rounds, in which the kinds have their turns."""
    calls = 20_000
    works = {"set, ns": (set_of, SET), "get, ns": (get_of, GET), "range of 100, ns": (range_of, {kind: it[0] for kind, it in WHOLE.items()})}
    for name, (command, kinds) in works.items():
        times: "dict[str, list[float]]" = {kind: [] for kind in kinds}
        alone: "dict[str, list[float]]" = {kind: [] for kind in kinds}
        for turn in range(ROUNDS):
            some = random.Random(turn)
            order = [some.randrange(count) for _ in range(calls if command is not range_of else calls // 10)]
            for kind in kinds:
                server.client.run(b"CONFIG", b"RESETSTAT")
                times[kind].append(server.timed([command(kind, at) for at in order]))
                alone[kind].append(server.alone(kinds[kind]))
        for kind in kinds:
            tell(f"{name}: {kind}", count, min(times[kind]))
            tell(f"{name}, the command alone: {kind}", count, min(alone[kind]))


def latencies(server: Server, count: int, seconds: float) -> "list[float]":
    """The microseconds of sets that a client makes one after another."""
    some, made, end = random.Random(1), [], time.monotonic() + seconds
    commands = [set_of("map", some.randrange(count)) for _ in range(4096)]
    while True:
        for command in commands:
            began = time.perf_counter()
            server.client.run_one(command)
            made.append((time.perf_counter() - began) * 1e6)
            if began > end and len(made) > 1000:
                return sorted(made)


def tell_latencies(what: str, count: int, made: "list[float]") -> None:
    tell(f"set {what}, p99 us", count, made[len(made) * 99 // 100])
    tell(f"set {what}, longest us", count, made[-1])


# What another client does again and again, while sets, pings and ranges are watched.
WORKS: "dict[str, list[list[bytes]]]" = {
    "alone": [],
    "beside whole ranges": [WHOLE["map"]],
    "beside removals": [[b"COPY", b"map", b"other"], [b"OM.DELRANGE", b"other", b"-", b"(v"]],
    "beside COPY and DEL": [[b"COPY", b"map", b"other"], [b"DEL", b"other"]],
}


def watched(server: Server, command: bytes, seconds: float) -> "list[float]":
    """The microseconds of a command that a client makes again and again."""
    made, end = [], time.monotonic() + seconds
    while time.monotonic() < end or len(made) < 100:
        began = time.perf_counter()
        server.client.run_one(command)
        made.append((time.perf_counter() - began) * 1e6)
    return sorted(made)


def beside(server: Server, works: "list[list[bytes]]", clients: int = 1) -> "list[subprocess.Popen[bytes]]":
    """Starts clients that do works again and again."""
    words = [b" ".join(work).decode() for work in works]
    made = [subprocess.Popen([sys.executable, "-B", __file__, "--beside", str(server.port), *words]) for _ in range(clients if works else 0)]
    time.sleep(0.5)
    return made


def end(clients: "list[subprocess.Popen[bytes]]") -> None:
    for client in clients:
        client.terminate()
        client.wait()


def measure_waits(server: Server, count: int, seconds: float) -> None:
    """How long sets and pings take beside another client, and ranges of 1,100 beside twelve that count."""
    for how, works in WORKS.items():
        others = beside(server, works)
        tell_latencies(how, count, latencies(server, count, seconds))
        pings = watched(server, packed(b"PING"), seconds)
        tell(f"PING {how}, p99 us", count, pings[len(pings) * 99 // 100])
        tell(f"PING {how}, longest us", count, pings[-1])
        end(others)
    others = beside(server, [[b"OM.COUNT", b"map", b"-", b"+"]], 12)
    made = watched(server, packed(b"OM.RANGE", b"map", b"-", b"+", b"LIMIT", b"0", b"1100"), seconds)
    end(others)
    tell("range of 1,100 beside 12 counts, median us", count, made[len(made) // 2])
    tell("range of 1,100 beside 12 counts, p99 us", count, made[len(made) * 99 // 100])


def work_on(port: int, works: "list[str]") -> None:
    client = Plain(port)
    while True:
        for work in works:
            client.run(*work.encode().split(b" "))


def main() -> None:
    if sys.argv[1:2] == ["--beside"]:
        work_on(int(sys.argv[2]), sys.argv[3:])
    words = argparse.ArgumentParser(description=__doc__)
    words.add_argument("module", type=os.path.abspath, help="the module")
    words.add_argument("count", type=int, nargs="?", default=1_000_000)
    words.add_argument("--seconds", type=float, default=10, help="how long sets are watched beside whole ranges; 0 is not at all, for a busy machine")
    words.add_argument("--memory", action="store_true", help="what maps of several sizes take, alone")
    given = words.parse_args()
    measure_sizes(given.module, given.count)
    if given.memory:
        return
    measure_small(given.module)
    measure_life(given.module)
    measure_large(given.module, given.count)
    with Server(given.module) as server:
        for kind in KINDS:
            server.client.run_all([set_of(kind, at) for at in range(given.count)])
        measure_calls(server, given.count)
        if given.seconds > 0:
            measure_waits(server, given.count, given.seconds)


if __name__ == "__main__":
    main()
