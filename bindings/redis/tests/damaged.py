"""Damaged payloads for RESTORE, without their checksum: each is refused, or is a map that is right.

damaged.py PAYLOADS [SEED]    starts a server of its own
"""
import argparse
import random

import redis

from servers import Server, fill

BYTES = [0, 1, 2, 8, 9, 16, 0x3F, 0x40, 0x7F, 0x80, 0x81, 240, 241, 254, 255]


def payloads(server: Server, some: random.Random) -> "list[bytes]":
    """Payloads of a small map and of one with an index, compressed and not."""
    made = []
    for count in (1, 30, 140):
        pairs = {b"key:%d" % at if at % 3 == 0 else some.randbytes(some.randrange(40)): b"%d" % at for at in range(count)}
        for at, field in enumerate(pairs):
            pairs[field] = some.choice([b"12", b"-1", b"abc", b"%d" % 2**62, b"a value that is longer %d" % at, b"x" * 300])
        fill(server, "f", pairs)
        for is_compressed in ("yes", "no"):
            server.client.config_set("rdbcompression", is_compressed)
            made.append(server.client.dump("f"))
        server.client.delete("f")
    return made


def damage(payload: bytes, some: random.Random) -> bytes:
    damaged = bytearray(payload)
    for _ in range(some.choice([1, 1, 1, 2, 5])):
        kind, at = some.randrange(6), some.randrange(1, max(2, len(damaged) - 10))
        if kind == 0:
            damaged[at] = some.randrange(256)
        elif kind == 1:
            damaged[at] ^= 1 << some.randrange(8)
        elif kind == 2:
            del damaged[at : at + some.randrange(1, 9)]
        elif kind == 3:
            damaged[at:at] = some.randbytes(some.randrange(1, 9))
        elif kind == 4:
            damaged[at] = some.choice(BYTES)
        else:
            damaged[at : at + 8] = damaged[at + 1 : at + 9]
    return bytes(damaged)


def check(server: Server, name: str) -> None:
    """What was taken is a map, in order, whose commands agree."""
    pairs = server.run("OM.RANGE", name, "-", "+", "WITHVALUES")
    fields = pairs[::2]
    assert fields == sorted(set(fields))
    assert len(fields) == server.run("OM.LEN", name) == server.run("OM.COUNT", name, "-", "+") > 0
    assert server.run("OM.MGET", name, *fields) == pairs[1::2]
    assert server.run("OM.RANGE", name, "-", "+", "REV") == fields[::-1]
    server.run("OM.SET", name, "zz", "another long value")
    server.run("OM.DEL", name, *fields[: 1 + len(fields) // 2])
    server.client.dump(name)
    server.run("OM.POPMIN", name, 3)


def run(count: int, seed: int) -> "tuple[int, int]":
    """How many payloads were taken, and how many refused."""
    some, taken, refused = random.Random(seed), 0, 0
    with Server() as server:
        server.run("DEBUG", "SET-SKIP-CHECKSUM-VALIDATION", 1)
        good = payloads(server, some)
        for _ in range(count):
            payload = damage(some.choice(good[:4] if some.random() < 0.95 else good), some)
            try:
                server.client.restore("g", 0, payload, replace=True)
            except redis.ResponseError:
                refused += 1
                continue
            except redis.ConnectionError as error:
                raise RuntimeError(f"the server ended at {payload!r}: {server.log()}") from error
            taken += 1
            if server.client.type("g") == b"hot-o-map":
                check(server, "g")
        assert server.client.ping()
        server.client.flushall()
        assert server.figure("ordered_map_index_bytes") >= 0
    return taken, refused


def main() -> None:
    parser = argparse.ArgumentParser(description=__doc__)
    parser.add_argument("payloads", type=int)
    parser.add_argument("seed", type=int, nargs="?", default=1)
    words = parser.parse_args()
    taken, refused = run(words.payloads, words.seed)
    print(f"of {words.payloads} damaged payloads {refused} were refused, and {taken} are maps that are right")


if __name__ == "__main__":
    main()
