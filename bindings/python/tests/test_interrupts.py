"""What comes in between calls: signals, exceptions, deletions by other threads, objects
that lie, forks. Nothing is miscounted, lost or waited for in vain."""

import gc
import random
import sys
import threading
import unittest
import weakref

from hot import Codec, HotError, SortedMap

from apart import run_apart
from test_threads import together


class Signals(unittest.TestCase):
    def test_interrupted_changes(self):
        """An exception from a signal handler at any moment leaves the count right, and
        no handle is lost: the map can still grow and be emptied."""
        run_apart("""
            import signal
            from hot import SortedMap

            class Alarm(Exception):
                pass

            def stop(*_):
                raise Alarm

            mine, turn, interrupts = SortedMap(keys=int, threads=2), 0, 0
            signal.signal(signal.SIGALRM, stop)
            while interrupts < 300:
                try:
                    signal.setitimer(signal.ITIMER_REAL, 0.0003)
                    while True:
                        turn += 1
                        mine[turn * 7919 % 50021] = turn
                        mine.pop(turn * 104729 % 50021, None)
                        mine.fetch_add(turn % 1000)
                        mine.get_many(range(100))
                        next(iter(mine))
                except Alarm:
                    interrupts += 1
            assert len(mine) == len(list(mine))
            mine.update((number, 1) for number in range(60000))
            assert len(mine) == len(list(mine)) == 60000
            mine.clear()
            assert len(mine) == 0
        """)

    def test_interrupts_of_the_keyboard(self):
        run_apart("""
            import os, signal, threading, time
            from hot import SortedMap

            # a shell that starts the tests beside other commands has them ignore it
            signal.signal(signal.SIGINT, signal.default_int_handler)
            mine, keys, interrupts = SortedMap(), 0, 0
            def press():
                while interrupts < 20:
                    time.sleep(0.005)
                    os.kill(os.getpid(), signal.SIGINT)
            pressing = threading.Thread(target=press)
            started = False
            while interrupts < 20:
                try:
                    if not started:
                        started = True
                        pressing.start()
                    while True:
                        keys += 1
                        mine[f"key {keys}"] = keys
                except KeyboardInterrupt:
                    interrupts += 1
            while pressing.is_alive():
                try:
                    pressing.join()
                except KeyboardInterrupt:
                    pass
            assert len(mine) == len(list(mine)) >= keys - interrupts
        """)

    def test_handler_uses_the_map(self):
        """Even one of a single handle, while it grows."""
        run_apart("""
            import signal
            from hot import SortedMap

            handled = 0
            def use(*_):
                global handled
                handled += 1
                mine[-handled] = handled
                mine.get_many(range(300))
                assert mine[-handled] == handled and len(list(mine.irange(None, -1)))
                if handled % 50 == 0:
                    mine.clear()
                if handled < 200:
                    signal.setitimer(signal.ITIMER_REAL, 0.0005)

            mine, turn = SortedMap(keys=int, threads=1), 0
            signal.signal(signal.SIGALRM, use)
            signal.setitimer(signal.ITIMER_REAL, 0.0005)
            while handled < 200:
                turn += 1
                mine[turn] = turn
                mine.get_many(range(300))
            assert len(mine) == len(list(mine))
        """)

    def test_interrupted_making(self):
        """Of a map with pairs that no Python code gives."""
        run_apart("""
            import signal, time
            from hot import SortedMap

            class Alarm(Exception):
                pass

            def stop(*_):
                raise Alarm

            def seconds(make, until=0):
                begun = time.monotonic()
                signal.setitimer(signal.ITIMER_REAL, until)
                try:
                    make()
                    assert not until
                except Alarm:
                    pass
                return time.monotonic() - begun

            signal.signal(signal.SIGALRM, stop)
            pairs = [(number, number) for number in range(500000)]

            def make():
                SortedMap(pairs, keys=int, sorted=True)

            whole = seconds(make)
            heard = min(seconds(make, whole / 10) for _ in range(3))
            assert heard < whole / 2, (heard, whole)
        """)


class Own(unittest.TestCase):
    """Code of the program that runs in the middle of a call."""

    def test_del_uses_the_map(self):
        run_apart("""
            import gc
            from hot import SortedMap

            class Cycle:
                def __init__(self):
                    self.me = self
                def __del__(self):
                    mine.fetch_add(-1)
                    mine.get_many([*range(300)])

            gc.set_threshold(5)
            mine = SortedMap(keys=int, threads=1)
            for number in range(6000):
                Cycle()
                mine[number] = number
                if number % 997 == 0:
                    list(mine.items())
            assert len(mine) == len(list(mine)) == 6001
        """)

    def test_codec_uses_the_map(self):
        mine = SortedMap(keys=int, threads=1)

        def encode(key):
            mine.fetch_add(key)
            return key.to_bytes(4, "big")

        def decode(code):
            key = int.from_bytes(code, "big")
            self.assertEqual(next(mine.irange(key, key)), key)
            return key

        other = SortedMap(keys=Codec(encode, decode), threads=1)
        for key in range(2000):
            other[key] = key
        self.assertEqual(other.get_many(range(3000)), [*range(2000)] + [None] * 1000)
        self.assertEqual(list(other), [*range(2000)])

    def test_decoding_goes_on_with_its_iterator(self):
        taken = []

        def decode(code):
            if code[-1] % 2 == 0:
                taken.append(next(pairs)[0])
            return code

        mine = SortedMap(keys=Codec(bytes, decode))
        codes = [number.to_bytes(2, "big") for number in range(600)]
        mine.update((code, 1) for code in codes)
        pairs = iter(mine.items())
        keys = [key for key, _ in pairs]
        self.assertEqual(sorted(keys + taken), codes)

    def test_exceptions_at_random(self):
        """Of codecs, and of keys and values that are asked what they are."""
        draw = random.Random(5)

        class Stop(Exception):
            pass

        def maybe(value):
            if draw.random() < 0.2:
                raise Stop
            return value

        class Number:
            def __init__(self, number):
                self.number = number

            def __index__(self):
                return maybe(self.number)

        mine = SortedMap(
            keys=Codec(
                lambda key: maybe(key.to_bytes(8, "big")),
                lambda code: maybe(int.from_bytes(code, "big")),
            ),
            threads=1,
        )
        calls = [
            lambda key: mine.__setitem__(key, Number(key)),
            lambda key: mine.setdefault(key, Number(key)),
            lambda key: mine.exchange(key, Number(key), Number(key)),
            lambda key: mine.remove_if(key, Number(key)),
            lambda key: mine.fetch_add(key, Number(0)),
            lambda key: mine.pop(key, None),
            lambda key: mine.get_many(range(key, key + 20)),
            lambda key: list(mine.irange(key, key + 9)),
        ]
        stops = 0
        for _ in range(6000):
            try:
                draw.choice(calls)(draw.randrange(3000))
            except Stop:
                stops += 1
        self.assertGreater(stops, 500)
        self.assertEqual(len(mine), sum(1 for _ in SortedMap.values(mine)))
        mine.clear()
        self.assertEqual(len(mine), 0)


class Lies(unittest.TestCase):
    """Objects of subclasses that say another length than they have."""

    class Bytes(bytes):
        def __len__(self):
            return 240

    class Text(str):
        def __len__(self):
            return 240

        def encode(self, *words):
            return Lies.Bytes(b"other")

    def test_codec(self):
        mine = SortedMap(keys=Codec(lambda key: self.Bytes(key), bytes))
        mine[b"ab"] = 1
        self.assertEqual(mine.get_many([b"ab", b"abc"]), [1, None])
        self.assertEqual(list(mine.irange(b"a", b"abc")), [b"ab"])
        self.assertEqual(list(mine.prefix_items(b"a")), [(b"ab", 1)])
        self.assertEqual(list(mine), [b"ab"])

    def test_keys(self):
        mine, other = SortedMap(keys=bytes), SortedMap()
        mine[self.Bytes(b"ab")] = other[self.Text("ab")] = 1
        self.assertEqual(mine, {b"ab": 1})
        self.assertEqual(other, {"ab": 1})
        self.assertEqual(mine.get_many([self.Bytes(b"ab")]), [1])
        self.assertEqual(other.get_many([self.Text("ab")]), [1])

    def test_what_is_not_bytes(self):
        for wrong in ("ab", bytearray(b"ab"), None, [1, 2], 3):
            mine = SortedMap(keys=Codec(lambda key: wrong, bytes))
            self.assertRaises(TypeError, mine.__setitem__, b"a", 1)
            self.assertRaises(TypeError, mine.irange, b"a")
            self.assertRaises(TypeError, mine.__contains__, b"a")
            self.assertRaises(TypeError, mine.get_many, [b"a"])

    def test_buffers(self):
        mine = SortedMap(keys=bytes)
        mine[bytearray(b"ab")] = 1
        mine[memoryview(b"abcdef")[::2]] = 2
        self.assertEqual(mine, {b"ab": 1, b"ace": 2})


class Deletions(unittest.TestCase):
    """What lists a map while other threads delete from it."""

    def test_whole_maps(self):
        mine = SortedMap(((number, number) for number in range(400)), keys=int)
        done = threading.Event()

        def change():
            while not done.is_set():
                for number in range(1, 400, 2):
                    mine.pop(number, None)
                mine.update((number, number) for number in range(1, 400, 2))

        def work(number):
            if number:
                return change()
            try:
                even = {*range(0, 400, 2)}
                for _ in range(60):
                    other = SortedMap(keys=int)
                    other.update(mine)
                    for made in (mine.copy(), mine | {}, {} | mine, other):
                        self.assertLessEqual(even, {*made})
                    self.assertLessEqual(even, {*dict(mine.items())})
                    self.assertIn(398, mine.values())
                    self.assertNotIn(401, mine.values())
                    self.assertIn((398, 398), mine.items())
            finally:
                done.set()

        was = sys.getswitchinterval()
        sys.setswitchinterval(1e-5)
        try:
            together(3, work)
        finally:
            sys.setswitchinterval(was)


class Forks(unittest.TestCase):
    def test_with_threads(self):
        """The child of a process with threads in calls raises, and does not hang."""
        out = run_apart("""
            import os, threading, warnings
            from hot import HotError, SortedMap

            warnings.simplefilter("ignore")
            # A child hangs where another thread was in AddressSanitizer's allocator, as
            # threads are that let a map grow.
            is_watched = "asan" in os.environ.get("LD_PRELOAD", "")
            room = {"capacity": 10000} if is_watched else {}
            pairs = ((number, number) for number in range(5000))
            mine = SortedMap(pairs, keys=int, **room)
            pairs, done = iter(mine.items()), False
            next(pairs)
            def work():
                while not done:
                    mine.get_many([*range(5000)])
                    mine.update((number, 1) for number in range(5000, 9000))
                    mine.clear()
            threads = [threading.Thread(target=work) for _ in range(3)]
            for thread in threads:
                thread.start()
            def refused(call, *words):
                try:
                    call(*words)
                except HotError as error:
                    return "forked" in str(error)
            calls = [
                (mine.get, 1), (mine.__setitem__, 1, 2), (mine.pop, 1, None),
                (list, mine), (mine.get_many, [1]), (mine.clear,), (mine.copy,),
                (mine.fetch_add, 1), (list, pairs), (mine.__contains__, 1),
                (len, mine), (bool, mine),
            ]
            for turn in range(40):
                child = os.fork()
                if not child:
                    good = all(refused(*call) for call in calls)
                    new = SortedMap({1: 2}, keys=int)
                    new.update((number, number) for number in range(1000))
                    os._exit(0 if good and len(new) == 1000 else 1)
                assert os.waitpid(child, 0)[1] == 0
            done = True
            for thread in threads:
                thread.join()
            assert len(mine) == len(list(mine))
            print("all children ended")
        """)
        self.assertIn("all children ended", out)

    def test_alone(self):
        """The child of a process without threads has a map of its own."""
        run_apart("""
            import os
            from hot import SortedMap

            mine = SortedMap({1: 2}, keys=int)
            child = os.fork()
            mine.update((number, child) for number in range(5000))
            assert len(mine) == 5000 and mine[3] == child
            if child:
                assert os.waitpid(child, 0)[1] == 0
        """)


class Objects(unittest.TestCase):
    """Maps and iterators as objects of Python."""

    def test_without_init(self):
        class Map(SortedMap):
            def __init__(self):
                pass

        for call in (len, list, lambda it: it["a"], lambda it: it.get_many(["a"])):
            self.assertRaises(TypeError, call, Map())
        mine = SortedMap({"a": 1})
        self.assertRaises(TypeError, mine.__init__, {"b": 2})
        self.assertEqual(mine, {"a": 1})

    def test_init_within_init(self):
        """The inner one makes the map, and the outer one is refused."""
        mine = SortedMap.__new__(SortedMap)

        class Capacity:
            def __index__(self):
                mine.__init__({1: 2}, keys=int)
                return 10

        self.assertRaises(TypeError, mine.__init__, keys=str, capacity=Capacity())
        self.assertEqual(mine, {1: 2})

    def test_iterators(self):
        mine = SortedMap({"a": 1})
        self.assertRaises(StopIteration, next, type(iter(mine))())
        keys = iter(mine)
        del mine
        self.assertEqual([*keys], ["a"])
        self.assertEqual([*keys], [])

    def test_type_of_iterators(self):
        """No Python code can put another one in its place."""
        run_apart("""
            import hot._hot
            from hot import SortedMap

            hot._hot.Pairs = 5
            assert list(SortedMap({"a": 1})) == ["a"]
        """)

    def test_cycles_end(self):
        """The collector finds a map whose codec has it, and an iterator of it."""

        class Mine(SortedMap):
            pass

        mine = Mine(keys=Codec(lambda key: (mine, key)[1], lambda key: [mine, pairs]))
        mine[b"a"] = 1
        pairs = iter(mine)
        gone = weakref.ref(mine)
        del mine, pairs
        gc.collect()
        self.assertIsNone(gone())

    def test_references(self):
        """No call keeps a key, a value, a default or a map."""
        key, value, other = "key " * 3, 2**60, object()
        mine = SortedMap({key: value})

        def counts():
            return [sys.getrefcount(it) for it in (key, value, other, mine)]

        before = counts()
        for _ in range(2000):
            mine[key] = value
            mine.get(key, other)
            mine.get("absent", other)
            mine.setdefault(key, value)
            mine.pop("absent", other)
            mine.get_many([key, "absent"])
            mine.exchange(key, value, value)
            mine.fetch_add(key, 0)
            for call in (mine.__getitem__, mine.__delitem__, mine.add, mine.pop):
                self.assertRaises(KeyError, call, "absent")
            self.assertRaises(TypeError, mine.__setitem__, key, other)
            self.assertRaises(TypeError, mine.__setitem__, other, value)
            list(mine.items()), list(mine), list(mine.values())
            next(iter(mine.items()))
            key in mine, len(mine)
        for one, two in zip(before, counts()):
            self.assertLess(abs(one - two), 100)

    @unittest.skipUnless(sys.platform == "linux", "it reads /proc")
    def test_memory(self):
        """Maps that are made, grown, emptied and dropped leave nothing behind."""
        run_apart("""
            from hot import SortedMap

            def resident():
                return int(open("/proc/self/statm").read().split()[1]) * 4

            def work():
                mine = SortedMap(keys=int)
                mine.update((number, number) for number in range(3000))
                mine.get_many([*range(3000)])
                pairs = mine.items()
                other, some = mine.copy(), iter(pairs)
                next(some)
                mine.clear()
                len(other), other.popitem()
                SortedMap({f"key {number}": number for number in range(50)})

            for _ in range(15):
                work()
            before = resident()
            for _ in range(60):
                work()
            assert resident() < before + 4000, (before, resident())
        """)

    def test_named_words(self):
        mine = SortedMap({"a": 1})
        self.assertEqual(mine.get(key="b", default=3), 3)
        self.assertEqual(mine.setdefault("b", default=4), 4)
        self.assertEqual(mine.fetch_add(key="b", number=5), 4)
        self.assertEqual(mine.add("b", number=-2), 9)
        self.assertTrue(mine.exchange(key="a", expected=1, value=2))
        self.assertTrue(mine.remove_if("a", expected=2))
        self.assertEqual(mine.pop("a", default=3), 3)
        for call in (mine.get, mine.setdefault, mine.add, mine.pop, mine.exchange):
            self.assertRaises(TypeError, call)
            self.assertRaises(TypeError, call, "b", 1, 2, 3)
        self.assertRaises(TypeError, mine.get, "b", other=1)
        self.assertEqual(mine, {"b": 7})

    def test_interpreters(self):
        """Each interpreter has a module of its own, or none where it has a lock of its
        own."""
        inside = """if True:
            import sys
            try:
                from hot import FullError, SortedMap
            except ImportError:
                assert sys.version_info >= (3, 12)
            else:
                mine = SortedMap({"a": 2}, capacity=0, grow=False)
                try:
                    mine.update((str(number), 1) for number in range(10000))
                except FullError:
                    assert len(mine) > 500
            print("ran", flush=True)
        """
        program = """
            import sys
            from hot import SortedMap
            try:
                import _interpreters as interpreters
            except ImportError:
                import _xxsubinterpreters as interpreters

            mine = SortedMap({"a": 1})
            for _ in range(3):
                it = interpreters.create()
                interpreters.run_string(it, sys.argv[1])
                interpreters.destroy(it)
            assert mine == {"a": 1}
        """
        self.assertEqual(run_apart(program, inside), "ran\n" * 3)

    def test_generic(self):
        self.assertIsInstance(SortedMap[bytes](keys=bytes), SortedMap)
        self.assertNotIsInstance(HotError("text"), MemoryError)


if __name__ == "__main__":
    unittest.main()
