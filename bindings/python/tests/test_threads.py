"""Threads that use a map at the same time, while it grows."""

import sys
import threading
import time
import unittest

from hot import SortedMap

from apart import run_apart


def together(count, work):
    """Runs threads, and raises what one of them raises."""
    failed = []

    def run(number):
        try:
            work(number)
        except BaseException as error:
            failed.append(error)

    threads = [threading.Thread(target=run, args=(number,)) for number in range(count)]
    for thread in threads:
        thread.start()
    for thread in threads:
        thread.join()
    if failed:
        raise failed[0]


class Threads(unittest.TestCase):
    def test_each_addition_counts(self):
        """More threads than handles, and keys that make the map grow."""
        mine = SortedMap(threads=3)

        def work(first):
            for number in range(2000):
                word = f"word {(number * 7 + first) % 50}"
                mine.fetch_add(word)
                mine.add(word)
                mine[f"own {first} {number}"] = number

        together(6, work)
        self.assertEqual(sum(n for _, n in mine.prefix_items("word ")), 24000)
        self.assertEqual(len(mine), 50 + 12000)
        self.assertEqual(len(list(mine)), len(mine))

    def test_scans_beside_changes(self):
        """A scan lists each key that is there all along, in order."""
        mine = SortedMap(((number * 2, number) for number in range(500)), keys=int)
        done = threading.Event()

        def work(number):
            if number:
                try:
                    for turn in range(8):
                        for key in range(1, 1000, 2):
                            mine[key * number] = turn
                        for key in range(1, 1000, 2):
                            mine.pop(key * number, None)
                finally:
                    done.set()
            while not number and not done.is_set():
                for keys in (list(mine), list(reversed(mine))[::-1]):
                    self.assertEqual(keys, sorted({*keys}))
                    self.assertLessEqual({*range(0, 1000, 2)}, {*keys})
                even = [*range(0, 1000, 2)]
                self.assertEqual(mine.get_many(even), [key // 2 for key in even])
                values = mine.values_range(0, 998)
                self.assertLessEqual({*range(500)}, {*values})

        # The third thread's keys are odd multiples of 3, so that two meet at some.
        together(2, work)
        done.clear()
        together(4, lambda number: work((0, 1, 3, 5)[number]))

    def test_others_run(self):
        """Long calls let other threads run: here no thread would end its turn else."""
        mine = SortedMap(((number, number) for number in range(60000)), keys=int)
        calls = [
            lambda: mine.get_many(range(60000)),
            lambda: mine.values_range(),
        ]
        turns, is_done = 0, False

        def work(number):
            nonlocal turns, is_done
            if number:
                while not is_done:
                    turns += 1
                    time.sleep(0.0001)
                return
            try:
                for call in calls:
                    before = turns
                    # On a busy machine the other may not get a processor in time.
                    for _ in range(500):
                        call()
                        if turns > before:
                            break
                    self.assertGreater(turns, before)
            finally:
                is_done = True

        was = sys.getswitchinterval()
        sys.setswitchinterval(60)
        try:
            together(2, work)
        finally:
            sys.setswitchinterval(was)

    def test_ranges_are_cleared(self):
        """Each thread clears keys of its own, while the map grows."""
        mine = SortedMap(keys=int, threads=2)

        def work(thread):
            for turn in range(20):
                first = thread * 1000000 + turn * 1000
                mine.update((first + number, number) for number in range(300))
                mine.irange_clear(first + 10, first + 299)
                self.assertEqual(mine.count_range(first, first + 999), 10)

        together(4, work)
        self.assertEqual(len(mine), 4 * 20 * 10)

    def test_one_winner(self):
        """Of threads that take the last pair at the same time one gets it."""
        mine = SortedMap(((number, number) for number in range(2000)), keys=int)
        taken = []

        def work(number):
            try:
                while True:
                    taken.append(mine.popitem())
            except KeyError:
                pass

        together(4, work)
        self.assertEqual(sorted(taken), [(number, number) for number in range(2000)])
        self.assertEqual(len(mine), 0)

    def test_small_stacks(self):
        """Calls in threads of 128 KiB, which they have in some systems."""
        run_apart("""
            import threading
            from hot import Codec, SortedMap

            def work():
                for codec in int, Codec(lambda key: b"%09d" % key, int), Codec.of(int):
                    mine = SortedMap(keys=codec, threads=2)
                    mine.update((number, number) for number in range(2000))
                    mine.get_many(range(2000)), mine.values_range(), len(mine)
                    both = SortedMap(mine.items(), keys=codec, sorted=True), mine.copy()
                    assert both[0] == both[1] == mine == dict(mine.items())
                    mine.irange_clear(3, 1900), mine.irange_pop(), mine.popitem(5)
                    mine.exchange(1, 1, 2), mine.fetch_add(1), mine.pop(1), mine.clear()
                SortedMap(capacity=1000000)
                done.append(1)

            threading.stack_size(131072)
            done = []
            thread = threading.Thread(target=work)
            thread.start()
            thread.join()
            assert done
        """)


if __name__ == "__main__":
    unittest.main()
