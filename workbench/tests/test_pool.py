"""Work in several processes: each item is done once, errors reach the caller, and no process outlives it."""

import multiprocessing
import os
import time
import unittest

from common import TOP  # noqa: F401  the path of the package

from nooks_bench.pool import each_done
from nooks_bench.program import Mistake, Refusal


def square(number: int) -> tuple[int, int]:
    """The square of a number, and the process that computed it."""
    time.sleep(0.01)
    return number * number, os.getpid()


def refuse(number: int) -> int:
    if number == 5:
        raise Refusal("fault 1 not_json /")
    return number


def sleep(seconds: float) -> float:
    time.sleep(seconds)
    return seconds


class Pools(unittest.TestCase):
    def tearDown(self):
        self.assertEqual(multiprocessing.active_children(), [])

    def test_each_item_once(self):
        for jobs in (1, 3, 100):
            found = dict(each_done(square, range(20), jobs))
            self.assertEqual({index: result for index, (result, _) in found.items()}, {n: n * n for n in range(20)})
            workers = {process for _, process in found.values()}
            self.assertEqual(os.getpid() in workers, jobs == 1)
            self.assertLessEqual(len(workers), jobs)
        self.assertEqual(list(each_done(square, [], 3)), [])

    def test_a_mistake(self):
        for jobs in (1, 3):
            with self.assertRaises(Mistake) as raised:
                dict(each_done(refuse, range(20), jobs))
            self.assertEqual(str(raised.exception), "the program refuses the input: fault 1 not_json /")

    def test_a_caller_that_stops(self):
        begun = time.monotonic()
        for _ in each_done(sleep, [0.0, 600.0, 600.0], 3):
            break
        self.assertLess(time.monotonic() - begun, 20)

    def test_large_items_and_results(self):
        texts = ["x" * 1_000_000, "y" * 2_000_000, "z"]
        self.assertEqual(dict(each_done(str.upper, texts, 2)), {n: text.upper() for n, text in enumerate(texts)})


if __name__ == "__main__":
    unittest.main()
