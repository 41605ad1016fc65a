"""Chains: which path joins two tasks."""
import unittest

from support import CASE_A

from plans.chains import path, trouble_of
from plans.reading import read_text

TASKS = 6


def plan_of(chain, *messages):
    """Case A with six tasks, messages as (kind, from, to), and one chain (first, last)."""
    text = CASE_A + "task vcpu=guest cores=0 period=10 budget=1 deadline=10\n" * (TASKS - 1)
    for kind, source, target in messages:
        if kind == "stream":
            text += f"stream sender={source} receiver={target} latency=0 hops=1 payload=46\n"
        else:
            text += f"buffer number=0 writer={source} reader={target}\n"
    return read_text("p.txt", text + "chain first={} last={} limit=0\n".format(*chain))


def way(chain, *messages):
    """The path as (kind, row) pairs, or None."""
    found = path(plan_of(chain, *messages), 0)
    return found and [(leg.kind, leg.row) for leg in found]


class Paths(unittest.TestCase):
    def test_streams_and_buffers_alike(self):
        self.assertEqual(way((0, 2), ("stream", 0, 1), ("buffer", 1, 2)), [("stream", 0), ("buffer", 0)])
        self.assertEqual(way((0, 2), ("stream", 1, 2), ("buffer", 0, 1)), [("buffer", 0), ("stream", 0)])

    def test_the_order_of_rows_is_open(self):
        rows = [("stream", 3, 4), ("stream", 2, 3), ("stream", 1, 2), ("stream", 0, 1)]
        self.assertEqual(way((0, 4), *rows), [("stream", 3), ("stream", 2), ("stream", 1), ("stream", 0)])

    def test_no_message_is_walked_backwards(self):
        self.assertIsNone(way((2, 0), ("stream", 0, 1), ("buffer", 1, 2)))
        self.assertIsNone(way((0, 2), ("stream", 0, 1), ("buffer", 2, 1)))

    def test_the_shortest_path_is_given(self):
        rows = [("stream", 0, 1), ("stream", 1, 2), ("stream", 2, 3), ("buffer", 1, 3)]
        self.assertEqual(way((0, 3), *rows), [("stream", 0), ("buffer", 0)])

    def test_side_ways_and_rings(self):
        rows = [("stream", 0, 1), ("stream", 1, 0), ("stream", 0, 5), ("buffer", 1, 2), ("buffer", 2, 1), ("buffer", 2, 3)]
        self.assertEqual(way((0, 3), *rows), [("stream", 0), ("buffer", 0), ("buffer", 2)])
        self.assertIsNone(way((0, 4), *rows))

    def test_one_task_has_no_path(self):
        self.assertIsNone(way((0, 0), ("stream", 0, 1), ("stream", 1, 0)))

    def test_rows_of_one_buffer_number_do_not_join(self):
        self.assertIsNone(way((0, 3), ("buffer", 0, 1), ("buffer", 2, 3)))


class Troubles(unittest.TestCase):
    def test_words(self):
        self.assertEqual(trouble_of(plan_of((0, 6)), 0), "no task 6")
        self.assertEqual(trouble_of(plan_of((7, 7)), 0), "no task 7")
        self.assertEqual(trouble_of(plan_of((1, 1)), 0), "first and last are one task")
        self.assertEqual(trouble_of(plan_of((0, 1)), 0), "no path")
        self.assertEqual(trouble_of(plan_of((0, 1), ("buffer", 0, 1)), 0), "")


if __name__ == "__main__":
    unittest.main()
