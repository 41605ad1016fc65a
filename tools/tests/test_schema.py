"""The plan paper's sizes, pinned here and nowhere else in these tests: all others take them from the schema."""
import unittest

from support import CASE_A, ROOT

from plans.image import encode, pack
from plans.reading import read_text
from plans.schema import BY_KIND, LONGEST, ORDERED, SETTINGS, TABLES, TRAILER_BYTES


class PapersSizes(unittest.TestCase):
    def test_rows(self):
        """Words of a row, least and highest number of rows, table by table."""
        expected = [
            ("core", 3, 1, 32), ("vcpu", 1, 0, 64), ("task", 5, 0, 256), ("window", 3, 0, 1024), ("piece", 4, 0, 2048),
            ("link", 5, 0, 64), ("stream", 6, 0, 64), ("frame", 5, 0, 512), ("buffer", 3, 0, 64), ("chain", 3, 0, 32),
        ]
        self.assertEqual([(table.kind, table.row_words, table.least, table.most) for table in TABLES], expected)

    def test_starts(self):
        """Which word of a row is its start, counted from 0."""
        starts = {kind: BY_KIND[kind].record._fields.index("start") for kind in ORDERED}
        self.assertEqual(starts, {"window": 1, "piece": 2, "frame": 4})

    def test_trailer_and_longest_image(self):
        self.assertEqual((TRAILER_BYTES, LONGEST), (92, 65116))

    def test_the_header_has_the_longest_image(self):
        self.assertIn(f"\n#define RD_IMAGE_BYTES {LONGEST}\n", (ROOT / "include/reaperdecade.h").read_text())

    def test_case_a(self):
        words = [0, 1, 2, 0, 0, 1, 10, 3, 8, 0, 0, 10, 0, 0, 2, 4, 10, 0]
        for offset, rows in ((0, 1), (12, 1), (16, 1), (36, 1), (48, 1), (64, 0), (64, 0), (64, 0), (64, 0), (64, 0)):
            words += [offset, rows]
        self.assertEqual(encode(read_text("p.txt", CASE_A)), pack([*words, 64]))


class Rows(unittest.TestCase):
    def test_words_by_name(self):
        link = BY_KIND["link"]
        self.assertEqual(link.row(rate=352, to_node=1)[:4], (0, 1, 0, 352))
        self.assertEqual(len(link.row()), link.row_words)

    def test_defaults(self):
        self.assertEqual(SETTINGS.row(cycle=10)[:2], (10, 0))
        self.assertEqual(BY_KIND["link"].row(delay=3).lowest, 0)
        self.assertEqual(BY_KIND["stream"].row(payload=46).queue, 0)

    def test_the_queue_is_a_streams_last_word(self):
        self.assertEqual(BY_KIND["stream"].row(sender=1, receiver=2, latency=3, hops=4, payload=5, queue=6), (1, 2, 3, 4, 5, 6))

    def test_unknown_words(self):
        self.assertRaises((ValueError, TypeError), BY_KIND["link"].row, rat=352)


if __name__ == "__main__":
    unittest.main()
