"""Image to text and back gives the same bytes, whatever the checker would say; broken layouts are told."""
import unittest

from support import EXAMPLES, SHAPES, generated

from plans.answers import Answer
from plans.columns import WORD_BYTES
from plans.files import load
from plans.image import decode, encode
from plans.listing import listing
from plans.picture.drawing import picture
from plans.questions import QUESTIONS
from plans.reading import read_text
from plans.schema import LONGEST, TABLES, TRAILER_BYTES
from plans.troubles import BadValue
from plans.writing import write_text

MUTANTS = 200


def again(image):
    """The image of the text of an image."""
    return encode(read_text("again.txt", write_text(decode(image))))


def readable(image):
    """Questions 1 to 3 by their words, apart from the tool's own reading; the sizes are the schema's."""
    word = lambda at: int.from_bytes(image[at:at + WORD_BYTES], "little")
    at, trailer = 0, len(image) - TRAILER_BYTES
    if not TRAILER_BYTES <= len(image) <= LONGEST or word(len(image) - WORD_BYTES) != trailer:
        return False
    for number, table in enumerate(TABLES):
        offset, rows = word(trailer + 8 + 8 * number), word(trailer + 12 + 8 * number)
        if offset != at or not table.least <= rows <= table.most:
            return False
        at += rows * table.row_bytes
    return at == trailer


class RoundTrips(unittest.TestCase):
    def test_shapes(self):
        for shape in SHAPES:
            self.assertEqual(again(generated(shape)), generated(shape), shape)

    def test_full_has_every_table_full(self):
        plan = decode(generated("full"))
        self.assertEqual([len(plan.rows[table.kind]) for table in TABLES], [table.most for table in TABLES])

    def test_mutants(self):
        """Each mutant comes back, or is told apart as unreadable exactly where questions 1 to 3 fail."""
        counts = {True: 0, False: 0}
        for seed in range(MUTANTS):
            image = generated("mutant", seed)
            counts[readable(image)] += 1
            if readable(image):
                self.assertEqual(again(image), image, f"mutant {seed}")
            else:
                self.assertRaisesRegex(BadValue, r"question [123]\)", decode, image)
        self.assertGreater(min(counts.values()), 10, counts)

    def test_examples(self):
        images = {path: path.read_bytes() for path in EXAMPLES.glob("*.image")}
        self.assertGreaterEqual(len(images), len(QUESTIONS))
        for path, image in images.items():
            self.assertEqual(encode(load(path.with_suffix(".txt"))), image, path.stem)
            if readable(image):
                self.assertEqual(again(image), image, path.stem)

    def test_images_of_no_whole_words(self):
        """A byte too much in front of the trailer, the last word set right."""
        image = generated("small")
        trailer = len(image) - TRAILER_BYTES
        longer = image[:trailer] + b"\0" + image[trailer:-4] + (trailer + 1).to_bytes(4, "little")
        self.assertFalse(readable(longer))
        self.assertRaisesRegex(BadValue, "question 3", decode, longer)

    def test_lowest_delays(self):
        """From 0 to the delay, and such as question 6 refuses."""
        plan = load(EXAMPLES / "fibre.txt")
        for lowest in (0, 1, 8, 9, 10, 2**32 - 1):
            plan.rows["link"] = [link._replace(lowest=lowest) for link in plan.rows["link"]]
            self.assertEqual(again(encode(plan)), encode(plan), lowest)
            self.assertEqual(decode(encode(plan)).rows["link"], plan.rows["link"])

    def test_highest_words(self):
        image = encode(decode(generated("small")))
        trailer = len(image) - TRAILER_BYTES
        highest = b"\xff" * trailer + image[trailer:]
        self.assertEqual(again(highest), highest)

    def test_any_plan_can_be_listed_and_drawn(self):
        """Listing and picture stand values that break questions, whatever row an answer names."""
        mutants = {seed: generated("mutant", seed) for seed in range(0, MUTANTS, 5)}
        plans = {seed: decode(image) for seed, image in mutants.items() if readable(image)}
        self.assertGreater(len(plans), 10)
        for seed, plan in plans.items():
            self.assertIn("cycle", listing(plan))
            self.assertIn("</svg>", picture(plan, f"mutant {seed}", Answer(6, seed // 5 % len(TABLES) + 1, seed // 50)))

    def test_rows_of_no_row_can_be_drawn(self):
        """Every word is one that names no row and lies past the cycle."""
        image = generated("rich")
        plan = decode(b"\xff" * (len(image) - TRAILER_BYTES) + image[-TRAILER_BYTES:])
        for table in range(1, len(TABLES) + 1):
            self.assertIn("</svg>", picture(plan, "no rows", Answer(5, table, 0)))
        self.assertIn("4294967295", listing(plan))


if __name__ == "__main__":
    unittest.main()
