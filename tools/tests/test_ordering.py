"""Rows in the order of question 32: put in order, listed in order, and a row out of order in words."""
import random
import unittest

from support import CASE_A, EXAMPLES, SHAPES, generated

from plans.answers import ORDER, Answer, parse, reason
from plans.files import load
from plans.image import decode, encode
from plans.listing import listing
from plans.model import Plan
from plans.ordering import below, fall, in_order
from plans.questions import QUESTIONS
from plans.reading import read_text
from plans.schema import BY_KIND, KINDS, ORDERED
from plans.writing import write_text

# Tables in order: number, words of a row, and which of them is the start. test_schema.py has these numbers as the plan paper has them.
PLACES = {kind: (KINDS.index(kind) + 1, BY_KIND[kind].row_words, BY_KIND[kind].record._fields.index("start")) for kind in ORDERED}


def by_paper(kind, row):
    """A row's words with the start in front."""
    return [row[PLACES[kind][2]], *row]


def first_fall(image):
    """The table and row that question 32 names, by its words, or None; for images whose layout can be read."""
    word = lambda at: int.from_bytes(image[at:at + 4], "little")
    trailer = word(len(image) - 4)
    for kind, (table, width, _) in PLACES.items():
        offset, count = word(trailer + 8 * table), word(trailer + 8 * table + 4)
        rows = [[word(offset + 4 * (row * width + at)) for at in range(width)] for row in range(count)]
        for number in range(1, count):
            if by_paper(kind, rows[number]) < by_paper(kind, rows[number - 1]):
                return table, number
    return None


def shuffled(plan, seed):
    """The plan with windows, pieces and frames in any order."""
    chance = random.Random(seed)
    for kind in PLACES:
        chance.shuffle(plan.rows[kind])
    return plan


def case_a(*rows):
    """Case A with these rows in place of its window and piece."""
    return read_text("p.txt", "\n".join([*CASE_A.splitlines()[:4], *rows]) + "\n")


def windows(*spans):
    return case_a(*(f"window vcpu={vcpu} at={at}" for vcpu, at in spans))


def words(plan, table, row):
    return reason(plan, Answer(32, table, row))


class InOrder(unittest.TestCase):
    def test_shuffled_rows_come_back(self):
        """Every shape with its rows in any order gives the rows by the paper's order, and tables that others name stay."""
        moved = 0
        for shape in SHAPES:
            plan = shuffled(decode(generated(shape)), 1)
            moved += first_fall(encode(plan)) is not None
            ordered = in_order(plan)
            for kind in KINDS:
                before = plan.rows[kind]
                expected = sorted(before, key=lambda row: by_paper(kind, row)) if kind in PLACES else before
                self.assertEqual(ordered.rows[kind], expected, f"{shape} {kind}")
            self.assertIsNone(first_fall(encode(ordered)), shape)
        self.assertGreater(moved, len(SHAPES) // 2)

    def test_every_word_counts_in_its_turn(self):
        """Rows of few values, so that starts and words are often equal."""
        chance = random.Random(1)
        for kind, (_, width, _) in PLACES.items():
            record = BY_KIND[kind].record
            rows = [record(*(chance.randrange(2) for _ in range(width))) for _ in range(200)]
            plan = Plan((10, 0), {**dict.fromkeys(KINDS, []), kind: rows})
            self.assertEqual(in_order(plan).rows[kind], sorted(rows, key=lambda row: by_paper(kind, row)))

    def test_names_and_lines_go_with_their_rows(self):
        text = CASE_A + "window late vcpu=guest at=8..9\nwindow early vcpu=guest at=4..5\npiece task=decode job=0 at=0..1\n"
        plan = in_order(read_text("p.txt", text))
        self.assertEqual(plan.names.all["window"], ["window0", "early", "late"])
        self.assertEqual([place.line for (place,) in plan.places["window"]], [5, 8, 7])
        self.assertEqual([place.line for (place,) in plan.places["piece"]], [9, 6])

    def test_equal_rows_stay_as_they_stand(self):
        plan = in_order(case_a("window b vcpu=0 at=0..5", "window a vcpu=0 at=0..5", "window c vcpu=0 at=0..4"))
        self.assertEqual(plan.names.all["window"], ["c", "b", "a"])

    def test_rows_under_what_they_belong_to(self):
        """The text of tunnel with windows under VCPUs, pieces under tasks and frames under streams gives its image."""
        lines = [line for line in (EXAMPLES / "tunnel.txt").read_text().splitlines() if line and line[0] != "#"]
        mixed, starting = [], [line for line in lines if line.split()[0] in PLACES]
        for line in lines:
            if line not in starting:
                mixed += [line, *(row for row in starting if row.split()[1] == "=".join(line.split()[:2]))]
        self.assertEqual(sorted(mixed), sorted(lines))
        plan, image = read_text("p.txt", "\n".join(mixed)), (EXAMPLES / "tunnel.image").read_bytes()
        self.assertNotEqual(encode(plan), image)
        self.assertEqual(encode(in_order(plan)), image)
        self.assertEqual(encode(read_text("q.txt", write_text(in_order(plan)))), image)

    def test_examples_in_order_are_what_they_change(self):
        for refused, accepted in (
            ("q32-windows-by-start", "kept-core"), ("q32-pieces-by-task", "equal-starts"), ("q32-lowest-table", "tunnel"),
        ):
            image = (EXAMPLES / f"{accepted}.image").read_bytes()
            plan = load(EXAMPLES / f"{refused}.txt")
            self.assertNotEqual(encode(plan), image)
            self.assertEqual(encode(in_order(plan)), image)


class Examples(unittest.TestCase):
    def test_32_is_said_exactly_where_rows_fall(self):
        """Of the examples that pass the questions before it, by the order's words over the image's."""
        found, before = 0, list(QUESTIONS)[:list(QUESTIONS).index(ORDER)]
        for path in sorted(EXAMPLES.glob("*.lines")):
            answer = parse(path.read_text().splitlines()[0])
            if answer.number not in before:
                fallen = (answer.table, answer.row) if answer.number == ORDER else None
                self.assertEqual(first_fall(path.with_suffix(".image").read_bytes()), fallen, path.stem)
                found += answer.number == ORDER
        self.assertGreaterEqual(found, 7)


class Falls(unittest.TestCase):
    def test_by_start(self):
        plan = windows((0, "4..6"), (0, "6..9"), (0, "2..4"))
        self.assertEqual(words(plan, 4, 2), "window2 is below window1: start 2 is below 6. It belongs before window0.")

    def test_between_the_rows_before(self):
        plan = windows((0, "2..4"), (0, "4..6"), (0, "6..9"), (0, "4..5"))
        self.assertEqual(words(plan, 4, 3), "window3 is below window2: start 4 is below 6. It belongs before window1.")

    def test_behind_an_equal_row(self):
        plan = windows((0, "2..4"), (0, "4..6"), (0, "2..4"))
        self.assertEqual(words(plan, 4, 2), "window2 is below window1: start 2 is below 4. It belongs before window1.")

    def test_by_a_word(self):
        """Numbers decide, and names that a text gives stand beside them."""
        plan = windows((1, "0..4"), ("guest", "0..6"))
        expected = "window1 is below window0: equal start 0; vcpu 0 (guest) is below 1. It belongs before window0."
        self.assertEqual(words(plan, 4, 1), expected)
        expected = "window1 is below window0: equal start 0; vcpu 0 is below 1. It belongs before window0."
        self.assertEqual(words(decode(encode(plan)), 4, 1), expected)

    def test_by_the_last_words(self):
        plan = windows((0, "0..6"), (0, "0..4"))
        self.assertEqual(fall(plan, "window", 1).equal, ("start", "vcpu"))
        self.assertEqual(fall(plan, "window", 1).decides, "length")
        plan = case_a("piece task=0 job=3 at=2..6", "piece task=0 job=1 at=2..9")
        self.assertEqual((fall(plan, "piece", 1).equal, fall(plan, "piece", 1).decides), (("start", "task"), "job"))

    def test_examples(self):
        for name, table, row, expected in (
            ("pieces-by-task", 5, 5, "piece5 is below piece4: equal start 12; task 0 (beat) is below 4 (log). It belongs before piece4."),
            ("frames-by-hop", 8, 1, "equal start 6, stream 0 (labels), job 0; hop 0 is below 1. It belongs before frame0."),
            ("frames-by-link", 8, 1, "job 0, hop 0; link 0 (cable) is below 1 (spare). It belongs before frame0."),
        ):
            self.assertIn(expected, words(load(EXAMPLES / f"q32-{name}.txt"), table, row))

    def test_rows_that_do_not_fall(self):
        """Equal rows, the first row, rows that are not there, and other tables and questions."""
        plan = windows((0, "0..4"), (0, "0..4"), (0, "0..2"))
        self.assertEqual([below(plan, "window", row) for row in range(4)], [False, False, True, False])
        for answer in (Answer(32, 4, 0), Answer(32, 4, 1), Answer(32, 4, 3), Answer(32, 1, 0), Answer(32, 0, 0), Answer(8, 4, 2)):
            self.assertEqual(reason(plan, answer), "", answer)


class Listings(unittest.TestCase):
    def rows(self, plan, table):
        """The lines of a table in a listing, as words."""
        (part,) = [part for part in listing(plan).split("\n\n") if part.startswith(f"table {table}:")]
        return [line.split() for line in part.split("\n")[2:]]

    def test_in_order_with_row_numbers(self):
        lines = self.rows(load(EXAMPLES / "q32-windows-by-start.txt"), 4)
        self.assertEqual([" ".join(line[:-5]) for line in lines], ["0", "2 !", "3", "1"])
        self.assertEqual([line[-3] for line in lines], ["0..6", "6..11", "11..13", "13..20"])

    def test_listings_can_be_compared(self):
        """Apart from row numbers and names, a listing is the same whatever the order of rows is."""
        plan = decode(generated("rich"))
        for kind, (table, _, _) in PLACES.items():
            first = [line[2:] for line in self.rows(in_order(plan), table)]
            again = [line[3 if "!" in line[:2] else 2:] for line in self.rows(shuffled(decode(generated("rich")), 2), table)]
            self.assertEqual(first, again, kind)

    def test_rows_that_others_name_stay(self):
        text = CASE_A + "task early vcpu=guest cores=0 period=5 budget=1 deadline=5\n"
        self.assertEqual([line[1] for line in self.rows(read_text("p.txt", text), 3)], ["decode", "early"])


if __name__ == "__main__":
    unittest.main()
