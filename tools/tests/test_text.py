"""Texts: what is read from them, and what is said of bad ones."""
import tempfile
import unittest
from pathlib import Path

from support import CASE_A, case_a_with

from plans.image import encode, pack, unpack
from plans.reading import read_text
from plans.schema import BY_KIND, KINDS, TABLES, TRAILER_BYTES, TRAILER_WORDS
from plans.troubles import Trouble
from plans.writing import write_text


def troubles(text):
    """The lines that a bad text gets, or none."""
    try:
        read_text("p.txt", text)
    except Trouble as bad:
        return str(bad).splitlines()
    return []


def image_of(more=""):
    """The image of case A with more lines."""
    return encode(read_text("p.txt", CASE_A + more))


LINK = "link cable from=0 to=1 delay=3 rate=352"


def with_word(image, number, word):
    words = list(unpack(image))
    words[number] = word
    return pack(words)


class Reading(unittest.TestCase):
    def test_rows_by_number_and_name_are_the_same(self):
        by_number = case_a_with(4, "task decode vcpu=0 cores=0 period=10 budget=3 deadline=8")
        self.assertEqual(encode(read_text("p.txt", by_number)), encode(read_text("p.txt", CASE_A)))

    def test_unnamed_rows_have_names(self):
        text = CASE_A.replace("vcpu guest", "vcpu").replace("vcpu=guest", "vcpu=vcpu0")
        self.assertEqual(encode(read_text("p.txt", text)), encode(read_text("p.txt", CASE_A)))

    def test_generated_names_are_never_those_given(self):
        plan = read_text("p.txt", CASE_A + "core core2 node=1 d=0 v=0\ncore node=1 d=0 v=0\n")
        self.assertEqual(plan.names.all["core"], ["scanner", "core2", "core2_"])

    def test_spans_have_two_forms(self):
        plus = case_a_with(6, "piece task=decode job=0 at=2+4")
        self.assertEqual(encode(read_text("p.txt", plus)), encode(read_text("p.txt", CASE_A)))

    def test_masks(self):
        for mask, number in (("none", 0), ("any", 2**32 - 1), ("31", 2**31), ("scanner,1", 3)):
            text = case_a_with(4, f"task decode vcpu=guest cores={mask} period=10 budget=3 deadline=8")
            self.assertEqual(read_text("p.txt", text).rows["task"][0].cores, number)

    def test_values_for_the_checker_are_taken(self):
        for line, text in (
            (1, "plan cycle=0 precision=4294967295"),
            (5, "window vcpu=7 at=0..10"),
            (4, "task decode vcpu=guest cores=none period=3 budget=0 deadline=4294967295"),
            (6, "piece task=9 job=4294967295 at=4294967295+4294967295"),
        ):
            plan = read_text("p.txt", case_a_with(line, text))
            self.assertEqual(encode(read_text("q.txt", write_text(plan))), encode(plan), text)

    def test_chains(self):
        """A name for a task, a number that need not exist, and the row's place behind all other tables."""
        plan = read_text("p.txt", CASE_A + "chain far first=decode last=9 limit=0\nchain first=1 last=0 limit=7\n")
        chain = BY_KIND["chain"].row
        self.assertEqual(plan.rows["chain"], [chain(first=0, last=9, limit=0), chain(first=1, last=0, limit=7)])
        others, image = image_of(), encode(plan)
        behind = len(others) - TRAILER_BYTES
        self.assertEqual(image[:behind], others[:behind])
        self.assertEqual(unpack(image)[-3:], (behind, 2, len(image) - TRAILER_BYTES))

    def test_chains_are_written_back(self):
        written = write_text(read_text("p.txt", CASE_A + "chain far first=decode last=9 limit=0\n"))
        self.assertIn("chain  far  first=decode  last=9  limit=0", written)

    def test_a_links_lowest_delay(self):
        """The row's last word; 0 where it is left out, as texts of before it do."""
        for more, lowest in (("", 0), (" lowest=0", 0), (" lowest=2", 2), (" lowest=3", 3), (" lowest=4294967295", 2**32 - 1)):
            image = image_of(LINK + more + "\n")
            self.assertEqual(unpack(image)[:-TRAILER_WORDS], (*unpack(image_of())[:-TRAILER_WORDS], 0, 1, 3, 352, lowest), more)

    def test_a_links_lowest_delay_is_written_back(self):
        for more, lowest in (("", 0), (" lowest=2", 2)):
            self.assertIn(f"delay=3  rate=352  lowest={lowest}\n", write_text(read_text("p.txt", CASE_A + LINK + more + "\n")))

    def test_a_variant_changes_a_lowest_delay_that_its_base_leaves_out(self):
        self.assertEqual(image_of(LINK + "\nchange link cable lowest=2\n"), image_of(LINK + " lowest=2\n"))

    def test_raw_changes(self):
        image = image_of()
        trailer = len(unpack(image)) - TRAILER_WORDS
        for raw, expected in (
            ("last-word=63", with_word(image, -1, 63)),
            (f"length={len(image) + 2}", image + b"\0\0"),
            ("length=3", image[:3]),
            ("core.rows=2", with_word(image, trailer + 3, 2)),
            ("vcpu.offset=16", with_word(image, trailer + 4, 16)),
            (f"core.words={BY_KIND['core'].row_words}", image),
            ("chain.rows=1", with_word(image, -2, 1)),
        ):
            self.assertEqual(image_of(f"raw {raw}\n"), expected, raw)

    def test_rows_cut_short(self):
        """Later tables move down with the words that go, and the trailer tells where they are."""
        whole, cut, core = unpack(image_of()), unpack(image_of("raw core.words=2\n")), BY_KIND["core"]
        gone = core.row_words - 2
        self.assertEqual(cut[:-TRAILER_WORDS], whole[:2] + whole[core.row_words:-TRAILER_WORDS])
        moved = {*range(4, TRAILER_WORDS - 1, 2), TRAILER_WORDS - 1}  # the offsets of later tables, and the last word
        trailer = [word - 4 * gone * (number in moved) for number, word in enumerate(whole[-TRAILER_WORDS:])]
        self.assertEqual(cut[-TRAILER_WORDS:], tuple(trailer))

    def test_links_as_older_images_have_them(self):
        """Without a lowest delay, and without a rate too; the trailer tells that the streams follow."""
        link = BY_KIND["link"].row(to_node=1, delay=3, rate=352, lowest=2)
        for words in (3, 4):
            image = unpack(image_of(f"{LINK} lowest=2\nraw link.words={words}\n"))
            rows, trailer = unpack(image_of())[:-TRAILER_WORDS], image[-TRAILER_WORDS:]
            self.assertEqual(image[:-TRAILER_WORDS], rows + link[:words])
            stream = 2 + 2 * KINDS.index("stream")
            self.assertEqual(trailer[stream], 4 * (len(rows) + words))

    def test_comments_tabs_and_line_ends(self):
        text = CASE_A.replace(" ", "\t").replace("\n", "  # why\r\n") + "# end"
        self.assertEqual(encode(read_text("p.txt", text)), encode(read_text("p.txt", CASE_A)))

    def test_written_names_are_kept(self):
        written = write_text(read_text("p.txt", CASE_A))
        self.assertIn("task  decode  vcpu=guest  cores=scanner", written)
        self.assertEqual(encode(read_text("p.txt", written)), encode(read_text("p.txt", CASE_A)))


class BadText(unittest.TestCase):
    def expect(self, text, *messages):
        """Each message is the start of a line that the text gets, and there are no others."""
        found = troubles(text)
        self.assertEqual(len(found), len(messages), found)
        for line, message in zip(found, messages):
            self.assertTrue(line.startswith(message), f"{line!r} does not start with {message!r}")

    def test_unknown_kind(self):
        text = CASE_A + "pice task=decode job=0 at=2..6\n"
        self.expect(text, "p.txt:7: no kind of line starts with 'pice' (did you mean piece?)")

    def test_unknown_key(self):
        self.expect(case_a_with(2, "core scanner node=0 d=1 w=2"), "p.txt:2: core has no key 'w'; its keys are node, d, v")

    def test_missing_keys(self):
        self.expect(case_a_with(4, "task decode vcpu=guest cores=0 period=10"), "p.txt:4: task decode lacks budget, deadline")

    def test_doubled_key(self):
        self.expect(case_a_with(3, "vcpu guest core=0 core=0"), "p.txt:3: core stands twice")

    def test_doubled_name(self):
        self.expect(CASE_A + "vcpu guest core=0\n", "p.txt:7: vcpu guest stands already at p.txt:3")

    def test_unknown_name(self):
        text = case_a_with(5, "window vcpu=gest at=0..10")
        self.expect(text, "p.txt:5: window: vcpu: no vcpu is named 'gest' (did you mean guest?)")

    def test_numbers(self):
        self.expect(case_a_with(1, "plan cycle=4294967296"), "p.txt:1: plan: cycle: 4294967296 is past 4294967295")
        for bad in ("-1", "1.5", "0x10", "ten", "1_000", "²"):
            self.expect(case_a_with(1, f"plan cycle={bad}"), f"p.txt:1: plan: cycle: '{bad}' is not a whole number")

    def test_spans(self):
        piece = "piece task=decode job=0 at="
        self.expect(case_a_with(6, piece + "6..2"), "p.txt:6: piece: at: 6..2 ends before it starts")
        self.expect(case_a_with(6, piece + "6"), "p.txt:6: piece: at: '6' is not a span")
        self.expect(case_a_with(6, piece + "0..4294967296"), "p.txt:6: piece: at: 0..4294967296 is longer than")
        self.expect(case_a_with(6, piece + "0..x"), "p.txt:6: piece: at: 'x' is not a whole number")

    def test_masks(self):
        task = "task decode vcpu=guest period=10 budget=3 deadline=8 cores="
        self.expect(case_a_with(4, task + "32"), "p.txt:4: task decode: cores: 32 is past 31")
        self.expect(case_a_with(4, task + "0,scanner"), "p.txt:4: task decode: cores: scanner stands twice")
        self.expect(case_a_with(4, task + "0,left"), "p.txt:4: task decode: cores: no core is named 'left'")

    def test_spaces_around_equals(self):
        self.expect(case_a_with(3, "vcpu guest core = 0"), "p.txt:3: 'core' is not key=value (without spaces around =)")
        self.expect(case_a_with(3, "vcpu guest core="), "p.txt:3: 'core=' is not key=value")

    def test_names(self):
        self.expect(case_a_with(2, "core 1st node=0 d=1 v=2").replace("scanner", "0"), "p.txt:2: '1st' is no name")
        self.expect(CASE_A + "core any node=0 d=1 v=2\n", "p.txt:7: 'any' is no name")

    def test_plan_line(self):
        self.expect(CASE_A + "plan cycle=10\n", "p.txt:7: the plan line stands already at p.txt:1")
        self.expect("core node=0 d=1 v=2\n", "p.txt: no plan line")

    def test_row_counts(self):
        self.expect("plan cycle=10\n", "p.txt: no core row; a plan has at least 1")
        for table in TABLES[:2]:
            words = "node=0 d=0 v=0" if table.kind == "core" else "core=0"
            rows = f"{table.kind} {words}\n" * table.most
            message = f"p.txt:{6 + table.most}: {table.most + 1} {table.kind} rows; a plan has at most {table.most}"
            self.expect(CASE_A + rows, message)

    def test_all_lines_are_told(self):
        text = "plan cycle=x\ncore node=0\nvcpu core=z\n"
        self.expect(text, "p.txt:1: plan: cycle", "p.txt:2: core lacks d, v", "p.txt:3: vcpu: core: no core")

    def test_a_bad_row_still_has_its_name(self):
        self.expect(case_a_with(3, "vcpu guest cor=scanner"), "p.txt:3: vcpu has no key 'cor' (did you mean core?)")

    def test_chains(self):
        self.expect(CASE_A + "chain far first=decode last=9\n", "p.txt:7: chain far lacks limit")
        self.expect(CASE_A + "chain first=decode last=send limit=0\n", "p.txt:7: chain: last: no task is named 'send'")
        most = BY_KIND["chain"].most
        rows = "chain first=0 last=1 limit=0\n" * (most + 1)
        message = f"p.txt:{7 + most}: {most + 1} chain rows; a plan has at most {most}, and this is the next"
        self.expect(CASE_A + rows, message)

    def test_change_and_drop(self):
        self.expect(CASE_A + "change task decod period=3\n", "p.txt:7: there is no task decod (did you mean decode?)")
        self.expect(CASE_A + "change piece 1 job=3\n", "p.txt:7: there is no piece 1")
        self.expect(CASE_A + "change decode period=3\n", "p.txt:7: write the row's kind and its name or number")
        self.expect(CASE_A + "change tusk decode period=3\n", "p.txt:7: no kind of row is called 'tusk' (did you mean task?)")
        self.expect(CASE_A + "drop piece 0 at=2..6\n", "p.txt:7: 'at=2..6' after the row to drop")
        self.expect(CASE_A + "change task decode period=x\n", "p.txt:7: task decode: period: 'x' is not")

    def test_raw(self):
        self.expect(CASE_A + "raw last=63\n", "p.txt:7: raw has no key 'last'")
        self.expect(CASE_A + "raw length=9999999\n", "p.txt:7: length=9999999 is past")
        words = BY_KIND["link"].row_words
        self.expect(CASE_A + f"raw link.words={words + 1}\n", f"p.txt:7: link.words={words + 1} is past {words}")


class Bases(unittest.TestCase):
    def read(self, files, name="p.txt"):
        with tempfile.TemporaryDirectory() as folder:
            for file, text in files.items():
                (Path(folder) / file).write_text(text)
            try:
                return read_text(Path(folder) / name, files[name])
            except Trouble as bad:
                return [str(line).replace(folder + "/", "") for line in str(bad).splitlines()]

    def test_changes_over_a_base(self):
        plan = self.read({"a.txt": CASE_A, "p.txt": "base a.txt\nchange task decode deadline=5\nvcpu next core=scanner\n"})
        self.assertEqual(plan.rows["task"][0].deadline, 5)
        self.assertEqual(plan.rows["task"][0].period, 10)
        self.assertEqual(len(plan.rows["vcpu"]), 2)

    def test_dropping_moves_later_rows_down(self):
        text = "base a.txt\ndrop vcpu guest\nvcpu other core=scanner\nchange task decode vcpu=other\nchange window 0 vcpu=other\n"
        plan = self.read({"a.txt": CASE_A, "p.txt": text})
        self.assertEqual((plan.rows["task"][0].vcpu, plan.names.all["vcpu"]), (0, ["other"]))

    def test_troubles_name_the_file_they_stand_in(self):
        found = self.read({"a.txt": case_a_with(3, "vcpu guest core=x"), "p.txt": "base a.txt\nchange piece 0 job=x\n"})
        self.assertEqual([line.split(" ")[0] for line in found], ["a.txt:3:", "p.txt:2:"])

    def test_bad_bases(self):
        self.assertIn("p.txt:1: none.txt cannot be read", self.read({"p.txt": "base none.txt\n" + CASE_A})[0])
        self.assertIn("p.txt:1: p.txt is based on itself", self.read({"p.txt": "base p.txt\n" + CASE_A})[0])
        self.assertIn("p.txt:7: base stands before", self.read({"p.txt": CASE_A + "base a.txt\n", "a.txt": CASE_A})[0])


if __name__ == "__main__":
    unittest.main()
