"""The command line: exit statuses, and that bad input leaves nothing behind."""
import subprocess
import sys
import unittest

from support import CASE_A, EXAMPLES, TOOLS, InFolder, run

ACCEPTED = "accepted, every question is answered yes (0 0 0)"


class Commands(InFolder):
    def test_the_command_itself(self):
        command = [sys.executable, TOOLS / "plan", "image", EXAMPLES / "case-a.txt", "-"]
        ran = subprocess.run(command, capture_output=True, check=True)
        self.assertEqual(ran.stdout, (EXAMPLES / "case-a.image").read_bytes())

    def test_image(self):
        text, out = self.put("a.txt", CASE_A), self.folder / "a.image"
        self.assertEqual(run("image", text, out).returncode, 0)
        self.assertEqual(out.read_bytes(), (EXAMPLES / "case-a.image").read_bytes())
        self.assertEqual(self.files(), ["a.image", "a.txt"])

    def test_image_in_order(self):
        """From a text and from an image; without the option the lines' order stays."""
        out, name = self.folder / "out.image", "q32-windows-by-start"
        for plan, options, expected in (
            (f"{name}.txt", ["--in-order"], "kept-core"),
            (f"{name}.image", ["--in-order"], "kept-core"),
            (f"{name}.txt", [], name),
        ):
            self.assertEqual(run("image", EXAMPLES / plan, out, *options).returncode, 0)
            self.assertEqual(out.read_bytes(), (EXAMPLES / f"{expected}.image").read_bytes(), (plan, options))

    def test_text_in_order(self):
        out = self.folder / "out.image"
        text = self.put("a.txt", run("text", EXAMPLES / "q32-pieces-by-task.image", "--in-order").stdout)
        run("image", text, out)
        self.assertEqual(out.read_bytes(), (EXAMPLES / "equal-starts.image").read_bytes())

    def test_images_that_cannot_be_put_in_order(self):
        for name, message in (("q01-empty", "is no text: it is empty"), ("q03-gap", "no readable image (question 3)")):
            ran = run("image", EXAMPLES / f"{name}.image", self.folder / "out.image", "--in-order")
            self.assertEqual((ran.returncode, self.files()), (1, []))
            self.assertIn(message, ran.stderr)

    def test_bad_text_writes_no_image(self):
        text, out = self.put("a.txt", CASE_A + "task\n"), self.folder / "a.image"
        ran = run("image", text, out)
        self.assertEqual((ran.returncode, self.files()), (1, ["a.txt"]))
        self.assertTrue(ran.stderr.startswith(f"{text}:7: task lacks vcpu"), ran.stderr)

    def test_bad_text_leaves_the_old_image(self):
        text, out = self.put("a.txt", "plan"), self.put("a.image", b"old")
        self.assertEqual(run("image", text, out).returncode, 1)
        self.assertEqual(out.read_bytes(), b"old")

    def test_output_that_cannot_be_written(self):
        text, out = self.put("a.txt", CASE_A), self.folder / "taken"
        out.mkdir()
        ran = run("image", text, out)
        self.assertEqual((ran.returncode, self.files()), (1, ["a.txt", "taken"]))
        self.assertIn("cannot be written", ran.stderr)

    def test_input_that_cannot_be_read(self):
        ran = run("text", self.folder / "none.image")
        self.assertEqual(ran.returncode, 1)
        self.assertIn("none.image: cannot be read", ran.stderr)

    def test_broken_layouts_are_told(self):
        older = ("q03-old-links", 3), ("q03-links-without-lowest", 3), ("q03-streams-without-queue", 3)
        for name, number in (("q01-empty", 1), ("q02-last-word", 2), ("q02-nine-tables", 2), ("q03-gap", 3), *older):
            ran = run("text", EXAMPLES / f"{name}.image")
            self.assertEqual((ran.returncode, ran.stdout), (1, ""))
            self.assertIn(f"{name}.image: no readable image (question {number})", ran.stderr)

    def test_no_text(self):
        ran = run("list", self.put("a.txt", b"plan cycle=1\ncore caf\xe9 node=0 d=0 v=0\n"))
        self.assertIn("a.txt: line 2 is not UTF-8", ran.stderr)

    def test_an_image_is_no_text(self):
        ran = run("image", EXAMPLES / "case-a.image", self.folder / "out.image")
        self.assertEqual((ran.returncode, self.files()), (1, []))
        self.assertIn("case-a.image: is no text but an image", ran.stderr)

    def test_check_tells_where_a_row_was_changed(self):
        ran = run("check", EXAMPLES / "q18-hop-too-soon.txt", "--plancheck", self.program("18 8 1"))
        lines = [line.rsplit("/", 1)[-1] for line in ran.stdout.splitlines()[2:]]
        self.assertEqual(lines, ["two-hops.txt:10: this row", "q18-hop-too-soon.txt:6: this row"])

    def test_check(self):
        text = self.put("a.txt", CASE_A)
        ran = run("check", text, "--plancheck", self.program("0 0 0"))
        self.assertEqual((ran.returncode, ran.stdout), (0, f"{ACCEPTED}\n"))
        ran = run("check", text, "--plancheck", self.program("13 3 0"))
        self.assertEqual(ran.returncode, 1)
        self.assertIn("at task decode: a job's pieces do not sum to budget and switches\nNo to question 13: ", ran.stdout)
        self.assertIn(f"{text}:4: this row", ran.stdout)

    def test_check_of_values_out_of_range(self):
        ran = run("check", EXAMPLES / "q06-lowest-above-delay.txt", "--plancheck", self.program("6 6 2"))
        first, asked, ranges, *lines = ran.stdout.splitlines()
        self.assertEqual(first, "refused (6 6 2) at link riser: a value is out of range")
        self.assertEqual(asked, "No to question 6: are the row's values in range?")
        self.assertTrue(ranges.startswith("In a link: ") and ranges.endswith("lowest at most delay."), ranges)
        self.assertEqual([line.rsplit("/", 1)[-1] for line in lines], ["fibre.txt:27: this row", "q06-lowest-above-delay.txt:6: this row"])

    def test_check_of_queues_out_of_range(self):
        ran = run("check", EXAMPLES / "q40-queue.txt", "--plancheck", self.program("40 7 2"))
        first, asked, ranges, *lines = ran.stdout.splitlines()
        self.assertEqual(first, "refused (40 7 2) at stream labels: the queue is out of range")
        self.assertEqual(asked, "No to question 40: is the stream's queue at most 7?")
        self.assertEqual(ranges, "In a stream: queue at most 7.")
        self.assertEqual([line.rsplit("/", 1)[-1] for line in lines], ["queues.txt:55: this row", "q40-queue.txt:6: this row"])

    def test_check_of_stays_tells_both_frames(self):
        ran = run("check", EXAMPLES / "q41-stay.txt", "--plancheck", self.program("41 8 7"))
        first, asked, *told = ran.stdout.splitlines()
        self.assertEqual(first, "refused (41 8 7) at frame7: two frames stay in one queue of a link at once")
        self.assertTrue(asked.startswith("No to question 41: "), asked)
        self.assertEqual((ran.returncode, [line.rsplit("/", 1)[-1] for line in told]), (1, [
            "frame7 and frame4 are both in queue 1 of down from 11 to 12.",
            "frame7 (labels job 0 hop 1) stays 11..24: from 14 (start of frame6) + 1 (lowest delay) - 4 (P).",
            "frame4 (picture job 0 hop 1) stays 0..12: from 3 (start of frame1) + 1 (lowest delay) - 4 (P).",
            "queues.txt:64: this row",
            "queues.txt:61: the row it meets",
        ]))

    def test_check_of_an_accepted_plan_tells_what_a_0_stands_for(self):
        for name, lines in (
            ("default-latency", ["stream labels: latency of 0 stands for 19, the deadline of sort."]),
            ("period-latency", []),
        ):
            ran = run("check", EXAMPLES / f"{name}.txt", "--plancheck", self.program("0 0 0"))
            self.assertEqual((ran.returncode, ran.stdout.splitlines()), (0, [ACCEPTED, *lines]))

    def test_check_of_a_limit_of_0_tells_the_period(self):
        ran = run("check", EXAMPLES / "q21-relied-on-period.txt", "--plancheck", self.program("21 7 0"))
        first, asked, *told = ran.stdout.splitlines()
        self.assertEqual(first, "refused (21 7 0) at stream labels: may take longer than its latency")
        self.assertTrue(asked.startswith("No to question 21: "), asked)
        self.assertEqual((ran.returncode, [line.rsplit("/", 1)[-1] for line in told]), (1, [
            "labels takes up to 20 ticks: in job 1, 38 - 22 + 4 (P). Its latency of 0 stands for 19, the deadline of sort.",
            "In plans from before request 8 it stood for 20, the period of scan: write latency=20 to keep the old meaning.",
            "case-b.txt:20: this row",
            "default-latency.txt:10: this row",
        ]))

    def test_check_of_other_refusals_tells_nothing_of_zeros(self):
        """The checker's word counts: what it refuses for another reason has that reason alone."""
        ran = run("check", EXAMPLES / "q21-relied-on-period.txt", "--plancheck", self.program("20 7 0"))
        self.assertNotIn("stands for", ran.stdout)

    def test_check_of_rows_out_of_order(self):
        rows = ("piece task=decode job=0 at=6..8", "window vcpu=guest at=8..9", "piece task=decode job=0 at=0..1")
        text = self.put("a.txt", CASE_A + "\n".join(rows))
        ran = run("check", text, "--plancheck", self.program("32 5 2"))
        self.assertEqual(ran.returncode, 1)
        self.assertEqual(ran.stdout.splitlines()[2:], [
            "piece2 is below piece1: start 0 is below 6. It belongs before piece0.",
            f"{text}:9: this row",
            f"{text}:6: it belongs before this row",
            "--in-order takes all rows in order.",
        ])

    def test_check_of_an_image_out_of_order(self):
        ran = run("check", EXAMPLES / "q32-pieces-by-task.image", "--plancheck", self.program("32 5 5"))
        self.assertEqual(ran.stdout.splitlines()[2:], [
            "piece5 is below piece4: equal start 12; task 0 is below 4. It belongs before piece4.",
            "--in-order takes all rows in order.",
        ])

    def test_check_in_order_asks_about_the_plan_in_order(self):
        """The checker gets the image in order, and the lines told are those of its rows."""
        text = self.put("a.txt", CASE_A + "piece task=decode job=0 at=0..1\n")
        asked = self.folder / "asked"
        checker = self.recording("10 5 0", asked)
        ran = run("check", text, "--in-order", "--plancheck", checker)
        self.assertEqual(ran.stdout.splitlines()[2:], [f"{text}:7: this row"])
        run("image", text, self.folder / "a.image", "--in-order")
        self.assertEqual(asked.read_bytes(), (self.folder / "a.image").read_bytes())
        run("check", text, "--plancheck", checker)
        self.assertNotEqual(asked.read_bytes(), (self.folder / "a.image").read_bytes())
        run("check", EXAMPLES / "q32-lowest-table.image", "--in-order", "--plancheck", checker)
        self.assertEqual(asked.read_bytes(), (EXAMPLES / "tunnel.image").read_bytes())
        run("check", EXAMPLES / "q03-gap.image", "--in-order", "--plancheck", self.recording("3 0 0", asked))
        self.assertEqual(asked.read_bytes(), (EXAMPLES / "q03-gap.image").read_bytes())

    def loads(self, name, *options):
        """The loads of an example, with the answer that the checker gives to it."""
        line = (EXAMPLES / name).with_suffix(".lines").read_text().splitlines()[0]
        return run("loads", EXAMPLES / name, *options, "--plancheck", self.program(line))

    def test_loads(self):
        for name in ("tunnel.txt", "case-a.image"):
            ran = self.loads(name)
            self.assertEqual((ran.returncode, ran.stderr), (0, ""))
            self.assertTrue(ran.stdout.startswith(f"{ACCEPTED}\n\ncycle "), ran.stdout)

    def test_loads_of_plans_refused_by_later_questions(self):
        """A draft can be made from them."""
        for number in (*range(11, 25), *range(29, 32), 41):
            for path in EXAMPLES.glob(f"q{number}-*.txt"):
                ran = self.loads(path.name)
                self.assertEqual(ran.returncode, 0, path.name)
                self.assertIn(f"No to question {number}: ", ran.stdout)
                self.assertIn("\ncores (", ran.stdout)

    def test_no_loads_of_plans_refused_by_earlier_questions(self):
        for number in (*range(1, 11), 32):
            for path in EXAMPLES.glob(f"q{number:02}-*.image"):
                ran = self.loads(path.name)
                self.assertEqual(ran.returncode, 1, path.name)
                self.assertIn(f"No to question {number}: ", ran.stdout)
                self.assertTrue(ran.stdout.endswith("No loads: they need yes to questions 1 to 10 and 32, as a draft does.\n"))
                self.assertNotIn("cores (", ran.stdout)

    def loads_behind_40(self, line):
        """The loads of a plan that 40 refuses, and that would get this line with every stream in queue 0."""
        image = EXAMPLES / "q40-queue.image"
        checker = self.put("checker", f"#!/bin/sh\nif cmp -s - '{image}'; then echo 40 7 2; else echo {line}; fi\n")
        checker.chmod(0o755)
        return run("loads", EXAMPLES / "q40-queue.txt", "--plancheck", checker)

    def test_loads_behind_40_ask_what_a_draft_asks(self):
        """40 is asked before 7 to 10, but not when a draft is made."""
        for line in ("0 0 0", "41 8 4", "13 3 0"):
            ran = self.loads_behind_40(line)
            self.assertEqual(ran.returncode, 0)
            self.assertIn("No to question 40: ", ran.stdout)
            self.assertIn("\ncores (", ran.stdout)
            self.assertNotIn("in queue 0", ran.stdout)
        ran = self.loads_behind_40("10 5 3")
        self.assertEqual(ran.returncode, 1)
        self.assertIn("With every stream in queue 0: refused (10 5 3) at piece3: ", ran.stdout)
        self.assertNotIn("cores (", ran.stdout)

    def test_no_loads_tell_the_row_and_its_line(self):
        ran = self.loads("q10-after-due-tick.txt")
        self.assertIn("refused (10 5 0) at piece0: no such job, or a piece too short, early or late\nNo to question 10: ", ran.stdout)
        self.assertIn("case-a.txt:11: this row\n", ran.stdout)

    def test_loads_in_order_ask_about_the_plan_in_order(self):
        asked = self.folder / "asked"
        plan = EXAMPLES / "q32-pieces-by-task.txt"
        self.assertEqual(run("loads", plan, "--in-order", "--plancheck", self.recording("0 0 0", asked)).returncode, 0)
        self.assertEqual(asked.read_bytes(), (EXAMPLES / "equal-starts.image").read_bytes())

    def test_checker_without_an_answer(self):
        ran = run("check", self.put("a.txt", CASE_A), "--plancheck", self.program("hello"))
        self.assertEqual(ran.returncode, 1)
        self.assertIn("gives no answer", ran.stderr)

    def test_check_of_an_unreadable_image(self):
        ran = run("check", EXAMPLES / "q02-last-word.image", "--plancheck", self.program("2 0 0"))
        self.assertIn("refused (2 0 0): the last word does not point to the trailer\nNo to question 2: ", ran.stdout)

    def test_picture(self):
        out = self.folder / "a.svg"
        self.assertEqual(run("picture", self.put("a.txt", CASE_A), out, "--answer", "13 3 0").returncode, 0)
        self.assertIn("refused (13 3 0) at task decode", out.read_text())

    def test_picture_in_order(self):
        out = self.folder / "a.svg"
        plan = EXAMPLES / "q32-windows-by-start.txt"
        self.assertEqual(run("picture", plan, out, "--in-order").returncode, 0)
        self.assertIn("window3 of radio: 13..20", out.read_text())
        run("picture", plan, out)
        self.assertIn("window1 of radio: 13..20", out.read_text())

    def test_picture_of_what_is_not_there(self):
        text, out = self.put("a.txt", CASE_A), self.folder / "a.svg"
        for options, message in (
            (["--lanes", "scaner"], "no core or link is named 'scaner' (did you mean scanner?)"),
            (["--from", "9", "--to", "9"], "no ticks from 9 to 9"),
        ):
            ran = run("picture", text, out, *options)
            self.assertEqual((ran.returncode, out.exists()), (1, False))
            self.assertIn(message, ran.stderr)

    def test_usage(self):
        self.assertEqual(run().returncode, 2)
        self.assertEqual(run("picture", "a", "b", "--answer", "1 2").returncode, 2)


if __name__ == "__main__":
    unittest.main()
