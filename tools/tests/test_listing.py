"""Listings: sums, slack and holds."""
import unittest

from support import EXAMPLES

from plans.files import load
from plans.listing import listing


def words(name):
    """The lines of an example's listing as lists of words."""
    return [line.split() for line in listing(load(EXAMPLES / f"{name}.txt")).splitlines()]


class Listings(unittest.TestCase):
    def test_rows_by_name(self):
        lines = words("case-b")
        self.assertIn(["1", "sort", "reads", "near,far", "20", "3", "20", "far", "1"], lines)
        self.assertIn(["0", "piece0", "scan", "0", "2..6", "near", "3..6"], lines)

    def test_windows_after_their_switch(self):
        lines = words("kept-core")
        self.assertIn(["0", "window0", "guest", "0..6", "scanner", "2..6"], lines)
        self.assertIn(["1", "window1", "guest", "6..11", "scanner", "6..11"], lines)
        self.assertIn(["3", "window3", "radio", "13..20", "scanner", "15..20"], lines)

    def test_job_sums(self):
        self.assertIn(["decode", "0", "0..1500", "520", "520", "200", "760..1000", "1020..1300"], words("tunnel"))
        self.assertIn(["decode", "0", "0..8", "3", "!", "4", "3", "2..5"], words("q13-a-tick-short"))

    def test_jobs_without_a_piece(self):
        self.assertIn(["decode", "1", "0", "!", "no", "piece", "in", "1", "jobs,", "first", "job", "1"], words_of_two_jobs())

    def test_messages(self):
        lines = words("case-b")
        self.assertIn(["labels", "0", "hop", "0", "frame0", "on", "cable", "6", "6", "8", "0", "8..9"], lines)
        self.assertIn(["labels", "0", "receiver", "sort", "10", "10", "14", "0"], lines)
        self.assertIn(["labels", "0", "latency", "13", "of", "13", "0"], lines)

    def test_frames_end_by_their_links_rate(self):
        lines = words("two-rates")
        self.assertIn(["0", "frame0", "labels", "0", "0", "cable", "6", "2", "8", "8..9"], lines)
        self.assertIn(["1", "frame1", "labels", "0", "1", "onward", "10", "4", "14", "14..15"], lines)
        self.assertIn(["labels", "0", "hop", "1", "frame1", "on", "onward", "10", "10", "14", "0", "14..15"], lines)
        self.assertIn(["labels", "0", "receiver", "sort", "17", "16", "20", "-1", "!"], words("q20-rounded-up"))

    def test_delays_between_two_bounds(self):
        lines = words("fibre")
        self.assertIn("0 copper 0 1 1 352 1 1..1".split(), lines)
        self.assertIn("1 fibre 1 2 9 352 4 4..9".split(), lines)
        self.assertIn("2 riser 2 3 5 176 6 6..5 !".split(), words("q06-lowest-above-delay"))

    def test_arrivals_have_two_bounds_and_steps_wait_for_the_later(self):
        lines = words("fibre")
        self.assertIn("0 frame0 picture 0 0 copper 9 2 11 12..12".split(), lines)
        self.assertIn("1 frame1 picture 0 1 fibre 14 2 16 20..25".split(), lines)
        self.assertIn("picture 0 hop 1 frame1 on fibre 14 14 16 0 20..25".split(), lines)
        self.assertIn("picture 0 hop 2 frame2 on riser 27 27 31 0 33..36".split(), lines)
        self.assertIn("picture 0 receiver sort 38 38 47 0".split(), lines)
        self.assertIn("picture 0 hop 2 frame2 on riser 27 26 30 -1 ! 32..35".split(), words("q18-lowest-delay"))

    def test_no_arrival_on_a_link_that_is_not_there(self):
        plan = load(EXAMPLES / "case-b.txt")
        plan.rows["frame"] = [plan.rows["frame"][0]._replace(link=7)]
        lines = [line.split() for line in listing(plan).splitlines()]
        self.assertIn("0 frame0 labels 0 0 7 6 0 6 -".split(), lines)
        self.assertIn("labels 0 hop 0 frame0 on 7 6 6 6 0 -".split(), lines)

    def test_default_latency(self):
        """By the receiver's deadline, which is not the sender's nor the period."""
        self.assertIn("labels 0 latency 19 of 19 0".split(), words("default-latency"))
        self.assertIn("labels 0 latency 19 of 18 -1 !".split(), words("q21-default-one-tick-over"))
        self.assertIn("labels 1 latency 20 of 19 -1 !".split(), words("q21-relied-on-period"))
        self.assertIn("labels 1 latency 20 of 20 0".split(), words("period-latency"))
        self.assertIn("labels 0 latency 22 of 20 -2 !".split(), words("q21-default-latency"))

    def test_streams_tell_what_a_latency_of_0_stands_for(self):
        self.assertIn("0 labels scan sort 0 1 46 0 19 (default: sort's deadline)".split(), words("default-latency"))
        self.assertIn("0 labels scan sort 20 1 46 0 20".split(), words("period-latency"))

    def test_a_latency_of_0_without_a_receiver(self):
        plan = load(EXAMPLES / "default-latency.txt")
        plan.rows["stream"] = [plan.rows["stream"][0]._replace(receiver=7)]
        lines = [line.split() for line in listing(plan).splitlines()]
        self.assertIn("0 labels scan 7 0 1 46 0 no task 7 !".split(), lines)
        self.assertIn("labels 0 latency - of - -".split(), lines)

    def test_slack_below_zero_is_flagged(self):
        self.assertIn(["labels", "0", "receiver", "sort", "10", "9", "13", "-1", "!"], words("case-b-early"))
        self.assertIn(["labels", "0", "latency", "13", "of", "12", "-1", "!"], words("case-b-late"))

    def test_streams_have_a_queue(self):
        lines = words("queues")
        self.assertIn("0 alarm beep stop 25 2 46 7 25".split(), lines)
        self.assertIn("2 labels mark print 25 2 46 1 25".split(), lines)
        self.assertIn("0 labels scan sort 13 1 46 0 13".split(), words("case-b"))

    def test_stays(self):
        lines = words("queues")
        self.assertIn("up 1 frame2 speed 0 0 5..7 0 0".split(), lines)
        self.assertIn("down 7 frame3 alarm 0 1 0..10 0 8".split(), lines)
        self.assertIn("down 1 frame7 labels 0 1 12..24 0 10".split(), lines)
        self.assertIn("down 1 frame7 labels 0 1 11..24 -1 ! 11".split(), words("q41-stay"))
        self.assertIn("up 1 frame2 speed 0 0 4..7 -1 ! 1".split(), words("q41-first-hop"))

    def test_holds(self):
        self.assertIn(["0", "0", "totals", "0", "count", "report", "12..22", "0", "1"], words("shared-buffer"))
        self.assertIn(["0", "2", "scans", "1", "decode", "send", "2760..3525", "-125", "!", "0"], words("q24-second-scan"))
        self.assertIn(["0", "0", "scans", "0", "decode", "send", "2..11", "2", "-1", "!"], words("q23-read-too-soon"))


    def test_chains(self):
        lines = words("tunnel")
        self.assertIn("0 scanned shoot send 1600 1600 shoot → picture → decode → scans → send".split(), lines)
        self.assertIn("scanned 0 60 1565 1530 1600 70".split(), lines)
        self.assertIn("scanned 1 2060 3525 1490 1600 110".split(), lines)
        self.assertIn("sorted 0 2 14 13 20 7".split(), words("chain"))
        self.assertIn("reach 0 2 21 23 23 0".split(), words("default-limit"))

    def test_chains_tell_what_a_limit_of_0_stands_for(self):
        lines = words("default-limit")
        self.assertIn("0 reach scan move 0 23 (default: move's deadline) scan → labels → sort → bays → move".split(), lines)
        self.assertIn("1 sorted scan sort 0 19 (default: sort's deadline) scan → labels → sort".split(), lines)
        self.assertIn("0 reach scan move 30 30 scan → labels → sort → bays → move".split(), words("period-limit"))

    def test_chains_out_of_their_limit(self):
        self.assertIn("scanned 0 60 1565 1530 1529 -1 !".split(), words("q31-one-tick-over"))
        self.assertIn("sorted 0 2 20 22 20 -2 !".split(), words("q31-default-limit"))
        self.assertIn("reach 0 2 21 23 22 -1 !".split(), words("q31-default-one-tick-over"))

    def test_chains_without_a_path(self):
        self.assertIn("1 sorted scan 3 0 no task 3 ! no task 3 !".split(), words("q29-no-such-task"))
        self.assertIn("sorted 0 2 - - - -".split(), words("q29-no-such-task"))
        self.assertIn("1 sorted scan scan 0 20 (default: scan's deadline) first and last are one task !".split(), words("q29-one-task"))
        self.assertIn("0 reach move scan 17 17 no path !".split(), words("q30-backwards"))


def words_of_two_jobs():
    from plans.reading import read_text

    text = (EXAMPLES / "case-a.txt").read_text().replace("cycle=10", "cycle=20")
    return [line.split() for line in listing(read_text("p.txt", text)).splitlines()]


if __name__ == "__main__":
    unittest.main()
