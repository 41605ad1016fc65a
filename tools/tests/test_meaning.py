"""What rows mean: which windows pay a VCPU switch, how many ticks a frame takes, and when it arrives."""
import unittest

from support import CASE_A, EXAMPLES

from plans.files import load
from plans.meaning import Meaning
from plans.reading import read_text


def charges(*windows):
    """The charges of windows (VCPU and span) on case A's core, v = 2, which has a second VCPU here."""
    rows = "".join(f"window vcpu={vcpu} at={at}\n" for vcpu, at in windows)
    text = CASE_A.replace("window vcpu=guest at=0..10\n", "vcpu second core=scanner\n" + rows)
    meaning = Meaning(read_text("p.txt", text))
    return [meaning.window_charge(number) for number in range(len(windows))]


class Charges(unittest.TestCase):
    def test_a_run_of_windows_pays_once(self):
        self.assertEqual(charges(("guest", "0..4"), ("guest", "4..6"), ("guest", "6..10")), [2, 0, 0])

    def test_rows_in_any_order(self):
        self.assertEqual(charges(("guest", "6..10"), ("guest", "4..6"), ("guest", "0..4")), [0, 0, 2])

    def test_another_vcpu_before(self):
        self.assertEqual(charges(("guest", "0..4"), ("second", "4..6"), ("guest", "6..10")), [2, 2, 2])

    def test_a_tick_between(self):
        self.assertEqual(charges(("guest", "0..3"), ("guest", "4..10")), [2, 2])

    def test_windows_that_overlap_do_not_adjoin(self):
        self.assertEqual(charges(("guest", "0..5"), ("guest", "4..10")), [2, 2])

    def test_tick_0_always_pays(self):
        self.assertEqual(charges(("guest", "0..4"), ("guest", "4..10")), [2, 0])
        self.assertEqual(charges(("guest", "0..4"), ("guest", "0..0")), [2, 2])

    def test_a_window_does_not_adjoin_itself(self):
        self.assertEqual(charges(("guest", "4..4")), [2])
        self.assertEqual(charges(("guest", "4..4"), ("guest", "4..4")), [0, 0])

    def test_a_vcpu_that_is_not_there(self):
        self.assertEqual(charges(("9", "0..4"), ("9", "4..6")), [0, 0])


def ticks(payload, rate, link="cable"):
    """The ticks of a frame with this payload on a link of this rate."""
    text = CASE_A + f"""link cable from=0 to=1 delay=1 rate={rate}
stream labels sender=0 receiver=1 latency=0 hops=1 payload={payload}
frame stream=labels job=0 hop=0 link={link} at=6
"""
    return Meaning(read_text("p.txt", text)).frame_ticks(0)


class FrameTicks(unittest.TestCase):
    def test_whole_ticks(self):
        self.assertEqual((ticks(46, 352), ticks(46, 704), ticks(46, 176)), (2, 1, 4))

    def test_a_part_of_a_tick_counts_whole(self):
        self.assertEqual((ticks(46, 351), ticks(46, 175), ticks(46, 703)), (3, 5, 2))

    def test_ends_of_the_ranges(self):
        self.assertEqual((ticks(46, 1), ticks(1500, 1)), (704, 12336))
        self.assertEqual((ticks(46, 10000), ticks(1500, 10000)), (1, 2))

    def test_each_link_has_its_own(self):
        meaning = Meaning(load(EXAMPLES / "two-rates.txt"))
        self.assertEqual([meaning.frame_ticks(frame) for frame in (0, 1)], [2, 4])

    def test_no_rate_and_no_link(self):
        self.assertEqual((ticks(46, 0), ticks(46, 352, link=1)), (0, 0))


def arrival(**link):
    """The arrival of case B's frame, which ends at 8, and from when on it is seen, by every clock; its link has these words."""
    plan = load(EXAMPLES / "case-b.txt")
    plan.rows["link"] = [row._replace(**link) for row in plan.rows["link"]]
    meaning = Meaning(plan)
    return meaning.arrival(0), meaning.seen(0)


def given_arrivals():
    """The arrivals of all frames that the library gives, by accepted plan: as examples/arrivals/expected has them, which the gate compares."""
    given = {}
    for call in (EXAMPLES.parent / "arrivals" / "expected").read_text().split("$ arrivals ")[1:]:
        asked, answer, *lines = call.splitlines()
        if len(asked.split()) == 1 and answer == "0 0 0":
            given[asked] = [tuple(map(int, line.split()[1:])) for line in lines[:-1]]
    return given


class Arrivals(unittest.TestCase):
    def test_between_lowest_and_highest_delay(self):
        self.assertEqual(arrival(delay=7, lowest=3), ((11, 15), 16))
        self.assertEqual(arrival(delay=7, lowest=0), ((8, 15), 16))

    def test_at_one_tick(self):
        self.assertEqual(arrival(delay=7, lowest=7), ((15, 15), 16))
        self.assertEqual(arrival(delay=0, lowest=0), ((8, 8), 9))

    def test_the_lowest_delay_is_0_where_nobody_says_it(self):
        self.assertEqual(arrival(), ((8, 9), 10))

    def test_in_words(self):
        self.assertEqual(str(arrival(delay=7, lowest=3)[0]), "11..15")

    def test_steps_wait_for_the_latest_arrival(self):
        steps = Meaning(load(EXAMPLES / "fibre.txt")).steps(0, 0, ready=9)
        self.assertEqual([(step.ready, step.end, step.arrival, step.seen) for step in steps], [
            (9, 11, (12, 12), 14), (14, 16, (20, 25), 27), (27, 31, (33, 36), 38),
        ])

    def test_no_link(self):
        plan = load(EXAMPLES / "case-b.txt")
        plan.rows["link"] = []
        meaning = Meaning(plan)
        self.assertEqual((meaning.frame_end(0), meaning.arrival(0), meaning.seen(0)), (6, None, 7))

    def test_those_that_the_library_gives(self):
        given = given_arrivals()
        self.assertGreaterEqual(len(given), 4)
        for name, spans in given.items():
            meaning = Meaning(load(EXAMPLES / f"{name}.txt"))
            self.assertEqual([meaning.arrival(frame) for frame in range(len(meaning.plan.rows["frame"]))], spans, name)


if __name__ == "__main__":
    unittest.main()
