"""Queues: which ticks a frame stays in one, by the plan paper's words and by the checker's answers; question 41 in words."""
import unittest

from support import CASE_A, EXAMPLES, generated

from plans.answers import Answer, lines_met, parse, reason
from plans.files import load
from plans.image import decode
from plans.meaning import Meaning
from plans.model import Plan
from plans.questions import QUESTIONS
from plans.queues import crowded, frame_met, met
from plans.reading import read_text
from plans.troubles import Trouble
from plans.writing import write_text


def example(name):
    return load(EXAMPLES / f"{name}.txt")


def spans(plan):
    """(link, queue, begin, end) of each frame's stay, by row."""
    meaning = Meaning(plan)
    stays = map(meaning.stay, range(len(plan.rows["frame"])))
    return [(stay.link, stay.queue, stay.since, stay.end) for stay in stays]


def changed(name, kind, row, **words):
    """An example with other words in one row."""
    plan = example(name)
    plan.rows[kind][row] = plan.rows[kind][row]._replace(**words)
    return plan


def answers():
    """(name, plan, answer) of each example that can be read, the answer as its lines have it."""
    for path in sorted(EXAMPLES.glob("*.lines")):
        try:
            yield path.stem, load(path.with_suffix(".image")), parse(path.read_text().splitlines()[0])
        except Trouble:
            pass


def first_met(plan):
    """The lowest frame row that meets a lower one in its queue, or None."""
    return next((frame for frame in range(len(plan.rows["frame"])) if met(plan, frame)), None)


class Column(unittest.TestCase):
    def test_a_text_without_queues_means_queue_0(self):
        self.assertEqual([stream.queue for stream in example("case-b").rows["stream"]], [0])
        self.assertEqual([stream.queue for stream in example("queues").rows["stream"]], [7, 1, 1, 1])

    def test_texts_are_written_with_queues(self):
        self.assertIn(" queue=0\n", write_text(example("case-b")))
        for queue in (0, 7, 8, 2**32 - 1):
            plan = changed("case-b", "stream", 0, queue=queue)
            self.assertEqual(read_text("p.txt", write_text(plan)).rows, plan.rows)


class Stays(unittest.TestCase):
    def test_as_the_examples_text_tells_them(self):
        up, down, side = range(3)
        self.assertEqual(spans(example("queues")), [
            (up, 7, 1, 3), (up, 1, 3, 5), (up, 1, 5, 7), (down, 7, 0, 10), (down, 1, 0, 12), (side, 1, 2, 14), (up, 1, 14, 17), (down, 1, 12, 24),
        ])

    def test_the_first_hop_waits_from_its_senders_last_end(self):
        """decode has two pieces; the end of the later one counts."""
        plan = example("tunnel")
        plan.rows["stream"] = [plan.rows["stream"][0]._replace(sender=1)]
        self.assertEqual(Meaning(plan).stay(0).since, 1300)

    def test_later_hops_go_by_the_lowest_delay_of_the_link_before(self):
        """Fibre: 9 + 1 - 2 and 14 + 4 - 2; its own link's delay does not matter, nor the highest one."""
        self.assertEqual(spans(example("fibre")), [(0, 0, 9, 11), (1, 0, 8, 16), (2, 0, 16, 31)])
        for words in (dict(delay=50), dict(delay=50, rate=352)):
            self.assertEqual(spans(changed("fibre", "link", 2, lowest=3, **words))[1][2], 8)
        self.assertEqual(spans(changed("fibre", "link", 1, lowest=9))[2][2], 21)

    def test_never_below_0(self):
        for precision, since in ((15, 1), (16, 0), (17, 0), (10000, 0)):
            plan = example("queues")
            plan.settings = plan.settings._replace(precision=precision)
            self.assertEqual(Meaning(plan).stay(7).since, since)

    def test_waits(self):
        meaning = Meaning(example("queues"))
        self.assertEqual([meaning.stay(frame).waits for frame in range(8)], [0, 0, 0, 8, 10, 10, 1, 10])
        stay = Meaning(example("q20-sent-too-soon")).stay(0)
        self.assertEqual((stay.waits, stay.begin), (0, stay.start))
        self.assertGreater(stay.since, stay.start)

    def test_what_is_not_there(self):
        """No stay without stream or link; from its start on where the sender or the hop before is not there."""
        self.assertIsNone(Meaning(changed("case-b", "frame", 0, link=9)).stay(0))
        self.assertIsNone(Meaning(changed("case-b", "frame", 0, stream=9)).stay(0))
        for kind, row, words in (
            ("stream", 2, dict(sender=99)), ("frame", 6, dict(job=3)), ("frame", 6, dict(hop=5)),
        ):
            stay = Meaning(changed("queues", kind, row, **words)).stay(6)
            self.assertEqual((stay.since, stay.begin), (None, 15), words)
        for words in (dict(hop=5), dict(link=9), dict(job=1)):
            stay = Meaning(changed("queues", "frame", 6, **words)).stay(7)
            self.assertEqual((stay.since, stay.begin), (None, 22), words)

    def test_stays_of_a_queue_stand_together(self):
        found = [(stay.link, stay.queue, stay.begin) for stay in Meaning(example("queues")).stays()]
        self.assertEqual(found, sorted(found))


class Examples(unittest.TestCase):
    def test_refused_frames_are_the_first_that_meet_another(self):
        """By the lines that the checker prints: 41 names the first such row, and there is none where it said yes."""
        asked, told = [*QUESTIONS, 0], 0
        for name, plan, answer in answers():
            if answer.number == 41:
                self.assertEqual(first_met(plan), answer.row, name)
                told += 1
            elif asked.index(answer.number) > asked.index(41):
                self.assertIsNone(first_met(plan), name)
        self.assertGreaterEqual(told, 4)

    def test_clashes_by_one_tick(self):
        for name in ("q41-stay", "q41-lowest-delay", "q41-first-hop"):
            plan = example(name)
            stay, other = met(plan, first_met(plan))
            first, end = stay.clash(other)
            self.assertEqual(end - first, 1, name)

    def test_other_queues_and_links_do_not_meet(self):
        meaning = Meaning(example("q41-one-queue"))
        three, four = meaning.stay(3), meaning.stay(4)
        self.assertEqual(three.clash(four), (0, 10))
        for plan in (changed("q41-one-queue", "stream", 0, queue=2), changed("q41-one-queue", "frame", 3, link=2)):
            meaning = Meaning(plan)
            self.assertIsNone(meaning.stay(3).clash(meaning.stay(4)))


class Words(unittest.TestCase):
    def test_a_begin_below_0(self):
        self.assertEqual(crowded(example("q41-one-queue"), 4).splitlines(), [
            "frame4 and frame3 are both in queue 1 of down from 0 to 10.",
            "frame4 (picture job 0 hop 1) stays 0..12: from 3 (start of frame1) + 1 (lowest delay) - 4 (P).",
            "frame3 (alarm job 0 hop 1) stays 0..10: from 1 (start of frame0) + 1 (lowest delay) - 4 (P), which is below 0.",
        ])

    def test_a_first_hop(self):
        self.assertEqual(crowded(example("q41-first-hop"), 2).splitlines()[1:], [
            "frame2 (speed job 0 hop 0) stays 4..7: from the end of clock.",
            "frame1 (picture job 0 hop 0) stays 3..5: from the end of shoot.",
        ])

    def test_the_lowest_row_met_is_told(self):
        """The labels would be in the switch from 0 on, where both others are."""
        plan = changed("q41-one-queue", "frame", 6, start=3)
        self.assertEqual((frame_met(plan, 7), frame_met(plan, 4), frame_met(plan, 3)), (3, 3, None))

    def test_hops_that_are_not_there(self):
        for words in (dict(hop=5), dict(link=9)):
            plan = changed("q41-stay", "frame", 6, **words)
            plan.rows["frame"][7] = plan.rows["frame"][7]._replace(start=11)
            self.assertIn("stays 11..13: from its start, since what comes before it is not there.", crowded(plan, 7))

    def test_rows_that_meet_none(self):
        plan = example("queues")
        for answer in (Answer(41, 8, 7), Answer(41, 8, 8), Answer(41, 7, 0), Answer(41, 0, 0), Answer(40, 8, 7)):
            self.assertEqual((reason(plan, answer), lines_met(plan, answer)), ("", []), answer)

    def test_other_questions_tell_no_stays(self):
        plan = example("q41-stay")
        self.assertEqual((reason(plan, Answer(19, 8, 7)), lines_met(plan, Answer(19, 8, 7))), ("", []))

    def test_any_rows(self):
        """Plans that break other questions have words, or none."""
        plan = decode(generated("full"))
        crowd = Plan(plan.settings, {**plan.rows, "stream": [row._replace(queue=0) for row in plan.rows["stream"]]})
        found = [crowded(crowd, frame) for frame in range(0, 512, 37)]
        self.assertTrue(all(isinstance(words, str) for words in found))
        self.assertEqual(crowded(read_text("p.txt", CASE_A + "frame stream=3 job=0 hop=1 link=2 at=0\n"), 0), "")


if __name__ == "__main__":
    unittest.main()
