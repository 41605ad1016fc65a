"""Limits of streams and chains: what a 0 stands for, each job's ticks against it, and both in words."""
import unittest

from support import CASE_A, EXAMPLES, generated

from plans.answers import Answer, parse, reason
from plans.files import load
from plans.image import decode
from plans.lateness import MANY, assumed
from plans.limits import KEYS, defaults, former_default, limit_of, longest, stretches
from plans.meaning import Meaning
from plans.questions import QUESTIONS
from plans.reading import read_text
from plans.troubles import Trouble

ROWS = {"stream": "stream sender={} receiver={} latency={} hops=1 payload=46\n", "chain": "chain first={} last={} limit={}\n"}
TABLES = {"stream": 7, "chain": 10}
QUESTION = {"stream": 21, "chain": 31}


def plan_of(kind, first, last, word, count=1):
    """Case A, decode having period 10 and deadline 8, with a second task, late, of period 5 and deadline 4, and so many rows of a kind."""
    text = CASE_A + "task late vcpu=guest cores=scanner period=5 budget=1 deadline=4\n"
    return read_text("p.txt", text + ROWS[kind].format(first, last, word) * count)


def example(name):
    return load(EXAMPLES / f"{name}.txt")


def answers():
    """(name, plan, answer) of each example that can be read, the answer as its lines have it."""
    for path in sorted(EXAMPLES.glob("*.lines")):
        try:
            yield path.stem, load(path.with_suffix(".image")), parse(path.read_text().splitlines()[0])
        except Trouble:
            pass


def first_late(plan, kind):
    """The first row of a kind that takes more than its limit, or None."""
    for row in range(len(plan.rows[kind])):
        limit = limit_of(plan, kind, row)
        job = longest(Meaning(plan), limit)
        if job and limit.ticks is not None and job.ticks > limit.ticks:
            return row
    return None


def words(plan, kind, row=0):
    return reason(plan, Answer(QUESTION[kind], TABLES[kind], row)).splitlines()


class Limits(unittest.TestCase):
    def ticks(self, *row):
        return [limit_of(plan_of(kind, *row), kind, 0).ticks for kind in KEYS]

    def test_a_word_stands_for_itself(self):
        self.assertEqual(self.ticks("decode", "late", 13), [13, 13])
        self.assertEqual(self.ticks(9, 9, 1), [1, 1])

    def test_a_0_stands_for_the_last_tasks_deadline(self):
        self.assertEqual(self.ticks("decode", "late", 0), [4, 4])
        self.assertEqual(self.ticks("late", "decode", 0), [8, 8])
        self.assertEqual(self.ticks(9, "decode", 0), [8, 8])

    def test_a_0_without_a_last_task(self):
        self.assertEqual(self.ticks("decode", 2, 0), [None, None])

    def test_before_request_8_it_stood_for_the_first_tasks_period(self):
        for kind in KEYS:
            for first, last, period in (("decode", "late", 10), ("late", "decode", 5), ("late", 9, 5), (9, "decode", None)):
                plan = plan_of(kind, first, last, 0)
                self.assertEqual(former_default(plan, limit_of(plan, kind, 0)), period, (kind, first, last))

    def test_defaults_are_the_zeros_of_both_tables(self):
        plan = example("default-limit")
        self.assertEqual([(limit.kind, limit.row, limit.ticks) for limit in defaults(plan)], [("chain", 0, 23), ("chain", 1, 19)])
        plan.rows["stream"][0] = plan.rows["stream"][0]._replace(latency=0)
        plan.rows["chain"][0] = plan.rows["chain"][0]._replace(limit=1)
        self.assertEqual([(limit.kind, limit.row, limit.ticks) for limit in defaults(plan)], [("stream", 0, 19), ("chain", 1, 19)])
        self.assertEqual(defaults(example("tunnel")), [])


class Stretches(unittest.TestCase):
    def ticks(self, name, row=0, kind="chain"):
        """(job, ticks, limit) of a row of an example."""
        plan = example(name)
        return [(job.job, job.ticks, job.limit.ticks) for job in stretches(Meaning(plan), limit_of(plan, kind, row))]

    def test_precision_counts(self):
        self.assertEqual(self.ticks("chain"), [(0, 17, 17)])
        self.assertEqual(self.ticks("tunnel"), [(0, 1530, 1600), (1, 1490, 1600)])
        self.assertEqual(self.ticks("q31-one-tick-over"), [(0, 1530, 1529), (1, 1490, 1529)])
        self.assertEqual(self.ticks("case-b", kind="stream"), [(0, 13, 13)])

    def test_limits_of_0(self):
        self.assertEqual(self.ticks("chain", 1), [(0, 13, 20)])
        self.assertEqual(self.ticks("default-limit"), [(0, 23, 23)])
        self.assertEqual(self.ticks("default-limit", 1), [(0, 19, 19)])
        self.assertEqual(self.ticks("default-latency", kind="stream"), [(0, 19, 19)])
        self.assertEqual(self.ticks("q21-relied-on-period", kind="stream"), [(0, 19, 19), (1, 20, 19)])

    def test_jobs_of_one_end_alone(self):
        self.assertEqual(self.ticks("q29-no-such-task", 1), [(0, None, None)])
        self.assertEqual(self.ticks("q30-no-path", 1), [(0, 2230, 4000), (1, None, 4000)])

    def test_the_longest_job(self):
        for name, kind, job in (("q21-relied-on-period", "stream", 1), ("q31-second-job", "chain", 1), ("q31-one-tick-over", "chain", 0)):
            plan = example(name)
            self.assertEqual(longest(Meaning(plan), limit_of(plan, kind, 0)).job, job, name)

    def test_no_longest_job_without_pieces_of_both(self):
        plan = plan_of("chain", "decode", "late", 0)
        self.assertIsNone(longest(Meaning(plan), limit_of(plan, "chain", 0)))


class Examples(unittest.TestCase):
    def test_refused_rows_are_the_first_late_ones(self):
        """By the lines that the checker prints: 21 and 31 name the first row past its limit, and no row is where they said yes."""
        asked, told = [*QUESTIONS, 0], {21: 0, 31: 0, 0: 0}
        for name, plan, answer in answers():
            for kind, number in QUESTION.items():
                if answer.number == number:
                    self.assertEqual(first_late(plan, kind), answer.row, name)
                elif asked.index(answer.number) > asked.index(number):
                    self.assertIsNone(first_late(plan, kind), name)
            if answer.number in told:
                told[answer.number] += any(limit.default for limit in defaults(plan))
        self.assertGreaterEqual(min(told.values()), 3, told)

    def test_plans_that_relied_on_the_period_have_an_accepted_twin(self):
        """The same rows but for the period written out, as the words advise."""
        for refused, accepted, kind in (
            ("q21-relied-on-period", "period-latency", "stream"),
            ("q31-relied-on-period", "period-limit", "chain"),
        ):
            old, new = example(refused), example(accepted)
            limit = limit_of(old, kind, 0)
            period = former_default(old, limit)
            self.assertIn(f"write {limit.key}={period} to keep the old meaning", "\n".join(words(old, kind)))
            old.rows[kind][0] = old.rows[kind][0]._replace(**{limit.key: period})
            self.assertEqual((old.settings, old.rows), (new.settings, new.rows))
            self.assertEqual((EXAMPLES / f"{accepted}.lines").read_text().splitlines()[0], "0 0 0")


class LateInWords(unittest.TestCase):
    def test_a_limit_written_out(self):
        """No word of what a 0 stands or stood for."""
        self.assertEqual(words(example("case-b-late"), "stream"), ["labels takes up to 13 ticks: in job 0, 14 - 2 + 1 (P). Its latency is 12."])
        self.assertEqual(words(example("q31-second-job"), "chain"), [
            "scanned takes up to 1765 ticks: in job 1, 3800 - 2060 + 25 (P). Its limit is 1600.",
        ])

    def test_a_0_that_the_period_would_allow(self):
        self.assertEqual(words(example("q21-default-one-tick-over"), "stream"), [
            "labels takes up to 19 ticks: in job 0, 17 - 2 + 4 (P). Its latency of 0 stands for 18, the deadline of sort.",
            "In plans from before request 8 it stood for 20, the period of scan: write latency=20 to keep the old meaning.",
        ])
        self.assertEqual(words(example("q31-default-one-tick-over"), "chain"), [
            "reach takes up to 23 ticks: in job 0, 21 - 2 + 4 (P). Its limit of 0 stands for 22, the deadline of move.",
            "In plans from before request 8 it stood for 30, the period of scan: write limit=30 to keep the old meaning.",
        ])

    def test_a_0_that_even_the_period_would_refuse(self):
        for name, kind, key in (("q21-default-latency", "stream", "latency"), ("q31-default-limit", "chain", "limit")):
            first, second = words(example(name), kind)
            self.assertTrue(first.endswith(f"Its {key} of 0 stands for 20, the deadline of sort."), first)
            self.assertEqual(second, "In plans from before request 8 it stood for 20, the period of scan: even that would not do.")

    def test_every_job_counts_for_the_period(self):
        """The first job takes 19, the second 20: a period of 20 allows both, one of 19 does not."""
        plan = example("q21-relied-on-period")
        self.assertIn("write latency=20", words(plan, "stream")[1])
        plan.rows["task"][0] = plan.rows["task"][0]._replace(period=19)
        self.assertIn("it stood for 19, the period of scan: even that would not do", words(plan, "stream")[1])

    def test_rows_of_an_image_have_generated_names(self):
        plan = load(EXAMPLES / "q21-default-one-tick-over.image")
        self.assertEqual(words(plan, "stream"), [
            "stream0 takes up to 19 ticks: in job 0, 17 - 2 + 4 (P). Its latency of 0 stands for 18, the deadline of task1.",
            "In plans from before request 8 it stood for 20, the period of task0: write latency=20 to keep the old meaning.",
        ])

    def test_tasks_that_are_not_there(self):
        for kind, keys in KEYS.items():
            plan = plan_of(kind, "decode", 7, 0)
            self.assertEqual(words(plan, kind), [f"Its {keys.limit} of 0 stands for the deadline of task 7, which is not there."])
            self.assertEqual(words(plan_of(kind, 7, "decode", 0), kind), [f"Its {keys.limit} of 0 stands for 8, the deadline of decode."])
            self.assertEqual(words(plan_of(kind, 7, 7, 3), kind), [f"Its {keys.limit} is 3."])

    def test_jobs_that_are_not_there(self):
        """Nobody knows whether the period would do."""
        self.assertEqual(words(plan_of("chain", "decode", "late", 0), "chain"), ["Its limit of 0 stands for 4, the deadline of late."])

    def test_other_rows_and_questions(self):
        plan = example("q21-default-one-tick-over")
        for answer in (Answer(21, 7, 1), Answer(31, 10, 0), Answer(21, 3, 0), Answer(21, 0, 0), Answer(20, 7, 0), Answer(0, 0, 0)):
            self.assertEqual(reason(plan, answer), "", answer)

    def test_any_rows(self):
        """Rows that break other questions have words too."""
        plan = decode(generated("full"))
        for kind, keys in KEYS.items():
            for number, row in enumerate(plan.rows[kind]):
                plan.rows[kind][number] = row._replace(**{keys.limit: 0, keys.last: 2**32 - 1})
                self.assertIn("which is not there", words(plan, kind, number)[0])


class Assumed(unittest.TestCase):
    def test_a_line_for_each_0(self):
        self.assertEqual(assumed(example("default-latency")), ["stream labels: latency of 0 stands for 19, the deadline of sort."])
        self.assertEqual(assumed(example("default-limit")), [
            "chain reach: limit of 0 stands for 23, the deadline of move.",
            "chain sorted: limit of 0 stands for 19, the deadline of sort.",
        ])

    def test_nothing_for_limits_written_out(self):
        self.assertEqual(assumed(example("period-latency")), [])
        self.assertEqual(len(assumed(example("period-limit"))), 1)

    def test_a_task_that_is_not_there(self):
        self.assertEqual(assumed(plan_of("stream", 0, 7, 0)), ["stream0: latency of 0 stands for the deadline of task 7, which is not there."])

    def test_the_last_of_many_are_counted(self):
        lines = assumed(plan_of("chain", 0, 1, 0, count=MANY))
        self.assertEqual((len(lines), lines[-1]), (MANY, f"chain{MANY - 1}: limit of 0 stands for 4, the deadline of late."))
        lines = assumed(plan_of("chain", 0, 1, 0, count=32))
        self.assertEqual(len(lines), MANY)
        self.assertEqual(lines[-1], f"{32 - MANY + 1} more streams and chains have a 0: tools/plan list tells what each stands for.")


if __name__ == "__main__":
    unittest.main()
