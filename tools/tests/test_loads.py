"""Loads: totals of jobs and cores against budgets and the cycle, in few lines however many jobs there are."""
import unittest
from itertools import takewhile
from textwrap import indent

from support import CASE_A, EXAMPLES, SHAPES, TOOLS, case_a_with, generated

from plans.files import load
from plans.image import decode
from plans.loads import BAR_MARKS, bar, core_totals, loads, runs_of
from plans.meaning import Meaning
from plans.reading import read_text


def words(plan):
    """The lines of a plan's loads as lists of words."""
    return [line.split() for line in loads(plan).splitlines()]


def example(name):
    return words(load(EXAMPLES / f"{name}.txt"))


def case_a(*more, line=6, piece="piece task=decode job=0 at=2..6"):
    """Case A with another piece, or another line, and lines more."""
    return words(read_text("p.txt", case_a_with(line, piece) + "\n".join(more)))


# A task with a job at every tick of the longest cycle, where a piece of one tick is a job's work.
MANY_JOBS = """plan cycle=1000000
core belt node=0 d=0 v=0
vcpu guest core=belt
task pulse vcpu=guest cores=belt period=1 budget=1 deadline=1
window vcpu=guest at=0..1000000
"""


def many_jobs(*jobs):
    return words(read_text("p.txt", MANY_JOBS + "".join(f"piece task=pulse job={job} at={job}+1\n" for job in jobs)))


def of_task(name, lines):
    """A task's lines, its name left out."""
    return [line[1:] for line in lines if line[:1] == [name]]


class Readme(unittest.TestCase):
    def test_its_example(self):
        shown = indent(loads(load(EXAMPLES / "tunnel.txt")), "    ")
        self.assertIn(shown, (TOOLS / "README.md").read_text())


class Jobs(unittest.TestCase):
    def test_case_a(self):
        """4 ticks, one of them task switch; the work is the budget."""
        lines = example("case-a")
        self.assertIn("decode 0 scanner 1 4 1 3 3".split(), lines)
        self.assertIn("cycle 10; jobs: 1, short of their budget: 0, over it: 0".split(), lines)

    def test_a_job_of_two_pieces(self):
        """It pays the task switch twice; jobs of one piece beside it do not share its line."""
        self.assertEqual(of_task("decode", example("tunnel")), ["0 brain 2 520 40 480 480".split(), "1 brain 1 500 20 480 480".split()])

    def test_equal_jobs_share_a_line(self):
        self.assertIn("shoot 0 to 1 eye 1 320 20 300 300".split(), example("tunnel"))
        self.assertEqual(of_task("pulse", example("many-pieces")), ["0 to 559 belt 1 3 1 2 2".split()])

    def test_too_little(self):
        lines = example("q13-a-tick-short")
        self.assertIn("decode 0 scanner 1 3 1 2 ! 3 1 short".split(), lines)
        self.assertIn("cycle 10; jobs: 1, short of their budget: 1, over it: 0".split(), lines)

    def test_too_much(self):
        self.assertIn("decode 0 scanner 1 6 1 5 ! 3 2 over".split(), case_a(piece="piece task=decode job=0 at=2..8"))
        lines = case_a("piece task=decode job=0 at=6..8")
        self.assertIn("decode 0 scanner 2 6 2 4 ! 3 1 over".split(), lines)
        self.assertIn("cycle 10; jobs: 1, short of their budget: 0, over it: 1".split(), lines)

    def test_too_much_in_each_of_two_jobs(self):
        """They share a line and count twice."""
        text = CASE_A.replace("cycle=10", "cycle=20").replace("at=2..6", "at=2..8") + "piece task=decode job=1 at=12..18\n"
        lines = words(read_text("p.txt", text))
        self.assertEqual(of_task("decode", lines), ["0 to 1 scanner 1 6 1 5 ! 3 2 over".split()])
        self.assertIn("cycle 20; jobs: 2, short of their budget: 0, over it: 2".split(), lines)

    def test_equal_totals_of_unequal_work(self):
        """Two pieces of 2 ticks are as long as one of 4, and work a tick less."""
        text = CASE_A.replace("cycle=10", "cycle=20") + "piece task=decode job=1 at=12..14\npiece task=decode job=1 at=14..16\n"
        lines = of_task("decode", words(read_text("p.txt", text)))
        self.assertEqual(lines, ["0 scanner 1 4 1 3 3".split(), "1 scanner 2 4 2 2 ! 3 1 short".split()])

    def test_a_job_without_a_piece(self):
        lines = case_a(line=1, piece="plan cycle=20")
        self.assertEqual(of_task("decode", lines), ["0 scanner 1 4 1 3 3".split(), "1 scanner 0 0 0 0 ! 3 no piece".split()])

    def test_no_piece_at_all(self):
        lines = case_a(piece="")
        self.assertEqual(of_task("decode", lines), ["0 scanner 0 0 0 0 ! 3 no piece".split()])

    def test_no_task(self):
        lines = words(read_text("p.txt", "plan cycle=10\ncore scanner node=0 d=1 v=2\n"))
        self.assertEqual([line[0] for line in lines if line], ["cycle", "cores", "core", "scanner"])

    def test_many_jobs(self):
        """A million of them: gaps are one line each, and so are equal neighbours."""
        lines = many_jobs(3, 4, 5, 7, 999999)
        self.assertEqual(of_task("pulse", lines), [line.split() for line in (
            "0 to 2 belt 0 0 0 0 ! 1 no piece",
            "3 to 5 belt 1 1 0 1 1",
            "6 belt 0 0 0 0 ! 1 no piece",
            "7 belt 1 1 0 1 1",
            "8 to 999998 belt 0 0 0 0 ! 1 no piece",
            "999999 belt 1 1 0 1 1",
        )])
        self.assertIn("cycle 1000000; jobs: 1000000, short of their budget: 999995, over it: 0".split(), lines)

    def test_runs_tell_each_job(self):
        """Jobs counted one by one have the loads of their runs, and the runs are as long as can be."""
        for shape in SHAPES:
            plan = decode(generated(shape))
            meaning = Meaning(plan)
            for task, row in enumerate(plan.rows["task"]):
                runs, d = runs_of(meaning, task), plan.rows["core"][plan.rows["vcpu"][row.vcpu].core].d
                told = [(run.load.pieces, run.load.total, run.load.switch) for run in runs for _ in range(run.count())]
                lengths = [[] for _ in range(plan.cycle // row.period)]
                for piece in plan.rows["piece"]:
                    if piece.task == task:
                        lengths[piece.job].append(piece.length)
                self.assertEqual(told, [(len(pieces), sum(pieces), d * len(pieces)) for pieces in lengths], (shape, task))
                self.assertTrue(all(one.load != other.load for one, other in zip(runs, runs[1:])), (shape, task))


class Cores(unittest.TestCase):
    def test_several_cores(self):
        lines = [line[:-1] for line in example("tunnel")]
        for line in ("eye 2 640 4000 16", "brain 4 1240 4000 31", "mouth 3 665 4000 16"):
            self.assertIn(line.split(), lines)

    def test_a_core_without_a_piece(self):
        self.assertIn(["spare", "0", "0", "10", "0", bar(0, 10)], case_a("core spare node=1 d=0 v=0"))

    def test_the_whole_cycle(self):
        self.assertIn(["scanner", "1", "10", "10", "100", bar(10, 10)], case_a(piece="piece task=decode job=0 at=0..10"))

    def test_more_than_the_cycle(self):
        """Pieces that overlap count each."""
        second = "task count vcpu=guest cores=scanner period=10 budget=7 deadline=10"
        lines = case_a(second, "piece task=count job=0 at=2..10")
        self.assertIn(["scanner", "2", "12", "!", "10", "120", bar(12, 10)], lines)

    def test_all_pieces_are_on_some_core(self):
        for shape in SHAPES:
            plan = decode(generated(shape))
            totals = core_totals(plan, Meaning(plan))
            pieces = plan.rows["piece"]
            self.assertEqual([sum(column) for column in zip(*totals)], [len(pieces), sum(piece.length for piece in pieces)], shape)


def made_drafts():
    """The totals of the cores that the library gives of drafts as made, by plan: as examples/draft/expected has them, which the gate compares."""
    totals = {}
    for call in (EXAMPLES.parent / "draft" / "expected").read_text().split("$ draft ")[1:]:
        name, made, *lines = [call.split()[0]] + call.splitlines()[1:]
        if made == "make: done":
            cores = takewhile(lambda line: line.startswith("    core "), lines)
            totals[name] = [int(line.split()[2]) for line in cores]
    return totals


class Drafts(unittest.TestCase):
    def test_totals_are_those_of_a_draft(self):
        drafts = made_drafts()
        self.assertGreaterEqual(len(drafts), 4)
        for name, totals in drafts.items():
            plan = decode((EXAMPLES / f"{name}.image").read_bytes())
            self.assertEqual([total for _, total in core_totals(plan, Meaning(plan))], totals, name)


class Bars(unittest.TestCase):
    def marks(self, total, cycle):
        drawn = bar(total, cycle)
        self.assertEqual(len(drawn.rstrip(">")), BAR_MARKS + 2)
        return drawn.count("#")

    def test_as_long_as_the_share(self):
        self.assertEqual([self.marks(total, 100) for total in (0, 25, 50, 100)], [0, BAR_MARKS // 4, BAR_MARKS // 2, BAR_MARKS])

    def test_a_tick_shows(self):
        self.assertEqual(self.marks(1, 1000000), 1)

    def test_whole_only_where_the_cycle_is_taken(self):
        self.assertEqual(self.marks(999999, 1000000), BAR_MARKS - 1)

    def test_past_the_cycle(self):
        self.assertEqual(self.marks(2048000000, 1000000), BAR_MARKS)
        self.assertEqual([bar(total, 10)[-1] for total in (10, 11)], ["|", ">"])


if __name__ == "__main__":
    unittest.main()
