"""Two plans joined: rows by the request's words, names and lines, and what keeps two plans from being joined."""
import random
import unittest

from support import CASE_A, EXAMPLES, SHAPES, InFolder, generated, run

from plans.files import load
from plans.image import decode, encode
from plans.joinable import join, join_text
from plans.joins import AGREEING, joined
from plans.model import Plan
from plans.ordering import in_order
from plans.pairs import MANY, PlanFile
from plans.reading import read_text
from plans.schema import BY_KIND, KINDS
from plans.troubles import Trouble

# The places of a row's words that name a task; a frame's first word names a stream.
NAMING_TASKS = {"piece": [0], "stream": [0, 1], "buffer": [1, 2], "chain": [0, 1]}
PIECE_START, FRAME_START = 2, 4

OTHER_TASK = """task other vcpu=guest cores=scanner period=10 budget=1 deadline=10
piece task=other job=0 at=7..9
"""


def by_request(first, second, shared):
    """The joined rows by the request's words, over lists of words."""
    ours, theirs = ({kind: [list(row) for row in plan.rows[kind]] for kind in KINDS} for plan in (first, second))
    tasks = len(ours["task"])
    for kind, places in NAMING_TASKS.items():
        for row in theirs[kind]:
            for place in places:
                row[place] += tasks - shared if row[place] >= shared else 0
    rows = {**ours, "task": ours["task"] + theirs["task"][shared:]}
    rows["stream"], went = put_in(ours["stream"], theirs["stream"])
    for frame in theirs["frame"]:
        frame[0] = went[frame[0]]
    for kind in ("piece", "frame", "buffer", "chain"):
        rows[kind], _ = put_in(ours[kind], theirs[kind])
    rows["piece"].sort(key=lambda row: [row[PIECE_START], *row])
    rows["frame"].sort(key=lambda row: [row[FRAME_START], *row])
    return {kind: [tuple(row) for row in rows[kind]] for kind in KINDS}


def put_in(ours, theirs):
    """Our rows with those of theirs that are not among them, and where each of theirs is."""
    rows, went = list(ours), []
    for row in theirs:
        went.append(ours.index(row) if row in ours else len(rows))
        rows += [] if row in ours else [row]
    return rows, went


def text(content, name="p.txt"):
    return read_text(name, content)


def mode(content, name):
    return PlanFile(name, text(content, name))


def rows_of(plan, kind):
    return [tuple(row) for row in plan.rows[kind]]


def example(name):
    return load(EXAMPLES / f"{name}.txt")


def any_plan(chance, first=None):
    """A plan of few values; one to be joined to a first has about half of its rows from there, and the tables that have to agree."""
    rows = dict(first.rows) if first else {kind: [BY_KIND[kind].row()] * 2 for kind in AGREEING}
    for kind, most in (("task", 6), ("piece", 12), ("stream", 6), ("frame", 12), ("buffer", 6), ("chain", 6)):
        known = rows.get(kind, [])
        rows[kind] = [any_row(chance, kind, known) for _ in range(chance.randrange(most // 2, most + 1))]
    for kind, places in (*NAMING_TASKS.items(), ("frame", [0])):
        named = len(rows["stream" if kind == "frame" else "task"])
        rows[kind] = [row for row in rows[kind] if all(row[place] < named for place in places)]
    return in_order(Plan((10, 1), rows))


def any_row(chance, kind, known):
    """One of the known rows, or one of few values."""
    record = BY_KIND[kind].record
    return chance.choice(known) if known and chance.random() < 0.5 else record(*(chance.randrange(4) for _ in record._fields))


class Rows(unittest.TestCase):
    def test_by_the_request_s_words(self):
        """Plans of few values: equal rows are found, others appended, and both happen in every kind."""
        chance, kinds = random.Random(1), [*NAMING_TASKS, "frame"]
        found, appended = dict.fromkeys(kinds, 0), dict.fromkeys(kinds, 0)
        for _ in range(300):
            first = any_plan(chance)
            second = any_plan(chance, first)
            shared = chance.randrange(min(len(first.rows["task"]), len(second.rows["task"])) + 1)
            made = joined(first, second, shared)
            self.assertEqual({kind: rows_of(made.plan, kind) for kind in KINDS}, by_request(first, second, shared))
            for kind in kinds:
                found[kind] += made.found[kind]
                appended[kind] += len(made.plan.rows[kind]) - len(first.rows[kind])
        self.assertGreater(min(*found.values(), *appended.values()), 50, (found, appended))

    def test_shapes(self):
        """Plans of the independent generator, joined with themselves, with none, some and all tasks shared."""
        for shape in SHAPES:
            plan = decode(generated(shape))
            tasks = len(plan.rows["task"])
            for shared in {0, tasks // 2, tasks}:
                rows = {kind: rows_of(joined(plan, plan, shared).plan, kind) for kind in KINDS}
                self.assertEqual(rows, by_request(plan, plan, shared), f"{shape} {shared}")

    def test_with_itself_shared(self):
        """Nothing is added, whatever the order of its streams, buffers and chains is."""
        for name in ("case-a", "case-b", "tunnel", "equal-starts", "chain", "mode-day"):
            plan = example(name)
            tasks, turned = len(plan.rows["task"]), decode(encode(plan))
            last = len(turned.rows["stream"]) - 1
            turned.rows["frame"] = [frame._replace(stream=last - frame.stream) for frame in turned.rows["frame"]]
            for kind in ("stream", "buffer", "chain"):
                turned.rows[kind].reverse()
            for second in (plan, turned):
                self.assertEqual(encode(joined(plan, second, tasks).plan), encode(plan), name)

    def test_with_itself_not_shared(self):
        """Every row of the kinds that grow stands twice."""
        plan = example("mode-day")
        twice, tasks = joined(plan, plan, 0).plan, len(plan.rows["task"])
        for kind in KINDS:
            self.assertEqual(len(twice.rows[kind]), len(plan.rows[kind]) * (1 if kind in AGREEING else 2), kind)
        self.assertEqual([stream[:2] for stream in twice.rows["stream"]], [(0, 1), (3, 4), (tasks, tasks + 1), (tasks + 3, tasks + 4)])

    def test_an_appended_task(self):
        """Case A and a task behind it: the definition's first case, word for word."""
        other = text(CASE_A.replace("decode", "other").replace("budget=3 deadline=8", "budget=1 deadline=10").replace("2..6", "7..9"))
        plan = joined(text(CASE_A), other, 0).plan
        self.assertEqual(rows_of(plan, "task"), [(0, 1, 10, 3, 8), (0, 1, 10, 1, 10)])
        self.assertEqual(rows_of(plan, "piece"), [(0, 0, 2, 4), (1, 0, 7, 2)])
        self.assertEqual(encode(joined(text(CASE_A), text(CASE_A + OTHER_TASK), 1).plan), encode(plan))
        self.assertEqual(encode(joined(text(CASE_A + OTHER_TASK), text(CASE_A), 1).plan), encode(plan))

    def test_streams_and_frames_renumbered(self):
        """Case B behind one that is four ticks later: B's pieces and frame come first again, and its stream is number 1."""
        case_b = example("case-b")
        later = {kind: [row._replace(start=row.start + 4) for row in case_b.rows[kind]] for kind in ("piece", "frame")}
        plan = joined(Plan(case_b.settings, {**case_b.rows, **later}), case_b, 0).plan
        self.assertEqual(rows_of(plan, "piece"), [(2, 0, 2, 4), (0, 0, 6, 4), (3, 0, 10, 4), (1, 0, 14, 4)])
        self.assertEqual(rows_of(plan, "stream"), [(0, 1, 13, 1, 46, 0), (2, 3, 13, 1, 46, 0)])
        self.assertEqual(rows_of(plan, "frame"), [(1, 0, 0, 0, 6), (0, 0, 0, 0, 10)])
        self.assertEqual(len(encode(plan)), 400)

    def test_queues_are_taken_over(self):
        """A stream that differs by its queue alone is another one, and its frame, which then differs by its stream, another frame."""
        case_b, other = example("case-b"), example("case-b")
        other.rows["stream"] = [row._replace(queue=5) for row in other.rows["stream"]]
        plan = joined(case_b, other, 2).plan
        self.assertEqual([stream.queue for stream in plan.rows["stream"]], [0, 5])
        self.assertEqual([frame.stream for frame in plan.rows["frame"]], [0, 1])
        self.assertEqual(rows_of(joined(other, other, 2).plan, "stream"), [(0, 1, 13, 1, 46, 5)])

    def test_rows_are_compared_with_their_new_numbers(self):
        """The piece of their task 1 is one of task 2 then, so it is not that of our task 1, though its words were the same."""
        third = OTHER_TASK.replace("other", "third")
        found = joined(text(CASE_A + third), text(CASE_A + OTHER_TASK + third), 1)
        self.assertEqual((found.found["piece"], [piece.task for piece in found.plan.rows["piece"]]), (1, [0, 1, 2, 3]))

    def test_the_lowest_equal_row(self):
        """Of two equal streams a frame goes to the lower one, from either of theirs; equal rows of theirs alone are both appended."""
        twin = "link from=0 to=1 delay=1 rate=352\n" + 2 * "stream sender=0 receiver=0 latency=0 hops=1 payload=46\n"
        frames = "frame stream=0 job=0 hop=0 link=0 at=3\nframe stream=1 job=0 hop=0 link=0 at=4\n"
        plan = joined(text(CASE_A + twin), text(CASE_A + twin + frames), 1).plan
        self.assertEqual((len(plan.rows["stream"]), rows_of(plan, "frame")), (2, [(0, 0, 0, 0, 3), (0, 0, 0, 0, 4)]))
        alone = text(CASE_A + twin.splitlines()[0])
        plan = joined(alone, text(CASE_A + twin + frames), 1).plan
        self.assertEqual((len(plan.rows["stream"]), [frame.stream for frame in plan.rows["frame"]]), (2, [0, 1]))

    def test_examples(self):
        """The kept joined texts are those of the kept modes (examples/plans/run compares them too), and their images are the joined rows'."""
        for name, second in (("mode-both", "mode-night"), ("q12-modes-clash", "mode-night-early")):
            modes = [PlanFile(f"{mode}.txt", example(mode)) for mode in ("mode-day", second)]
            plan = join(*modes, 3).plan
            self.assertEqual(join_text(*modes, 3, plan), (EXAMPLES / f"{name}.txt").read_text())
            self.assertEqual(encode(plan), (EXAMPLES / f"{name}.image").read_bytes())

    def test_images_have_the_same_join(self):
        plans = [decode((EXAMPLES / f"{name}.image").read_bytes()) for name in ("mode-day", "mode-night")]
        self.assertEqual(encode(joined(*plans, 3).plan), (EXAMPLES / "mode-both.image").read_bytes())


class Names(unittest.TestCase):
    def test_are_kept(self):
        names = joined(example("mode-day"), example("mode-night"), 3).plan.names.given
        self.assertEqual(names["task"], ["shoot", "decode", "send", "weigh", "sort", "book", "dust", "count", "report"])
        self.assertEqual(names["stream"], ["picture", "weights", "dusty"])
        self.assertEqual(names["buffer"], ["scans", "bays", "totals"])
        self.assertEqual(names["chain"], ["scanned", "booked", "told"])

    def test_of_pieces_go_with_their_rows(self):
        first = text(CASE_A.replace("piece ", "piece old "))
        found = joined(first, text(CASE_A.replace("piece ", "piece early ").replace("2..6", "1..5")), 1)
        self.assertEqual((found.plan.names.given["piece"], found.renames), (["early", "old"], []))

    def test_rows_of_the_first_have_its_names(self):
        """Shared tasks and equal rows; a row without a name in the first has none."""
        first = CASE_A.replace("piece ", "piece one ")
        found = joined(text(first), text(first.replace("decode", "read").replace("piece one", "piece two")), 1)
        self.assertEqual([(name.kind, name.old, name.new, name.found) for name in found.renames], [
            ("task", "read", "decode", True), ("piece", "two", "one", True),
        ])
        self.assertEqual(found.plan.names.given["task"], ["decode"])
        found = joined(text(CASE_A), text(first), 1)
        self.assertEqual((found.plan.names.given["piece"], found.renames), ([""], []))
        found = joined(text(first), text(CASE_A), 1)
        self.assertEqual((found.plan.names.given["piece"], found.renames), (["one"], []))

    def test_that_another_row_of_the_first_has(self):
        """They are made free, of the second's other names too; each is told."""
        second = CASE_A + OTHER_TASK + OTHER_TASK.replace("other", "other_")
        found = joined(text(CASE_A + OTHER_TASK), text(second), 0)
        self.assertEqual(found.plan.names.given["task"], ["decode", "other", "decode_", "other__", "other_"])
        self.assertEqual([(name.row, name.old, name.new, name.found) for name in found.renames], [
            (0, "decode", "decode_", False), (1, "other", "other__", False),
        ])
        both = text(second)
        self.assertEqual(joined(both, both, 1).plan.names.given["task"], ["decode", "other", "other_", "other__", "other___"])

    def test_lines_are_those_of_the_modes(self):
        """A changed row has both of its lines."""
        plan = joined(example("mode-day"), example("mode-night-early"), 3).plan
        lines = [[f"{place}".rsplit("/", 1)[-1] for place in plan.lines("piece", row)] for row in (1, 2)]
        self.assertEqual(lines, [["mode-day.txt:39"], ["mode-night.txt:39", "mode-night-early.txt:7"]])


TWO_NODES = CASE_A + """core far node=1 d=1 v=2
vcpu arm core=far
link cable from=0 to=1 delay=1 rate=352
window vcpu=arm at=3..9
"""


class Refusals(unittest.TestCase):
    def told(self, first, second, shared=0):
        """What is told of two texts that cannot be joined, line by line, the first without the second's name."""
        with self.assertRaises(Trouble) as caught:
            join(mode(first, "a.txt"), mode(second, "b.txt"), shared)
        head, *lines = str(caught.exception).splitlines()
        self.assertTrue(head.startswith("b.txt: cannot be joined to a.txt ("), head)
        return head.removeprefix("b.txt: cannot be joined to a.txt "), lines

    def test_35_names_what_differs(self):
        for old, new, expected in (
            ("cycle=10", "cycle=20", "b.txt: cycle 20, not 10"),
            ("precision=0", "precision=1", "b.txt: precision 1, not 0"),
            ("core scanner node=0", "core scanner node=2", "b.txt:2: core 0 (scanner) differs from a.txt:2: node 2, not 0"),
            ("d=1 v=2\nvcpu guest", "d=2 v=3\nvcpu guest", "b.txt:2: core 0 (scanner) differs from a.txt:2: d 2, not 1; v 3, not 2"),
            ("vcpu arm core=far", "vcpu arm core=scanner", "b.txt:8: vcpu 1 (arm) differs from a.txt:8: core 0 (scanner), not 1 (far)"),
            ("window vcpu=guest at=0", "window vcpu=guest at=1", "b.txt:5: window 0 differs from a.txt:5: at 1..10, not 0..10"),
            ("window vcpu=arm", "window vcpu=guest", "b.txt:10: window 1 differs from a.txt:10: vcpu 0 (guest), not 1 (arm)"),
            ("delay=1", "delay=2", "b.txt:9: link 0 (cable) differs from a.txt:9: delay 2, not 1"),
            ("rate=352", "rate=352 lowest=1", "b.txt:9: link 0 (cable) differs from a.txt:9: lowest 1, not 0"),
        ):
            head, lines = self.told(TWO_NODES, TWO_NODES.replace(old, new))
            self.assertEqual((head, lines), ("(35): H, P, cores, VCPUs, windows or links differ", [expected]))

    def test_35_names_rows_of_one_plan_alone(self):
        for kind, row in (
            ("core", "spare node=2 d=0 v=0"), ("vcpu", "spare core=far"), ("window", "spare vcpu=arm at=9..10"),
            ("link", "spare from=1 to=0 delay=1 rate=1"),
        ):
            count = len(text(TWO_NODES).rows[kind])
            longer = TWO_NODES + f"{kind} {row}\n"
            _, lines = self.told(TWO_NODES, longer)
            self.assertEqual(lines, [f"b.txt:11: {kind} {count} (spare) is missing in a.txt, which has {count}"])
            _, lines = self.told(longer, TWO_NODES)
            self.assertEqual(lines, [f"a.txt:11: {kind} {count} (spare) is missing in b.txt, which has {count}"])

    def test_35_names_the_line_that_changed_a_row(self):
        _, lines = self.told(CASE_A + "change core scanner v=1\n", CASE_A)
        self.assertEqual(lines, ["b.txt:2: core 0 (scanner) differs from a.txt:7: v 2, not 1"])

    def test_35_compares_numbers_not_names(self):
        """Cores by other names are the same cores; the same name for another core is not."""
        renamed = TWO_NODES.replace("scanner", "left").replace("far", "right")
        self.assertEqual(joined(text(TWO_NODES), text(renamed), 1).plan.names.given["core"], ["scanner", "far"])
        join(mode(TWO_NODES, "a.txt"), mode(renamed, "b.txt"), 1)
        swapped = TWO_NODES.replace("core scanner", "core x").replace("core far", "core scanner").replace("core x", "core far")
        _, lines = self.told(TWO_NODES, swapped)
        self.assertEqual(lines[0], "b.txt:3: vcpu 0 (guest) differs from a.txt:3: core 1 (scanner), not 0 (scanner)")

    def test_of_many_rows_the_last_are_counted(self):
        windows = "".join(f"window vcpu=0 at={start}+3\n" for start in range(10, 30))
        _, lines = self.told(CASE_A, CASE_A + windows)
        self.assertEqual((len(lines), lines[-1]), (MANY, f"b.txt: {21 - MANY} more rows differ"))
        _, lines = self.told(CASE_A, CASE_A + "".join(windows.splitlines(True)[:MANY]))
        self.assertEqual((len(lines), lines[-1]), (MANY, f"b.txt:{6 + MANY}: window {MANY} is missing in a.txt, which has 1"))

    def test_36_names_the_tasks_that_differ(self):
        for old, new, words in (
            ("vcpu=guest cores", "vcpu=arm cores", "vcpu 1 (arm), not 0 (guest)"),
            ("cores=scanner", "cores=scanner,far", "cores 3 (scanner,far), not 1 (scanner)"),
            ("period=10", "period=5", "period 5, not 10"),
            ("budget=3", "budget=2", "budget 2, not 3"),
            ("deadline=8", "deadline=9", "deadline 9, not 8"),
        ):
            head, lines = self.told(TWO_NODES, TWO_NODES.replace(old, new), 1)
            self.assertEqual(head, "(36): the shared tasks differ, or are not in both plans")
            self.assertEqual(lines, ["b.txt: of the leading tasks 0 are equal", f"b.txt:4: task 0 (decode) differs from a.txt:4: {words}"])

    def test_36_asks_the_shared_tasks_alone(self):
        first, second = CASE_A + OTHER_TASK, CASE_A + OTHER_TASK.replace("budget=1", "budget=2")
        join(mode(first, "a.txt"), mode(second, "b.txt"), 1)
        _, lines = self.told(first, second, 2)
        self.assertEqual(lines, [
            "b.txt: of the leading tasks 1 are equal", "b.txt:7: task 1 (other) differs from a.txt:7: budget 2, not 1",
        ])

    def test_36_tells_where_there_are_too_few_tasks(self):
        more = CASE_A + OTHER_TASK
        for first, second, shared, expected in (
            (CASE_A, more, 2, ["a.txt: 2 shared tasks of 1"]),
            (more, CASE_A, 2, ["b.txt: 2 shared tasks of 1"]),
            (more, CASE_A, 2**32 - 1, ["a.txt: 4294967295 shared tasks of 2", "b.txt: 4294967295 shared tasks of 1"]),
        ):
            head, lines = self.told(first, second, shared)
            self.assertEqual((head[:4], lines), ("(36)", ["b.txt: of the leading tasks 1 are equal", *expected]))

    def test_35_comes_before_36_and_36_before_37(self):
        full = CASE_A + 2047 * "piece task=decode job=1 at=2..6\n"
        piece = "piece task=decode job=0 at=3..6\n"
        self.assertEqual(self.told(full, CASE_A.replace("v=2", "v=3") + piece, 9)[0][:4], "(35)")
        self.assertEqual(self.told(full, CASE_A + piece, 9)[0][:4], "(36)")
        self.assertEqual(self.told(full, CASE_A + piece, 1)[0][:4], "(37)")

    def test_37_names_the_tables(self):
        """Each table that grows, full and with one row more."""
        for kind, row, another in (
            ("piece", "task=0 job=0 at=2..6", "task=0 job=1 at=2..6"),
            ("stream", "sender=0 receiver=0 latency=0 hops=1 payload=46", "sender=0 receiver=0 latency=1 hops=1 payload=46"),
            ("buffer", "number=0 writer=0 reader=0", "number=1 writer=0 reader=0"),
            ("chain", "first=0 last=0 limit=0", "first=0 last=0 limit=1"),
            ("task", "vcpu=0 cores=any period=1 budget=1 deadline=1", "vcpu=0 cores=any period=1 budget=1 deadline=1"),
        ):
            most = BY_KIND[kind].most
            first = CASE_A + (most - (kind in ("piece", "task"))) * f"{kind} {row}\n"
            self.assertEqual(len(join(mode(first, "a.txt"), mode(CASE_A, "b.txt"), 1).plan.rows[kind]), most)
            head, lines = self.told(first, CASE_A + f"{kind} {another}\n", 1)
            self.assertEqual(head, "(37): too many rows, or too few bytes are lent")
            self.assertEqual(lines, [f"b.txt: {most + 1} {kind} rows, at most {most}: {most} of a.txt, 1 appended"])

    def test_raw_lines(self):
        with self.assertRaisesRegex(Trouble, "b.txt: has raw lines"):
            join(mode(CASE_A, "a.txt"), mode(CASE_A + "raw core.rows=1\n", "b.txt"), 1)


class Command(InFolder):
    def setUp(self):
        super().setUp()
        self.first, self.second, self.out = self.put("a.txt", CASE_A), self.put("b.txt", CASE_A + OTHER_TASK), self.folder / "out.txt"

    def join(self, answers, shared=1, options=()):
        """What the command does where the checker gives these answers in turn; what it was asked is in the files asked0 and so on."""
        checker, lines = self.put("checker", ""), self.put("answers", "".join(f"{answer}\n" for answer in answers))
        asked = f"'{self.folder}/asked'$(({len(answers)} - $(wc -l < '{lines}')))"
        checker.write_text(f"#!/bin/sh\ncat > {asked}\nhead -n 1 '{lines}'\nsed -i 1d '{lines}'\n")
        checker.chmod(0o755)
        return run("join", self.first, self.second, self.out, "--shared", shared, "--plancheck", checker, *options)

    def asked(self):
        return [path.read_bytes() for path in sorted(self.folder.glob("asked*"))]

    def test_asks_in_the_order_of_a_join(self):
        ran = self.join(["0 0 0"] * 3)
        self.assertEqual((ran.returncode, ran.stderr), (0, ""))
        self.assertEqual(self.asked(), [encode(load(path)) for path in (self.first, self.second, self.out)])
        self.assertEqual(encode(load(self.out)), encode(joined(load(self.first), load(self.second), 1).plan))
        lines = ran.stdout.splitlines()
        self.assertEqual([line.split(":")[0] for line in lines if "accepted" in line], [str(self.first), str(self.second), str(self.out)])
        self.assertEqual([line.split() for line in lines[3:5]], [["task", "1", "2", "2", "1"], ["piece", "1", "2", "2", "1"]])

    def test_the_examples_by_their_files(self):
        self.first, self.second = EXAMPLES / "mode-day.txt", EXAMPLES / "mode-night.txt"
        self.assertEqual(self.join(["0 0 0"] * 3, 3).returncode, 0)
        self.assertEqual(self.out.read_text(), (EXAMPLES / "mode-both.txt").read_text())

    def test_a_refused_input_writes_nothing(self):
        for answers, path, line in ((["13 3 0"], self.first, 4), (["0 0 0", "13 3 1"], self.second, 7)):
            ran = self.join(answers)
            self.assertEqual((ran.returncode, self.out.exists()), (1, False))
            self.assertIn(f"{path}: refused ({answers[-1]}) at task ", ran.stdout)
            self.assertIn(f"{path}:{line}: this row\nNothing is written: both plans have to be accepted.\n", ran.stdout)

    def test_an_unreadable_image_writes_nothing(self):
        self.first = EXAMPLES / "q03-gap.image"
        ran = self.join(["3 0 0"])
        self.assertEqual((ran.returncode, ran.stderr, self.out.exists()), (1, "", False))

    def test_a_refused_result_is_written_and_its_row_told(self):
        ran = self.join(["0 0 0", "0 0 0", "12 5 1"])
        self.assertEqual((ran.returncode, self.out.exists()), (1, True))
        told = f"{self.out}: refused (12 5 1) at piece1: two pieces on one core overlap\nNo to question 12: "
        self.assertIn(told, ran.stdout)
        self.assertTrue(ran.stdout.endswith(f"\n{self.second}:8: this row\n"), ran.stdout)

    def test_plans_that_differ_write_nothing(self):
        self.second.write_text(CASE_A.replace("v=2", "v=3"))
        ran = self.join(["0 0 0"] * 2)
        self.assertEqual((ran.returncode, self.out.exists(), len(self.asked())), (1, False, 2))
        self.assertIn(f"{self.second}:2: core 0 (scanner) differs from {self.first}:2: v 3, not 2\n", ran.stderr)

    def test_names_that_change_are_told(self):
        self.first.write_text(CASE_A + OTHER_TASK)
        self.second.write_text(CASE_A.replace("decode", "read") + OTHER_TASK.replace("budget=1", "budget=2"))
        ran = self.join(["0 0 0"] * 3)
        self.assertIn(f"{self.second}:4: task read is called decode: it is that row of {self.first}\n", ran.stdout)
        self.assertIn(f"{self.second}:7: task other is called other_: {self.first} has another other\n", ran.stdout)
        self.assertIn("piece  task=other_", self.out.read_text())

    def test_in_order(self):
        """Texts out of order are taken in order, and so is what the checker is asked."""
        self.second.write_text(CASE_A + "piece task=decode job=0 at=1..2\n")
        self.join(["0 0 0"] * 3, options=["--in-order"])
        self.assertEqual([row.start for row in decode(self.asked()[1]).rows["piece"]], [1, 2])
        self.assertEqual([row.start for row in load(self.out).rows["piece"]], [1, 2])

    def test_images(self):
        """They have no names, and their text gives their join."""
        self.first, self.second = EXAMPLES / "mode-day.image", EXAMPLES / "mode-night.image"
        self.assertEqual(self.join(["0 0 0"] * 3, 3).returncode, 0)
        self.assertEqual(encode(load(self.out)), (EXAMPLES / "mode-both.image").read_bytes())
        self.assertIn("task  task8 ", self.out.read_text())

    def test_usage(self):
        for options in ([], ["--shared", "-1"], ["--shared", "two"], ["--shared", str(2**32)]):
            ran = run("join", self.first, self.second, self.out, *options)
            self.assertEqual((ran.returncode, "--shared" in ran.stderr), (2, True), options)
        ran = run("join", self.first, self.second, "-", "--shared", 1)
        self.assertEqual((ran.returncode, "-: is no file" in ran.stderr), (1, True))


if __name__ == "__main__":
    unittest.main()
