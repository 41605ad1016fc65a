"""Two plans compared: which VCPUs differ, what breaks the premises, where VCPUs notice, and all of it in words."""
import random
import unittest

from support import EXAMPLES, SHAPES, InFolder, any_run, any_windows, generated, run, shown_at

from plans.comparing import compare, report
from plans.compares import Change, alone, changes, notices
from plans.files import load
from plans.image import decode, encode
from plans.lanes import Entry
from plans.model import Plan
from plans.pairs import MANY, PlanFile
from plans.reading import read_text
from plans.troubles import Trouble

# Radio and arm on one core in turn, the eye on another.
THREE = """plan cycle=40 precision=1
core left node=0 d=1 v=2
core right node=0 d=1 v=2
vcpu radio core=left
vcpu arm core=left
vcpu eye core=right
task send vcpu=radio cores=left period=40 budget=3 deadline=40
task move vcpu=arm cores=left period=40 budget=3 deadline=40
task look vcpu=eye cores=right period=40 budget=3 deadline=40
window vcpu=radio at=0..12
window vcpu=eye at=0..40
window vcpu=arm at=12..30
piece task=send job=0 at=2..6
piece task=look job=0 at=4..8
piece task=move job=0 at=16..20
"""
RADIO, ARM, EYE = range(3)
LINKED = """link cable from=0 to=1 delay=1 rate=352
stream labels sender=send receiver=look latency=13 hops=1 payload=46
frame stream=labels job=0 hop=0 link=cable at=6
buffer scans number=0 writer=send reader=look
chain all first=send last=look limit=0
"""


def text(content, name="p.txt"):
    return read_text(name, content)


def pair(first, second):
    return [PlanFile(name, text(content, name)) for name, content in (("a.txt", first), ("b.txt", second))]


def compared(first, second):
    return compare(*pair(first, second))


def edited(*edits):
    """The text with some of its words replaced, each of which it has once."""
    content = THREE
    for old, new in edits:
        assert content.count(old) == 1, old
        content = content.replace(old, new)
    return content


def by_ticks(first, second):
    """Where each VCPU first notices, as {vcpu: (tick, core)}, tick by tick and core by core from all rows of plans with equal cores."""
    found = {}
    for tick in range(min(first.cycle, second.cycle)):
        for core in range(len(first.rows["core"])):
            ours, theirs = (about(plan, *shown_at(plan, core, tick)) for plan in (first, second))
            if ours != theirs:
                for vcpu in (ours[0], theirs[0]):
                    if vcpu is not None:
                        found.setdefault(vcpu, (tick, core))
    return found


def about(plan, kind, row):
    """What is shown, as VCPU, kind, task and job."""
    if kind == 0:
        return None, 0, None, None
    if kind in (1, 2):
        return plan.rows["window"][row].vcpu, kind, None, None
    piece = plan.rows["piece"][row]
    return plan.rows["task"][piece.task].vcpu, kind, piece.task, piece.job


def with_rows(plan, **rows):
    return Plan(plan.settings, {**plan.rows, **rows})


class Differing(unittest.TestCase):
    def test_what_differs_of_which_vcpu(self):
        for edits, expected in (
            ([], []),
            ([("2..6", "3..7")], [Change(RADIO, 0, 0, 0, 1, 1)]),
            ([("piece task=send job=0 at=2..6\n", "")], [Change(RADIO, 0, 0, 0, 1, 0)]),
            ([("piece task=send job=0 at=2..6\n", "piece task=send job=0 at=2..6\npiece task=send job=0 at=8..9\n")], [Change(RADIO, 0, 0, 0, 0, 1)]),
            ([("job=0 at=2..6", "job=1 at=2..6")], [Change(RADIO, 0, 0, 0, 1, 1)]),
            ([("send vcpu=radio cores=left period=40 budget=3", "send vcpu=radio cores=left period=40 budget=2")], [Change(RADIO, 0, 0, 1, 0, 0)]),
            ([("move vcpu=arm cores=left", "move vcpu=arm cores=any")], [Change(ARM, 0, 0, 1, 0, 0)]),
            ([("look vcpu=eye cores=right period=40", "look vcpu=eye cores=right period=20")], [Change(EYE, 0, 0, 1, 0, 0)]),
            ([("look vcpu=eye cores=right period=40 budget=3 deadline=40", "look vcpu=eye cores=right period=40 budget=3 deadline=39")],
             [Change(EYE, 0, 0, 1, 0, 0)]),
            ([("vcpu=radio at=0..12", "vcpu=radio at=0..11"), ("precision=1", "precision=2"), ("core=right", "core=left")], []),
        ):
            self.assertEqual(changes(text(THREE), text(edited(*edits))), expected, edits)

    def test_tasks_more_and_fewer(self):
        more = THREE + "task beep vcpu=radio cores=left period=40 budget=1 deadline=40\npiece task=beep job=0 at=8..10\n"
        self.assertEqual(changes(text(THREE), text(more)), [Change(RADIO, 0, 1, 0, 0, 1)])
        self.assertEqual(changes(text(more), text(THREE)), [Change(RADIO, 1, 0, 0, 1, 0)])

    def test_a_vcpu_without_tasks_in_one_plan(self):
        none = text(THREE + "drop piece 0\ndrop piece 0\ndrop task look\n")
        self.assertEqual(changes(none, text(THREE))[-1], Change(EYE, 0, 1, 0, 0, 1))
        self.assertEqual(changes(text(THREE), none)[-1], Change(EYE, 1, 0, 0, 1, 0))

    def test_tasks_go_by_number(self):
        """The same tasks and pieces with two numbers exchanged: both VCPUs have other ones. Of one VCPU alone that is a change, too."""
        lines = THREE.splitlines(True)
        lines[6:8] = lines[7:5:-1]
        self.assertEqual(changes(text(THREE), text("".join(lines))), [Change(RADIO, 1, 1, 0, 1, 1), Change(ARM, 1, 1, 0, 1, 1)])
        dropped = text(THREE + "drop piece 0\ndrop task send\n")
        self.assertEqual([(change.vcpu, change.tasks_gone, change.tasks_added) for change in changes(text(THREE), dropped)],
                         [(RADIO, 1, 0), (ARM, 1, 1), (EYE, 1, 1)])

    def test_a_task_of_another_vcpu(self):
        """It is gone here and added there, and so are its pieces, though their words are the same."""
        moved = edited(("send vcpu=radio", "send vcpu=arm"))
        self.assertEqual(changes(text(THREE), text(moved)), [Change(RADIO, 1, 0, 0, 1, 0), Change(ARM, 0, 1, 0, 0, 1)])

    def test_rows_and_names_do_not_matter(self):
        """Windows and pieces in other rows, and rows by other names."""
        lines = THREE.splitlines(True)
        turned = "".join([*lines[:9], *reversed(lines[9:])])
        self.assertEqual(changes(text(THREE), text(turned)), [])
        self.assertEqual(compared(THREE, turned).broken, [])
        renamed = THREE.replace("radio", "wifi").replace("send", "tell").replace("left", "first")
        self.assertEqual((changes(text(THREE), text(renamed)), compared(THREE, renamed).broken), ([], []))

    def test_equal_pieces_are_counted(self):
        twice = text(THREE + "piece task=send job=0 at=2..6\n")
        self.assertEqual(changes(text(THREE), twice), [Change(RADIO, 0, 0, 0, 0, 1)])
        self.assertEqual(changes(twice, text(THREE)), [Change(RADIO, 0, 0, 0, 1, 0)])


class Premises(unittest.TestCase):
    def broken(self, first, second):
        return [f"{place}: {words}" for place, words in compared(first, second).broken]

    def test_name_what_breaks_them(self):
        for edits, expected in (
            ([("cycle=40", "cycle=80")], ["b.txt: cycle 80, not 40"]),
            ([("precision=1", "precision=0")], ["b.txt: precision 0, not 1"]),
            ([("left node=0", "left node=1")], ["b.txt:2: core 0 (left) differs from a.txt:2: node 1, not 0"]),
            ([("right node=0 d=1", "right node=0 d=0")], ["b.txt:3: core 1 (right) differs from a.txt:3: d 0, not 1"]),
            ([("right node=0 d=1 v=2", "right node=0 d=1 v=1")], ["b.txt:3: core 1 (right) differs from a.txt:3: v 1, not 2"]),
            ([("arm core=left", "arm core=right")], ["b.txt:5: vcpu 1 (arm) differs from a.txt:5: core 1 (right), not 0 (left)"]),
            ([("window vcpu=arm at=12..30", "window vcpu=arm at=12..29")], [
                "b.txt:12: window 2 is missing in a.txt: vcpu 1 (arm), at 12..29",
                "a.txt:12: window 2 is missing in b.txt: vcpu 1 (arm), at 12..30",
            ]),
            ([("window vcpu=arm at=12..30", "window vcpu=radio at=12..30")], [
                "b.txt:12: window 2 is missing in a.txt: vcpu 0 (radio), at 12..30",
                "a.txt:12: window 2 is missing in b.txt: vcpu 1 (arm), at 12..30",
            ]),
        ):
            self.assertEqual(self.broken(THREE, edited(*edits)), expected)

    def test_rows_of_one_plan_alone(self):
        for row, expected in (
            ("core far node=2 d=0 v=0", "core 2 (far) is missing in {}, which has 2"),
            ("vcpu spare core=left", "vcpu 3 (spare) is missing in {}, which has 3"),
            ("window vcpu=radio at=30..40", "window 3 is missing in {}: vcpu 0 (radio), at 30..40"),
        ):
            longer = f"{THREE}{row}\n"
            self.assertEqual(self.broken(THREE, longer), [f"b.txt:16: {expected.format('a.txt')}"])
            self.assertEqual(self.broken(longer, THREE), [f"a.txt:16: {expected.format('b.txt')}"])

    def test_a_window_of_the_vcpu_that_differs_counts(self):
        """It is the radio's own supplier who changed it, but windows have to be equal for all."""
        found = compared(THREE, edited(("vcpu=radio at=0..12", "vcpu=radio at=0..11"), ("2..6", "3..7")))
        self.assertEqual(([change.vcpu for change in found.changes], len(found.broken), found.notices), ([RADIO], 2, []))

    def test_one_vcpu_may_differ_in_all_its_tasks_and_pieces(self):
        more = edited(("2..6", "4..8"), ("send vcpu=radio cores=left period=40 budget=3", "send vcpu=radio cores=left period=20 budget=2"))
        more += "task beep vcpu=radio cores=left period=40 budget=1 deadline=40\npiece task=beep job=0 at=8..10\n"
        self.assertEqual((self.broken(THREE, more), self.broken(more, THREE)), ([], []))

    def test_of_two_that_differ_all_rows_break_them(self):
        both = edited(("2..6", "3..7"), ("move vcpu=arm cores=left period=40 budget=3", "move vcpu=arm cores=left period=40 budget=2"))
        self.assertEqual(self.broken(THREE, both), [
            "b.txt:8: task 1 (move) differs from a.txt:8: budget 2, not 3",
            "a.txt:13: piece 0 is missing in b.txt: task 0 (send), job 0, at 2..6",
            "b.txt:13: piece 0 is missing in a.txt: task 0 (send), job 0, at 3..7",
        ])

    def test_links_messages_and_chains_are_free(self):
        for first, second in ((THREE, THREE + LINKED), (THREE + LINKED, THREE), (THREE + LINKED, THREE + LINKED.replace("=1 ", "=2 "))):
            self.assertEqual(self.broken(first, second), [])

    def test_shapes(self):
        """Every plan of the independent generator with itself, and without the pieces of its first VCPU: met, and nobody else notices."""
        for shape in SHAPES:
            plan = decode(generated(shape))
            tasks = plan.rows["task"]
            less = with_rows(plan, piece=[piece for piece in plan.rows["piece"] if tasks[piece.task].vcpu != 0])
            for second in (plan, less):
                found = compare(PlanFile("a", plan), PlanFile("b", second))
                self.assertTrue(found.upheld and found.met, shape)
                self.assertEqual([change.vcpu for change in found.changes], [0] if second.rows != plan.rows else [], shape)


class Noticing(unittest.TestCase):
    def test_tick_by_tick(self):
        """Any two plans with equal cores and VCPUs: windows and pieces are drawn anew for some cores. VCPUs notice on several cores."""
        chance, cores = random.Random(1), set()
        for _ in range(300):
            first = any_run(chance)
            rows = {**first.rows, "window": list(first.rows["window"]), "piece": list(first.rows["piece"])}
            core = chance.randrange(len(rows["core"]))
            keep = lambda vcpu: rows["vcpu"][vcpu].core != core
            rows["window"] = [window for window in rows["window"] if keep(window.vcpu)]
            rows["piece"] = [piece for piece in rows["piece"] if keep(rows["task"][piece.task].vcpu)]
            any_windows(chance, rows, core, first.cycle)
            second = Plan((first.cycle - chance.choice((0, 0, 5)), 0), rows)
            found = notices(first, second)
            self.assertEqual({notice.vcpu: (notice.tick, notice.core) for notice in found}, by_ticks(first, second))
            self.assertEqual(found, sorted(found))
            cores |= {notice.core for notice in found}
            for notice in found:
                self.assertEqual(tuple(notice.ours[1:]), shown_at(first, notice.core, notice.tick))
                self.assertEqual(tuple(notice.theirs[1:]), shown_at(second, notice.core, notice.tick))
        self.assertEqual(cores, {0, 1, 2})

    def test_no_other_vcpu_where_one_has_other_pieces(self):
        """Any plan in which one VCPU's pieces go, and so all others stand in other rows."""
        chance, noticed = random.Random(2), 0
        for _ in range(300):
            first = any_run(chance)
            one = chance.randrange(len(first.rows["vcpu"]))
            pieces = [piece for piece in first.rows["piece"] if first.rows["task"][piece.task].vcpu != one]
            found = notices(first, with_rows(first, piece=pieces))
            self.assertLessEqual({notice.vcpu for notice in found}, {one})
            noticed += len(found)
        self.assertGreater(noticed, 100)

    def test_the_only_one_that_differs_is_left_out(self):
        self.assertEqual(compared(THREE, edited(("2..6", "3..7"))).notices, [])
        self.assertEqual([notice.vcpu for notice in notices(text(THREE), text(edited(("2..6", "3..7"))))], [RADIO])

    def test_of_several_that_differ_none_is_left_out(self):
        found = compared(THREE, edited(("2..6", "3..7"), ("16..20", "15..19"))).notices
        self.assertEqual([(notice.vcpu, notice.tick, notice.core) for notice in found], [(RADIO, 2, 0), (ARM, 15, 0)])

    def test_where_no_vcpu_differs_none_is_left_out(self):
        """The radio's window grows at the arm's cost, and no task or piece changes: both notice, at one tick."""
        found = compared(THREE, edited(("0..12", "0..13"), ("12..30", "13..30")))
        self.assertEqual((found.changes, [(notice.vcpu, notice.tick, notice.core) for notice in found.notices]), ([], [(RADIO, 12, 0), (ARM, 12, 0)]))

    def test_only_what_is_shown_is_noticed(self):
        """P, a VCPU more, a deadline, a node: the premises are broken, and nothing else is shown."""
        for edits in (
            [("precision=1", "precision=0")], [("task send", "vcpu spare core=left\ntask send")], [("left node=0", "left node=1")],
            [("send vcpu=radio cores=left period=40 budget=3 deadline=40", "send vcpu=radio cores=left period=40 budget=3 deadline=39"),
             ("move vcpu=arm cores=left period=40 budget=3 deadline=40", "move vcpu=arm cores=left period=40 budget=3 deadline=39")],
        ):
            found = compared(THREE, edited(*edits))
            self.assertEqual((found.met, found.upheld, found.notices), (False, False, []), edits)

    def test_window_rows_do_not_matter(self):
        """A window more before all others: only its own VCPU notices. One window in place of two that adjoin shows nothing else."""
        early = edited(("window vcpu=radio at=0..12", "window vcpu=arm at=0..3\nwindow vcpu=radio at=3..12"), ("2..6", "5..9"))
        late = edited(("window vcpu=radio at=0..12", "window vcpu=radio at=3..12"), ("2..6", "5..9"))
        self.assertEqual([(notice.vcpu, notice.tick) for notice in notices(text(late), text(early))], [(ARM, 0)])
        two = edited(("window vcpu=eye at=0..40", "window vcpu=eye at=0..30\nwindow vcpu=eye at=30..40"))
        self.assertEqual(notices(text(THREE), text(two)), [])

    def test_another_core(self):
        """A VCPU that runs elsewhere notices where it is no more, and a core of one plan alone is idle in the other."""
        elsewhere = edited(("core right", "core far node=0 d=1 v=2\ncore right"))
        found = notices(text(THREE), text(elsewhere))
        self.assertEqual([(notice.vcpu, notice.tick, notice.core) for notice in found], [(EYE, 0, 1)])
        longer = THREE + "core far node=2 d=1 v=2\nvcpu log core=far\nwindow vcpu=log at=7..20\n"
        for first, second, shown in ((THREE, longer, [Entry(0, 0, 0), Entry(7, 1, 3)]), (longer, THREE, [Entry(7, 1, 3), Entry(0, 0, 0)])):
            (notice,) = notices(text(first), text(second))
            self.assertEqual((notice.vcpu, notice.tick, notice.core, [notice.ours, notice.theirs]), (3, 7, 2, shown))

    def test_a_vcpu_notices_on_the_core_where_it_does_so_first(self):
        """It leaves the first core, where it has its window from 12 on, for the second, where that begins at 5."""
        plain = edited(("window vcpu=eye at=0..40\n", ""), ("piece task=look job=0 at=4..8\n", ""))
        moved = plain.replace("arm core=left", "arm core=right").replace("arm at=12..30", "arm at=5..30")
        for first, second in ((plain, moved), (moved, plain)):
            found = notices(text(first), text(second))
            self.assertEqual([(notice.vcpu, notice.tick, notice.core) for notice in found], [(ARM, 5, 1)])

    def test_cycles_that_differ(self):
        """Compared below the shorter one's end."""
        longer = edited(("cycle=40", "cycle=80")) + "window vcpu=arm at=50..60\n"
        self.assertEqual((notices(text(THREE), text(longer)), notices(text(longer), text(THREE))), ([], []))


class Alone(unittest.TestCase):
    def alone(self, *edits, more=""):
        return alone(text(THREE), text(edited(*edits) + more))

    def test_its_own_rows(self):
        """Each thing that a VCPU's sight hangs on, and that the others do not mind."""
        self.assertEqual(self.alone(), [RADIO, ARM, EYE])
        self.assertEqual(self.alone(("right node=0 d=1", "right node=0 d=2")), [RADIO, ARM])
        self.assertEqual(self.alone(("right node=0 d=1 v=2", "right node=0 d=1 v=3")), [RADIO, ARM])
        self.assertEqual(self.alone(("vcpu arm core=left", "vcpu arm core=right")), [RADIO, EYE])
        self.assertEqual(self.alone(("12..30", "13..30")), [RADIO, EYE])
        self.assertEqual(self.alone(("vcpu=arm cores=left period=40 budget=3", "vcpu=arm cores=left period=40 budget=4")), [RADIO, EYE])
        self.assertEqual(self.alone(("2..6", "3..7"), ("4..8", "5..9")), [ARM])
        self.assertEqual(self.alone(more="window vcpu=arm at=31..39\n"), [RADIO, EYE])

    def test_what_does_not_matter(self):
        """Nodes, clocks, messages, rows that others have more of, and which row a window or piece stands in."""
        self.assertEqual(self.alone(("right node=0", "right node=3"), ("precision=1", "precision=0"), more=LINKED), [RADIO, ARM, EYE])
        self.assertEqual(self.alone(("window vcpu=radio at=0..12\n", ""), more="window vcpu=radio at=0..12\n"), [RADIO, ARM, EYE])
        self.assertEqual(self.alone(more="core far node=2 d=1 v=2\nvcpu log core=far\nwindow vcpu=log at=7..20\n"), [RADIO, ARM, EYE])

    def test_none_of_them_notices(self):
        """What is proved, asked of generated plans that differ in other guests' rows, windows among them."""
        kept = 0
        for shape in SHAPES:
            for seed in range(1, 4):
                plan = decode(generated(shape, seed))
                for other in (without(plan, "window", seed), without(plan, "piece", seed)):
                    ours = alone(plan, other)
                    kept += bool(ours) and bool(notices(plan, other))
                    self.assertFalse({notice.vcpu for notice in notices(plan, other)} & set(ours))
        self.assertGreater(kept, 5)


def without(plan, kind, seed):
    """The plan without a row of a kind."""
    rows = list(plan.rows[kind])
    if rows:
        rows.pop(random.Random(seed).randrange(len(rows)))
    return Plan(plan.settings, {**plan.rows, kind: rows})


class Words(unittest.TestCase):
    def told(self, first, second):
        return list(report(compared(first, second)))

    def test_queues_are_free_to_differ(self):
        told = self.told(THREE + LINKED, THREE + LINKED.replace(" payload=46", " payload=46 queue=3"))
        self.assertIn("Free to differ: 1 stream gone, 1 stream added", told)
        self.assertIn("No VCPU notices: in 40 ticks none shows anything else.", told)

    def test_one_differs_and_others_do_not_notice(self):
        self.assertEqual(self.told(THREE, edited(("2..6", "3..7")) + LINKED), [
            "VCPU 0 (radio) has other tasks or pieces: 1 piece gone, 1 piece added",
            "  a.txt:13: piece 0 is missing in b.txt: task 0 (send), job 0, at 2..6",
            "  b.txt:13: piece 0 is missing in a.txt: task 0 (send), job 0, at 3..7",
            "Free to differ: 1 link added, 1 stream added, 1 frame added, 1 buffer added, 1 chain added",
            "The premises are met: only VCPU 0 (radio) has other tasks or pieces.",
            "No other VCPU notices: in 40 ticks none shows anything else.",
        ])

    def test_none_differs(self):
        self.assertEqual(self.told(THREE, THREE), [
            "No VCPU has other tasks or pieces.", "The premises are met.", "No VCPU notices: in 40 ticks none shows anything else.",
        ])
        self.assertEqual(self.told(THREE, edited(("precision=1", "precision=0"))), [
            "No VCPU has other tasks or pieces.", "The premises are not met:", "  b.txt: precision 0, not 1",
            "But no VCPU notices: in 40 ticks none shows anything else.",
            "Proved not to notice all the same, since their own rows are equal: VCPU 0 (radio), VCPU 1 (arm), VCPU 2 (eye)",
        ])

    def test_another_notices(self):
        second = edited(("0..12", "0..13"), ("12..30", "13..30"), ("2..6", "3..7"))
        self.assertEqual(self.told(THREE, second)[3:], [
            "The premises are not met:",
            "  a.txt:10: window 0 is missing in b.txt: vcpu 0 (radio), at 0..12",
            "  b.txt:10: window 0 is missing in a.txt: vcpu 0 (radio), at 0..13",
            "  a.txt:12: window 2 is missing in b.txt: vcpu 1 (arm), at 12..30",
            "  b.txt:12: window 2 is missing in a.txt: vcpu 1 (arm), at 13..30",
            "The first other VCPU to notice is VCPU 1 (arm), at tick 12 of the cycle on core 0 (left):",
            "  a.txt shows the VCPU switch of window 2 of VCPU 1 (arm)",
            "  b.txt shows window 0 of VCPU 0 (radio), outside pieces",
            "Proved not to notice all the same, since its own rows are equal: VCPU 2 (eye)",
        ])

    def test_several_differ(self):
        lines = self.told(THREE, edited(("2..6", "3..7"), ("16..20", "15..19")))
        self.assertEqual(lines[:3], [
            "VCPU 0 (radio) has other tasks or pieces: 1 piece gone, 1 piece added",
            "VCPU 1 (arm) has other tasks or pieces: 1 piece gone, 1 piece added",
            "The premises are not met (2 VCPUs have other tasks or pieces, only one may):",
        ])
        self.assertEqual(lines[7:], [
            "The first VCPU to notice is VCPU 0 (radio), at tick 2 of the cycle on core 0 (left):",
            "  a.txt shows task switch of task 0 (send), job 0, of VCPU 0 (radio)",
            "  b.txt shows window 0 of VCPU 0 (radio), outside pieces",
            "Then VCPU 1 (arm), at tick 15 of the cycle on core 0 (left)",
            "Proved not to notice all the same, since its own rows are equal: VCPU 2 (eye)",
        ])

    def test_numbers_decide_where_names_are_the_same(self):
        """A task of another number shows something else, though it has its name."""
        lines = self.told(THREE, THREE + "drop piece 0\ndrop task send\n")
        self.assertIn("VCPU 1 (arm) has other tasks or pieces: 1 task gone, 1 task added, 1 piece gone, 1 piece added", lines)
        told = compared(THREE, THREE + "drop piece 0\ndrop task send\n").notices
        self.assertEqual([(notice.vcpu, notice.tick) for notice in told], [(RADIO, 2), (EYE, 4), (ARM, 16)])

    def test_work_and_idle(self):
        lines = self.told(edited(("2..6", "2..7"), ("16..20", "16..20\npiece task=move job=0 at=25..27")), THREE)
        self.assertIn("  a.txt shows work of task 0 (send), job 0, of VCPU 0 (radio)", lines)
        lines = self.told(THREE, edited(("window vcpu=eye at=0..40", "window vcpu=eye at=0..39")))
        self.assertEqual(lines[-3:-1], ["  a.txt shows window 1 of VCPU 2 (eye), outside pieces", "  b.txt shows idle"])
        longer = THREE + "core far node=2 d=1 v=2\nvcpu log core=far\nwindow vcpu=log at=7..20\n"
        self.assertEqual(self.told(THREE, longer)[-4:-1], [
            "The first VCPU to notice is VCPU 3 (log), at tick 7 of the cycle on core 2 (far):",
            "  a.txt shows no such core", "  b.txt shows the VCPU switch of window 3 of VCPU 3 (log)",
        ])

    def test_cycles_that_differ(self):
        self.assertEqual(self.told(edited(("cycle=40", "cycle=80")), THREE)[-2:], [
            "In the first 40 ticks no VCPU shows anything else.",
            "From tick 40 on the cycles part; what is shown there is not compared.",
        ])

    def test_two_names_for_one_vcpu(self):
        second = THREE.replace("radio", "wifi").replace("2..6", "3..7")
        self.assertEqual(self.told(THREE, second)[0], "VCPU 0 (radio, wifi) has other tasks or pieces: 1 piece gone, 1 piece added")

    def test_images_have_no_names(self):
        files = [PlanFile(name, decode(encode(text(content)))) for name, content in (("a", THREE), ("b", edited(("2..6", "3..7"))))]
        self.assertEqual(list(report(compare(*files)))[:3], [
            "VCPU 0 has other tasks or pieces: 1 piece gone, 1 piece added",
            "  a: piece 0 is missing in b: task 0, job 0, at 2..6", "  b: piece 0 is missing in a: task 0, job 0, at 3..7",
        ])

    def test_of_many_rows_the_last_are_counted(self):
        """Rows of the one that differs, rows that break the premises, and VCPUs that notice."""
        more = THREE + "".join(f"piece task=send job=0 at={start}+2\n" for start in range(41, 41 + MANY + 3))
        lines = self.told(THREE, more)
        self.assertEqual((len(lines), lines[MANY]), (MANY + 3, "  b.txt: 4 more rows differ"))
        windows = THREE + "".join(f"window vcpu=arm at={start}+2\n" for start in range(41, 41 + MANY + 1))
        lines = self.told(THREE, windows)
        self.assertEqual((len(lines), lines[MANY + 1]), (MANY + 4, "  b.txt: 2 more rows differ"))
        for vcpus, ends in ((MANY + 1, f"Then VCPU {MANY}, at tick {MANY} of the cycle on core {MANY}"), (MANY + 2, "Then 2 more VCPUs")):
            rows = "".join(f"core node=0 d=0 v=0\nvcpu core={row}\nwindow vcpu={row} at={row}..30\n" for row in range(vcpus))
            lines = self.told("plan cycle=40\n" + rows, "plan cycle=40\n" + rows.replace("window", "#"))
            self.assertEqual(([line[:4] for line in lines].count("Then"), lines[-1]), (MANY, ends))

    def test_raw_lines(self):
        with self.assertRaisesRegex(Trouble, "b.txt: has raw lines"):
            compared(THREE, THREE + "raw core.rows=1\n")


class Command(InFolder):
    def setUp(self):
        super().setUp()
        self.first, self.second = self.put("a.txt", THREE), self.put("b.txt", edited(("2..6", "3..7")))

    def compare(self, *answers, options=()):
        """What the command does where the checker gives these answers in turn; what it was asked is in the files asked0 and so on."""
        lines = self.put("answers", "".join(f"{answer}\n" for answer in answers))
        asked = f"'{self.folder}/asked'$(({len(answers)} - $(wc -l < '{lines}')))"
        checker = self.put("checker", f"#!/bin/sh\ncat > {asked}\nhead -n 1 '{lines}'\nsed -i 1d '{lines}'\n")
        checker.chmod(0o755)
        return run("compare", self.first, self.second, "--plancheck", checker, *options)

    def asked(self):
        return [path.read_bytes() for path in sorted(self.folder.glob("asked*"))]

    def test_asks_about_both_and_tells_the_comparison(self):
        ran = self.compare("0 0 0", "0 0 0")
        self.assertEqual((ran.returncode, ran.stderr), (0, ""))
        self.assertEqual(self.asked(), [encode(load(path)) for path in (self.first, self.second)])
        lines = ran.stdout.splitlines()
        self.assertEqual(lines[:2], [f"{path}: accepted, every question is answered yes (0 0 0)" for path in (self.first, self.second)])
        self.assertEqual(lines[2:], list(report(compare(*(PlanFile(path, load(path)) for path in (self.first, self.second))))))

    def test_premises_that_are_broken(self):
        self.second.write_text(edited(("precision=1", "precision=0")))
        ran = self.compare("0 0 0", "0 0 0")
        self.assertEqual((ran.returncode, ran.stderr), (1, ""))
        self.assertIn("The premises are not met:\n", ran.stdout)

    def test_a_refused_plan_is_the_end(self):
        for answers, path, line in ((["13 3 0"], self.first, 7), (["0 0 0", "13 3 1"], self.second, 8)):
            for old in self.folder.glob("asked*"):
                old.unlink()
            ran = self.compare(*answers)
            self.assertEqual((ran.returncode, len(self.asked())), (1, len(answers)))
            self.assertIn(f"{path}: refused ({answers[-1]}) at task ", ran.stdout)
            self.assertTrue(ran.stdout.endswith(f"{path}:{line}: this row\nNot compared: both plans have to be accepted.\n"), ran.stdout)
            self.assertNotIn("premises", ran.stdout)

    def test_an_unreadable_image(self):
        self.second = EXAMPLES / "q03-gap.image"
        ran = self.compare("0 0 0", "3 0 0")
        self.assertEqual((ran.returncode, ran.stderr, ran.stdout.splitlines()[-1]), (1, "", "Not compared: both plans have to be accepted."))

    def test_a_checker_that_is_wrong(self):
        """It accepts a piece of the radio's in the arm's window: the premises are met, and the arm notices. That is told, with status 1."""
        self.second.write_text(edited(("piece task=send job=0 at=2..6\n", ""), ("16..20", "16..20\npiece task=send job=0 at=22..26")))
        ran = self.compare("0 0 0", "0 0 0")
        self.assertEqual(ran.returncode, 1)
        self.assertIn("The premises are met: only VCPU 0 (radio) has other tasks or pieces.\nYet VCPU 1 (arm) shows something else, which cannot be: ", ran.stdout)
        self.assertIn("The first other VCPU to notice is VCPU 1 (arm), at tick 22 of the cycle on core 0 (left):\n", ran.stdout)

    def test_the_examples(self):
        """The examples of tools/README.md, to the letter."""
        readme = (EXAMPLES.parent.parent / "tools" / "README.md").read_text()
        for names, status, shown in (
            (("guests", "guest-changed"), 0, 99), (("guest-changed", "guest-longer-window"), 1, 99), (("guests", "guest-and-decoder"), 1, 5),
        ):
            ran = run("compare", *(EXAMPLES / f"{name}.txt" for name in names), "--plancheck", self.program("0 0 0"))
            call = " ".join(f"{EXAMPLES}/{name}.txt" for name in names)
            lines = f"$ tools/plan compare {call}\n{ran.stdout}".replace(f"{EXAMPLES}/", "examples/plans/").splitlines()
            block = "".join(f"    {line}\n" for line in lines[-shown:])
            self.assertEqual(ran.returncode, status)
            self.assertTrue(f"\n\n{block}\n" in readme, block)

    def test_in_order(self):
        """A text out of order is taken in order, and so is what the checker is asked; the rows told are those in order."""
        self.second.write_text(THREE + "piece task=send job=0 at=1..2\n")
        ran = self.compare("0 0 0", "0 0 0", options=["--in-order"])
        self.assertEqual([row.start for row in decode(self.asked()[1]).rows["piece"]], [1, 2, 4, 16])
        self.assertIn(f"{self.second}:16: piece 0 is missing in {self.first}: task 0 (send), job 0, at 1..2\n", ran.stdout)

    def test_usage(self):
        for arguments in ([], [self.first], [self.first, self.second, self.first], [self.first, self.second, "--shared", "1"]):
            self.assertEqual(run("compare", *arguments).returncode, 2, arguments)
        ran = run("compare", self.folder / "none.txt", self.second, "--plancheck", self.program("0 0 0"))
        self.assertEqual((ran.returncode, "none.txt" in ran.stderr), (1, True))


if __name__ == "__main__":
    unittest.main()
