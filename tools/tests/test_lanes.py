"""What the lanes of cores show: as the checker's kept lines have it, and tick by tick as the plan paper says."""
import random
import unittest

from support import EXAMPLES, any_run, shown_at

from plans.image import decode
from plans.lanes import IDLE, TASK_SWITCH, VCPU_SWITCH, WINDOW, WORK, Entry, Subject, core_lanes, subject
from plans.reading import read_text


def kept_lanes():
    """The accepted examples, each with the lines of its cores' lanes: lane, first tick, kind, row."""
    for path in sorted(EXAMPLES.glob("*.lines")):
        answer, _, *lines = path.read_text().splitlines()
        if answer == "0 0 0":
            plan = decode(path.with_suffix(".image").read_bytes())
            lanes = [tuple(map(int, line.split())) for line in lines]
            yield path.stem, plan, [line for line in lanes if line[0] < len(plan.rows["core"])]


class Lanes(unittest.TestCase):
    def test_as_the_checker_prints_them(self):
        names, kinds = set(), set()
        for name, plan, expected in kept_lanes():
            found = [(core, *entry) for core, lane in enumerate(core_lanes(plan)) for entry in lane]
            self.assertEqual(found, expected, name)
            names.add(name)
            kinds |= {kind for _, _, kind, _ in found}
        self.assertEqual(kinds, {IDLE, VCPU_SWITCH, WINDOW, TASK_SWITCH, WORK})
        self.assertLessEqual({"case-a", "kept-core", "many-pieces", "all-lanes", "guests", "guest-changed"}, names)

    def test_tick_by_tick(self):
        """Any windows and pieces that do not overlap, in any row: windows that adjoin, switches of 0 ticks, jobs in several pieces."""
        chance = random.Random(1)
        for _ in range(300):
            plan = any_run(chance)
            for core, lane in enumerate(core_lanes(plan)):
                starts, found, now = {entry.tick: entry for entry in lane}, [], None
                for tick in range(plan.cycle):
                    now = starts.get(tick, now)
                    found.append(now[1:])
                self.assertEqual(found, [shown_at(plan, core, tick) for tick in range(plan.cycle)])
                self.assertTrue(all(before[1:] != after[1:] for before, after in zip(lane, lane[1:])))
                self.assertEqual([entry.tick for entry in lane], sorted(starts))

    def test_a_core_without_windows_is_idle(self):
        plan = read_text("p.txt", "plan cycle=10\ncore a node=0 d=1 v=1\n")
        self.assertEqual(core_lanes(plan), [[Entry(0, IDLE, 0)]])


class Subjects(unittest.TestCase):
    def test_task_and_job_in_place_of_the_piece(self):
        plan = decode((EXAMPLES / "guest-changed.image").read_bytes())
        for kind, row, expected in (
            (IDLE, 0, None), (VCPU_SWITCH, 5, Subject(1, VCPU_SWITCH)), (WINDOW, 3, Subject(0, WINDOW)),
            (TASK_SWITCH, 9, Subject(1, TASK_SWITCH, 5, 1)), (WORK, 10, Subject(1, WORK, 3, 0)),
        ):
            self.assertEqual(subject(plan, Entry(7, kind, row)), expected)

    def test_windows_of_one_vcpu_are_not_told_apart(self):
        plan = decode((EXAMPLES / "guests.image").read_bytes())
        self.assertEqual(subject(plan, Entry(7, WINDOW, 1)), subject(plan, Entry(7, WINDOW, 4)))
        self.assertNotEqual(subject(plan, Entry(7, WINDOW, 1)), subject(plan, Entry(7, VCPU_SWITCH, 4)))


if __name__ == "__main__":
    unittest.main()
