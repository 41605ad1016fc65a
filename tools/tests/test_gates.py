"""Gate lists: what links' lanes show, tick by tick; as tables and as commands of tc."""
import unittest

from support import EXAMPLES, InFolder, run

from plans.answers import lanes_in
from plans.files import load
from plans.gates import Gate, gate_lanes, gate_list
from plans.lanes import IDLE, SENDING, Entry
from plans.meaning import Meaning
from plans.taprio import devices
from plans.troubles import BadValue

HEAD = "parent root handle 100 taprio num_tc 8 map 0 1 2 3 4 5 6 7 0 0 0 0 0 0 0 0 queues 1@0 1@1 1@2 1@3 1@4 1@5 1@6 1@7 base-time 0"


def kept(name):
    """An accepted example, and the gate lists of its links from the lines that the checker prints."""
    plan = load(EXAMPLES / f"{name}.txt")
    return plan, gate_lanes(plan, lanes_in((EXAMPLES / f"{name}.lines").read_text().splitlines()[2:]))


def accepted():
    for path in sorted(EXAMPLES.glob("*.lines")):
        if path.read_text().startswith("0 0 0\n"):
            yield path.stem, *kept(path.stem)


def octets(plan, link):
    """The octet of each tick, from the rows alone."""
    meaning, found = Meaning(plan), [0] * plan.cycle
    for number, frame in enumerate(plan.rows["frame"]):
        if frame.link == link:
            for tick in range(frame.start, meaning.frame_end(number)):
                found[tick] = 1 << plan.rows["stream"][frame.stream].queue
    return found


def given_lists():
    """The lists of all links that the library gives, by accepted plan: as examples/gates/expected has them, which the gate compares."""
    given = {}
    for call in (EXAMPLES.parent / "gates" / "expected").read_text().split("$ gates ")[1:]:
        asked, answer, *lines = call.splitlines()
        if len(asked.split()) == 1 and answer == "0 0 0":
            given[asked] = [line.split() for line in lines[:-1]]
    return given


class Lists(unittest.TestCase):
    def test_tick_by_tick(self):
        links = 0
        for name, plan, lists in accepted():
            self.assertEqual(len(lists), len(plan.rows["link"]), name)
            for link, gates in enumerate(lists):
                shown = [gate.octet for gate in gates for _ in range(gate.interval)]
                self.assertEqual(shown, octets(plan, link), (name, link))
                self.assertTrue(all(gate.interval >= 1 for gate in gates))
                self.assertTrue(all(before.octet != after.octet for before, after in zip(gates, gates[1:])))
                ticks = [sum(gate.interval for gate in gates[:number]) for number in range(len(gates))]
                self.assertEqual([gate.tick for gate in gates], ticks)
                links += 1
        self.assertGreater(links, 80)

    def test_each_frame_is_in_one_interval_of_its_link(self):
        for name, plan, lists in accepted():
            found = sorted((frame, link) for link, gates in enumerate(lists) for gate in gates for frame in gate.frames)
            self.assertEqual(found, [(number, frame.link) for number, frame in enumerate(plan.rows["frame"])], name)

    def test_frames_of_one_queue_that_touch_are_one_interval(self):
        _, (up, *_, back) = kept("queues")
        self.assertEqual(up, [
            Gate(0, 1, 0, ()), Gate(1, 2, 0x80, (0,)), Gate(3, 4, 2, (1, 2)), Gate(7, 8, 0, ()), Gate(15, 2, 2, (6,)), Gate(17, 23, 0, ()),
        ])
        self.assertEqual(back, [Gate(0, 40, 0, ())])

    def test_from_the_first_tick_to_the_last(self):
        plan = load(EXAMPLES / "queues.txt")
        self.assertEqual(gate_list(plan, [Entry(0, SENDING, 0)]), [Gate(0, 40, 0x80, (0,))])
        self.assertEqual(gate_list(plan, [Entry(0, SENDING, 0), Entry(3, IDLE, 0), Entry(39, SENDING, 4)]), [
            Gate(0, 3, 0x80, (0,)), Gate(3, 36, 0, ()), Gate(39, 1, 2, (4,)),
        ])

    def test_those_that_the_library_gives(self):
        given = given_lists()
        self.assertGreaterEqual(len(given), 4)
        for name, lines in given.items():
            _, lists = kept(name)
            found = [[str(link), str(gate.tick), str(gate.interval), f"{gate.octet:02x}"] for link, gates in enumerate(lists) for gate in gates]
            self.assertEqual(found, lines, name)

    def test_lanes_that_are_not_there(self):
        plan = load(EXAMPLES / "case-b.txt")
        self.assertRaisesRegex(BadValue, "prints 0 lanes, not 3", gate_lanes, plan, [])
        self.assertEqual(lanes_in(["0 0 2 0", "0 3 4 1", "1 0 0 0"]), [[Entry(0, 2, 0), Entry(3, 4, 1)], [Entry(0, 0, 0)]])
        for lines in (["1 0 0 0"], ["0 0 0 0", "2 0 0 0"], ["0 0 0 0", "1 0 0 0", "0 0 0 0"], ["0 0 a 0"], [""]):
            self.assertRaises(ValueError, lanes_in, lines)


class Commands(InFolder):
    def gates(self, name, *options):
        """What the command gives for an example, the checker printing its lines."""
        return run("gates", EXAMPLES / f"{name}.txt", *options, "--plancheck", self.printing(EXAMPLES / f"{name}.lines"))

    def test_a_table_for_each_link(self):
        ran = self.gates("queues")
        self.assertEqual((ran.returncode, ran.stderr), (0, ""))
        first, cycle, up, _, _, back = ran.stdout.split("\n\n")
        self.assertEqual((first, cycle), ("accepted, every question is answered yes (0 0 0)", "cycle 40; gate lists: 4"))
        self.assertEqual(up.splitlines(), [
            "link 0 (up), node 0 → node 1",
            "  from  interval     gates  queues  frames",
            "     0         1  00000000       -",
            "     1         2  10000000       7  frame0",
            "     3         4  00000010       1  frame1 frame2",
            "     7         8  00000000       -",
            "    15         2  00000010       1  frame6",
            "    17        23  00000000       -",
        ])
        self.assertEqual(back.splitlines()[::2], ["link 3 (back), node 2 → node 1", "     0        40  00000000       -"])

    def test_one_link(self):
        for link in ("side", "2"):
            ran = self.gates("queues", link)
            self.assertEqual(ran.returncode, 0)
            self.assertEqual(ran.stdout.split("\n\n")[1:], ["cycle 40; gate lists: 1", "\n".join([
                "link 2 (side), node 1 → node 3",
                "  from  interval     gates  queues  frames",
                "     0        12  00000000       -",
                "    12         2  00000010       1  frame5",
                "    14        26  00000000       -",
                "",
            ])])

    def test_an_image_has_rows_without_names(self):
        ran = run("gates", EXAMPLES / "case-b.image", "--plancheck", self.printing(EXAMPLES / "case-b.lines"))
        self.assertIn("\nlink 0, node 0 → node 1\n", ran.stdout)

    def test_no_links(self):
        ran = self.gates("case-a")
        self.assertEqual((ran.returncode, ran.stdout.splitlines()[-1]), (0, "cycle 10; gate lists: 0"))
        self.assertEqual(self.gates("case-a", "--taprio", "eth0").stdout, "")

    def test_links_that_are_not_there(self):
        for link, message in (("4", "there is no link 4; it has 4"), ("upp", "no link is named 'upp' (did you mean up?)")):
            ran = self.gates("queues", link)
            self.assertEqual(ran.returncode, 1)
            self.assertIn(f"queues.txt: {message}", ran.stderr)

    def test_a_refused_plan_has_no_gates(self):
        for name in ("q41-stay", "q13-a-tick-short", "q02-last-word"):
            ran = self.gates(name)
            self.assertEqual(ran.returncode, 1)
            self.assertTrue(ran.stdout.startswith("refused ("), ran.stdout)
            self.assertTrue(ran.stdout.endswith("No gate lists: the plan has to be accepted.\n"), ran.stdout)
            ran = self.gates(name, "--taprio", "eth0")
            self.assertEqual((ran.returncode, ran.stdout), (1, ""))
            self.assertTrue(ran.stderr.startswith("refused ("), ran.stderr)

    def test_an_image_that_cannot_be_read(self):
        ran = run("gates", EXAMPLES / "q03-gap.image", "--plancheck", self.printing(EXAMPLES / "q03-gap.lines"))
        self.assertEqual(ran.returncode, 1)
        self.assertIn("No gate lists", ran.stdout)

    def test_raw_lines(self):
        text = self.put("a.txt", f"base {EXAMPLES / 'case-b.txt'}\nraw link.words=5\n")
        ran = run("gates", text, "--plancheck", self.printing(EXAMPLES / "case-b.lines"))
        self.assertEqual(ran.returncode, 1)
        self.assertIn("a.txt: has raw lines, so its rows need not be those of its image; take the image", ran.stderr)

    def test_a_checker_that_prints_no_lanes(self):
        ran = run("gates", EXAMPLES / "case-b.txt", "--plancheck", self.program("0 0 0"))
        self.assertEqual(ran.returncode, 1)
        self.assertIn("prints 0 lanes, not 3", ran.stderr)
        ran = run("gates", EXAMPLES / "case-b.txt", "--plancheck", self.program("'0 0 0\n\n0 0'"))
        self.assertEqual(ran.returncode, 1)
        self.assertIn("gives no answer", ran.stderr)

    def test_the_plan_in_order_is_asked_about(self):
        plan = EXAMPLES / "q32-lowest-table.txt"
        ran = run("gates", plan, "--in-order", "--plancheck", self.printing(EXAMPLES / "tunnel.lines"))
        self.assertEqual(ran.returncode, 0)
        self.assertEqual(ran.stdout, self.gates("tunnel").stdout)

    def test_commands_of_tc(self):
        """Nanoseconds of 1,000 a tick, octets in hexadecimal; comments and commands alone are printed."""
        ran = self.gates("queues", "--taprio", "swp{link}")
        self.assertEqual((ran.returncode, ran.stderr), (0, "accepted, every question is answered yes (0 0 0)\n"))
        lines = ran.stdout.splitlines()
        self.assertEqual(lines[:2], [
            "# link 0 (up), node 0 → node 1",
            f"tc qdisc replace dev swp0 {HEAD} cycle-time 40000 sched-entry S 00 1000 sched-entry S 80 2000 sched-entry S 02 4000 "
            "sched-entry S 00 8000 sched-entry S 02 2000 sched-entry S 00 23000 clockid CLOCK_TAI",
        ])
        self.assertEqual(lines[6:], [
            "# link 3 (back), node 2 → node 1",
            f"tc qdisc replace dev swp3 {HEAD} cycle-time 40000 sched-entry S 00 40000 clockid CLOCK_TAI",
        ])

    def test_one_command(self):
        ran = self.gates("tunnel", "down", "--taprio", "enp3s0.7")
        comment, command = ran.stdout.splitlines()
        self.assertEqual(comment, "# link 1 (down), node 1 → node 2")
        self.assertTrue(command.startswith(f"tc qdisc replace dev enp3s0.7 {HEAD} cycle-time 4000000 sched-entry S 00 560000 "), command)

    def test_intervals_sum_to_the_cycle_time(self):
        for name in ("queues", "tunnel", "mode-both", "all-lanes"):
            for line in self.gates(name, "--taprio", "eth{link}").stdout.splitlines()[1::2]:
                words = line.split()
                intervals = [int(words[place + 3]) for place, word in enumerate(words) if word == "sched-entry"]
                self.assertEqual(sum(intervals), int(words[words.index("cycle-time") + 1]))

    def test_bad_devices(self):
        ran = self.gates("queues", "--taprio", "eth0")
        self.assertEqual((ran.returncode, ran.stdout), (1, ""))
        self.assertIn("queues.txt: eth0 would be the device of link down and link side, which both leave node 1; {link}", ran.stderr)

    def test_no_device(self):
        """An empty name is a name: what a script runs with a variable that is not set prints no table."""
        ran = self.gates("queues", "down", "--taprio", "")
        self.assertEqual((ran.returncode, ran.stdout), (1, ""))
        self.assertIn("queues.txt: '' is no name of a device", ran.stderr)


class Devices(unittest.TestCase):
    def named(self, text, links=range(4)):
        """Up leaves node 0, down and side node 1, back node 2."""
        return devices(load(EXAMPLES / "queues.txt"), links, text)

    def test_one_for_each(self):
        self.assertEqual(self.named("a,b,c,d"), ["a", "b", "c", "d"])
        self.assertEqual(self.named("swp{link}"), ["swp0", "swp1", "swp2", "swp3"])
        self.assertEqual(self.named("a,b{link},c{link},a"), ["a", "b1", "c2", "a"])

    def test_one_for_all(self):
        """Links from different nodes: each node has a device of this name."""
        self.assertEqual(self.named("eth0", [0, 1, 3]), ["eth0"] * 3)
        self.assertEqual(self.named("eth0", [2]), ["eth0"])
        self.assertEqual(self.named("eth{link}", [2]), ["eth2"])
        self.assertEqual(self.named("eth0", []), [])

    def test_two_links_of_a_node_have_two(self):
        for text in ("eth0", "a,b,b,c"):
            self.assertRaisesRegex(BadValue, "link down and link side, which both leave node 1", self.named, text)

    def test_as_many_as_links(self):
        self.assertRaisesRegex(BadValue, "3 devices for 4 links", self.named, "a,b,c")
        self.assertRaisesRegex(BadValue, "2 devices for 1 links", self.named, "a,b", [0])

    def test_names(self):
        for text in ("", "a b", "eth0;reboot", "$(x)", "a/b", "-a", ".", "x" * 16, "eth{node}", "a,,b,c", "eth:1"):
            self.assertRaisesRegex(BadValue, "is no name of a device", self.named, text, range(4) if text.count(",") else [0])
        self.assertEqual(self.named("x" * 15, [0]), ["x" * 15])


if __name__ == "__main__":
    unittest.main()
