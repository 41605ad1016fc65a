"""Pictures: well formed, and the refused row stands out."""
import re
import unittest
from xml.etree import ElementTree

from support import CASE_A, EXAMPLES, SHAPES, generated

from plans.answers import Answer, explained, parse, question
from plans.files import load
from plans.image import decode
from plans.model import Plan
from plans.picture.drawing import View, near, picture
from plans.picture.style import MARK, TINTS, WINDOW_TINTS
from plans.reading import read_text

SVG = "{http://www.w3.org/2000/svg}"


def drawn(plan, answer=None, view=None):
    """The elements of a picture after its style and definitions."""
    root = ElementTree.fromstring(picture(plan, "plan <&> name", answer, view))
    return [element for element in root if element.tag not in (SVG + "style", SVG + "defs")]


def marked(elements):
    """The titles of marked shapes, the legend's apart."""
    shapes = [element for element in elements if {"m", "am"} & set(element.get("class", "").split())]
    return sorted(shape.find(SVG + "title").text for shape in shapes if shape.find(SVG + "title") is not None)


def chains(elements):
    """The lines of chains, the legend's apart."""
    return [element for element in elements if "c" in element.get("class", "").split() and len(element)]


def parts(line):
    """The (x, y) at which each part of a chain's line begins."""
    return re.findall(r"M([0-9.]+) ([0-9.]+)", line.get("d"))


def arrivals(elements):
    """The bars of arrivals by title, the legend's apart, as (left, right, top, bottom)."""
    bars = [element for element in elements if element.get("class") == "arrival" and len(element)]
    return {bar[0].text: edges(bar) for bar in bars}


def edges(rect):
    x, y, width, height = (float(rect.get(key)) for key in ("x", "y", "width", "height"))
    return x, x + width, y, y + height


def blocks(elements, look):
    """The edges of the rows' blocks of a look, by row name."""
    rects = [element for element in elements if element.tag == SVG + "rect" and element.get("class").startswith(look) and len(element)]
    return {rect[0].text.split(":")[0]: edges(rect) for rect in rects}


def texts(elements):
    return [element.text for element in elements if element.tag == SVG + "text"]


def example(name):
    plan = load(EXAMPLES / f"{name}.txt")
    return plan, parse((EXAMPLES / f"{name}.lines").read_text().splitlines()[0])


class Pictures(unittest.TestCase):
    def test_well_formed(self):
        for shape in SHAPES:
            self.assertGreater(len(drawn(decode(generated(shape)))), 3, shape)

    def test_every_example_tells_its_answer(self):
        for path in sorted(EXAMPLES.glob("*.lines")):
            plan, answer = example(path.stem)
            title = " ".join(texts(drawn(plan, answer)))
            self.assertIn("accepted" if answer.accepted else f"refused ({answer})", title)

    def test_all_refused_rows_are_seen(self):
        """Each example whose answer names a row has marked shapes; accepted plans have none."""
        for path in sorted(EXAMPLES.glob("*.lines")):
            plan, answer = example(path.stem)
            self.assertEqual(bool(marked(drawn(plan, answer))), answer.kind is not None, path.stem)

    def test_case_a(self):
        elements = drawn(read_text("p.txt", CASE_A))
        titles = [element.find(SVG + "title").text for element in elements if element.find(SVG + "title") is not None]
        self.assertEqual(titles, ["window0 of guest: 0..10, VCPU switch 2", "piece0: decode job 0, 2..6, task switch 1"])
        self.assertIn("decode.0", texts(elements))
        blocks = [element for element in elements if element.get("class", "").startswith("p ") and len(element)]
        (piece,) = blocks
        self.assertAlmostEqual(float(piece.get("width")), 0.4 * 900)

    def test_frames_are_as_long_as_their_links_rate_makes_them(self):
        elements = drawn(*example("two-rates"))
        blocks = [element for element in elements if element.tag == SVG + "rect" and len(element)]
        widths = {block[0].text.split(":")[0]: float(block.get("width")) for block in blocks}
        self.assertAlmostEqual(widths["frame1"], 2 * widths["frame0"], delta=0.2)
        self.assertIn("delay 0..1, rate 200", texts(elements))

    def test_a_vcpu_that_keeps_its_core_has_no_switch(self):
        """Of four windows the first and the last, another VCPU's, show switch ticks; the legend shows some too."""
        plan, answer = example("kept-core")
        elements = drawn(plan, answer)
        titles = [title.text for element in elements for title in element.findall(SVG + "title")]
        windows = [title for title in titles if title.startswith("window")]
        self.assertEqual([title.split(", ", 1)[1] for title in windows], [
            "VCPU switch 2", "keeps its core, no VCPU switch", "keeps its core, no VCPU switch", "VCPU switch 2",
        ])
        *switches, _legend = [element for element in elements if element.get("class") == "v"]
        blocks = {element[0].text: element.get("x") for element in elements if len(element)}
        self.assertEqual([switch.get("x") for switch in switches], [blocks[windows[0]], blocks[windows[3]]])


    def test_a_chain_is_a_line_through_its_messages(self):
        """Parts for scan, the frame, sort, the hold and move, and one between each two of them."""
        reach, sorted_ = chains(drawn(*example("chain")))
        self.assertEqual(reach[0].text, "chain reach.0: 17 of 17 ticks")
        self.assertEqual((len(parts(reach)), len(parts(sorted_))), (9, 5))
        xs = [float(x) for x, _ in parts(reach)]
        self.assertEqual(xs, sorted(xs))
        pieces = {element[0].text.split(":")[0]: element for element in drawn(*example("chain")) if len(element)}
        first, last = float(pieces["piece0"].get("x")), float(pieces["piece2"].get("x")) + float(pieces["piece2"].get("width"))
        self.assertAlmostEqual(xs[0], first, delta=0.1)
        self.assertAlmostEqual(float(re.findall(r"L([0-9.]+)", reach.get("d"))[-1]), last, delta=0.2)

    def test_chains_have_a_label_and_a_place_in_the_legend(self):
        labels = texts(drawn(*example("tunnel")))
        self.assertIn("scanned.0: 1530/1600", labels)
        self.assertIn("chain", labels)
        self.assertNotIn("chain", texts(drawn(*example("case-b"))))

    def test_a_limit_of_0_is_the_last_tasks_deadline(self):
        titles = [line[0].text for line in chains(drawn(*example("default-limit")))]
        self.assertEqual(titles, ["chain reach.0: 23 of 23 ticks", "chain sorted.0: 19 of 19 ticks"])

    def test_chains_that_share_a_message_stand_apart(self):
        (_, reach), (_, sorted_) = (parts(line)[0] for line in chains(drawn(*example("chain"))))
        self.assertNotEqual(reach, sorted_)

    def test_a_chain_without_a_path_has_no_line(self):
        self.assertEqual(len(chains(drawn(load(EXAMPLES / "q30-backwards.txt")))), 1)


CLOCK = "by the sending node's clock"


def busy_link(delay, lowest):
    """Case B with seven streams, whose frames of 2 ticks leave every 3 ticks from 6 on, all over the one link."""
    plan = load(EXAMPLES / "case-b.txt")
    (link,), (stream,), (frame,) = (plan.rows[kind] for kind in ("link", "stream", "frame"))
    rows = {
        "link": [link._replace(delay=delay, lowest=lowest)],
        "stream": [stream] * 7,
        "frame": [frame._replace(stream=number, start=6 + 3 * number) for number in range(7)],
    }
    return Plan(plan.settings._replace(cycle=60), {**plan.rows, **rows})


class Arrivals(unittest.TestCase):
    def test_bars_from_earliest_to_latest(self):
        """Fibre's cycle of 60 ticks is 900 pixels wide."""
        elements = drawn(*example("fibre"))
        left = min(float(element.get("x")) for element in elements if element.get("class") == "lane")
        ticks = {title: [(x - left) / 15 for x in bar[:2]] for title, bar in arrivals(elements).items()}
        self.assertEqual(list(ticks), [f"frame{frame} arrives {span} {CLOCK}" for frame, span in enumerate(("12..12", "20..25", "33..36"))])
        for (first, last), (earliest, latest) in zip(ticks.values(), ((12, 12), (20, 25), (33, 36))):
            self.assertAlmostEqual(first, earliest, delta=0.02)
            self.assertAlmostEqual(last, latest, delta=0.04)

    def test_one_tick_is_a_mark(self):
        ((_, (left, right, top, bottom)),) = arrivals(drawn(*example("fixed-delay"))).items()
        self.assertLess(right - left, 0.5)
        self.assertGreater(bottom - top, 4)

    def test_no_delay_and_no_precision(self):
        plan = load(EXAMPLES / "case-b.txt")
        plan.settings = plan.settings._replace(precision=0)
        plan.rows["link"] = [plan.rows["link"][0]._replace(delay=0)]
        self.assertEqual(list(arrivals(drawn(plan))), [f"frame0 arrives 8..8 {CLOCK}"])

    def test_frames_tell_their_arrival(self):
        titles = [element[0].text for element in drawn(*example("fibre")) if len(element)]
        self.assertIn("frame1: picture job 0 hop 1, 14..16, arrives 20..25", titles)

    def test_bars_lie_in_their_lane_under_its_frames(self):
        for plan in (example("fibre")[0], busy_link(20, 5), decode(generated("full"))):
            elements = drawn(plan)
            lanes = [edges(element) for element in elements if element.get("class") == "lane"][len(plan.rows["core"]):]
            frames = blocks(elements, "p ")
            self.assertGreater(len(arrivals(elements)), 2)
            for title, (_, _, top, bottom) in arrivals(elements).items():
                row = title.split()[0]
                _, _, first, last = lanes[plan.rows["frame"][int(row.removeprefix("frame"))].link]
                self.assertTrue(first < frames[row][3] <= top < bottom <= last, title)

    def test_bars_of_one_link_hide_no_other(self):
        """Four frames are under way at once, and each has its bar to itself."""
        bars = list(arrivals(drawn(busy_link(9, 3))).values())
        self.assertEqual(len(bars), 7)
        self.assertEqual(len({bar[2] for bar in bars}), 4)
        for number, (left, right, top, bottom) in enumerate(bars):
            for other_left, other_right, other_top, other_bottom in bars[:number]:
                self.assertTrue(right <= other_left or other_right <= left or bottom <= other_top or other_bottom <= top)

    def test_a_lane_has_four_ways_at_most(self):
        bars = arrivals(drawn(busy_link(40, 30)))
        self.assertEqual((len(bars), len({bar[2] for bar in bars.values()})), (7, 4))

    def test_arrows_leave_where_their_frames_way_ends(self):
        elements = drawn(busy_link(9, 3))
        *waits, _legend = [element for element in elements if element.get("class") == "p-wait"]
        arrows = [element for element in elements if element.get("class") == "a" and len(element)]
        leaving = [(arrow.get("x1"), arrow.get("y1")) for arrow in arrows[1::2]]  # each message has one to its frame, then one from it
        self.assertEqual(leaving, [(wait.get("x2"), wait.get("y2")) for wait in waits])
        self.assertEqual([float(y) for _, y in leaving], [(top + bottom) / 2 for _, _, top, bottom in arrivals(elements).values()])

    def test_only_arrivals_in_view(self):
        plan = load(EXAMPLES / "fibre.txt")
        self.assertEqual(list(arrivals(drawn(plan, view=View(10, 20)))), [f"frame0 arrives 12..12 {CLOCK}"])
        elements = drawn(plan, view=View(22, 34))
        lane = next(edges(element) for element in elements if element.get("class") == "lane")
        bars = arrivals(elements)
        self.assertEqual(list(bars), [f"frame1 arrives 20..25 {CLOCK}", f"frame2 arrives 33..36 {CLOCK}"])
        for left, right, *_ in bars.values():
            self.assertTrue(lane[0] <= left < right <= lane[1] + 0.1)

    def test_a_lowest_delay_above_the_delay_can_be_drawn(self):
        self.assertIn(f"frame2 arrives 37..36 {CLOCK}", arrivals(drawn(*example("q06-lowest-above-delay"))))

    def test_legend(self):
        self.assertIn("arrival, earliest to latest", texts(drawn(*example("case-b"))))
        self.assertNotIn("arrival, earliest to latest", texts(drawn(*example("case-a"))))

    def test_chains_go_along_a_frame_until_it_has_arrived_at_the_latest(self):
        """P after the latest arrival, at 14, 27 and 38, where the next part begins."""
        elements = drawn(*example("fibre"))
        left = min(float(element.get("x")) for element in elements if element.get("class") == "lane")
        (line,) = chains(elements)
        spans = [((float(x1) - left) / 15, (float(x2) - left) / 15) for x1, y1, x2, y2 in
                 re.findall(r"M([0-9.]+) ([0-9.]+)L([0-9.]+) ([0-9.]+)", line.get("d")) if y1 == y2]
        self.assertEqual([(round(first), round(last)) for first, last in spans], [(2, 9), (9, 14), (14, 27), (27, 38), (38, 47)])


def stays(elements):
    """The parts of stays by title, the legend's apart: (look, left, right, top, bottom) of what waits and of what is sent."""
    rects = [element for element in elements if element.tag == SVG + "rect" and len(element) and " in queue " in element[0].text]
    found = {}
    for rect in rects:
        found.setdefault(rect[0].text, []).append((rect.get("class"), *edges(rect)))
    return found


def queue_lanes(elements):
    return [edges(element) for element in elements if element.get("class") == "lane queue"]


class Queues(unittest.TestCase):
    def drawn_stays(self, name, **more):
        plan, answer = example(name)
        return stays(drawn(plan, answer, **more))

    def test_each_link_has_its_queues_under_it(self):
        """Queues 1 and 7 of up and of down, queue 1 of side, none of back; each under its own link and above the next."""
        elements = drawn(*example("queues"))
        labels = [text for text in texts(elements) if text.startswith("queue ")]
        self.assertEqual(labels, ["queue 1", "queue 7", "queue 1", "queue 7", "queue 1"])
        links = [edges(element) for element in elements if element.get("class") == "lane"][4:]
        under = [sum(top >= link[3] for link in links) - 1 for _, _, top, _ in queue_lanes(elements)]
        self.assertEqual(under, [0, 0, 1, 1, 2])
        self.assertAlmostEqual(queue_lanes(elements)[0][2] - links[0][3], 2)

    def test_waiting_and_sending(self):
        """The cycle of 40 ticks is 900 pixels wide; what is sent has its sender's colour, as on the link."""
        elements = drawn(*example("queues"))
        left = min(float(element.get("x")) for element in elements if element.get("class") == "lane")
        found = stays(elements)
        (wait, first, start, *_), (sent, again, end, *_) = found["frame7 in queue 1 of down: labels job 0 hop 1, 12..24, waits 10"]
        self.assertEqual((wait, sent), ("wait", "p t2"))
        for x, tick in ((first, 12), (start, 22), (again, 22), (end, 24)):
            self.assertAlmostEqual((x - left) / 22.5, tick, delta=0.02)
        ((look, *_),) = found["frame2 in queue 1 of up: speed job 0 hop 0, 5..7, waits 0"]
        self.assertEqual(look, "p t3")
        self.assertEqual(len(found), 8)

    def test_stays_lie_in_lanes_of_queues(self):
        for plan in (example("queues")[0], example("mode-both")[0], decode(generated("full"))):
            elements = drawn(plan)
            lanes, found = queue_lanes(elements), stays(elements)
            self.assertGreater(len(found), 5)
            for title, parts in found.items():
                for _, left, right, top, bottom in parts:
                    self.assertTrue(any(first < top < bottom < last for _, _, first, last in lanes), title)

    def test_stays_that_overlap_hide_each_other_nowhere(self):
        found = [part for parts in self.drawn_stays("q41-one-queue").values() for part in parts]
        for number, (_, left, right, top, bottom) in enumerate(found):
            for _, other_left, other_right, other_top, other_bottom in found[:number]:
                apart = right <= other_left + 0.1 or other_right <= left + 0.1 or bottom <= other_top or other_bottom <= top
                self.assertTrue(apart)

    def test_a_refused_stay_is_marked(self):
        plan, answer = example("q41-stay")
        found = marked(drawn(plan, answer))
        self.assertEqual([title.split(":")[0] for title in found], ["frame7 in queue 1 of down", "frame7 in queue 1 of down", "frame7"])
        self.assertEqual(near(plan, answer, 2), (9, 26))

    def test_other_answers_mark_no_stay(self):
        self.assertFalse(any(" in queue " in title for title in marked(drawn(*example("q18-hop-too-soon")))))

    def test_a_refused_queue_marks_its_streams_frames(self):
        found = marked(drawn(*example("q40-queue")))
        self.assertEqual([title.split(":")[0] for title in found if title.startswith("frame")], ["frame6", "frame7"])
        self.assertIn("queue 8", texts(drawn(*example("q40-queue"))))

    def test_queues_go_with_their_link(self):
        labels = texts(drawn(load(EXAMPLES / "queues.txt"), view=View(lanes=["side"])))
        self.assertEqual([label for label in labels if label.startswith("queue ")], ["queue 1"])

    def test_only_stays_in_view(self):
        for view, shown in (
            (View(24, 40), []),
            (View(17, 40), ["frame7 in queue 1 of down"]),
            (View(0, 1), ["frame4 in queue 1 of down", "frame3 in queue 7 of down"]),
        ):
            elements = drawn(load(EXAMPLES / "queues.txt"), view=view)
            self.assertEqual([title.split(":")[0] for title in stays(elements)], shown)
            self.assertEqual(len(queue_lanes(elements)), len(shown))

    def test_frames_that_start_too_soon_are_drawn_without_a_wait(self):
        (((look, *_),),) = self.drawn_stays("q20-sent-too-soon").values()
        self.assertEqual(look, "p t0")

    def test_legend(self):
        self.assertIn("a frame that waits in its queue", texts(drawn(*example("case-b"))))
        self.assertNotIn("a frame that waits in its queue", texts(drawn(*example("case-a"))))

    def test_the_two_frames_are_told_in_the_title(self):
        title = " ".join(texts(drawn(*example("q41-stay"))))
        self.assertIn("frame7 and frame4 are both in queue 1 of down from 11 to 12.", title)


class Marks(unittest.TestCase):
    def expect(self, name, *beginnings):
        plan, answer = example(name)
        found = marked(drawn(plan, answer))
        self.assertEqual([title.split(":")[0] for title in found], list(beginnings))

    def test_rows_with_blocks_of_their_own(self):
        self.expect("q07-short-window", "window0 of guest")
        self.expect("q12-pieces-overlap", "piece1")
        self.expect("q18-hop-too-soon", "frame1")

    def test_rows_out_of_order(self):
        self.expect("q32-windows-by-start", "window2 of guest")
        self.expect("q32-pieces-by-task", "piece5")
        self.expect("q32-frames-by-link", "frame1")

    def test_a_tasks_pieces(self):
        self.expect("q13-a-tick-short", "piece0")

    def test_a_streams_frames_and_arrows(self):
        self.expect("q20-sent-too-soon", "frame0", "labels job 0", "labels job 0")

    def test_a_buffers_holds(self):
        self.expect("q24-second-scan", "totals (buffer 0, node 2), job 0")

    def test_a_chains_ends_and_lines(self):
        ends = ["piece0", "piece3", "piece5", "piece8"]
        self.expect("q31-one-tick-over", "chain scanned.0", "chain scanned.1", *ends)
        self.expect("q30-backwards", "piece0", "piece2")
        self.expect("q29-no-such-task", "piece0")

    def test_rows_on_no_lane(self):
        self.expect("q05-no-such-vcpu", "window0 of 1")

    def test_a_core_and_its_windows(self):
        plan = read_text("p.txt", CASE_A)
        self.assertEqual(len(marked(drawn(plan, Answer(6, 1, 0)))), 2)

    def test_a_row_out_of_view_is_pointed_at(self):
        plan, answer = example("q12-pieces-overlap")
        self.assertIn("5..8", texts(drawn(plan, answer, View(0, 3))))
        self.assertNotIn("5..8", texts(drawn(plan, answer)))

    def test_a_row_without_a_picture_is_told(self):
        plan, answer = read_text("p.txt", CASE_A + "vcpu next core=3\n"), Answer(5, 2, 1)
        self.assertIn("nothing of the refused row", " ".join(texts(drawn(plan, answer))))
        self.assertNotIn("nothing of the refused row", " ".join(texts(drawn(plan, Answer(5, 2, 0)))))


class Views(unittest.TestCase):
    def test_only_ticks_in_view(self):
        plan = load(EXAMPLES / "tunnel.txt")
        labels = texts(drawn(plan, view=View(2000, 4000)))
        self.assertIn("shoot.1", labels)
        self.assertNotIn("shoot.0", labels)

    def test_shapes_lie_beside_the_labels(self):
        elements = drawn(load(EXAMPLES / "tunnel.txt"), view=View(700, 1300))
        lanes = [element for element in elements if element.get("class") == "lane"]
        left, width = float(lanes[0].get("x")), float(lanes[0].get("width"))
        blocks = [element for element in elements if element.tag == SVG + "rect" and len(element)]
        self.assertEqual(len(blocks), 6)
        for block in blocks:
            self.assertGreaterEqual(float(block.get("x")), left)
            self.assertLessEqual(float(block.get("x")) + float(block.get("width")), left + width + 0.2)

    def test_chains_are_cut_at_the_edges(self):
        elements = drawn(load(EXAMPLES / "tunnel.txt"), view=View(700, 1300))
        lanes = [element for element in elements if element.get("class") == "lane"]
        left, width = float(lanes[0].get("x")), float(lanes[0].get("width"))
        (line,) = chains(elements)
        for x in re.findall(r"[ML]([0-9.]+)", line.get("d")):
            self.assertTrue(left <= float(x) <= left + width + 0.1, x)

    def test_only_lanes_named(self):
        plan = load(EXAMPLES / "tunnel.txt")
        labels = texts(drawn(plan, view=View(lanes=["eye", "up"])))
        self.assertIn("eye · node 0", labels)
        self.assertNotIn("brain · node 2", labels)

    def test_near_the_refused_row(self):
        plan, answer = example("q12-pieces-overlap")
        self.assertEqual(near(plan, answer, 2), (3, 10))

    def test_labels_lie_in_the_picture(self):
        for shape in ("full", "busy", "rich"):
            root = ElementTree.fromstring(picture(decode(generated(shape)), shape))
            for text in root.iter(SVG + "text"):
                self.assertLessEqual(float(text.get("x")), float(root.get("width")))
                self.assertLessEqual(float(text.get("y")), float(root.get("height")))

    def test_labels_of_a_lane_do_not_overlap(self):
        """Centred labels at one height stand apart, by the width that letters are taken to have."""
        root = ElementTree.fromstring(picture(decode(generated("full")), "full", None, View(0, 6000)))
        rows = {}
        for text in root.iter(SVG + "text"):
            if re.match("mid", text.get("class")):
                rows.setdefault(text.get("y"), []).append((float(text.get("x")), len(text.text) * 9 * 0.5))
        self.assertGreater(len(rows), 10)
        for labels in rows.values():
            labels.sort()
            for (x, width), (other, other_width) in zip(labels, labels[1:]):
                self.assertLessEqual(x + width / 2, other - other_width / 2 + 0.1)


def luminance(colour):
    """The relative luminance of #rrggbb."""
    parts = [int(colour[at:at + 2], 16) / 255 for at in (1, 3, 5)]
    red, green, blue = [part / 12.92 if part <= 0.04045 else ((part + 0.055) / 1.055) ** 2.4 for part in parts]
    return 0.2126 * red + 0.7152 * green + 0.0722 * blue


class Colours(unittest.TestCase):
    def test_marks_stand_out_without_colour(self):
        """Dark against every light tint, by the contrast of lightness alone."""
        for tint in TINTS + WINDOW_TINTS:
            self.assertGreater((luminance(tint) + 0.05) / (luminance(MARK) + 0.05), 4, tint)


class Words(unittest.TestCase):
    def test_a_row_out_of_order_is_told_in_the_title(self):
        title = " ".join(texts(drawn(*example("q32-pieces-by-task"))))
        self.assertIn("refused (32 5 5) at piece5: a row is out of order, below the one before it", title)
        self.assertIn("piece5 is below piece4: equal start 12; task 0 (beat) is below 4 (log). It belongs before piece4.", title)

    def test_a_late_row_is_told_in_the_title(self):
        title = " ".join(texts(drawn(*example("q31-default-one-tick-over"))))
        self.assertIn("reach takes up to 23 ticks: in job 0, 21 - 2 + 4 (P). Its limit of 0 stands for 22, the deadline of move.", title)
        self.assertIn("write limit=30 to keep the old meaning.", title)

    def test_answers_in_words(self):
        plan, answer = example("q13-a-tick-short")
        expected = "refused (13 3 0) at task decode: a job's pieces do not sum to budget and switches"
        self.assertEqual(explained(plan, answer), expected)
        self.assertEqual(question(answer), "No to question 13: do each job's n pieces sum to C + n×d?")
        self.assertEqual([question(Answer(number, 0, 0)) for number in (0, 25, 45)], [""] * 3)


if __name__ == "__main__":
    unittest.main()
