""".ci/touched, without the prover: what a change touches, how edits are read and applied, what the prover's words come to."""
import subprocess
import tempfile
import unittest
from pathlib import Path

from support import ROOT

from touching.change import of_paths, since
from touching.crates import graph_of, in_order, with_above
from touching.edits import BadEdit, all_edits, applied, changed, replacements
from touching.verdicts import BAD, LIMIT_ONLY, NOT_REFUSED, NOT_TRIED, REFUSED, SHAPE_ONLY, Verdict, verdict, verdicts

CRATES = """# a comment
low:
middle: low io   # io is the kit's
high staticlib: middle
aside: low
alone:
"""


class Crates(unittest.TestCase):
    def test_a_line_names_crates(self):
        self.assertEqual(graph_of(CRATES), {"low": [], "middle": ["low", "io"], "high": ["middle"], "aside": ["low"], "alone": []})

    def test_above_is_direct_or_not(self):
        graph = graph_of(CRATES)
        self.assertEqual(with_above(graph, {"middle"}), {"middle", "high"})
        self.assertEqual(with_above(graph, {"low"}), {"low", "middle", "high", "aside"})
        self.assertEqual(with_above(graph, {"high", "aside"}), {"high", "aside"})
        self.assertEqual(with_above(graph, set()), set())

    def test_the_order_is_that_of_the_lines(self):
        self.assertEqual(in_order(graph_of(CRATES), {"aside", "low", "gone"}), ["low", "aside"])


class Changes(unittest.TestCase):
    def test_parts_of_a_crate(self):
        change = of_paths([
            "crates/a/src/lib.rt", "crates/b/specs/B.antt", "crates/c/proofs/f/Answers.antt", "crates/d/stdout",
            "crates/e/must-fail/wrong.edit", "crates/e/must-fail/README", "docs/X.md", "crates.txt",
        ])
        self.assertEqual((change.edited, change.run, change.labels), ({"a", "b", "c"}, {"d"}, {"e/wrong"}))

    def test_against_a_revision(self):
        with tempfile.TemporaryDirectory() as folder:
            root = Path(folder)
            put(root, {"crates.txt": CRATES})
            put(root, dict.fromkeys(["crates/low/src/lib.rt", "crates/aside/src/lib.rt", "crates/low/must-fail/x.edit"], "1"))
            git(root, "init", "--quiet")
            git(root, "add", ".")
            git(root, "-c", "user.name=a", "-c", "user.email=a@b", "commit", "--quiet", "--message", "first")
            self.assertEqual(vars(since(root, "HEAD")), {"edited": set(), "run": set(), "labels": set()})
            put(root, {
                "crates.txt": CRATES.replace("high staticlib: middle", "high: middle"),
                "crates/aside/src/lib.rt": "2", "crates/middle/specs/New.antt": "untracked", "crates/low/must-fail/x.edit": "2",
            })
            change = since(root, "HEAD")
            self.assertEqual((change.edited, change.labels), ({"high", "aside", "middle"}, {"low/x"}))


class Edits(unittest.TestCase):
    def setUp(self):
        folder = tempfile.TemporaryDirectory()
        self.addCleanup(folder.cleanup)
        self.crate = Path(folder.name)
        put(self.crate, {"src/lib.rt": "one two\ntwo three\n", "specs/A.antt": "four\n", "notes": "five\n"})

    def refuses(self, text, reason):
        with self.assertRaisesRegex(BadEdit, reason):
            changed(self.crate, text)

    def test_a_file_line_holds_for_the_pairs_after_it(self):
        text = "why: said here\nfile: a\nold: 1\nnew: 2\nold:  3 \nnew:\nfile: b\nold: 4\nnew:  5"
        self.assertEqual(replacements(text), [("a", "1", "2"), ("a", " 3 ", ""), ("b", "4", " 5")])

    def test_replaces(self):
        text = "file: src/lib.rt\nold: one\nnew: six\nfile: specs/A.antt\nold: four\nnew:\n"
        self.assertEqual(changed(self.crate, text), {"src/lib.rt": "six two\ntwo three\n", "specs/A.antt": "\n"})

    def test_a_later_pair_sees_an_earlier_one(self):
        once = "file: src/lib.rt\nold: one two\nnew: one\nold: two\nnew: six\n"
        self.assertEqual(changed(self.crate, once), {"src/lib.rt": "one\nsix three\n"})
        self.refuses("file: src/lib.rt\nold: one\nnew: three\nold: three\nnew: six\n", "is in src/lib.rt 2 times")

    def test_an_old_text_stands_exactly_once(self):
        self.refuses("file: src/lib.rt\nold: six\nnew: one\n", "is not in src/lib.rt: six")
        self.refuses("file: src/lib.rt\nold: two\nnew: one\n", "is in src/lib.rt 2 times: two")
        self.refuses("file: src/lib.rt\nold: \nnew: one\n", "no old text")
        self.refuses("file: src/lib.rt\nold: one\nnew: one\n", "the new text is the old one")

    def test_pairs_are_whole(self):
        self.refuses("file: src/lib.rt\nold: one\n", "no 'new:' line")
        self.refuses("file: src/lib.rt\nold: one\nold: two\nnew: six\n", "no 'new:' line")
        self.refuses("file: src/lib.rt\nnew: six\n", "no old text")
        self.refuses("file: src/lib.rt\n", "no 'old:' and 'new:' pair")

    def test_files_are_the_crate_s_own(self):
        self.refuses("file: src/none.rt\nold: one\nnew: six\n", "there is no file src/none.rt")
        self.refuses("file: notes\nold: five\nnew: six\n", "below src/")
        self.refuses("file: src/../notes\nold: five\nnew: six\n", "below src/")
        self.refuses("old: five\nnew: six\n", "below src/")
        (self.crate / "src/link.rt").symlink_to(self.crate / "notes")
        self.refuses("file: src/link.rt\nold: five\nnew: six\n", "there is no file src/link.rt")

    def test_each_edit_of_the_repository_can_be_applied(self):
        for edit in all_edits(ROOT):
            with self.subTest(edit=edit.name):
                self.assertTrue(applied(ROOT, edit))


class Verdicts(unittest.TestCase):
    def told(self, words, kind, reason):
        self.assertEqual(verdict(words), Verdict(kind, reason))

    def test_refused(self):
        self.told("refused, as it must be: note: src/lib.rt:6:1: it is not proved", REFUSED, "note: src/lib.rt:6:1: it is not proved")
        self.told("refused, as it must be", REFUSED, "no reason told")
        self.told("refused, as it must be: src/lib.rt:6:1: error: `f` (once)", REFUSED, "src/lib.rt:6:1: error: `f` (once)")

    def test_a_refusal_that_says_little_of_the_contract(self):
        shape = "(only because a proof file names what the edit took away, so this says little of the contract: change a value and keep the names)"
        limit = "(only by a limit of the prover, which gave no verdict, so this says less of the contract: choose a change that it refuses sooner)"
        self.told(f"refused, as it must be {shape}: proofs/f/Answers.antt:1:2: error", SHAPE_ONLY, "proofs/f/Answers.antt:1:2: error")
        self.told(f"refused, as it must be {limit}: src/lib.rt:1:2: error", LIMIT_ONLY, "src/lib.rt:1:2: error")

    def test_not_refused_bad_and_not_tried(self):
        self.told("NOT REFUSED: the crate is still proved with this edit", NOT_REFUSED, "the crate is still proved with this edit")
        self.told("BAD EDIT: there is no file src/x.rt", BAD, "there is no file src/x.rt")
        self.told("NOT TRIED: its check was killed", NOT_TRIED, "its check was killed")
        self.told("something new", NOT_TRIED, "something new")

    def test_each_edit_by_its_name(self):
        said = """rt: low: 1 of its 2 must-fail edits were tried by an earlier run
rt: must-fail low/a_b.edit: refused, as it must be: x
rt: must-fail low/c.edit: BAD EDIT: it did not reach the prover; the first lines of what it said:
src/lib.rt:1:2: error[unknown-name]: cannot find `x`
rt: something else
of which this is more
"""
        reason = "it did not reach the prover; the first lines of what it said: src/lib.rt:1:2: error[unknown-name]: cannot find `x`"
        self.assertEqual(verdicts(said), {"low/a_b": Verdict(REFUSED, "x"), "low/c": Verdict(BAD, reason)})

    def test_a_reason_is_a_short_line(self):
        self.assertLess(len(verdict("refused, as it must be: " + "long " * 99).reason), 240)


def put(root, files):
    for name, text in files.items():
        (root / name).parent.mkdir(parents=True, exist_ok=True)
        (root / name).write_text(text)


def git(root, *words):
    subprocess.run(["git", "-C", root, *words], check=True)


if __name__ == "__main__":
    unittest.main()
