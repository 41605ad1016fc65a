"""The list of questions: each has an example, and the README's list is the same, in the order asked. The phrases: the checker's own."""
import re
import unittest

from support import EXAMPLES, ROOT

from plans.answers import parse
from plans.questions import PHRASES, QUESTIONS, RANGES, UNKNOWN, phrase
from plans.schema import BY_KIND

NAMED = re.compile(r"q(\d\d)-")


def listed_in_readme():
    """The numbers of the README's sentence, spans such as '6 to 24' number by number."""
    words = " ".join((ROOT / "README.md").read_text().split())
    (sentence,) = re.findall(r"The check's questions, in the order asked: ([^.]*)\.", words)
    for part in sentence.split(", "):
        first, *last = part.split(" to ")
        yield from range(int(first), int(last[0] if last else first) + 1)


class Questions(unittest.TestCase):
    def test_the_readme_lists_them_in_order(self):
        self.assertEqual(list(listed_in_readme()), list(QUESTIONS))

    def test_each_has_an_example_of_its_name(self):
        named = {int(NAMED.match(path.name)[1]) for path in EXAMPLES.glob("q[0-9]*.txt")}
        self.assertEqual(named, set(QUESTIONS))

    def test_ranges_name_each_value_of_a_row(self):
        for kind in RANGES[6]:
            words = " ".join(ranges.get(kind, "") for ranges in RANGES.values())
            values = {column.key for column in BY_KIND[kind].columns if not column.names_rows_of}
            self.assertLessEqual(values, set(re.findall(r"\w+", words)), kind)

    def test_ranges_are_told_of_questions(self):
        self.assertLessEqual(set(RANGES), set(QUESTIONS))

    def test_examples_are_refused_by_the_question_of_their_name(self):
        for path in EXAMPLES.glob("q[0-9]*.lines"):
            self.assertEqual(parse(path.read_text().splitlines()[0]).number, int(NAMED.match(path.name)[1]), path.name)


def defined(name):
    """The texts of a definition of crates/texts/specs/Wording.antt, a list of texts or one text."""
    specs = (ROOT / "crates/texts/specs/Wording.antt").read_text()
    (body,) = re.findall(rf"\n{name} =(.*?)\n\n", specs, flags=re.DOTALL)
    return tuple(re.findall(r'"([^"]*)"', body))


def line_of(answer):
    """The answer in words, as request 9 has it."""
    kinds = dict(enumerate(defined("kinds"), 1))
    place = f"{kinds[answer.table]} {answer.row}" if answer.table in kinds else f"table {answer.table}, row {answer.row}"
    return f"{phrase(answer.number)} (answer {answer.number}, {place})"


class Phrases(unittest.TestCase):
    def test_they_are_those_of_the_definition(self):
        self.assertEqual(PHRASES, defined("phrases"))
        self.assertEqual((UNKNOWN,), defined("unknown"))

    def test_each_question_has_one(self):
        self.assertLess(max(QUESTIONS), len(PHRASES))
        self.assertEqual([phrase(number) for number in (-1, len(PHRASES))], [UNKNOWN] * 2)

    def test_examples_have_the_answer_in_words(self):
        for path in EXAMPLES.glob("*.lines"):
            numbers, words = path.read_text().splitlines()[:2]
            self.assertEqual(words, line_of(parse(numbers)), path.name)


if __name__ == "__main__":
    unittest.main()
