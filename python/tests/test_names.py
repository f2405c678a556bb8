"""The module agrees with the header and the docs."""

import re
import unittest

import sandpile
from sandpile import _hints, faults
from sandpile.faults import _FAULTS
from tools import TOP, program

HEADER = (TOP / "include" / "sandpile.h").read_text()
FORMATS = (TOP / "docs" / "FORMATS.md").read_text()
# The faults that are about arrays, handles and calls in the library, and about a text and options in the program.
OF_ARRAYS = {2, 4, 19, 22, 23, 25}
# Those about the limits of a grid, which in the program are those of small ones.
OF_LIMITS = {1, 3, 6}
# The faults of which the docs say both, or name what only Rattle has.
OF_BOTH = {1, 2, 3, 4, 14, 15, 17, 19, 22, 23}


# What has no attribute of these names, with what its error says.
WORDS = (
    (sandpile, {name: "settle(pile)" for name in ("stabilize", "stabilise", "relax", "topple", "odometer")}),
    (sandpile, {"duration": "toppling=True", "laplacian": "toppling_matrix(shape)", "burning_test": "burn(pile)", "order": "COOKBOOK"}),
    (sandpile.Drive([[3]]), {"add": "drop_at(sites)", "relax": "drop(n)", "duration": "toppling=True", "size": '["size"]'}),
    (sandpile.identity((3, 3)), {"order": "docs/COOKBOOK.md", "add": "a + b", "heights": "pile"}),
    (sandpile.identity((3, 3)).tree(), {"depths": "depth", "parent": "parents"}),
    (sandpile.burn([[3]]), {"times": "time", "recurrent": "is_recurrent"}),
    (sandpile.settle([[5]]), {"heights": "pile", "firing": "odometer", "dissipated": "lost"}),
)


class OtherWords(unittest.TestCase):
    def test_the_error_of_a_missing_name_says_how_it_is_called(self):
        for where, words in WORDS:
            for name, said in words.items():
                with self.subTest(name=name), self.assertRaises(AttributeError) as caught:
                    getattr(where, name)
                self.assertRegex(str(caught.exception), f"has no attribute '{name}': .*{re.escape(said)}")

    def test_none_is_an_alias(self):
        for where, words in WORDS:
            for name in words:
                self.assertFalse(hasattr(where, name), name)
                self.assertNotIn(name, dir(where))

    def test_other_errors_are_those_of_python(self):
        for where, _ in WORDS:
            with self.assertRaisesRegex(AttributeError, "has no attribute 'nosuch'$"):
                where.nosuch

        class Failing(sandpile.Drive):
            @property
            def fails(self):
                return self.pile.nosuch

        self.assertRaisesRegex(AttributeError, "'numpy.ndarray' object has no attribute 'nosuch'", lambda: Failing([[3]]).fails)

    def test_help_says_whose_size_a_table_has(self):
        table = sandpile.Drive([[3]]).drop(5)
        self.assertEqual((table.size, table["size"].tolist()), (5, [1, 0, 0, 0, 1]))
        said = " ".join(sandpile.Drive.drop.__doc__.split())
        self.assertIn('``table["size"]`` is the column; ``table.size`` is NumPy\'s number of rows. No column has the duration', said)

    def test_what_they_name_is_there(self):
        for hints in (_hints.OF_MODULE, _hints.OF_RUN, _hints.OF_ELEMENT):
            for said in hints.values():
                for call in re.findall(r"(?<![\w.])([a-z_]+)\(", said):
                    self.assertTrue(hasattr(sandpile, call) or hasattr(sandpile.Drive, call), said)
        recipe = re.search("recipe '(.*)'", _hints.OF_ELEMENT["order"])[1]
        self.assertIn(f"\n## {recipe}\n", (TOP / "docs" / "COOKBOOK.md").read_text())


class Names(unittest.TestCase):
    def test_faults_have_the_sentences_of_the_header(self):
        numbers = dict(re.findall(r"SANDPILE_([A-Z_]+) = (\d+)", HEADER))
        sentences = dict(re.findall(r'case SANDPILE_([A-Z_]+): return "(.*)";', HEADER))
        self.assertEqual(numbers.keys(), sentences.keys())
        for name, number in numbers.items():
            fault = sandpile.Fault(int(number))
            self.assertEqual((fault.name.upper(), fault.sentence), (name.replace("_", ""), sentences[name]))

    def test_faults_have_the_names_and_sentences_of_the_docs(self):
        rows = {int(number): row for number, *row in re.findall(r"^\| (\d+) \| (\w+) \| (.*) \|$", FORMATS, re.M)}
        for number, (name, sentence) in _FAULTS.items():
            known_name, meaning = rows[number]
            self.assertEqual(known_name, name)
            if number not in OF_BOTH:
                self.assertEqual(meaning, sentence)

    def test_numbers_have_the_names_of_their_faults(self):
        names = {name: number for name, number in vars(faults).items() if name.isupper() and not name.startswith("_")}
        self.assertGreater(len(names), 12)
        for name, number in names.items():
            self.assertEqual(_FAULTS[number][0].upper(), name.replace("_", ""))

    def test_faults_have_the_names_and_sentences_of_the_program(self):
        explained = re.findall(r"^fault (\d+) (\w+).*\n((?:  .*\n)+)", program("explain"), re.M)
        self.assertGreater(len(explained), len(OF_ARRAYS))
        for number, name, lines in explained:
            known_name, sentence = _FAULTS.get(int(number), (name, ""))
            self.assertEqual(name, known_name)
            if int(number) not in OF_ARRAYS | OF_LIMITS:
                said = " ".join(lines.split())
                self.assertEqual(sentence[:1].upper() + sentence[1:], said[:len(sentence)])

    def test_the_module_shows_what_a_user_calls(self):
        shown = {name for name in dir(sandpile) if not name.startswith("__")}
        self.assertEqual(shown, set(sandpile.__all__))
        self.assertIn("__version__", dir(sandpile))

    def test_the_version_is_that_of_the_header_and_the_library(self):
        major, minor, patch = map(int, sandpile.__version__.split("."))
        number = 10000 * major + 100 * minor + patch
        self.assertEqual(re.findall(r"SANDPILE_VERSION (\d+)", HEADER), [str(number)])
        from sandpile import _library

        self.assertEqual(_library.library.sandpile_version(), number)
