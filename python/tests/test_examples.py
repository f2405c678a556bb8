"""The examples in the docstrings, and the public names of the module."""

import doctest
import importlib
import inspect
import operator
import pkgutil
import re
import unittest

import sandpile

CITING = (
    "settle", "burn", "recurrent", "superstable", "identity", "random_recurrent", "Recurrent", "Drive", "SharedPile", "lab",
    "Drive.drop", "Drive.waves", "Recurrent.tree", "toppling_matrix",
)
RELATED = (*CITING, "Recurrent.from_tree", "is_superstable", "replicas", "show", "animate")


class Examples(unittest.TestCase):
    def test_each_example_is_true(self):
        tried = 0
        for info in pkgutil.iter_modules(sandpile.__path__):
            module = importlib.import_module(f"sandpile.{info.name}")
            with self.subTest(module=info.name):
                found = doctest.testmod(module)
                self.assertEqual(found.failed, 0)
                tried += found.attempted
        self.assertEqual(doctest.testmod(sandpile).failed, 0)
        self.assertGreater(tried, 30)

    def test_each_call_has_an_example_and_type_hints(self):
        for name in sandpile.__all__:
            value = getattr(sandpile, name)
            if inspect.isclass(value) or inspect.isfunction(value):
                with self.subTest(name=name):
                    self.assertTrue(value.__doc__)
                    self.assertTrue(inspect.signature(value).parameters)
                if inspect.isfunction(value):
                    self.assertIn(">>> ", value.__doc__)
                    self.assertIn("return", value.__annotations__)

    def test_see_also_names_what_there_is(self):
        for name in RELATED:
            text = inspect.getdoc(operator.attrgetter(name)(sandpile))
            section = re.search(r"^See Also\n-+\n(.*?)\n\n", text, re.M | re.S)[1]
            with self.subTest(name=name):
                operator.attrgetter(*re.findall(r"^([\w.]+) : ", section, re.M))(sandpile)

    def test_what_is_cited_is_listed(self):
        for name in CITING:
            text = inspect.getdoc(operator.attrgetter(name)(sandpile))
            with self.subTest(name=name):
                cited = sorted(re.findall(r"\[(\d)\]_", text))
                self.assertIn("1", cited)
                self.assertEqual(cited, re.findall(r"^\.\. \[(\d)\] ", text, re.M))
