"""How the examples of the pages are tried, their pictures, and how `pytest` runs these tests."""

import contextlib
import importlib.machinery
import importlib.util
import io
import os
import re
import subprocess
import sys
import time
import unittest
from unittest import mock

from tools import TOP, needs, needs_module, new_folder, ran

PAGE = """
```python
import time
print("begun", flush=True)
time.sleep(600)
```

```python
print("done")
```

```text
done
```
"""


DRAWN = """
```python
import matplotlib.pyplot as plt
import sandpile
from PIL import Image

plt.plot([1, 2])
plt.xlabel("a")
plt.ylabel("b")
plt.savefig("one.png")
frames = [Image.new("L", (12, 12), light) for light in (0, 255)]
frames[0].save("two.gif", save_all=True, append_images=frames[1:])
```

![One](python-one.png) ![Two](python-two.gif)
"""


def frames_in(path):
    """How many frames a picture has, each of which can be read."""
    from PIL import Image

    with Image.open(path) as picture:
        picture.verify() if picture.format == "PNG" else picture.load()
        return getattr(picture, "n_frames", 1)


def script(name):
    """A script of this repository, as a module."""
    path = str(TOP / "tools" / name)
    spec = importlib.util.spec_from_loader("script", importlib.machinery.SourceFileLoader("script", path))
    module = importlib.util.module_from_spec(spec)
    spec.loader.exec_module(module)
    return module


class Pictures(unittest.TestCase):
    def test_none_is_older_than_its_block(self):
        with contextlib.redirect_stdout(io.StringIO()) as said:
            self.assertEqual(script("page-pictures").main(["--check"]), 0, said.getvalue())
        self.assertRegex(said.getvalue(), r"^pictures: [1-9]\d* passed, 0 failed\n$")

    @needs_module("matplotlib", "PIL")
    def test_one_is_made_by_its_block_and_is_stale_when_that_changes(self):
        page, made, said = new_folder(self) / "PAGE.md", script("page-pictures"), io.StringIO()
        page.write_text(DRAWN)
        with mock.patch.object(made, "PAGES", [page]), contextlib.redirect_stdout(said):
            self.assertEqual([made.main(words) for words in (["--check"], [], ["--check"])], [1, 0, 0])
            page.write_text(DRAWN.replace("[1, 2]", "[1, 3]"))
            self.assertEqual(made.main(["--check"]), 1)
        lines = said.getvalue().splitlines()
        self.assertEqual([line.split()[1] for line in lines[-3:-1]], ["docs/python-one.png", "docs/python-two.gif"])
        self.assertEqual(lines[-1], "pictures: 0 passed, 2 failed")
        self.assertEqual([frames_in(page.with_name(f"python-{name}")) for name in ("one.png", "two.gif")], [1, 2])

    def assertNoneIsMade(self, page):
        path, made = new_folder(self) / "PAGE.md", script("page-pictures")
        path.write_text(page)
        with mock.patch.object(made, "PAGES", [path]), self.assertRaises(subprocess.CalledProcessError):
            made.main([])
        self.assertEqual([path.name for path in path.parent.iterdir()], ["PAGE.md"])

    @needs_module("matplotlib")
    def test_each_axis_has_a_label(self):
        self.assertNoneIsMade(DRAWN.replace('plt.ylabel("b")', ""))

    @needs_module("matplotlib", "PIL")
    def test_several_lines_have_a_legend(self):
        for more in ("plt.plot([2, 1])", "plt.errorbar([0, 1], [2, 1], 0.1, capsize=3)"):
            with self.subTest(more):
                self.assertNoneIsMade(DRAWN.replace("plt.plot([1, 2])", f"plt.plot([1, 2])\n{more}"))
        page, made = new_folder(self) / "PAGE.md", script("page-pictures")
        page.write_text(DRAWN.replace("plt.plot([1, 2])", "plt.errorbar([0, 1], [1, 2], 0.1, capsize=3)"))
        with mock.patch.object(made, "PAGES", [page]), contextlib.redirect_stdout(io.StringIO()):
            self.assertEqual(made.main([]), 0)


class Recipes(unittest.TestCase):
    def test_one_that_does_not_end_fails_alone(self):
        page, tried = new_folder(self) / "PAGE.md", script("try-examples")
        page.write_text(PAGE)
        begun = time.monotonic()
        with mock.patch.object(tried, "SECONDS", 5), contextlib.redirect_stdout(io.StringIO()) as said:
            self.assertEqual(tried.main([str(page)]), 1)
        self.assertLess(time.monotonic() - begun, 120)
        self.assertTrue(said.getvalue().endswith("\nexamples: 1 passed, 1 failed, 0 left out\n"), said.getvalue())
        self.assertRegex(said.getvalue(), r"-- wrote:\nbegun\n+\(it did not end within 5 seconds\)\n")

    def test_root_may_use_mpi(self):
        folder, tried = new_folder(self), script("try-examples")
        text, _ = tried.run("env | grep -c ALLOW_RUN_AS_ROOT", folder)
        self.assertEqual(text, "4\n")

    def test_the_page_sets_for_mpi_what_is_tried(self):
        lines = re.findall(r"`(export [^`]*)`", (TOP / "docs" / "COOKBOOK.md").read_text())
        said = ran("bash", "-c", "\n".join([*lines, "env"]), env={"PATH": os.environ["PATH"]}).splitlines()
        for name, value in script("try-examples").FOR_MPI.items():
            self.assertIn(f"{name}={value}", said)


class Versions(unittest.TestCase):
    def test_the_page_names_those_that_pip_is_told_of(self):
        told = dict(re.findall(r"^Requires-Dist: (\w+)>=([\d.]+)", (TOP / "python" / "for-pip" / "METADATA.in").read_text(), re.M))
        self.assertEqual(told, {"numpy": "1.21", "matplotlib": "3.4"})  # with `numpy.typing`, and `Colormap.with_extremes`
        page = (TOP / "docs" / "PYTHON.md").read_text()
        self.assertTrue(f"NumPy {told['numpy']}" in page and f"matplotlib {told['matplotlib']}" in page)


class OtherDebian(unittest.TestCase):
    def said(self, tried, status=0):
        with contextlib.redirect_stdout(io.StringIO()) as said:
            self.assertEqual(tried.main([]), status)
        return said.getvalue()

    def test_what_cannot_be_made_is_left_out(self):
        tried = script("other-debian")
        with mock.patch.object(os, "geteuid", lambda: 1):
            self.assertEqual(self.said(tried), "other-debian: left out: only root can make another release\n")
        with mock.patch.object(os, "geteuid", lambda: 0), mock.patch.object(tried, "ENVIRONMENT", {"PATH": "/nowhere"}):
            self.assertEqual(self.said(tried), "other-debian: left out: there is no debootstrap\n")

    @needs("debootstrap", "unshare", "apt-get")
    @unittest.skipIf(os.geteuid(), "only root can make another release")
    def test_a_mirror_that_is_not_there(self):
        tried = script("other-debian")
        with mock.patch.object(tried, "mirror", lambda: "file:///nowhere"):
            self.assertRegex(self.said(tried), "^other-debian: left out: trixie cannot be made: .*\n$")

    def test_what_fails_there_fails_here(self):
        tried = script("other-debian")
        words = ("echo 'a: 3 passed, 1 failed, 2 left out'; exit 1", "exit 3", "echo 'b: 5 passed, 0 failed'")
        parts = [["sh", "-c", word] for word in words]
        with contextlib.ExitStack() as stack:
            for name, stand_in in {"make_release": mock.Mock(), "copy_checkout": mock.Mock(), "PARTS": parts}.items():
                stack.enter_context(mock.patch.object(tried, name, stand_in))
            stack.enter_context(mock.patch.object(tried, "inside", lambda _, *words: list(words)))
            lines = self.said(tried, 1).splitlines()
        self.assertEqual(lines[-1], "on trixie: 8 passed, 2 failed, 2 left out")
        self.assertIn("other-debian: `sh` ended with status 3", lines)


@needs_module("pytest")
class ByPytest(unittest.TestCase):
    def test_from_a_checkout(self):
        env = {name: value for name, value in os.environ.items() if not name.startswith(("PYTHON", "PYTEST"))}
        words = [sys.executable, "-B", "-m", "pytest", "-q", "-p", "no:cacheprovider", "python/tests/test_seeds.py"]
        ended = subprocess.run(words, cwd=TOP, env=env, capture_output=True, text=True, timeout=120)
        self.assertRegex(ended.stdout, r"\n\d+ passed", ended.stderr)
        self.assertEqual(ended.returncode, 0)
