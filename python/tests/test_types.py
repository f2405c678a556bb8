"""`mypy --strict` passes on the module and on what users write, and refuses what the module refuses."""

import collections
import os
import re
import subprocess
import sys
import tempfile
import unittest
from pathlib import Path

from tools import TOP, needs_module

# Modules other than these need no types. The pages' own functions need none either, but what they call and return is checked.
CONFIG = """
[mypy]
strict = True
ignore_missing_imports = True
[mypy-numpy.*,sandpile.*]
ignore_missing_imports = False
[mypy-distributed.*,tqdm.*]
follow_imports = skip
[mypy-pages.*]
disallow_untyped_defs = False
disallow_incomplete_defs = False
disallow_untyped_calls = False
"""

RESULTS = """
import pathlib
from typing import Any
import numpy as np
import sandpile
from numpy.typing import NDArray
from typing_extensions import assert_type

Counts = NDArray[np.int64]
p = np.full((6, 5), 7)
s = sandpile.settle(p)
assert_type(s, sandpile.Settled)
assert_type(s.pile, Counts)
assert_type(s.odometer, Counts)
assert_type(s.lost, Any)  # of a stack it is an array
assert_type(s == s, bool)
assert_type(sandpile.settle([p, p], cylinder=True, progress=True).pile, Counts)

b = sandpile.burn(s.pile)
assert_type(b.is_recurrent, Any)  # of a stack it is an array
assert_type(b.order, Counts)
assert_type(b.forbidden, NDArray[np.bool_])
assert_type(b.time, Counts)

a = sandpile.recurrent(p)
assert_type(a, sandpile.Recurrent)
assert_type(sandpile.recurrent(-p, firing=True), tuple[sandpile.Recurrent, Counts])
assert_type(sandpile.recurrent(-p, firing=True, progress=True), tuple[sandpile.Recurrent, Counts])
assert_type(sandpile.recurrent(-p, cylinder=True, firing=False, progress=True), sandpile.Recurrent)
assert_type(a.multiple(10**30, progress=True), sandpile.Recurrent)
assert_type(sandpile.recurrent(p, firing=s.lost > 9), Any)
assert_type(sandpile.superstable(-p), Counts)
assert_type(sandpile.is_superstable(p), Any)  # of a stack it is an array
assert_type(sandpile.grain_limit(p.shape), int)
assert_type(a.pile, Counts)
assert_type(a.shape, tuple[int, int])
assert_type(a.cylinder, bool)
assert_type(sandpile.identity(p.shape), sandpile.Recurrent)
assert_type(sandpile.identity(a.shape), sandpile.Recurrent)
assert_type(sandpile.identity([np.int64(6), 5]), sandpile.Recurrent)
assert_type(a + a - a, sandpile.Recurrent)
assert_type(-(3 * a) + a * np.int64(2), sandpile.Recurrent)
assert_type(sum([a, a], sandpile.identity(a.shape)), sandpile.Recurrent)
assert_type(sandpile.random_recurrent(a.shape, seed=[7, 1], cylinder=True), sandpile.Recurrent)
assert_type(sandpile.random_recurrent((6, 5), np.random.SeedSequence(7)), sandpile.Recurrent)
assert_type(a.act(3).act(s.pile.argmax()).act(row=1, column=2), sandpile.Recurrent)
assert_type(a.tree(), sandpile.Tree)
assert_type(a.tree().directions, Counts)
assert_type(a.tree().parents, Counts)
assert_type(a.tree().depth, Counts)
assert_type(a.tree().path(3), Counts)
assert_type(a.tree().path(row=1, column=np.int64(2)), Counts)
assert_type(sandpile.Recurrent.from_tree(parents=a.tree().parents, cylinder=True), sandpile.Recurrent)
assert_type(sandpile.random_recurrent((6, 5), 7, count=np.int64(3)), sandpile.Recurrent)
assert_type(sandpile.toppling_matrix(a.shape, cylinder=True), Any)  # SciPy declares no types
assert_type(sandpile.Recurrent.from_tree(a.tree()), sandpile.Recurrent)
assert_type(sandpile.Recurrent.from_tree([[0, 3]], cylinder=False), sandpile.Recurrent)
assert_type(a == a, bool)
assert_type(a != 3, bool)
assert_type(a == s.pile, NDArray[np.bool_])
assert_type(a != s.pile, NDArray[np.bool_])
assert_type({a: 1}, dict[sandpile.Recurrent, int])
total = sum([a, a])
other = np.int64(2) * a
assert_type(np.asarray(a).sum(), Any)

run = sandpile.Drive(p, seed=np.random.SeedSequence(1).spawn(1)[0], stream=np.int8(3))
assert_type(run.pile, Counts)
assert_type(run.odometer, Counts)
assert_type(run.lost + run.topplings + run.drops + run.seed + run.stream, int)
assert_type(run.drop(np.int64(5)), NDArray[np.void])
assert_type(run.drop(5)["size"], NDArray[Any])
assert_type(run.drop_at([1, 2]), NDArray[np.void])
assert_type(run.drop_at(rows=np.arange(6), columns=2), NDArray[np.void])
assert_type(run.avalanche(row=1, column=2), tuple[np.void, Counts])
assert_type(run.avalanche(), tuple[np.void, Counts])
assert_type(run.drop(5, odometers=True), tuple[NDArray[np.void], Counts])
assert_type(run.drop(5, progress=True, odometers=False), NDArray[np.void])
assert_type(run.drop(5, odometers=run.lost > 9), Any)
assert_type(run.drop(5, waves=True), tuple[NDArray[np.void], NDArray[np.void]])
assert_type(run.drop_at([1, 2], waves=True)[1], NDArray[np.void])
assert_type(next(run.blocks(5, 2, waves=True))[1], NDArray[np.void])
assert_type(run.drop(5, waves=run.lost > 9), Any)
assert_type(run.waves(row=1, column=2), tuple[np.void, Counts, NDArray[np.bool_]])
assert_type(next(run.blocks(np.int64(5), 2)), NDArray[np.void])
assert_type(next(run.blocks(5, 2, odometers=True)), tuple[NDArray[np.void], Counts])
assert_type(run.drop_at([1, 2], odometers=True), tuple[NDArray[np.void], Counts])
assert_type(run.table, NDArray[np.void])
assert_type(run.shape, tuple[int, int])
assert_type(sandpile.identity(run.shape), sandpile.Recurrent)
assert_type(run.record(np.int64(5), "rows.bin", "run.npz"), NDArray[np.void])
assert_type(run.record(5, pathlib.Path("rows.bin"), pathlib.Path("run"), every=1, progress=True)["size"], NDArray[Any])
run.save("run.npz")
assert_type(sandpile.Drive.load("run.npz"), sandpile.Drive)

with sandpile.SharedPile(p, quota=3) as shared, shared.split(3) as part:
    assert_type(part.drop([1, 2]), Counts)
    assert_type(shared.tally() + part.sweep(), int)
assert_type(shared.settle(), sandpile.Record)
assert_type(shared.settle().lost + shared.settle().topplings, int)
assert_type(shared.settle().history, Counts)

tables = sandpile.replicas((6, 5), None, np.arange(3), np.int64(9), window=2)
assert_type(next(tables), NDArray[np.void])
assert_type(tables.seed, int)
for tables in (sandpile.replicas(p, 7, [1], 9), sandpile.replicas(a, 7, [1], 9), sandpile.replicas(run, 7, [1], 9)):
    tables.close()
assert_type(next(sandpile.replicas((6, 5), 7, [1], 9, each=lambda run: run.lost)), int)
assert_type(next(sandpile.replicas((6, 5), 7, [1], 9, progress=True, each=lambda run: run.pile)), Counts)
assert_type(list(sandpile.replicas(lambda stream: sandpile.identity((6, stream)), 7, [1], 9)), list[NDArray[np.void]])

done = sandpile.lab(p, seed=None, drops=np.int64(9), epochs=2)
assert_type(done.epochs, NDArray[np.void])
assert_type(done.pile, Counts)
assert_type(done.seed, int)
assert_type(sandpile.AVALANCHE, np.dtype[np.void])
assert_type(sandpile.Fault(3).number, int)
assert_type(sandpile.show(a), Any)
sandpile.show(a).figure.savefig("a.png")
sandpile.show(b)
sandpile.show(a.tree())
sandpile.show(b.forbidden, ax=sandpile.show([[1, 2]]))
sandpile.animate(run, np.int64(5), toppling=True, interval=50).save("run.gif")
sandpile.animate(run, waves=True, progress=True).save("run.gif")
assert_type(sandpile.WAVE, np.dtype[np.void])
sandpile.show(run, click=True).figure.savefig("run.png")
sandpile.show(run, ax=sandpile.show(run), click=True)
for page in (
    sandpile.play(), sandpile.play(run, browser=False, wait=False), sandpile.play((6, 5), 7, 1, True, port=np.int64(0)), sandpile.play(p, seed=7),
    sandpile.play([[1, 2]]), sandpile.play(a),
):
    assert_type(page, sandpile.Page)
    assert_type(page.run, sandpile.Drive)
    assert_type(page.address, str)
    page.close()

for pile in (a, s, run, done, shared.settle()):
    sandpile.show(pile)
    assert_type(pile.cylinder, bool)
    assert_type(sandpile.settle(pile).cylinder, bool)
    assert_type(np.asarray(pile), NDArray[Any])
"""

# An error of a page that is about its own variables, which may take values of several types.
OWN = re.compile('"append" of "list"|^Incompatible types in assignment')

# Each line is refused.
REFUSED = """
import numpy as np, sandpile; p = np.full((6, 5), 7); a = sandpile.recurrent(p); run = sandpile.Drive(p)

sandpile.settle(None)
sandpile.settle(p, cylinder="c")
sandpile.settle(p).heights
sandpile.settle(p).lost = 3
sandpile.recurrent(p, firing="z")
sandpile.superstable(None)
sandpile.identity(3)
sandpile.identity("ab")
sandpile.Drive(p, seed="7")
sandpile.Drive(p, seed=1.5)
run.drop("5")
run.drop(1.5)
run.drop_at([1, 2], [3, 4])
run.avalanche(1.5)
run.avalanche(1, 2)
run.drop(5, odometers=1.5)
run.drop(5, waves=1.5)
run.waves(1, 2)
run.blocks(5)
run.record(5, "rows.bin")
run.record(1.5, "rows.bin", "run.npz")
run.record(5, "rows.bin", "run.npz", every="1")
sandpile.random_recurrent(5)
sandpile.random_recurrent((6, 5), 1.5)
sandpile.replicas((6, 5), 7, 3, 9)
sandpile.replicas((6, 5), 7, range(3), 1.5)
sandpile.replicas((6, 5), "7", range(3), 9)
sandpile.replicas((6, 5), 7, range(3), 9, each=5)
sandpile.replicas((6, 5), 7, range(3), 9, each=lambda: 5)
run.pile = p
a.act("0")
a.tree().directions = p
sandpile.Recurrent.from_tree(None)
sandpile.Recurrent.from_tree([[0]], parents=[[1]])
a.tree().path(1, 2)
a.act(1, 2)
a.order()
run.add(1)
sandpile.stabilize(p)
sandpile.toppling_matrix(3)
sandpile.random_recurrent((6, 5), 7, count=1.5)
a + 1
a * 1.5
a / 2
a < a
a.pile = p
sandpile.lab(p, droppers="2")
sandpile.burn(p).sites
sandpile.show(None)
sandpile.animate(p)
sandpile.animate(run, 1.5)
sandpile.show(run, click="c")
sandpile.play(p, 7, "0")
sandpile.play(run, seed="7")
sandpile.play(run, port="80")
sandpile.play(run).run = run
"""


def pages():
    """The scripts of the pages and of the examples, each with a name."""
    yield "pages/__init__.py", ""
    for page in (TOP / "README.md", *(TOP / "docs").glob("*.md")):
        for at, text in enumerate(re.findall(r"^```python\n(.*?)^```$", page.read_text(), re.M | re.S)):
            yield f"pages/{page.stem}_{at}.py", text
    for path in (TOP / "examples").glob("*.py"):
        yield f"pages/{path.name}", path.read_text()


def mypy(texts):
    """Runs mypy over the module and over these files."""
    with tempfile.TemporaryDirectory() as room:
        Path(room, "pages").mkdir()
        for name, text in texts.items():
            Path(room, name).write_text(text)
        words = ["-p", "sandpile", "-p", "pages", "-m", "results", "-m", "refused", "--cache-dir=cache", "--no-error-summary"]
        return subprocess.run(
            [sys.executable, "-m", "mypy", *words], cwd=room, capture_output=True, text=True,
            env={**os.environ, "MYPYPATH": str(TOP / "python")},
        )


@needs_module("mypy")
class Types(unittest.TestCase):
    maxDiff = None

    @classmethod
    def setUpClass(cls):
        """Keeps what is said of each line, by the name of the file and the number of the line."""
        cls.pages, cls.said = dict(pages()), collections.defaultdict(dict)
        cls.ended = mypy({**cls.pages, "results.py": RESULTS, "refused.py": REFUSED, "mypy.ini": CONFIG})
        for name, line, error in re.findall(r"^(.*?):(\d+): error: (.*)$", cls.ended.stdout, re.M):
            if name not in cls.pages or not OWN.search(error):
                cls.said[name][int(line)] = error

    def test_it_has_run(self):
        self.assertEqual((self.ended.returncode, self.ended.stderr), (1, ""), self.ended.stdout)
        self.assertGreater(len(self.pages), 9)

    def test_the_module_and_the_pages(self):
        self.assertEqual({name: said for name, said in self.said.items() if name != "refused.py"}, {})

    def test_what_is_refused(self):
        for number, line in enumerate(REFUSED.splitlines(), 1):
            with self.subTest(line):
                self.assertEqual(number in self.said["refused.py"], number > 3)
