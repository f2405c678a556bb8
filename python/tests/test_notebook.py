"""Notebooks: the one in examples/, and what the kernel's interrupt leaves."""

import json
import os
import re
import sys
import unittest

from tools import TOP, needs_module, new_folder, ran

NOTEBOOK = TOP / "examples" / "sandpile.ipynb"
os.environ["PYDEVD_DISABLE_FILE_VALIDATION"] = "1"  # else ipykernel warns that Python's own modules cannot be debugged
ENV = {**os.environ, "PYTHONPATH": str(TOP / "python"), "PYTHONDONTWRITEBYTECODE": "1"}
ENV.pop("MPLBACKEND", None)  # a kernel has its own

BEFORE = """
import threading, time
import numpy as np, sandpile

def made():
    return sandpile.Drive(np.full((128, 128), 3), seed=1)

def look():
    while run.drops == 1000:
        time.sleep(0.01)
    print("dropping", flush=True)

run = made()
run.drop(1000)
"""
INTERRUPTED = """
threading.Thread(target=look).start()
run.drop(10**7)
"""
AFTER = """
table, drops = run.table, run.drops
again = run.drop(500)
every = made().drop(drops + 500)
print(1000 < drops == 1000 + len(table) < 10**7, (every[1000:drops] == table).all(), (every[drops:] == again).all())
"""
LONG = """
tower, begun = np.zeros((2048, 2048), int), []
tower[1024, 1024] = 2**30

def look():
    time.sleep(0.7)
    begun.append(time.monotonic())
    print("settling", flush=True)

threading.Thread(target=look).start()
sandpile.settle(tower)
"""
LATER = """
print(time.monotonic() - begun[0] < 5, tower.sum() == 2**30, sandpile.settle([[0, 4, 0]]).topplings)
"""


def outputs_of(notebook):
    """What each cell of code shows, by the first words of the cell: the kinds, and the text of streams."""
    cells = [cell for cell in notebook["cells"] if cell["cell_type"] == "code"]
    return {
        "".join(cell["source"]).split("(")[0]: [
            (sorted(output.get("data", ())), "".join(output.get("text", ()))) for output in cell["outputs"]
        ]
        for cell in cells
    }


class Notebook(unittest.TestCase):
    def test_it_has_no_outputs(self):
        self.assertTrue(all(not shown for shown in outputs_of(json.loads(NOTEBOOK.read_text())).values()))
        self.assertLess(NOTEBOOK.stat().st_size, 5000)

    @needs_module("nbconvert", "ipykernel", "matplotlib")
    def test_each_cell_shows_its_picture(self):
        folder = new_folder(self)
        words = ("--to", "notebook", "--execute", "--output-dir", folder, NOTEBOOK)
        ran(sys.executable, "-m", "nbconvert", *words, cwd=folder, env={**ENV, "HOME": str(folder)})
        shown = outputs_of(json.loads((folder / NOTEBOOK.name).read_text()))
        picture, player = [(["image/png", "text/plain"], "")], [(["text/html", "text/plain"], "")]
        progress = shown.pop("run = sandpile.Drive")
        self.assertEqual(list(shown.values()), [[], *5 * [picture], player])
        self.assertEqual(progress[-1:], picture)
        said = "".join(text for _, text in progress)
        is_widget = any("application/vnd.jupyter.widget-view+json" in kinds for kinds, _ in progress)  # if there is ipywidgets
        self.assertTrue(is_widget or "50" in said, progress)
        self.assertNotIn("Warning", said)

    @needs_module("venv", "nbconvert", "ipykernel")
    def test_the_page_gives_the_environment_its_own_kernel(self):
        """By the lines of the page and with Debian's Jupyter, which does not look into the environment, in an empty account."""
        page = (TOP / "docs" / "PYTHON.md").read_text()
        kernel = re.search(r"^env/bin/python -m ipykernel [^#\n]*", page, re.M)[0].split()
        execute = re.search(r"^jupyter (nbconvert .*) --to html (.*) examples/sandpile.ipynb$", page, re.M).groups()
        folder = new_folder(self)
        env = {**{name: value for name, value in ENV.items() if not name.startswith(("JUPYTER", "XDG"))}, "HOME": str(folder)}
        notebook = json.loads(NOTEBOOK.read_text())
        code = next(cell for cell in notebook["cells"] if cell["cell_type"] == "code")
        notebook["cells"] = [{**code, "source": "import sys\nprint(sys.executable)"}]
        (folder / "it.ipynb").write_text(json.dumps(notebook))
        ran(sys.executable, "-m", "venv", "--system-site-packages", "--without-pip", folder / "env")
        ran(*kernel, cwd=folder, env=env)
        words = " ".join(execute).split()
        ran(sys.executable, "-m", *words, "--to", "notebook", "--output", "made", "it.ipynb", cwd=folder, env=env)
        shown = outputs_of(json.loads((folder / "made.ipynb").read_text()))
        self.assertEqual([text for outputs in shown.values() for _, text in outputs], [f"{folder / 'env/bin/python'}\n"])


@needs_module("jupyter_client", "ipykernel")
class Interrupt(unittest.TestCase):
    """A kernel, which a test can interrupt."""

    def setUp(self):
        from jupyter_client import KernelManager

        folder = new_folder(self)
        manager = KernelManager()
        manager.kernel_spec.argv[0] = sys.executable
        manager.start_kernel(cwd=str(folder), env={**ENV, "HOME": str(folder)})
        self.addCleanup(manager.shutdown_kernel, now=True)
        self.interrupt, self.client = manager.interrupt_kernel, manager.client()
        self.client.start_channels()
        self.addCleanup(self.client.stop_channels)
        self.client.wait_for_ready(timeout=60)

    def said(self, code, interrupt_at=None):
        """What the kernel writes as it runs some code, with the name of its error. It is interrupted at this text."""
        # Else the kernel may leave out the request after one that has failed.
        request, said = self.client.execute(code, stop_on_error=False), ""
        while True:
            message = self.client.get_iopub_msg(timeout=60)
            if message["parent_header"].get("msg_id") != request:
                continue
            content = message["content"]
            said += content.get("text", "") + content.get("ename", "")
            if interrupt_at and said.endswith(interrupt_at):
                self.interrupt()
            if content.get("execution_state") == "idle":
                return said

    def test_drops_before_it_are_kept(self):
        self.assertEqual(self.said(BEFORE), "")
        self.assertEqual(self.said(INTERRUPTED, interrupt_at="dropping\n"), "dropping\nKeyboardInterrupt")
        self.assertEqual(self.said(AFTER), "True True True\n")

    def test_it_ends_a_settling(self):
        self.said(BEFORE)
        self.assertEqual(self.said(LONG, interrupt_at="settling\n"), "settling\nKeyboardInterrupt")
        self.assertEqual(self.said(LATER), "True True 1\n")
