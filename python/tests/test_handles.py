"""The handles in C: the example on threads under valgrind and ThreadSanitizer, the tests of handles.c, and that both are one text."""

import unittest
from pathlib import Path

from tools import LIBRARY, TOP, needs, new_folder, ran

TESTS = Path(__file__).resolve().parent / "handles.c"
EXAMPLE = TOP / "examples" / "shared.c"
LAST = "lost: as one thread\n"
SAND_C = TOP / "crates" / "sand_c"
# The source of each handle, its proofs, and those of the call that frees it.
OF_DRIVE = ("src/drive_handle.rt", "proofs/drive_handle", "proofs/driving/sandpile_drive_free")
OF_PASS = ("src/pass_handle.rt", "proofs/pass_handle", "proofs/passing/sandpile_pass_free")
# What one handle is called where the other is called otherwise.
RENAMED = (
    ("SandpileDrive", "SandpilePass"),
    ("drive_handle", "pass_handle"),
    ("sandpile_drive_free", "sandpile_pass_free"),
    ("driving", "passing"),
    ("A driven pile that", "A pass of a shared pile that"),
    ("A driven pile, or", "A pass of a shared pile, or"),
    ("at the pile in", "at the pass in"),
    ("sand_settle.specs.Drops", "sand_c.specs.OwnedPasses"),
    ("DrivenView", "OwnedPassView"),
    ("drive::Drive", "owned_pass::OwnedPass"),
    (".drive.Drive.", ".owned_pass.OwnedPass."),
    ("mut Drive;", "mut OwnedPass;"),
    ("<Drive", "<OwnedPass"),
)


def of_a_pass(text):
    """What is told of the handle of a driven pile, told of that of a pass."""
    for drive, pass_ in RENAMED:
        text = text.replace(drive, pass_)
    return text


def told_in(paths):
    """The texts of these files, and of all in these folders, by their paths."""
    files = [file for path in paths for file in ([SAND_C / path] if path.endswith(".rt") else (SAND_C / path).rglob("*.antt"))]
    return {str(file.relative_to(SAND_C)): file.read_text() for file in files}


class OneText(unittest.TestCase):
    def test_a_pass_is_held_as_a_driven_pile_is(self):
        drive = {of_a_pass(path): of_a_pass(text) for path, text in told_in(OF_DRIVE).items()}
        self.assertGreater(len(drive), len(OF_DRIVE))
        self.assertEqual(drive, told_in(OF_PASS))


class Handles(unittest.TestCase):
    def built(self, source, *options):
        """A program of this source, linked with the shared library."""
        program = new_folder(self) / source.stem
        warnings = ["-pedantic", "-Wall", "-Wextra", "-Werror"]
        linked = [f"-L{LIBRARY}", "-lsandpile", f"-Wl,-rpath,{LIBRARY}", "-pthread"]
        ran("cc", *warnings, *options, f"-I{TOP / 'include'}", source, *linked, "-o", program)
        return program

    def example(self, *options):
        return self.built(EXAMPLE, "-std=c99", *options)

    def one_line_from(self, name):
        text = ran(self.built(TESTS, "-std=c11", "-D_GNU_SOURCE", "-O2"), name)
        self.assertEqual((text.count("\n"), text.split(":")[0]), (1, name))

    @needs("cc")
    def test_the_example_is_as_one_thread(self):
        self.assertTrue(ran(self.example("-O2")).endswith(LAST))

    @needs("cc")
    def test_the_example_runs_on_threads_with_small_stacks(self):
        limited = ["sh", "-c", 'ulimit -s 128 && exec "$0"']  # in KiB: what musl gives a thread
        self.assertTrue(ran(*limited, self.example("-O2")).endswith(LAST))

    @needs("cc", "valgrind")
    def test_memcheck_is_silent_over_the_example(self):
        words = ["--quiet", "--error-exitcode=9", "--leak-check=full", "--show-leak-kinds=all"]
        text = ran("valgrind", *words, self.example("-O1", "-g"))
        self.assertEqual((text.count("\n"), text.endswith(LAST)), (1, True))

    @needs("cc", "valgrind")
    def test_drd_is_silent_over_the_example(self):
        text = ran("valgrind", "--tool=drd", "--quiet", "--error-exitcode=9", self.example("-O1", "-g"))
        self.assertEqual((text.count("\n"), text.endswith(LAST)), (1, True))

    @needs("cc")
    def test_threadsanitizer_is_silent_over_the_example(self):
        text = ran(self.example("-O1", "-g", "-fsanitize=thread"))
        self.assertEqual((text.count("\n"), text.endswith(LAST)), (1, True))

    @needs("cc")
    def test_interleavings_are_as_one_thread(self):
        self.one_line_from("interleave")

    @needs("cc")
    def test_a_failed_allocation_changes_nothing(self):
        self.one_line_from("refuse")

    @needs("cc")
    def test_handles_leave_nothing_behind(self):
        self.one_line_from("churn")

    @needs("cc")
    def test_misuse_is_refused(self):
        self.one_line_from("misuse")

    @needs("cc")
    def test_calls_that_only_read_run_at_the_same_time(self):
        self.one_line_from("readers")

    @needs("cc", "valgrind")
    def test_drd_is_silent_over_such_calls(self):
        program = self.built(TESTS, "-std=c11", "-D_GNU_SOURCE", "-DIS_WATCHED", "-DREADS=100", "-O1", "-g")
        text = ran("valgrind", "--tool=drd", "--quiet", "--error-exitcode=9", program, "readers")
        self.assertEqual((text.count("\n"), text.split(":")[0]), (1, "readers"))

    @needs("cc")
    def test_passes_of_two_piles_are_not_joined(self):
        self.one_line_from("strangers")

    @needs("cc")
    def test_avalanches_among_other_drops(self):
        self.one_line_from("avalanches")

    @needs("cc")
    def test_after_a_fork_parent_and_child_are_independent(self):
        self.one_line_from("fork")
